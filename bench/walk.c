/* walk FILE [ROUNDS]: walks the members of the struct, or the properties of the object, at the front of a file, by hand over
 * its bytes, as a view does; and prints the best round's time. For an object it also looks up the key of the last property.
 * What a library call is compared with: nothing is checked but that each member lies inside its parent. */
#include <stdint.h>
#include <stdio.h>
#include <stdlib.h>
#include <string.h>
#include <time.h>

enum { HEADER = 8, TYPE_STRUCT = 14, TYPE_OBJECT = 15 };

static uint32_t word_at(const uint8_t *bytes, size_t at)
{
    uint32_t word;
    memcpy(&word, bytes + at, sizeof word);
    return word;
}

static uint64_t extent(uint32_t size)
{
    return HEADER + (((uint64_t)size + 7) & ~(uint64_t)7);
}

/* Members of `body`, each behind `skip` bytes (a property's key and flags); the sum of their sizes goes to `sum`. */
static uint64_t walk(const uint8_t *body, uint64_t len, uint64_t skip, uint64_t *sum)
{
    uint64_t count = 0;
    while (len >= skip + HEADER) {
        uint32_t size = word_at(body, skip);
        uint64_t whole = skip + extent(size);
        if (len < whole)
            break;
        *sum += size;
        count++;
        body += whole;
        len -= whole;
    }
    return count;
}

/* The first property with the key, or a null pointer. */
static const uint8_t *find_prop(const uint8_t *body, uint64_t len, uint32_t key)
{
    while (len >= 2 * HEADER) {
        uint64_t whole = HEADER + extent(word_at(body, HEADER));
        if (len < whole)
            break;
        if (word_at(body, 0) == key)
            return body;
        body += whole;
        len -= whole;
    }
    return NULL;
}

static double now(void)
{
    struct timespec t;
    clock_gettime(CLOCK_MONOTONIC, &t);
    return (double)t.tv_sec + (double)t.tv_nsec * 1e-9;
}

static uint8_t *read_file(const char *path, size_t *len)
{
    FILE *file = fopen(path, "rb");
    if (!file)
        return NULL;
    size_t room = 1 << 20, used = 0;
    uint8_t *bytes = malloc(room);
    for (;;) {
        used += fread(bytes + used, 1, room - used, file);
        if (used < room)
            break;
        bytes = realloc(bytes, room *= 2);
    }
    fclose(file);
    *len = used;
    return bytes;
}

int main(int argc, char **argv)
{
    size_t len = 0;
    uint8_t *bytes = argc > 1 ? read_file(argv[1], &len) : NULL;
    int rounds = argc > 2 ? atoi(argv[2]) : 15;
    if (!bytes || len < HEADER || extent(word_at(bytes, 0)) > len) {
        fprintf(stderr, "usage: walk FILE [ROUNDS], where a pod is at the front of FILE\n");
        return 2;
    }
    uint32_t type = word_at(bytes, 4);
    int is_object = type == TYPE_OBJECT;
    uint64_t skip = is_object ? HEADER : 0;
    const uint8_t *body = bytes + HEADER + skip;
    uint64_t body_len = word_at(bytes, 0) - skip, count = 0, sum = 0, at = 0, last = 0;
    double best = 1e9, best_find = 1e9;
    for (uint64_t left = body_len; is_object && left >= 2 * HEADER;) {
        uint64_t whole = HEADER + extent(word_at(body + at, HEADER));
        if (left < whole)
            break;
        last = word_at(body + at, 0);
        at += whole;
        left -= whole;
    }
    for (int round = 0; round < rounds; round++) {
        double from = now();
        count = walk(body, body_len, skip, &sum);
        double took = now() - from;
        if (took < best)
            best = took;
        if (is_object) {
            from = now();
            const uint8_t *found = find_prop(body, body_len, (uint32_t)last);
            took = now() - from;
            sum += (uint64_t)(found - body);
            if (took < best_find)
                best_find = took;
        }
    }
    printf("walk: %llu members, %.3f ms, %.0f MB/s (sum %llu)\n", (unsigned long long)count, best * 1e3,
           (double)len / best / 1e6, (unsigned long long)sum);
    if (is_object)
        printf("find_prop of key %llu: %.3f ms\n", (unsigned long long)last, best_find * 1e3);
    return 0;
}
