/* memory: how much memory spav_rewrite_in_place asks for at once, beside its input: of pods a million deep in one another, and of long lists.
 *   gcc -O2 -I../../capi memory.c ../../capi/out/libspav.a -Wl,--wrap=malloc,--wrap=realloc,--wrap=free -o memory
 * While a block is moved to a longer one, both count. */
#include <malloc.h>
#include <stdio.h>
#include <stdlib.h>
#include <string.h>
#include "spav.h"

void *__real_malloc(size_t n);
void *__real_realloc(void *old, size_t n);
void __real_free(void *it);

static size_t held, most;

static void take(size_t n) {
	held += n;
	if (held > most)
		most = held;
}

void *__wrap_malloc(size_t n) {
	void *it = __real_malloc(n);
	take(malloc_usable_size(it));
	return it;
}

void *__wrap_realloc(void *old, size_t n) {
	size_t before = malloc_usable_size(old);
	void *it = __real_realloc(old, n);
	take(malloc_usable_size(it));
	held -= before;
	return it;
}

void __wrap_free(void *it) {
	held -= malloc_usable_size(it);
	__real_free(it);
}

enum { LEVELS = 1000000, LONG = 20000000 };
enum shape { STRUCTS, OBJECTS, STRUCTS_AND_INTS };

struct words {
	const char *name;
	size_t count;
	uint32_t words[12];
};

static const struct words changed = { "a Bool of 2", 4, { 4, 2, 7, 0 } }, dirty = { "an Int with dirty padding", 4, { 4, 4, 7, 9 } },
	own = { "an Int", 4, { 4, 4, 7, 0 } }, surplus = { "a choice with a surplus value", 12, { 36, 19, 0, 0, 4, 4, 1, 2, 3, 4, 5, 0 } };

static uint8_t *bytes;
static size_t n;

static void put(const uint32_t *words, size_t count) {
	memcpy(bytes + n, words, 4 * count);
	n += 4 * count;
}

static void tell(const char *what, const char *of) {
	size_t written, at;
	most = held;
	size_t before = held;
	int32_t answer = spav_rewrite_in_place(bytes, n, &written, &at);
	printf("%-32s %-32s %9zu %9zu  %d  %.2f\n", what, of, n, written, answer, (double)(most - before) / n);
}

static void nested(enum shape shape, const char *what, const struct words *inner) {
	uint32_t rest = (shape == OBJECTS ? 24 : 8) * LEVELS + 4 * inner->count + (shape == STRUCTS_AND_INTS ? 16 * LEVELS : 0);
	n = 0;
	for (int i = 0; i < LEVELS; i++) {
		rest -= shape == OBJECTS ? 24 : 8;
		if (shape == STRUCTS_AND_INTS)
			rest -= 16;
		const uint32_t object[] = { rest + 16, 15, 1, 2, 3, 0 }, inside[] = { rest + (shape == STRUCTS_AND_INTS ? 16 : 0), 14 };
		shape == OBJECTS ? put(object, 6) : put(inside, 2);
	}
	put(inner->words, inner->count);
	for (int i = 0; shape == STRUCTS_AND_INTS && i < LEVELS; i++)
		put(own.words, own.count);
	tell(what, inner->name);
}

static void list(const char *what, const struct words *first, const struct words *others) {
	n = 0;
	for (put(first->words, first->count); n < LONG;)
		put(others->words, others->count);
	tell(what, others->name);
}

int main(void) {
	bytes = malloc(LONG + 24 * LEVELS);
	if (!bytes)
		return 1;
	nested(STRUCTS, "structs in one another around", &changed);
	nested(STRUCTS, "structs in one another around", &surplus);
	nested(OBJECTS, "objects in one another around", &changed);
	nested(OBJECTS, "objects in one another around", &surplus);
	nested(STRUCTS_AND_INTS, "the same, each before an Int", &changed);
	list("a list, each", &changed, &changed);
	list("such a choice, and", &surplus, &own);
	list("such a choice, and", &surplus, &dirty);
	list("a list, each", &surplus, &surplus);
	return 0;
}
