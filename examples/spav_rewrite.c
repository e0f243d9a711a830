/* Reads pods from standard input, and writes their rewritings, or what they are, to standard output:
 *   spav_rewrite rewrite|show|is_canonical|fixate
 * Built over the installed library by: cc spav_rewrite.c -o spav_rewrite $(pkg-config --cflags --libs spav) */
#include <errno.h>
#include <stdio.h>
#include <stdlib.h>
#include <string.h>
#include <spav.h>

enum { LEVELS = 1000 };

/* Prints a line for each pod of a walk and for those inside it: depth, type, size. Deeper levels are left out. */
static void show(struct spav_walk walk, unsigned depth) {
	struct spav_pod pod;
	while (spav_next(&walk, &pod)) {
		printf("%u %u %u\n", depth, pod.type, pod.size);
		if (depth < LEVELS)
			show(spav_walk_inside(&pod), depth + 1);
	}
}

/* All of standard input, or NULL. */
static uint8_t *read_all(size_t *n) {
	size_t cap = 1 << 16, got;
	uint8_t *bytes = malloc(cap);
	for (*n = 0; bytes && (got = fread(bytes + *n, 1, cap - *n, stdin)) > 0;) {
		*n += got;
		if (*n == cap) {
			uint8_t *grown = realloc(bytes, cap *= 2);
			if (!grown)
				free(bytes);
			bytes = grown;
		}
	}
	return bytes;
}

int main(int argc, char **argv) {
	const char *word = argc == 2 ? argv[1] : "";
	size_t n, written = 0, at = 0;
	int32_t answer = 0;
	uint8_t *in = read_all(&n), *out = malloc(n ? n : 1);
	if (!in || !out)
		return 2;
	if (!strcmp(word, "rewrite")) {
		answer = spav_rewrite(in, n, out, n, &written, &at);
	} else if (!strcmp(word, "show")) {
		show(spav_walk_pods(in, n), 0);
	} else if (!strcmp(word, "is_canonical")) {
		bool canonical = false;
		answer = spav_is_canonical(in, n, &canonical);
		printf("%d\n", canonical);
	} else if (!strcmp(word, "fixate")) {
		answer = spav_fixate(in, n);
		memcpy(out, in, written = n);
	} else {
		fprintf(stderr, "usage: spav_rewrite rewrite|show|is_canonical|fixate\n");
		return 2;
	}
	if (answer) {
		fprintf(stderr, "byte %zu: %s\n", at, strerror(-answer));
		return 1;
	}
	fwrite(out, 1, written, stdout);
	free(in);
	free(out);
	return fflush(stdout) ? 2 : 0;
}
