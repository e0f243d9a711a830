/* What the tests in C share. */
#include <errno.h>
#include <stdio.h>
#include <stdlib.h>
#include <string.h>
#include "spav.h"

/* Ends the test where something isn't so. */
#define SEE(fact) do { if (!(fact)) { fprintf(stderr, "%s: line %d: %s\n", __FILE__, __LINE__, #fact); exit(1); } } while (0)

/* A block of exactly these bytes. */
static inline uint8_t *block(const void *bytes, size_t n) {
	uint8_t *copy = malloc(n ? n : 1);
	if (!copy)
		exit(2);
	memcpy(copy, bytes, n);
	return copy;
}

#define BLOCK(words) block(words, sizeof words)
