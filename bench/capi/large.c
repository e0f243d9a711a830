/* large [filter]: an object whose body has as many bytes as a size word counts in words of 8, nearly all of them in one Bytes of zeros,
 * and one with another key. What they meet in, or are filtered to, is too large for a pod, which has to be answered: not want of memory.
 * It takes some 8 GiB, to filter 16. The status is 1 where the answer is another one.
 *   gcc -O2 -I../../capi large.c ../../capi/out/libspav.a -o large */
#include <errno.h>
#include <stdio.h>
#include <string.h>
#include <sys/mman.h>
#include "spav.h"

enum { BYTES = 9, INT = 4, OBJECT = 15, HEADER = 8 };

int main(int argc, char **argv) {
	(void)argv;
	const uint32_t most = UINT32_MAX - 7, type = 5, id = 3;
	size_t n = (size_t)HEADER + most, written = 7;
	/* Pages of zeros that are only read take no memory. */
	uint32_t *a = mmap(NULL, n, PROT_READ | PROT_WRITE, MAP_PRIVATE | MAP_ANONYMOUS | MAP_NORESERVE, -1, 0);
	if (a == MAP_FAILED)
		return 2;
	const uint32_t head[] = { most, OBJECT, type, id, 1, 0, most - 2 * HEADER - HEADER, BYTES };
	memcpy(a, head, sizeof head);
	const uint32_t b[] = { 2 * HEADER + HEADER + HEADER, OBJECT, type, id, 2, 0, 4, INT, 7, 0 };
	uint8_t out[16] = "...............";
	uint32_t told = 9;
	int32_t answer = argc > 1 ? spav_filter(a, n, b, sizeof b, out, sizeof out, &written, &told) : spav_negotiate(a, n, b, sizeof b, out, sizeof out, &written, &told);
	printf("%d (-EOVERFLOW is %d)\n", answer, -EOVERFLOW);
	return answer != -EOVERFLOW || memcmp(out, "...............", sizeof out);
}
