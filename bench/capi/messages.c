/* messages FILE: the nanoseconds of a processor that libspav takes for a pod of the file, rewritten leniently and exactly into another buffer: the best of
 * 300 rounds, as warm as they get. A file with the messages of a live session: examples/guard -w. */
#include <stdint.h>
#include <stdio.h>
#include <stdlib.h>
#include <time.h>
#include <spav.h>

typedef int32_t call(const void *in, size_t n, void *out, size_t cap, size_t *written, size_t *at);

static double now(void) {
	struct timespec t;
	clock_gettime(CLOCK_PROCESS_CPUTIME_ID, &t);
	return 1e9 * (double)t.tv_sec + (double)t.tv_nsec;
}

/* Rewrites each pod, and answers how many were refused. */
static size_t round_of(call *rewrite, const uint8_t *pods, size_t n, void *out) {
	struct spav_walk walk = spav_walk_pods(pods, n);
	struct spav_pod pod;
	size_t refused = 0, written, at;
	while (spav_next(&walk, &pod))
		refused += rewrite(pod.bytes, pod.whole, out, pod.whole, &written, &at) != 0;
	return refused;
}

static void measure(const char *name, call *rewrite, const uint8_t *pods, size_t n, void *out, size_t count) {
	double best = 1e18;
	size_t refused = 0;
	for (int i = 0; i < 300; i++) {
		double before = now();
		refused = round_of(rewrite, pods, n, out);
		double took = now() - before;
		best = took < best ? took : best;
	}
	printf("%s: %.1f ns a pod, %zu refused\n", name, best / (double)count, refused);
}

/* Leaves of recorded messages (docs/FORMAT.md, "Recorded messages") their pods alone. How many bytes these are, with all other pods. */
static size_t without_heads(uint8_t *pods, size_t n) {
	static const char mark[] = "spav-guard 1";
	struct spav_walk walk = spav_walk_pods(pods, n);
	struct spav_pod top, member;
	size_t kept = 0;
	while (spav_next(&walk, &top)) {
		struct spav_walk left = spav_walk_pods(top.bytes, top.whole), inside = spav_walk_inside(&top);
		bool is_recorded = spav_next(&inside, &member) && member.type == SPAV_TYPE_String && member.size == sizeof mark;
		is_recorded = is_recorded && memcmp(member.body, mark, sizeof mark) == 0 && spav_next(&inside, &member) && member.type == SPAV_TYPE_Long;
		for (int i = 2; is_recorded && i < 9; i++)
			is_recorded = spav_next(&inside, &member);
		left = is_recorded ? inside : left;
		memmove(pods + kept, left.left, left.count);
		kept += left.count;
	}
	return kept;
}

int main(int argc, char **argv) {
	FILE *file = argc == 2 ? fopen(argv[1], "rb") : NULL;
	if (!file || fseek(file, 0, SEEK_END))
		return 2;
	long n = ftell(file);
	uint8_t *pods = n > 0 ? malloc((size_t)n) : NULL, *out = n > 0 ? malloc((size_t)n) : NULL;
	rewind(file);
	if (!pods || !out || fread(pods, 1, (size_t)n, file) != (size_t)n)
		return 2;
	n = (long)without_heads(pods, (size_t)n);
	struct spav_walk walk = spav_walk_pods(pods, (size_t)n);
	struct spav_pod pod;
	size_t count = 0;
	while (spav_next(&walk, &pod))
		count++;
	printf("%zu pods, %.1f bytes each\n", count, (double)n / (double)count);
	measure("leniently", spav_rewrite_leniently, pods, (size_t)n, out, count);
	measure("exactly", spav_rewrite, pods, (size_t)n, out, count);
	return 0;
}
