/* Compares libspav with the second implementation in C (../capi/one_pass.c), and asserts the laws of rewriting: rewriting twice changes
 * nothing; is_canonical exactly where rewriting the front changes nothing; check accepts exactly what rewriting accepts; a refusal
 * changes nothing and says where; an accepted object stays accepted under fixation; the events
 * are those of a walk that calls itself, and the first pod nests within the levels that they show and no fewer; two objects meet in either
 * order or in none, and the answer is canonical; what is built is canonical. Inputs and outputs end at pages that can't be touched.
 * With afl-clang-fast in persistent mode, with clang's own fuzzer where LIBFUZZER is defined, else on the files that are named. */
#include <errno.h>
#include <stdio.h>
#include <stdlib.h>
#include <string.h>
#include <sys/mman.h>
#include <unistd.h>
#include "spav.h"

size_t one_pass(const uint8_t *in, size_t n, uint8_t *out);

enum { MOST = 1 << 16, PAGE = 4096, UNTOUCHED = 0xee };

#define SEE(fact) do { if (!(fact)) { fprintf(stderr, "line %d: %s\n", __LINE__, #fact); abort(); } } while (0)

static bool is_canonical(const uint8_t *in, size_t n) {
	bool canonical = false;
	SEE(spav_is_canonical(in, n, &canonical) == 0);
	return canonical;
}

static bool nests_within(const uint8_t *in, size_t n, uint32_t levels) {
	bool within = false;
	SEE(spav_nests_within(in, n, levels, &within) == 0);
	return within;
}

static uint8_t wanted[MOST], again[MOST];

/* The end of a region behind which no byte can be touched. */
static uint8_t *end_of_region(void) {
	uint8_t *start = mmap(NULL, MOST + PAGE, PROT_READ | PROT_WRITE, MAP_PRIVATE | MAP_ANONYMOUS, -1, 0);
	SEE(start != MAP_FAILED && !mprotect(start + MOST, PAGE, PROT_NONE));
	return start + MOST;
}

static bool is_untouched(const uint8_t *bytes, size_t n) {
	for (size_t i = 0; i < n; i++)
		if (bytes[i] != UNTOUCHED)
			return false;
	return true;
}

static void try_rewriting(const uint8_t *in, size_t n, uint8_t *out) {
	size_t len = one_pass(in, n, wanted), written = 0, at = 0, other = 0;
	memset(out, UNTOUCHED, n);
	int32_t answer = spav_rewrite(in, n, out, n, &written, &at);
	if (len == SIZE_MAX) {
		SEE(answer == -EINVAL && is_untouched(out, n) && at < n && one_pass(in, at, wanted) != SIZE_MAX);
		SEE(spav_check(in, n, &other) == -EINVAL && other == at);
		memcpy(again, in, n);
		SEE(spav_rewrite_in_place(again, n, &written, &other) == -EINVAL && other == at && !memcmp(again, in, n));
		return;
	}
	SEE(answer == 0 && written == len && !memcmp(out, wanted, len));
	SEE(spav_check(in, n, &at) == 0);
	SEE(spav_rewrite(out, len, again, MOST, &written, &at) == 0 && written == len && !memcmp(again, out, len));
	memcpy(again, in, n);
	SEE(spav_rewrite_in_place(again, n, &written, &at) == 0 && written == len && !memcmp(again, wanted, len));
	/* Just enough room, and too little: behind the first `n - len` bytes, so that the page behind shows what goes past them. */
	uint8_t *exact = out + n - len;
	memset(out, UNTOUCHED, n);
	SEE(spav_rewrite(in, n, exact, len, &written, &at) == 0 && written == len && !memcmp(exact, wanted, len) && is_untouched(out, n - len));
	if (len == 0)
		return;
	memset(out, UNTOUCHED, n);
	SEE(spav_rewrite(in, n, exact, len - 1, &written, &at) == -ENOSPC && written == len && is_untouched(out, n));
}

static void try_front(const uint8_t *in, size_t n, uint8_t *out) {
	uint32_t type = 0, size = 0;
	size_t whole = 0, at = 0;
	bool is_there = spav_front(in, n, &type, &size, &whole) == 0;
	size_t len = is_there ? one_pass(in, whole, wanted) : SIZE_MAX;
	SEE(is_canonical(in, n) == (is_there && len == whole && !memcmp(wanted, in, len)));
	memcpy(out, in, n);
	int32_t answer = spav_fixate(out, n);
	SEE(answer == (is_there && type == 15 && size >= 8 ? 0 : -EINVAL));
	if (answer)
		SEE(!memcmp(out, in, n));
	else if (len != SIZE_MAX)
		SEE(spav_check(out, whole, &at) == 0);
}

/* Walks over all that is inside by calls of itself, reads what is there, and answers how many levels there are. */
static uint32_t walk_inside(struct spav_walk walk) {
	struct spav_pod pod;
	uint32_t most = 0;
	while (spav_next(&walk, &pod)) {
		int32_t value;
		SEE(spav_int(pod.bytes, pod.whole, 1, &value) != -ENOSPC);
		uint32_t inside = walk_inside(spav_walk_inside(&pod)), here = pod.type == 14 || pod.type == 15 ? 1 + inside : 0;
		most = here > most ? here : most;
	}
	return most;
}

static void try_walks(const uint8_t *in, size_t n) {
	uint32_t type, size;
	size_t whole = 0;
	walk_inside(spav_walk_pods(in, n));
	if (spav_front(in, n, &type, &size, &whole) == 0) {
		uint32_t levels = walk_inside(spav_walk_pods(in, whole));
		SEE(nests_within(in, n, levels) && (levels == 0 || !nests_within(in, n, levels - 1)));
	}
}

typedef int32_t join(const void *a, size_t n, const void *b, size_t m, void *out, size_t cap, size_t *written, uint32_t *key_or_side);

/* Joins the front of the input with what follows it, or with itself where nothing does, in both orders. */
static int32_t try_joining(join *call, const uint8_t *in, size_t n, uint8_t *out) {
	uint32_t type, size, told = 0, other = 0;
	size_t whole = n, len = 0, swapped = 0;
	if (spav_front(in, n, &type, &size, &whole))
		whole = n;
	const uint8_t *second = whole < n ? in + whole : in;
	size_t m = whole < n ? n - whole : n;
	memset(out, UNTOUCHED, n);
	int32_t answer = call(in, whole, second, m, out, n, &len, &told);
	int32_t back = call(second, m, in, whole, again, MOST, &swapped, &other);
	SEE((answer == 0 || answer == -ENOSPC) == (back == 0) && (answer == -EINVAL) == (back == -EINVAL) && (answer == -EPROTO) == (back == -EPROTO));
	if (answer == 0 || answer == -ENOSPC)
		SEE(len == swapped && is_canonical(again, len));
	if (answer == 0)
		SEE(is_canonical(out, len) && is_untouched(out + len, n - len));
	else
		SEE(is_untouched(out, n));
	if (answer == -EINVAL)
		SEE(told < 2 && other < 2);
	return answer;
}

/* The words of the input as calls, over the input as texts: those of accepted calls build canonical pods. */
static void try_building(const uint8_t *in, size_t n, uint8_t *out) {
	static struct spav_call calls[MOST / 8];
	size_t count = n / 16, len = 0, at = 0, other = 0;
	for (size_t i = 0; i < count; i++) {
		uint32_t words[4];
		memcpy(words, in + 16 * i, sizeof words);
		calls[i] = spav_call_with(words[0], (int32_t)words[1], words[2], words[3]);
		calls[i].first = words[1];
		calls[i].second = words[2];
		calls[i].len = words[2];
		calls[i].number = (int32_t)words[1];
		calls[i].wide = (int64_t)words[3];
	}
	memset(out, UNTOUCHED, n);
	int32_t answer = spav_build(calls, count, in, n, out, n, &len, &at);
	if (answer == -EINVAL && at < count) {
		int32_t before = spav_build(calls, at, in, n, again, MOST, &len, &other);
		SEE(before == 0 || before == -ENOSPC || (before == -EINVAL && other == at));
	}
	if (answer == 0)
		SEE(spav_rewrite(out, len, again, MOST, &other, &at) == 0 && other == len && !memcmp(again, out, len) && is_untouched(out + len, n - len));
	else
		SEE(is_untouched(out, n));
}

static void try_all(const uint8_t *bytes, size_t n, uint8_t *in_end, uint8_t *out_end) {
	if (n > MOST)
		return;
	uint8_t *in = in_end - n, *out = out_end - n;
	memcpy(in, bytes, n);
	try_rewriting(in, n, out);
	try_front(in, n, out);
	try_walks(in, n);
	int32_t met = try_joining(spav_negotiate, in, n, out), filtered = try_joining(spav_filter, in, n, out);
	SEE((met == -EINVAL) == (filtered == -EINVAL) && (met == -EPROTO) == (filtered == -EPROTO));
	try_building(in, n, out);
	SEE(!memcmp(in, bytes, n));
}

#ifdef LIBFUZZER
int LLVMFuzzerTestOneInput(const uint8_t *bytes, size_t n) {
	static uint8_t *in, *out;
	if (!in) {
		in = end_of_region();
		out = end_of_region();
	}
	try_all(bytes, n, in, out);
	return 0;
}
#else
#ifdef __AFL_FUZZ_TESTCASE_LEN
__AFL_FUZZ_INIT();
#endif

int main(int argc, char **argv) {
	uint8_t *in = end_of_region(), *out = end_of_region();
#ifdef __AFL_HAVE_MANUAL_CONTROL
	(void)argc, (void)argv;
	__AFL_INIT();
	const uint8_t *bytes = __AFL_FUZZ_TESTCASE_BUF;
	while (__AFL_LOOP(1000000))
		try_all(bytes, __AFL_FUZZ_TESTCASE_LEN, in, out);
#else
	static uint8_t bytes[MOST];
	for (int i = 1; i < argc; i++) {
		FILE *file = fopen(argv[i], "rb");
		SEE(file);
		size_t n = fread(bytes, 1, MOST, file);
		fclose(file);
		try_all(bytes, n, in, out);
	}
	printf("fuzz: %d files agree\n", argc - 1);
#endif
	return 0;
}
#endif
