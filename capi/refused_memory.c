/* Each request for memory is refused in turn, alone or with all after it. From it on refused, the answer is -ENOMEM and the output is as it was;
 * refused alone, the answer may also be that of a call with memory, since what isn't got at once is asked for bit by bit. All memory is
 * given back. None is asked for to rewrite pods that aren't deep and are canonical, or are rewritten in place or into as much room. Linked with --wrap=malloc, --wrap=realloc and --wrap=free. */
#include "see.h"

void *__real_malloc(size_t n);
void *__real_realloc(void *block, size_t n);
void __real_free(void *block);
static long asked, refuse_at, held;
static bool and_after;

static bool is_refused(void) {
	asked++;
	return refuse_at && (and_after ? asked >= refuse_at : asked == refuse_at);
}
void *__wrap_malloc(size_t n);
void *__wrap_malloc(size_t n) {
	void *block = is_refused() ? NULL : __real_malloc(n);
	held += block != NULL;
	return block;
}
void *__wrap_realloc(void *block, size_t n);
void *__wrap_realloc(void *block, size_t n) {
	void *moved = is_refused() ? NULL : __real_realloc(block, n);
	held += !block && moved;
	return moved;
}
void __wrap_free(void *block);
void __wrap_free(void *block) {
	held -= block != NULL;
	__real_free(block);
}

/* A None choice over an Array of Ids in a struct, between texts with two NULs. */
static const uint32_t lenient[] = { 4, 8, 0x6261, 0, 40, 14, 32, 19, 0, 5, 16, 13, 4, 3, 3, 4, 4, 8, 0x6261, 0 };

/* A Bool as 7, and an object with a struct in it that holds such a Bool and a choice with surplus values. */
static const uint32_t dirty[] = {
	4, 2, 7, 9,
	80, 15, 5, 3, 1, 0, 56, 14, 4, 2, 7, 9, 28, 19, 0, 5, 4, 4, 1, 2, 3, 0, 0, 14, 0, 14, 0, 14,
};

typedef int32_t rewriting(const void *in, size_t n, void *out, size_t cap, size_t *written, size_t *at);

/* Into `cap` bytes. */
static void refuse_each(rewriting *rewrite, const void *in, size_t n, size_t cap, bool may_ask) {
	static uint8_t wanted[1024], out[1024], before[1024];
	size_t len, written, at, kept;
	memset(before, 0xee, sizeof before);
	refuse_at = 0;
	SEE(rewrite(in, n, wanted, cap, &len, &at) == 0 && held == 0);
	/* The first byte that has to stay. */
	kept = cap < n ? len : n;
	for (refuse_at = 1;; refuse_at++) {
		asked = 0;
		memset(out, 0xee, sizeof out);
		int32_t answer = rewrite(in, n, out, cap, &written, &at);
		SEE(held == 0);
		if (answer == 0)
			SEE(written == len && !memcmp(out, wanted, len) && !memcmp(out + kept, before, sizeof out - kept));
		if (asked < refuse_at) {
			SEE(answer == 0);
			break;
		}
		if (answer == 0)
			SEE(!and_after);
		else
			SEE(answer == -ENOMEM && !memcmp(out, before, sizeof out));
	}
	SEE(may_ask == (refuse_at > 1));
}

/* Of what writes nothing. */
static void refuse_check(int32_t (*check)(const void *, size_t, size_t *), const void *in, size_t n, bool may_ask) {
	size_t at;
	for (refuse_at = 1;; refuse_at++) {
		asked = 0;
		int32_t answer = check(in, n, &at);
		SEE(held == 0);
		if (asked < refuse_at) {
			SEE(answer == 0);
			break;
		}
		SEE(answer == -ENOMEM || (answer == 0 && !and_after));
	}
	SEE(may_ask == (refuse_at > 1));
}

static int32_t fault_leniently(const void *in, size_t n, size_t *at) {
	uint32_t kind = 99;
	size_t top = 99;
	*at = 0;
	int32_t answer = spav_fault_leniently(in, n, &kind, &top);
	SEE(top == 99 && kind == (answer ? 99 : SPAV_FAULT_NONE));
	return answer;
}

/* Reads a few items, too. */
static int32_t read_leniently(const void *in, size_t n, void *out, size_t cap, size_t *written, size_t *at) {
	static struct spav_item items[32], before[32];
	size_t count = 99;
	memset(items, 0xee, sizeof items);
	memset(before, 0xee, sizeof before);
	int32_t answer = spav_read_leniently(in, n, out, cap, items, 32, written, &count, at);
	SEE(answer ? count == 99 && !memcmp(items, before, sizeof items) : count && items[0].type != 0xeeeeeeee);
	return answer;
}

/* The same in place. */
static void refuse_in_place(int32_t (*rewrite)(void *, size_t, size_t *, size_t *), const void *in, size_t n, bool may_ask) {
	static uint8_t bytes[32768];
	size_t written, at;
	for (refuse_at = 1;; refuse_at++) {
		asked = 0;
		memcpy(bytes, in, n);
		int32_t answer = rewrite(bytes, n, &written, &at);
		SEE(held == 0);
		if (asked < refuse_at) {
			SEE(answer == 0);
			break;
		}
		SEE(answer == -ENOMEM ? !memcmp(bytes, in, n) : answer == 0 && !and_after);
	}
	SEE(may_ask == (refuse_at > 1));
}

/* Objects deep in one another: where each is in tail position, is_canonical asks for no memory; where an Int follows each, it has to. */
static void refuse_deep(bool may_ask) {
	enum { LEVELS = 1200, MANY = 48 * LEVELS - 32 };
	static const uint32_t number[] = { 2, 0, 4, 4, 7, 0 };
	static uint32_t deep[MANY / 4];
	uint32_t each = may_ask ? 48 : 24;
	size_t len = each * (LEVELS - 1) + 16;
	memset(deep, 0, sizeof deep);
	for (uint32_t i = 0; i < LEVELS; i++) {
		uint32_t *pod = deep + 6 * i;
		pod[0] = each * (LEVELS - 1 - i) + 8;
		pod[1] = 15;
		pod[2] = 5;
		pod[3] = 3;
		if (i + 1 < LEVELS)
			pod[4] = 1; /* the key */
	}
	for (uint32_t i = 0; may_ask && i + 1 < LEVELS; i++)
		memcpy(deep + 6 * (LEVELS - 1) + 4 + 6 * i, number, sizeof number);
	bool within = true, canonical;
	SEE(spav_nests_within(deep, len, 1000, &within) == 0 && !within);
	SEE(spav_nests_within(deep, len, 1001, &within) == -ELOOP && spav_nests_within(deep, len, UINT32_MAX, &within) == -ELOOP && !within);
	for (refuse_at = 1;; refuse_at++) {
		asked = 0;
		canonical = false;
		int32_t answer = spav_is_canonical(deep, len, &canonical);
		SEE(held == 0);
		if (asked < refuse_at) {
			SEE(answer == 0 && canonical);
			break;
		}
		SEE(answer == -ENOMEM ? !canonical : answer == 0 && canonical && !and_after);
	}
	SEE(may_ask == (refuse_at > 1));
}

/* A choice that gets shorter, deep in structs: alone it asks for no memory; with an Int behind each, past 1000 levels, the look asks for it. */
static void refuse_deep_in_place(void) {
	enum { LEVELS = 1200, FEW = 8 * LEVELS + 40, MANY = FEW + 16 * LEVELS };
	static const uint32_t shrinking[] = { 28, 19, 0, 5, 4, 4, 1, 2, 3, 0 }, number[] = { 4, 4, 7, 0 };
	static uint32_t deep[MANY / 4];
	for (uint32_t i = 0; i < LEVELS; i++) {
		deep[2 * i] = FEW - 8 * i - 8;
		deep[2 * i + 1] = 14;
	}
	memcpy(deep + 2 * LEVELS, shrinking, sizeof shrinking);
	refuse_in_place(spav_rewrite_in_place, deep, FEW, false);
	refuse_in_place(spav_rewrite_in_place_leniently, deep, FEW, false);
	for (uint32_t i = 0; i < LEVELS; i++) {
		deep[2 * i] = MANY - 24 * i - 8;
		memcpy(deep + FEW / 4 + 4 * i, number, sizeof number);
	}
	refuse_in_place(spav_rewrite_in_place, deep, MANY, true);
	refuse_in_place(spav_rewrite_in_place_leniently, deep, MANY, true);
}

/* Two objects that meet: under one key an Enum and an Int, and one of them has a struct under another one. */
static const uint32_t ours[] = { 80, 15, 5, 3, 1, 0, 24, 19, 3, 0, 4, 4, 7, 9, 2, 0, 16, 14, 4, 4, 6, 0 };
static const uint32_t theirs[] = { 32, 15, 5, 7, 1, 0, 4, 4, 9, 0 };

/* What is made of what isn't given. */
typedef int32_t making(void *out, size_t cap, size_t *written);

/* The object in which they meet, and that to which they are filtered. */
static int32_t meet(void *out, size_t cap, size_t *written) {
	uint32_t key_or_side;
	return spav_negotiate(ours, sizeof ours, theirs, sizeof theirs, out, cap, written, &key_or_side);
}
static int32_t filter(void *out, size_t cap, size_t *written) {
	uint32_t key_or_side;
	return spav_filter(ours, sizeof ours, theirs, sizeof theirs, out, cap, written, &key_or_side);
}

/* A struct with another one in it, which has a text, an array and a pod. */
static int32_t build(void *out, size_t cap, size_t *written) {
	const struct spav_call calls[] = { spav_push_struct(), spav_push_struct(), spav_add_string(8, 92), spav_add_array(SPAV_TYPE_Int, 0, 25), spav_add_pod(0, 8),
		spav_pop(), spav_pop() };
	static uint8_t texts[100];
	size_t at;
	memset(texts, 'a', sizeof texts);
	memcpy(texts, (const uint32_t[]){ 0, SPAV_TYPE_Struct }, 8);
	return spav_build(calls, sizeof calls / sizeof *calls, texts, sizeof texts, out, cap, written, &at);
}

/* The text of a pod, and the pod of a text. */
static int32_t print_text(void *out, size_t cap, size_t *written) { return spav_json(ours, sizeof ours, out, cap, written); }
static int32_t read_text(void *out, size_t cap, size_t *written) {
	static const char text[] = "[{\"type\":262147,\"id\":3,\"props\":{\"rate\":{\"choice\":\"Enum\",\"values\":[1,2]}}},\"a\",{\"bytes\":\"00ff\"},[{\"float\":0.5}]]";
	size_t at;
	return spav_from_json(text, sizeof text - 1, out, cap, written, &at);
}

static void refuse_making(making *make) {
	static uint8_t wanted[256], out[256], before[256];
	size_t len, written;
	memset(before, 0xee, sizeof before);
	refuse_at = 0;
	SEE(make(wanted, sizeof wanted, &len) == 0 && held == 0);
	for (refuse_at = 1;; refuse_at++) {
		asked = 0;
		memset(out, 0xee, sizeof out);
		int32_t answer = make(out, sizeof out, &written);
		SEE(held == 0);
		if (asked < refuse_at) {
			SEE(answer == 0 && refuse_at > 1);
			break;
		}
		if (answer == 0)
			SEE(!and_after && written == len && !memcmp(out, wanted, len));
		else
			SEE(answer == -ENOMEM && !memcmp(out, before, sizeof out));
	}
}

int main(void) {
	static uint8_t own[1024];
	size_t written, at;
	SEE(spav_rewrite(dirty, sizeof dirty, own, sizeof own, &written, &at) == 0 && written + 8 == sizeof dirty);
	for (int i = 0; i < 2; i++) {
		and_after = i == 1;
		/* What gets shorter, into room for it all, and into just enough. */
		refuse_each(spav_rewrite, dirty, sizeof dirty, sizeof dirty, false);
		refuse_each(spav_rewrite, dirty, sizeof dirty, written, true);
		refuse_each(spav_rewrite, own, written, written, false);
		refuse_each(spav_rewrite, dirty, 16, 1024, false);
		refuse_each(spav_rewrite_leniently, dirty, sizeof dirty, sizeof dirty, false);
		refuse_each(spav_rewrite_leniently, dirty, sizeof dirty, written, true);
		refuse_each(spav_rewrite_leniently, lenient, sizeof lenient, sizeof lenient, true);
		refuse_check(spav_check, dirty, sizeof dirty, false);
		refuse_check(spav_check, own, written, false);
		refuse_check(spav_check, dirty, 16, false);
		refuse_check(spav_check_leniently, dirty, sizeof dirty, false);
		refuse_check(spav_check_leniently, lenient, sizeof lenient, true);
		refuse_check(fault_leniently, dirty, sizeof dirty, false);
		refuse_check(fault_leniently, lenient, sizeof lenient, true);
		refuse_each(read_leniently, dirty, sizeof dirty, sizeof dirty, false);
		refuse_each(read_leniently, lenient, sizeof lenient, sizeof lenient, true);
		refuse_in_place(spav_rewrite_in_place, dirty, 16, false);
		refuse_in_place(spav_rewrite_in_place, dirty, sizeof dirty, false);
		refuse_in_place(spav_rewrite_in_place_leniently, dirty, sizeof dirty, false);
		refuse_in_place(spav_rewrite_in_place_leniently, lenient, sizeof lenient, true);
		refuse_deep_in_place();
		refuse_deep(false);
		refuse_deep(true);
		refuse_making(meet);
		refuse_making(filter);
		refuse_making(build);
		refuse_making(print_text);
		refuse_making(read_text);
	}
	return 0;
}
