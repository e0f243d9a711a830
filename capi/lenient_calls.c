/* The calls of the lenient reading that write no rewriting alone: check, fault and read. The regions stand at the ends of blocks, so that a sanitizer sees
 * each byte outside of them. */
#include "see.h"

/* A None choice over an Array of the Ids 3 and 4, behind the text "ab" with two NULs; and the two as they are rewritten. */
static const uint32_t lenient[] = { 4, 8, 0x6261, 0, 32, 19, 0, 5, 16, 13, 4, 3, 3, 4 };
static const uint32_t rewritten[] = { 3, 8, 0x6261, 0, 16, 13, 4, 3, 3, 4 };
/* What is read of them: the bytes are those of `rewritten`. */
static const struct spav_item wanted[] = {
	{ SPAV_TYPE_String, 0, 0, 0, 0, 0, 0, 0, 8, 2 },
	{ SPAV_TYPE_Array, 0, 0, SPAV_TYPE_Id, 0, 0, 0, 16, 32, 2 },
	{ SPAV_TYPE_Id, 0, 0, 0, 0, 0, 1, 32, 3, 0 },
	{ SPAV_TYPE_Id, 0, 0, 0, 0, 0, 1, 36, 4, 0 },
};
enum { COUNT = sizeof wanted / sizeof *wanted };

/* What docs/FORMAT.md says stands in these, behind the two above, which convey values. */
static void checking(void) {
	static const struct row { uint32_t kind, size, words[10]; } rows[] = {
		{ SPAV_FAULT_SIZE, 32, { 24, 19, 0, 0, 8, 4, 7, 0 } },
		{ SPAV_FAULT_VALUES, 24, { 16, 19, 0, 0, 4, 4 } },
		{ SPAV_FAULT_SIZE, 24, { 16, 19, 0, 0, 4, 9 } },
		{ SPAV_FAULT_TYPE, 40, { 32, 19, 0, 0, 16, 19, 0, 0, 0, 1 } },
		{ SPAV_FAULT_SHORT, 32, { 24, 19, 0, 0, 8, 14, 4, 4 } },
		{ SPAV_FAULT_TEXT, 16, { 2, 8, 0x6261, 0 } },
		{ SPAV_FAULT_SHAPE, 32, { 20, 19, 5, 0, 4, 4, 7, 0 } },
		{ SPAV_FAULT_SHORT, 15, { 8, 10, 320, 240 } },
		/* In a struct, behind a text that is read leniently. */
		{ SPAV_FAULT_TYPE, 40, { 32, 14, 4, 8, 0x6261, 0, 4, 21, 7, 0 } },
	};
	uint32_t kind = 99;
	size_t at = 99, top = 99;
	uint8_t *in = BLOCK(lenient);
	SEE(spav_check_leniently(NULL, 0, &at) == 0 && spav_check_leniently(in, sizeof lenient, &at) == 0 && at == 99);
	SEE(spav_fault_leniently(NULL, 0, &kind, &top) == 0 && kind == SPAV_FAULT_NONE && top == 99);
	kind = 99;
	SEE(spav_fault_leniently(in, sizeof lenient, &kind, &top) == 0 && kind == SPAV_FAULT_NONE && top == 99);
	free(in);
	for (const struct row *row = rows; row < rows + sizeof rows / sizeof *rows; row++) {
		uint8_t all[sizeof lenient + sizeof row->words];
		memcpy(all, lenient, sizeof lenient);
		memcpy(all + sizeof lenient, row->words, row->size);
		const size_t n = sizeof lenient + row->size;
		in = block(all, n);
		kind = 99;
		at = top = 99;
		SEE(spav_check_leniently(in, n, &at) == -EINVAL && at == sizeof lenient);
		SEE(spav_fault_leniently(in, n, &kind, &top) == 0 && kind == row->kind && top == sizeof lenient);
		free(in);
	}
	SEE(spav_check_leniently(NULL, 16, &at) == -EFAULT && spav_fault_leniently(NULL, 16, &kind, &top) == -EFAULT);
}

static void reading(void) {
	const size_t n = sizeof lenient, m = sizeof rewritten;
	uint8_t *in = BLOCK(lenient), before[sizeof lenient], *out;
	struct spav_item *items = (struct spav_item *)BLOCK(wanted), untouched[COUNT];
	size_t written = 99, count = 99, at = 99;
	memset(before, '.', sizeof before);
	out = block(before, n);
	memset(items, 0xee, sizeof wanted);
	memcpy(untouched, items, sizeof wanted);
	/* Too few bytes; enough, and too few items; enough of both. */
	SEE(spav_read_leniently(in, n, out, m - 1, items, COUNT, &written, &count, &at) == -ENOSPC && written == m && count == 99);
	SEE(!memcmp(out, before, n) && !memcmp(items, untouched, sizeof wanted));
	SEE(spav_read_leniently(in, n, out, m, items, COUNT - 1, &written, &count, &at) == -ENOSPC && written == m && count == COUNT);
	SEE(!memcmp(out, rewritten, m) && !memcmp(out + m, before, n - m));
	SEE(!memcmp(items, wanted, (COUNT - 1) * sizeof *wanted) && !memcmp(items + COUNT - 1, untouched, sizeof *items));
	memset(items, 0xee, sizeof wanted);
	memset(out, '.', n);
	SEE(spav_read_leniently(in, n, out, n, items, COUNT, &written, &count, &at) == 0 && written == m && count == COUNT && at == 99);
	SEE(!memcmp(out, rewritten, m) && !memcmp(items, wanted, sizeof wanted));
	SEE(spav_read_leniently(in, n, out, n, NULL, 0, &written, &count, &at) == -ENOSPC && count == COUNT);
	SEE(spav_read_leniently(NULL, 0, NULL, 0, NULL, 0, &written, &count, &at) == 0 && written == 0 && count == 0);
	/* Where nothing is conveyed, nothing is written. */
	memset(out, '.', n);
	memset(items, 0xee, sizeof wanted);
	written = count = 99;
	SEE(spav_read_leniently(in, n - 1, out, n, items, COUNT, &written, &count, &at) == -EINVAL && at == 16 && written == 99 && count == 99);
	SEE(!memcmp(out, before, n) && !memcmp(items, untouched, sizeof wanted));
	free(in);
	free(out);
	free(items);
}

/* Structs in None choices, which come out of these: 1000 deep in one another they are read, 1001 deep they are written only. */
static void reading_deep(void) {
	enum { MOST = 1001, EACH = 24, LEN = MOST * EACH };
	static uint32_t words[LEN / 4];
	static uint8_t out[LEN];
	static struct spav_item items[MOST];
	for (size_t i = 0; i < MOST; i++) {
		const uint32_t size = (uint32_t)((MOST - 1 - i) * EACH), level[] = { 16 + size, 19, 0, 0, size, 14 };
		memcpy(words + EACH / 4 * i, level, EACH);
	}
	size_t written = 99, count = 99, at = 99;
	SEE(spav_read_leniently(words, LEN, out, LEN, items, MOST, &written, &count, &at) == -ELOOP && written == 8 * MOST && count == 99);
	SEE(out[0] == (uint8_t)(8 * (MOST - 1)) && out[4] == 14 && items[0].type == 0);
	SEE(spav_read_leniently(words + EACH / 4, LEN - EACH, out, LEN, items, MOST, &written, &count, &at) == 0 && written == 8 * (MOST - 1) && count == MOST - 1);
	SEE(items[MOST - 2].type == SPAV_TYPE_Struct && items[MOST - 2].depth == MOST - 2 && items[MOST - 2].at == 8 * (MOST - 2) && at == 99);
}

/* NULL that isn't empty, and two of three regions that overlap by one byte. */
static void regions(void) {
	struct spav_item items[3], *item = items + 1;
	uint8_t *bytes = (uint8_t *)item, some[32] = { 0 };
	size_t written = 99, count = 99, at = 99;
	SEE(spav_read_leniently(NULL, 16, some, 16, item, 1, &written, &count, &at) == -EFAULT);
	SEE(spav_read_leniently(some, 16, NULL, 16, item, 1, &written, &count, &at) == -EFAULT);
	SEE(spav_read_leniently(some, 16, some, 16, NULL, 1, &written, &count, &at) == -EFAULT);
	SEE(spav_read_leniently(some, 16, some + 15, 16, item, 1, &written, &count, &at) == -EINVAL);
	SEE(spav_read_leniently(bytes - 15, 16, some, 16, item, 1, &written, &count, &at) == -EINVAL);
	SEE(spav_read_leniently(some, 16, bytes - 15, 16, item, 1, &written, &count, &at) == -EINVAL);
	SEE(spav_read_leniently(some, 16, bytes + sizeof *item - 1, 16, item, 1, &written, &count, &at) == -EINVAL);
	SEE(written == 99 && count == 99 && at == 99);
	/* Beside one another. */
	static const uint32_t seven[] = { 4, 4, 7, 0 };
	memcpy(bytes - 32, seven, 16);
	SEE(spav_read_leniently(bytes - 32, 16, bytes - 16, 16, item, 1, &written, &count, &at) == 0 && written == 16 && count == 1);
	SEE(!memcmp(bytes - 16, seven, 16) && item->type == SPAV_TYPE_Int && item->first == 7 && at == 99);
}

int main(void) {
	checking();
	reading();
	reading_deep();
	regions();
	puts("lenient_calls: all done");
	return 0;
}
