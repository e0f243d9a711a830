/* stack: prints how many bytes of stack each call takes at most, over pods that nest deep: a line `CALL BYTES LEVELS SHAPE` for each. A call runs in a
 * thread whose stack is full of one byte before; where another one is afterwards, the call has been. */
#define _GNU_SOURCE
#include <pthread.h>
#include <stdio.h>
#include <stdlib.h>
#include <string.h>
#include <sys/mman.h>
#include <spav.h>

enum { STACK = 8 << 20, GUARD = 1 << 20, FILL = 0xa5, PROBE = 100000 };

/* Words before and behind what is inside a level. The first is the level's size; of a None choice the fifth is its child's. */
struct shape {
	const char *name;
	size_t before, behind;
	uint32_t words[12];
};
static const struct shape shapes[] = {
	{ "structs", 2, 0, { 0, 14 } },
	{ "structs and Ints with noise", 2, 4, { 0, 14, 4, 4, 1, 9 } },
	{ "objects of two properties", 6, 6, { 0, 15, 5, 3, 1, 0, 2, 0, 4, 4, 7, 0 } },
	{ "None choices of structs", 6, 0, { 0, 19, 0, 0, 0, 14 } },
	{ "structs and Ranges with a surplus", 2, 10, { 0, 14, 32, 19, 1, 0, 4, 4, 5, 1, 9, 3 } },
};
static const size_t levels[] = { 1, 1000, 1001, 100000 };

static uint8_t *in, *copy, *out;
static size_t n, written, at;
static uint32_t kind;

/* Puts a pod of these levels around an Int into `copy`. */
static void make(const struct shape *shape, size_t count) {
	static const uint32_t innermost[] = { 4, 4, 7, 0 };
	const size_t before = 4 * shape->before, behind = 4 * shape->behind;
	n = sizeof innermost + count * (before + behind);
	for (size_t i = 0; i < count; i++) {
		uint32_t words[12];
		memcpy(words, shape->words, sizeof words);
		words[0] = (uint32_t)(n - i * (before + behind) - 8);
		if (shape->words[1] == SPAV_TYPE_Choice)
			words[4] = words[0] - 16;
		memcpy(copy + i * before, words, before);
		memcpy(copy + n - (i + 1) * behind, words + shape->before, behind);
	}
	memcpy(copy + count * before, innermost, sizeof innermost);
}

/* Takes PROBE bytes and little else. */
static int32_t probe(void) {
	volatile uint8_t bytes[PROBE];
	for (size_t i = 0; i < PROBE; i++)
		bytes[i] = 0;
	return bytes[n % PROBE];
}

#define CALL(name, ...) static int32_t name##_of_in(void) { return spav_##name(__VA_ARGS__); }
#define ROW(name) { "spav_" #name, name##_of_in }
static struct spav_elements elements_found;
static struct spav_item item_found;
static const struct spav_call calls_made[] = { { SPAV_TYPE_Int, 0, 0, 5, 0, 0, 0, 0 } };
static int32_t number;
CALL(rewrite, in, n, out, n, &written, &at)
static int32_t rewrite_without_room(void) { return spav_rewrite(in, n, out, 0, &written, &at); }
CALL(rewrite_leniently, in, n, out, n, &written, &at)
CALL(rewrite_in_place, in, n, &written, &at)
CALL(rewrite_in_place_leniently, in, n, &written, &at)
CALL(check, in, n, &at)
CALL(check_leniently, in, n, &at)
CALL(fault_leniently, in, n, &kind, &at)
static struct spav_item items[1];
CALL(read_leniently, in, n, out, n, items, 1, &written, &at, &at)
static bool truth;
CALL(is_canonical, in, n, &truth)
CALL(nests_within, in, n, 1000, &truth)
CALL(fault, in, n, &kind, &written, &at)
CALL(read, in, n, NULL, 0, &written, &kind, &at)
CALL(front_item, in, n, &item_found)
CALL(settled_item, in, n, &item_found)
CALL(element, in, n, 0, &item_found)
CALL(set_int, in, n, 2, 7)
CALL(same, in, n, in, n, &truth, &kind)
CALL(find, in, n, 2, &at)
CALL(member, in, n, 1, &at)
CALL(front_elements, in, n, &elements_found)
CALL(object, in, n, &kind, &kind)
CALL(int, in, n, 2, &number)
CALL(string, in, n, 2, (char *)out, 16, &written)
CALL(fixate, in, n)
CALL(filter, in, n, in, n, out, n, &written, &kind)
CALL(negotiate, in, n, in, n, out, n, &written, &kind)
CALL(build, calls_made, 1, NULL, 0, out, 16, &written, &at)
/* A struct in which the pod is. */
static int32_t build_of_a_pod(void) {
	const struct spav_call calls[] = { spav_push_struct(), spav_add_pod(0, n), spav_pop() };
	return spav_build(calls, 3, in, n, out, n + 8, &written, &at);
}
static char *text;
CALL(json, in, n, (char *)out, n, &written)
CALL(from_json, text, n / 8, out, n, &written, &at)
CALL(name, SPAV_NAMES_VALUES, 0x40003, 0x10001, 259, (char *)out, 16, &written)
CALL(number, SPAV_NAMES_VALUES, 0x40003, 0x10001, "S16LE", 5, &kind)
static const struct row {
	const char *name;
	int32_t (*call)(void);
} rows[] = { ROW(rewrite), { "spav_rewrite_without_room", rewrite_without_room }, ROW(rewrite_leniently), ROW(rewrite_in_place),
	ROW(rewrite_in_place_leniently), ROW(check), ROW(check_leniently), ROW(fault_leniently), ROW(read_leniently), ROW(is_canonical), ROW(nests_within),
	ROW(fault), ROW(read), ROW(front_item), ROW(settled_item), ROW(element), ROW(set_int), ROW(same), ROW(find), ROW(member), ROW(front_elements),
	ROW(object), ROW(int), ROW(string), ROW(fixate), ROW(filter), ROW(negotiate), ROW(build), { "spav_build_of_a_pod", build_of_a_pod },
	ROW(json), ROW(from_json), ROW(name), ROW(number) };

/* Where the stack is at a call. */
static uint8_t *top;
static void *run(void *row) {
	top = __builtin_frame_address(0);
	((const struct row *)row)->call();
	return NULL;
}

/* How many bytes of stack a call takes; a thread's end takes some, too. */
static size_t taken(const struct row *row) {
	static uint8_t *stack;
	static size_t dirty = STACK;
	pthread_attr_t attributes;
	pthread_t thread;
	if (!stack) {
		uint8_t *region = mmap(NULL, GUARD + STACK, PROT_NONE, MAP_PRIVATE | MAP_ANONYMOUS, -1, 0);
		if (region == MAP_FAILED || mprotect(region + GUARD, STACK, PROT_READ | PROT_WRITE))
			exit(2);
		stack = region + GUARD;
	}
	memset(stack + STACK - dirty, FILL, dirty);
	memcpy(in, copy, n);
	pthread_attr_init(&attributes);
	if (pthread_attr_setstack(&attributes, stack, STACK) || pthread_create(&thread, &attributes, run, (void *)(uintptr_t)row))
		exit(2);
	pthread_join(thread, NULL);
	pthread_attr_destroy(&attributes);
	for (dirty = STACK; dirty && stack[STACK - dirty] == FILL; dirty--)
		;
	return (size_t)(top - (stack + STACK - dirty));
}

int main(void) {
	const struct row known = { "probe", probe };
	const size_t room = 12 * 4 * levels[3] + 64;
	in = malloc(room);
	copy = malloc(room);
	out = malloc(room + 8);
	text = malloc(room);
	if (!in || !copy || !out || !text)
		return 2;
	memset(text, '[', room);
	const size_t of_probe = taken(&known);
	if (of_probe < PROBE || of_probe > PROBE + 4096)
		return 3;
	for (size_t i = 0; i < sizeof rows / sizeof *rows; i++) {
		size_t most = 0, at_levels = 0;
		const char *of_shape = "";
		for (size_t k = 0; k < sizeof shapes / sizeof *shapes; k++)
			for (size_t l = 0; l < sizeof levels / sizeof *levels; l++) {
				make(&shapes[k], levels[l]);
				const size_t found = taken(&rows[i]);
				if (found > most) {
					most = found;
					of_shape = shapes[k].name;
					at_levels = levels[l];
				}
			}
		printf("%s %zu %zu %s\n", rows[i].name, most, at_levels, of_shape);
	}
	return 0;
}
