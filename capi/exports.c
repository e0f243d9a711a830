/* The calls of spav.h: each answers -EFAULT where a region is NULL and isn't empty, -EINVAL where one that is written overlaps one that is read, and
 * else hands its arguments to the proved function, which the Makefile gives the name with `proved_` before it. That one takes no NULL: an empty region
 * gets an address. Functions that the header defines are exported, too. */
#define SPAV_INLINE
#include <errno.h>
#include "spav.h"

/* What the proved functions, which are compiled without this header, take its structs to be. */
#define IS_AT(type, field, byte) _Static_assert(offsetof(struct type, field) == (byte), #type "." #field)
_Static_assert(sizeof(struct spav_item) == 56 && _Alignof(struct spav_item) == 8, "spav_item");
IS_AT(spav_item, type, 0);
IS_AT(spav_item, key, 4);
IS_AT(spav_item, flags, 8);
IS_AT(spav_item, child, 12);
IS_AT(spav_item, choice_flags, 16);
IS_AT(spav_item, reserved, 20);
IS_AT(spav_item, depth, 24);
IS_AT(spav_item, at, 32);
IS_AT(spav_item, first, 40);
IS_AT(spav_item, second, 48);
_Static_assert(sizeof(struct spav_elements) == 40 && _Alignof(struct spav_elements) == 8, "spav_elements");
IS_AT(spav_elements, type, 0);
IS_AT(spav_elements, shape, 4);
IS_AT(spav_elements, flags, 8);
IS_AT(spav_elements, element_type, 12);
IS_AT(spav_elements, element_size, 16);
IS_AT(spav_elements, reserved, 20);
IS_AT(spav_elements, count, 24);
IS_AT(spav_elements, at, 32);
_Static_assert(sizeof(struct spav_call) == 48 && _Alignof(struct spav_call) == 8, "spav_call");
IS_AT(spav_call, what, 0);
IS_AT(spav_call, first, 4);
IS_AT(spav_call, second, 8);
IS_AT(spav_call, number, 12);
IS_AT(spav_call, wide, 16);
IS_AT(spav_call, bits, 24);
IS_AT(spav_call, len, 32);
IS_AT(spav_call, reserved, 40);

/* The address of empty regions, at which nothing is read or written. */
static max_align_t nowhere;

static void *some(const void *region) { return region ? (void *)(uintptr_t)region : &nowhere; }

/* Whether a region is NULL and isn't empty. */
static bool lacks(const void *region, size_t n) { return !region && n; }

/* The error of a region that is read and one that is written: NULL, or overlapping; else 0. */
static int32_t error_of(const void *in, size_t n, const void *out, size_t cap) {
	if (lacks(in, n) || lacks(out, cap))
		return -EFAULT;
	const uintptr_t from = (uintptr_t)in, to = (uintptr_t)out;
	return (to - from < n || from - to < cap) && n && cap ? -EINVAL : 0;
}

uint32_t proved_spav_abi(void);
uint32_t spav_abi(void) { return proved_spav_abi(); }

int32_t proved_spav_rewrite(const void *, size_t, void *, size_t, size_t *, size_t *);
int32_t spav_rewrite(const void *in, size_t n, void *out, size_t cap, size_t *written, size_t *at) {
	const int32_t error = error_of(in, n, out, cap);
	return error ? error : proved_spav_rewrite(some(in), n, some(out), cap, written, at);
}

int32_t proved_spav_rewrite_leniently(const void *, size_t, void *, size_t, size_t *, size_t *);
int32_t spav_rewrite_leniently(const void *in, size_t n, void *out, size_t cap, size_t *written, size_t *at) {
	const int32_t error = error_of(in, n, out, cap);
	return error ? error : proved_spav_rewrite_leniently(some(in), n, some(out), cap, written, at);
}

int32_t proved_spav_rewrite_in_place(void *, size_t, size_t *, size_t *);
int32_t spav_rewrite_in_place(void *bytes, size_t n, size_t *written, size_t *at) {
	return lacks(bytes, n) ? -EFAULT : proved_spav_rewrite_in_place(some(bytes), n, written, at);
}

int32_t proved_spav_rewrite_in_place_leniently(void *, size_t, size_t *, size_t *);
int32_t spav_rewrite_in_place_leniently(void *bytes, size_t n, size_t *written, size_t *at) {
	return lacks(bytes, n) ? -EFAULT : proved_spav_rewrite_in_place_leniently(some(bytes), n, written, at);
}

int32_t proved_spav_check(const void *, size_t, size_t *);
int32_t spav_check(const void *in, size_t n, size_t *at) { return lacks(in, n) ? -EFAULT : proved_spav_check(some(in), n, at); }

int32_t proved_spav_fault(const void *, size_t, uint32_t *, size_t *, size_t *);
int32_t spav_fault(const void *in, size_t n, uint32_t *kind, size_t *top, size_t *at) {
	return lacks(in, n) ? -EFAULT : proved_spav_fault(some(in), n, kind, top, at);
}

int32_t proved_spav_check_leniently(const void *, size_t, size_t *);
int32_t spav_check_leniently(const void *in, size_t n, size_t *at) { return lacks(in, n) ? -EFAULT : proved_spav_check_leniently(some(in), n, at); }

int32_t proved_spav_fault_leniently(const void *, size_t, uint32_t *, size_t *);
int32_t spav_fault_leniently(const void *in, size_t n, uint32_t *kind, size_t *top) {
	return lacks(in, n) ? -EFAULT : proved_spav_fault_leniently(some(in), n, kind, top);
}

const char *spav_fault_text(uint32_t kind) {
	static const char *const texts[] = {
		"no fault",
		"the bytes are cut short",
		"a string isn't UTF-8 with one NUL, at its end",
		"there is no such type, or none of which elements and values can be",
		"a choice has no such shape",
		"a choice has fewer values than its shape takes",
		"a body or the size of elements isn't as long as its type's",
	};
	return texts[kind <= SPAV_FAULT_SIZE ? kind : 0];
}

const char *spav_answer_text(int32_t answer) {
	switch (answer) {
	case 0: return "done";
	case -EFAULT: return "a region is NULL and isn't empty";
	case -EINVAL: return "the bytes aren't what the call is for, or overlap the output";
	case -ENOSPC: return "the output is too short";
	case -ENOMEM: return "there was no memory";
	case -ENOENT: return "there is no such key, member or element";
	case -EPROTO: return "a value or an object is of another type";
	case -ENOTSUP: return "a choice has a shape for which no common value is sought";
	case -ENODATA: return "no value is admitted by both";
	case -EOVERFLOW: return "a pod would have 2^32 bytes or more";
	case -ELOOP: return "structs and objects nest more than 1000 deep";
	default: return "no answer";
	}
}

int32_t proved_spav_is_canonical(const void *, size_t, bool *);
int32_t spav_is_canonical(const void *in, size_t n, bool *canonical) {
	return lacks(in, n) ? -EFAULT : proved_spav_is_canonical(some(in), n, canonical);
}

int32_t proved_spav_nests_within(const void *, size_t, uint32_t, bool *);
int32_t spav_nests_within(const void *in, size_t n, uint32_t levels, bool *within) {
	return lacks(in, n) ? -EFAULT : proved_spav_nests_within(some(in), n, levels, within);
}

int32_t proved_spav_same(const void *, size_t, const void *, size_t, bool *, uint32_t *);
int32_t spav_same(const void *a, size_t n, const void *b, size_t m, bool *same, uint32_t *side) {
	return lacks(a, n) || lacks(b, m) ? -EFAULT : proved_spav_same(some(a), n, some(b), m, same, side);
}

int32_t proved_spav_fixate(void *, size_t);
int32_t spav_fixate(void *pod, size_t n) { return lacks(pod, n) ? -EFAULT : proved_spav_fixate(some(pod), n); }

int32_t proved_spav_front(const void *, size_t, uint32_t *, uint32_t *, size_t *);
int32_t spav_front(const void *in, size_t n, uint32_t *type, uint32_t *size, size_t *whole) {
	return lacks(in, n) ? -EFAULT : proved_spav_front(some(in), n, type, size, whole);
}

int32_t proved_spav_object(const void *, size_t, uint32_t *, uint32_t *);
int32_t spav_object(const void *in, size_t n, uint32_t *type, uint32_t *id) { return lacks(in, n) ? -EFAULT : proved_spav_object(some(in), n, type, id); }

/* A read of a property into one place, or into two. */
#define READ_ONE(name, type) \
	int32_t proved_##name(const void *, size_t, uint32_t, type *); \
	int32_t name(const void *in, size_t n, uint32_t key, type *value) { return lacks(in, n) ? -EFAULT : proved_##name(some(in), n, key, value); }
#define READ_TWO(name) \
	int32_t proved_##name(const void *, size_t, uint32_t, uint32_t *, uint32_t *); \
	int32_t name(const void *in, size_t n, uint32_t key, uint32_t *first, uint32_t *second) { \
		return lacks(in, n) ? -EFAULT : proved_##name(some(in), n, key, first, second); \
	}
/* The proved function gives the bits of a number. */
#define READ_FLOATING(name, bits_type, type) \
	int32_t proved_##name(const void *, size_t, uint32_t, bits_type *); \
	int32_t name(const void *in, size_t n, uint32_t key, type *value) { \
		bits_type bits; \
		int32_t answer = lacks(in, n) ? -EFAULT : proved_##name(some(in), n, key, &bits); \
		if (answer == 0) \
			memcpy(value, &bits, sizeof bits); \
		return answer; \
	}
READ_ONE(spav_bool, bool)
READ_ONE(spav_id, uint32_t)
READ_ONE(spav_int, int32_t)
READ_ONE(spav_long, int64_t)
READ_ONE(spav_fd, int64_t)
READ_FLOATING(spav_float, uint32_t, float)
READ_FLOATING(spav_double, uint64_t, double)
READ_TWO(spav_rectangle)
READ_TWO(spav_fraction)

int32_t proved_spav_string(const void *, size_t, uint32_t, char *, size_t, size_t *);
int32_t spav_string(const void *in, size_t n, uint32_t key, char *out, size_t cap, size_t *len) {
	const int32_t error = error_of(in, n, out, cap);
	return error ? error : proved_spav_string(some(in), n, key, some(out), cap, len);
}

int32_t proved_spav_read(const void *, size_t, struct spav_item *, size_t, size_t *, uint32_t *, size_t *);
int32_t spav_read(const void *in, size_t n, struct spav_item *out, size_t room, size_t *count, uint32_t *kind, size_t *at) {
	const int32_t error = lacks(out, room) ? -EFAULT : error_of(in, n, out, room * sizeof *out);
	return error ? error : proved_spav_read(some(in), n, some(out), room, count, kind, at);
}

int32_t proved_spav_read_leniently(const void *, size_t, void *, size_t, struct spav_item *, size_t, size_t *, size_t *, size_t *);
int32_t spav_read_leniently(const void *in, size_t n, void *out, size_t cap, struct spav_item *items, size_t room, size_t *written, size_t *count, size_t *at) {
	const int32_t first = error_of(in, n, out, cap), second = lacks(items, room) ? -EFAULT : error_of(in, n, items, room * sizeof *items);
	if (first == -EFAULT || second == -EFAULT)
		return -EFAULT;
	if (first || second || error_of(out, cap, items, room * sizeof *items))
		return -EINVAL;
	return proved_spav_read_leniently(some(in), n, some(out), cap, some(items), room, written, count, at);
}

int32_t proved_spav_settled_item(const void *, size_t, struct spav_item *);
int32_t spav_settled_item(const void *in, size_t n, struct spav_item *item) { return lacks(in, n) ? -EFAULT : proved_spav_settled_item(some(in), n, item); }

int32_t proved_spav_element(const void *, size_t, size_t, struct spav_item *);
int32_t spav_element(const void *in, size_t n, size_t number, struct spav_item *item) {
	return lacks(in, n) ? -EFAULT : proved_spav_element(some(in), n, number, item);
}

int32_t proved_spav_front_item(const void *, size_t, struct spav_item *);
int32_t spav_front_item(const void *in, size_t n, struct spav_item *item) { return lacks(in, n) ? -EFAULT : proved_spav_front_item(some(in), n, item); }

int32_t proved_spav_find(const void *, size_t, uint32_t, size_t *);
int32_t spav_find(const void *in, size_t n, uint32_t key, size_t *at) { return lacks(in, n) ? -EFAULT : proved_spav_find(some(in), n, key, at); }

int32_t proved_spav_member(const void *, size_t, size_t, size_t *);
int32_t spav_member(const void *in, size_t n, size_t number, size_t *at) {
	return lacks(in, n) ? -EFAULT : proved_spav_member(some(in), n, number, at);
}

int32_t proved_spav_front_elements(const void *, size_t, struct spav_elements *);
int32_t spav_front_elements(const void *in, size_t n, struct spav_elements *elements) {
	return lacks(in, n) ? -EFAULT : proved_spav_front_elements(some(in), n, elements);
}

/* A value that is set, of one part or of two. */
#define SET_ONE(name, type) \
	int32_t proved_##name(void *, size_t, uint32_t, type); \
	int32_t name(void *pod, size_t n, uint32_t key, type value) { return lacks(pod, n) ? -EFAULT : proved_##name(some(pod), n, key, value); }
#define SET_TWO(name) \
	int32_t proved_##name(void *, size_t, uint32_t, uint32_t, uint32_t); \
	int32_t name(void *pod, size_t n, uint32_t key, uint32_t first, uint32_t second) { \
		return lacks(pod, n) ? -EFAULT : proved_##name(some(pod), n, key, first, second); \
	}
/* The proved function takes the bits of a number. */
#define SET_FLOATING(name, bits_type, type) \
	int32_t proved_##name(void *, size_t, uint32_t, bits_type); \
	int32_t name(void *pod, size_t n, uint32_t key, type value) { \
		bits_type bits; \
		memcpy(&bits, &value, sizeof bits); \
		return lacks(pod, n) ? -EFAULT : proved_##name(some(pod), n, key, bits); \
	}
SET_ONE(spav_set_bool, bool)
SET_ONE(spav_set_id, uint32_t)
SET_ONE(spav_set_int, int32_t)
SET_ONE(spav_set_long, int64_t)
SET_ONE(spav_set_fd, int64_t)
SET_FLOATING(spav_set_float, uint32_t, float)
SET_FLOATING(spav_set_double, uint64_t, double)
SET_TWO(spav_set_rectangle)
SET_TWO(spav_set_fraction)

#define JOIN(name) \
	int32_t proved_##name(const void *, size_t, const void *, size_t, void *, size_t, size_t *, uint32_t *); \
	int32_t name(const void *a, size_t n, const void *b, size_t m, void *out, size_t cap, size_t *written, uint32_t *key_or_side) { \
		const int32_t first = error_of(a, n, out, cap), second = error_of(b, m, out, cap); \
		if (first == -EFAULT || second == -EFAULT) \
			return -EFAULT; \
		return first || second ? -EINVAL : proved_##name(some(a), n, some(b), m, some(out), cap, written, key_or_side); \
	}
JOIN(spav_negotiate)
JOIN(spav_filter)

int32_t proved_spav_build(const struct spav_call *, size_t, const void *, size_t, void *, size_t, size_t *, size_t *);
int32_t spav_build(const struct spav_call *calls, size_t count, const void *texts, size_t n, void *out, size_t cap, size_t *written, size_t *at) {
	const int32_t first = lacks(calls, count) ? -EFAULT : error_of(calls, count * sizeof *calls, out, cap);
	const int32_t second = error_of(texts, n, out, cap);
	if (first == -EFAULT || second == -EFAULT)
		return -EFAULT;
	return first || second ? -EINVAL : proved_spav_build(some(calls), count, some(texts), n, some(out), cap, written, at);
}

int32_t proved_spav_name(uint32_t, uint32_t, uint32_t, uint32_t, char *, size_t, size_t *);
int32_t spav_name(uint32_t names, uint32_t type, uint32_t key, uint32_t number, char *out, size_t cap, size_t *len) {
	return lacks(out, cap) ? -EFAULT : proved_spav_name(names, type, key, number, some(out), cap, len);
}

int32_t proved_spav_number(uint32_t, uint32_t, uint32_t, const char *, size_t, uint32_t *);
int32_t spav_number(uint32_t names, uint32_t type, uint32_t key, const char *name, size_t n, uint32_t *number) {
	return lacks(name, n) ? -EFAULT : proved_spav_number(names, type, key, some(name), n, number);
}

int32_t proved_spav_json(const void *, size_t, char *, size_t, size_t *);
int32_t spav_json(const void *in, size_t n, char *out, size_t cap, size_t *len) {
	const int32_t error = error_of(in, n, out, cap);
	return error ? error : proved_spav_json(some(in), n, some(out), cap, len);
}

int32_t proved_spav_from_json(const char *, size_t, void *, size_t, size_t *, size_t *);
int32_t spav_from_json(const char *text, size_t n, void *out, size_t cap, size_t *written, size_t *at) {
	const int32_t error = error_of(text, n, out, cap);
	return error ? error : proved_spav_from_json(some(text), n, some(out), cap, written, at);
}
