/* What libspav reads of pods is what PipeWire's own readers find: the items of spav_read beside its iterators, values under keys beside
 * spa_pod_parser_get_object, the elements of arrays and choices beside spa_pod_get_array and spa_pod_get_values. And each pod is built again by
 * spav_build, its arrays also beside spa_pod_builder_array. Each line of the input is a pod in hexadecimal digits. It prints how many items and values
 * agreed, and how many pods and arrays were built. */
#include <errno.h>
#include <stdio.h>
#include <stdlib.h>
#include <string.h>
#include <spa/pod/builder.h>
#include <spa/pod/iter.h>
#include <spa/pod/parser.h>
#include "spav.h"

enum { INPUT = 1 << 14 };

#define SEE(fact) do { if (!(fact)) { printf("reads: line %d: %s, in %s\n", __LINE__, #fact, line); exit(1); } } while (0)

static char line[4 * INPUT];
static struct spav_item items[INPUT];
static size_t count, next, values, built, arrays;
static const uint8_t *input;
static size_t input_len;

/* The numbers of a body of a type of fixed size. */
static void see_fixed(const struct spav_item *item, const void *body) {
	uint32_t words[2] = { 0, 0 };
	uint64_t wide = 0;
	switch (item->type) {
	case SPA_TYPE_None:
		break;
	case SPA_TYPE_Bool:
		memcpy(words, body, 4);
		words[0] = words[0] != 0;
		break;
	case SPA_TYPE_Id:
	case SPA_TYPE_Int:
	case SPA_TYPE_Float:
		memcpy(words, body, 4);
		break;
	case SPA_TYPE_Rectangle:
	case SPA_TYPE_Fraction:
		memcpy(words, body, 8);
		break;
	default:
		memcpy(&wide, body, 8);
		SEE(item->first == wide && item->second == 0);
		return;
	}
	SEE(item->first == words[0] && item->second == words[1]);
}

/* The items of elements, which follow that of their pod. */
static void see_elements(const struct spav_item *of, const void *bodies, uint32_t type, uint32_t size, uint32_t n) {
	SEE(of->second == n && of->child == type);
	for (uint32_t i = 0; i < n; i++) {
		const struct spav_item *item = &items[next++];
		SEE(next <= count && item->type == type && item->depth == of->depth + 1 && item->key == 0 && item->flags == 0 && item->child == 0);
		see_fixed(item, SPA_PTROFF(bodies, i * size, const void));
	}
}

static void see_pod(const struct spa_pod *pod, uint32_t key, uint32_t flags, size_t depth) {
	static const uint32_t least[] = { 1, 3, 4 };
	const struct spav_item *item = &items[next++];
	const uint8_t *body = SPA_POD_BODY_CONST(pod);
	uint32_t n, shape, size = SPA_POD_BODY_SIZE(pod);
	const struct spa_pod *member;
	const struct spa_pod_prop *property;
	SEE(next <= count && item->type == pod->type && item->key == key && item->flags == flags && item->depth == depth);
	if (pod->type == SPA_TYPE_Array) {
		const void *bodies = spa_pod_get_array(pod, &n);
		SEE(input + item->first == bodies);
		see_elements(item, bodies, SPA_POD_ARRAY_VALUE_TYPE(pod), SPA_POD_ARRAY_VALUE_SIZE(pod), SPA_POD_ARRAY_VALUE_SIZE(pod) ? n : 0);
		return;
	}
	if (pod->type == SPA_TYPE_Choice) {
		const struct spa_pod *first = spa_pod_get_values(pod, &n, &shape);
		SEE(item->first == shape);
		see_elements(item, SPA_POD_BODY_CONST(first), first->type, first->size, shape < SPA_N_ELEMENTS(least) ? SPA_MIN(n, least[shape]) : n);
		return;
	}
	SEE(item->child == 0);
	if (pod->type == SPA_TYPE_String)
		SEE(input + item->first == body && item->second == strlen((const char *)body));
	else if (pod->type == SPA_TYPE_Bytes || pod->type == SPA_TYPE_Bitmap)
		SEE(input + item->first == body && item->second == size);
	else if (pod->type == SPA_TYPE_Pointer) {
		uint64_t address = 0;
		memcpy(&address, body + 8, size - 8);
		SEE(item->first == ((const struct spa_pod_pointer_body *)body)->type && item->second == address);
	} else if (pod->type == SPA_TYPE_Struct) {
		SEE(item->first == 0 && item->second == 0);
		SPA_POD_STRUCT_FOREACH(pod, member)
			see_pod(member, 0, 0, depth + 1);
	} else if (pod->type == SPA_TYPE_Object) {
		SEE(item->first == SPA_POD_OBJECT_TYPE(pod) && item->second == SPA_POD_OBJECT_ID(pod));
		SPA_POD_OBJECT_FOREACH((const struct spa_pod_object *)pod, property)
			see_pod(&property->value, property->key, property->flags, depth + 1);
	} else
		see_fixed(item, body);
}

/* One getter beside the parser's form, which sees through None choices. */
#define SEE_UNDER(get, form, type) do { \
	type ours, theirs; \
	memset(&ours, 0, sizeof ours); \
	memset(&theirs, 0, sizeof theirs); \
	uint32_t kind = SPA_POD_OBJECT_TYPE(pod); \
	int there = spa_pod_parse_object(pod, kind, NULL, key, SPA_POD_##form(&theirs)); \
	int32_t answer = get(pod, n, key, &ours); \
	SEE((there >= 0) == (answer == 0) && !memcmp(&ours, &theirs, sizeof ours)); \
	values += answer == 0; \
} while (0)

/* The values under each key. */
static void see_values(const struct spa_pod *pod, size_t n) {
	const struct spa_pod_prop *property;
	SPA_POD_OBJECT_FOREACH((const struct spa_pod_object *)pod, property) {
		uint32_t key = property->key;
		struct spav_elements elements;
		size_t at;
		if (spa_pod_find_prop(pod, NULL, key) != property)
			continue;
		SEE(spav_find(pod, n, key, &at) == 0 && input + at == (const uint8_t *)&property->value);
		SEE_UNDER(spav_bool, Bool, bool);
		SEE_UNDER(spav_id, Id, uint32_t);
		SEE_UNDER(spav_int, Int, int32_t);
		SEE_UNDER(spav_long, Long, int64_t);
		SEE_UNDER(spav_float, Float, float);
		SEE_UNDER(spav_double, Double, double);
		SEE_UNDER(spav_fd, Fd, int64_t);
		if (spav_front_elements(input + at, n - at, &elements) == 0) {
			uint32_t had, shape;
			const void *first = elements.type == SPA_TYPE_Array ? spa_pod_get_array(&property->value, &had)
				: SPA_POD_BODY_CONST(spa_pod_get_values(&property->value, &had, &shape));
			SEE(input + at + elements.at == first && elements.count <= had);
		}
	}
}

static struct spav_call calls[INPUT];
static size_t called;

static void call(struct spav_call it) {
	SEE(called < INPUT);
	calls[called++] = it;
}

/* The call that adds a value of fixed size. */
static void call_fixed(uint32_t type, const void *body) {
	uint32_t words[2] = { 0, 0 };
	uint64_t wide = 0;
	bool long_body = type == SPA_TYPE_Long || type == SPA_TYPE_Double || type == SPA_TYPE_Fd;
	if (long_body)
		memcpy(&wide, body, 8);
	else if (type != SPA_TYPE_None)
		memcpy(words, body, type == SPA_TYPE_Rectangle || type == SPA_TYPE_Fraction ? 8 : 4);
	if (type == SPA_TYPE_Int)
		call(spav_add_int((int32_t)words[0]));
	else if (type == SPA_TYPE_Long)
		call(spav_add_long((int64_t)wide));
	else if (type == SPA_TYPE_Fd)
		call(spav_add_fd((int64_t)wide));
	else if (type == SPA_TYPE_Double)
		call(spav_call_with(type, 0, 0, wide));
	else
		call(spav_call_of(type, words[0], words[1]));
}

/* The call that adds a whole array, whose elements lie in the input; alone it makes what PipeWire's builder makes of them. */
static void call_array(const struct spa_pod *pod) {
	static uint8_t ours[INPUT], theirs[INPUT];
	uint32_t size = SPA_POD_ARRAY_VALUE_SIZE(pod), type = SPA_POD_ARRAY_VALUE_TYPE(pod), n = size ? SPA_POD_ARRAY_N_VALUES(pod) : 0;
	const void *elements = SPA_POD_ARRAY_VALUES(pod);
	size_t len, at;
	struct spa_pod_builder builder = SPA_POD_BUILDER_INIT(theirs, INPUT);
	struct spav_call whole = spav_add_array(type, (size_t)((const uint8_t *)elements - input), n);
	SEE(spa_pod_builder_array(&builder, size, type, n, elements) == 0 && spav_build(&whole, 1, input, input_len, ours, INPUT, &len, &at) == 0);
	SEE(len == builder.state.offset && !memcmp(ours, theirs, len));
	arrays++;
	call(whole);
}

/* The calls that build a pod; there is none for a bitmap. */
static bool call_pod(const struct spa_pod *pod) {
	static const uint32_t least[] = { 1, 3, 4 };
	const uint8_t *body = SPA_POD_BODY_CONST(pod);
	size_t at = (size_t)(body - input);
	uint32_t n, shape, size = SPA_POD_BODY_SIZE(pod);
	uint64_t address = 0;
	const struct spa_pod *member;
	const struct spa_pod_prop *property;
	bool all = true;
	switch (pod->type) {
	case SPA_TYPE_Bitmap:
		return false;
	case SPA_TYPE_String:
		call(spav_add_string(at, strlen((const char *)body)));
		return true;
	case SPA_TYPE_Bytes:
		call(spav_add_bytes(at, size));
		return true;
	case SPA_TYPE_Pointer:
		memcpy(&address, body + 8, size - 8);
		call(spav_add_pointer(((const struct spa_pod_pointer_body *)body)->type, address));
		return true;
	case SPA_TYPE_Array:
		call_array(pod);
		return true;
	case SPA_TYPE_Choice:
		member = spa_pod_get_values(pod, &n, &shape);
		call(spav_push_choice(shape, shape == SPA_CHOICE_None ? 0 : SPA_POD_CHOICE_FLAGS(pod)));
		for (uint32_t i = 0; i < (shape < SPA_N_ELEMENTS(least) ? SPA_MIN(n, least[shape]) : n); i++)
			call_fixed(member->type, SPA_PTROFF(SPA_POD_BODY_CONST(member), i * member->size, const void));
		break;
	case SPA_TYPE_Struct:
		call(spav_push_struct());
		SPA_POD_STRUCT_FOREACH(pod, member)
			all = call_pod(member) && all;
		break;
	case SPA_TYPE_Object:
		call(spav_push_object(SPA_POD_OBJECT_TYPE(pod), SPA_POD_OBJECT_ID(pod)));
		SPA_POD_OBJECT_FOREACH((const struct spa_pod_object *)pod, property) {
			call(spav_add_prop(property->key, property->flags));
			all = call_pod(&property->value) && all;
		}
		break;
	default:
		call_fixed(pod->type, body);
		return true;
	}
	call(spav_pop());
	return all;
}

/* A pod built again is its rewriting. */
static void see_built(const struct spa_pod *pod, size_t n) {
	static uint8_t ours[INPUT], wanted[INPUT];
	size_t len, wanted_len, at;
	called = 0;
	if (!call_pod(pod))
		return;
	SEE(spav_rewrite(pod, n, wanted, INPUT, &wanted_len, &at) == 0);
	SEE(spav_build(calls, called, input, n, ours, INPUT, &len, &at) == 0 && len == wanted_len && !memcmp(ours, wanted, len));
	built++;
}

int main(void) {
	static uint8_t bytes[INPUT];
	size_t read = 0;
	while (fgets(line, sizeof line, stdin)) {
		size_t n = 0, at;
		uint32_t kind;
		for (unsigned byte; n < INPUT && sscanf(line + 2 * n, "%2x", &byte) == 1; n++)
			bytes[n] = (uint8_t)byte;
		uint8_t *copy = malloc(n ? n : 1);
		if (!copy)
			return 2;
		memcpy(copy, bytes, n);
		input = copy;
		input_len = n;
		const struct spa_pod *pod = (const struct spa_pod *)copy;
		if (spav_read(copy, n, items, INPUT, &count, &kind, &at) == 0 && n) {
			next = 0;
			see_pod(pod, 0, 0, 0);
			SEE(next == count);
			read += count;
			if (pod->type == SPA_TYPE_Object)
				see_values(pod, n);
			see_built(pod, n);
		}
		free(copy);
	}
	printf("reads: %zu items, %zu values under keys agree; %zu pods and %zu arrays are built as PipeWire's\n", read, values, built, arrays);
	return 0;
}
