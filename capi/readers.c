/* What PipeWire's own readers find in bytes, and in their lenient rewriting, is the same: spa_pod_get_string, spa_pod_get_values, spa_pod_parser_getv with each
 * of its forms, and spa_format_audio_raw_parse, on the pod at the front and on all inside it. Each line of the input has a name, bytes, and their
 * rewriting, in hexadecimal digits, with bars between; `-` where nothing is to be rewritten, `=` where it is the library's. So are variants of
 * the bytes, each with one byte changed. Left out is what a rewriting is known to change: values behind those that a shape takes, the form `V` on a choice
 * of shape None, a pointer of 12 bytes, which these readers don't read, and of a truth value which number it is. In what docs/DIFFERENCES.md says that
 * they differ they have to: the form `V`, and spa_pod_filter where one of two sides is rewritten. */
#include <errno.h>
#include <stdio.h>
#include <stdlib.h>
#include <string.h>
#include <spa/param/audio/format-utils.h>
#include <spa/pod/builder.h>
#include <spa/pod/filter.h>
#include <spa/pod/iter.h>
#include <spa/pod/parser.h>
#include "spav.h"

enum { INPUT = 1 << 16, TEXT = 1 << 20 };

/* What was found, as text. */
struct found {
	size_t len;
	char text[TEXT];
};

static struct found in_bytes, in_rewriting;

/* Whether a pointer of 12 bytes was met, and whether pointers are left out. */
static bool has_short_pointer, skips_pointers;

static int32_t rewrite(const void *in, size_t n, void *out, size_t cap, size_t *written, size_t *at) {
	return spav_rewrite_leniently(in, n, out, cap, written, at);
}

#define NOTE(found, ...) ((found)->len += (size_t)snprintf((found)->text + (found)->len, (found)->len < TEXT ? TEXT - (found)->len : 0, __VA_ARGS__))

static void note_bytes(struct found *to, const void *bytes, size_t n) {
	for (size_t i = 0; i < n; i++)
		NOTE(to, "%02x", ((const uint8_t *)bytes)[i]);
}

/* A value of one of the types of fixed size. */
static void note_fixed(struct found *to, uint32_t type, const void *value, uint32_t size) {
	uint32_t truth = 0;
	if (type == SPA_TYPE_Bool && size >= sizeof truth)
		memcpy(&truth, value, sizeof truth);
	if (type == SPA_TYPE_Bool)
		NOTE(to, " %d", truth != 0);
	else {
		NOTE(to, " ");
		note_bytes(to, value, size);
	}
}

static void note_pod(struct found *to, const struct spa_pod *pod, int levels);

/* What each form of the parser finds in a pod. */
static void note_forms(struct found *to, const struct spa_pod *pod) {
	static const char *const forms[] = { "b", "I", "i", "l", "f", "d", "s", "S", "y", "R", "F", "B", "a", "p", "h", "P", "T", "O", "V" };
	for (size_t i = 0; i < SPA_N_ELEMENTS(forms); i++) {
		struct spa_pod_parser parser;
		uint64_t word[4] = { 0 };
		void *values = NULL;
		uint32_t len = 0, type = 0, count = 0;
		char copy[64] = "";
		int answer;
		if (*forms[i] == 'V' && !(spa_pod_is_choice(pod) && SPA_POD_CHOICE_TYPE(pod) != SPA_CHOICE_None))
			continue;
		if (*forms[i] == 'p' && skips_pointers)
			continue;
		spa_pod_parser_init(&parser, pod, (uint32_t)SPA_ROUND_UP_N(SPA_POD_SIZE(pod), 8));
		switch (*forms[i]) {
		case 'S':
			answer = spa_pod_parser_get(&parser, forms[i], copy, (uint32_t)sizeof copy, NULL);
			NOTE(to, "S %d %s\n", answer, copy);
			break;
		case 's':
			answer = spa_pod_parser_get(&parser, forms[i], &values, NULL);
			NOTE(to, "s %d %s\n", answer, values ? (const char *)values : "");
			break;
		case 'y':
			answer = spa_pod_parser_get(&parser, forms[i], &values, &len, NULL);
			NOTE(to, "y %d ", answer);
			note_bytes(to, values, len);
			NOTE(to, "\n");
			break;
		case 'a':
			answer = spa_pod_parser_get(&parser, forms[i], &len, &type, &count, &values, NULL);
			NOTE(to, "a %d %u %u", answer, len, type);
			for (uint32_t at = 0; at < count; at++)
				note_fixed(to, type, SPA_PTROFF(values, at * len, void), len);
			NOTE(to, "\n");
			break;
		case 'p':
			answer = spa_pod_parser_get(&parser, forms[i], &type, &values, NULL);
			NOTE(to, "p %d %u %p\n", answer, type, values);
			break;
		case 'b':
		case 'B':
		case 'P':
		case 'T':
		case 'O':
		case 'V':
			/* Whether something is found: what it is comes elsewhere. */
			answer = spa_pod_parser_get(&parser, forms[i], &word, NULL);
			NOTE(to, "%s %d\n", forms[i], answer);
			break;
		default:
			answer = spa_pod_parser_get(&parser, forms[i], &word, NULL);
			NOTE(to, "%s %d %lu\n", forms[i], answer, word[0]);
		}
	}
}

/* The members of a struct or the properties of an object. */
static void note_inside(struct found *to, const struct spa_pod *pod, int levels) {
	const struct spa_pod *member;
	const struct spa_pod_prop *property;
	struct spa_audio_info_raw info;
	if (spa_pod_is_struct(pod)) {
		SPA_POD_STRUCT_FOREACH(pod, member)
			note_pod(to, member, levels);
	} else if (spa_pod_is_object(pod)) {
		const struct spa_pod_object *object = (const struct spa_pod_object *)pod;
		memset(&info, 0, sizeof info);
		int answer = spa_format_audio_raw_parse(pod, &info);
		NOTE(to, "format %d %u %u %u %u ", answer, info.format, info.flags, info.rate, info.channels);
		note_bytes(to, info.position, sizeof info.position);
		NOTE(to, "\nobject %u %u\n", object->body.type, object->body.id);
		SPA_POD_OBJECT_FOREACH(object, property) {
			NOTE(to, "key %u %u\n", property->key, property->flags);
			note_pod(to, &property->value, levels);
		}
	}
}

/* All that is found in a pod. */
static void note_pod(struct found *to, const struct spa_pod *pod, int levels) {
	static const uint32_t least[] = { 1, 3, 4 };
	uint32_t count, shape;
	const char *text = NULL;
	const struct spa_pod *value = spa_pod_get_values(pod, &count, &shape);
	int answer = spa_pod_get_string(value, &text);
	/* Of an empty body C counts 0 values in a choice, and 1 outside of one. */
	count = SPA_POD_BODY_SIZE(value) == 0 ? 0 : count;
	count = shape < SPA_N_ELEMENTS(least) ? SPA_MIN(count, least[shape]) : count;
	has_short_pointer |= SPA_POD_TYPE(value) == SPA_TYPE_Pointer && SPA_POD_BODY_SIZE(value) == 12;
	NOTE(to, "pod of type %u, shape %u, string %d %s, values %u", SPA_POD_TYPE(value), shape, answer, text ? text : "", count);
	switch (SPA_POD_TYPE(value)) {
	case SPA_TYPE_String:
	case SPA_TYPE_Struct:
	case SPA_TYPE_Object:
	case SPA_TYPE_Array:
	case SPA_TYPE_Pointer:
		break;
	default:
		for (uint32_t i = 0; i < count; i++)
			note_fixed(to, SPA_POD_TYPE(value), SPA_PTROFF(SPA_POD_BODY(value), i * SPA_POD_BODY_SIZE(value), void), SPA_POD_BODY_SIZE(value));
	}
	NOTE(to, "\n");
	note_forms(to, pod);
	if (levels)
		note_inside(to, value, levels - 1);
}

/* Notes what is found in each of the pods, each in a block of its own. */
static void note_all(struct found *to, const uint8_t *bytes, size_t n) {
	struct spav_walk walk = spav_walk_pods(bytes, n);
	struct spav_pod pod;
	to->len = 0;
	while (spav_next(&walk, &pod)) {
		void *copy = malloc(pod.whole);
		if (!copy)
			exit(2);
		memcpy(copy, pod.bytes, pod.whole);
		note_pod(to, copy, 64);
		free(copy);
	}
}

/* Compares what is found in the two; ends the program where that differs. */
static void compare(const char *name, const uint8_t *bytes, size_t n, const uint8_t *rewriting, size_t m) {
	has_short_pointer = skips_pointers = false;
	note_all(&in_bytes, bytes, n);
	if (has_short_pointer) {
		skips_pointers = true;
		note_all(&in_bytes, bytes, n);
	}
	note_all(&in_rewriting, rewriting, m);
	if (in_bytes.len >= TEXT || in_bytes.len != in_rewriting.len || memcmp(in_bytes.text, in_rewriting.text, in_bytes.len)) {
		printf("readers: %s: in the bytes\n%s\nin their rewriting\n%s\n", name, in_bytes.text, in_rewriting.text);
		exit(1);
	}
}

/* Ends the program where the readers answer otherwise than docs/DIFFERENCES.md says. */
static void differ(bool as_said, const char *what) {
	if (!as_said) {
		printf("readers: %s: not as docs/DIFFERENCES.md says\n", what);
		exit(1);
	}
}

/* The lenient rewriting of words, in memory of its own. */
static struct spa_pod *rewriting_of(const uint32_t *words, size_t n) {
	struct spa_pod *out = malloc(n);
	size_t written, at;
	if (!out || rewrite(words, n, out, n, &written, &at))
		exit(2);
	return out;
}

/* Whether spa_pod_filter gives an object of two, in which the text under a key is this one. */
static bool is_filtered(const void *pod, const void *filter, const char *wanted) {
	uint8_t room[256];
	struct spa_pod_builder builder = SPA_POD_BUILDER_INIT(room, sizeof room);
	struct spa_pod *both = NULL;
	const char *text = NULL;
	int answer = spa_pod_filter(&builder, &both, pod, filter);
	differ(answer == 0 || answer == -EINVAL, "spa_pod_filter has another answer");
	if (answer)
		return false;
	differ(spa_pod_parse_object(both, 5, NULL, 1, SPA_POD_String(&text)) == 1 && !strcmp(text, wanted), "spa_pod_filter finds another text");
	return true;
}

/* What docs/DIFFERENCES.md says that C's readers find otherwise in a lenient rewriting. */
static void compare_differences(void) {
	/* An object of type 5 and id 3 with the text "ab" under 1, with one NUL behind it in a body of three bytes or with more in one of eight. */
	static const uint32_t padded[] = { 32, 15, 5, 3, 1, 0, 8, 8, 0x6261, 0 }, exact[] = { 32, 15, 5, 3, 1, 0, 3, 8, 0x6261, 0 };
	/* A None choice over an Array of two Ids. */
	static const uint32_t choice[] = { 32, 19, 0, 0, 16, 13, 4, 3, 3, 4 };
	struct spa_pod *rewritten = rewriting_of(padded, sizeof padded), *array = rewriting_of(choice, sizeof choice);
	differ(!memcmp(rewritten, exact, sizeof exact), "another rewriting of the padded text");
	differ(is_filtered(padded, padded, "ab") && is_filtered(rewritten, rewritten, "ab"), "spa_pod_filter refuses two sides that are alike");
	differ(!is_filtered(padded, rewritten, "ab") && !is_filtered(rewritten, padded, "ab"), "spa_pod_filter takes a rewriting beside what was sent");
	const struct spa_pod *found = NULL;
	struct spa_pod_parser parser;
	spa_pod_parser_init(&parser, choice, sizeof choice);
	differ(spa_pod_parser_get(&parser, "V", &found, NULL) == 1 && found, "the form V finds no choice");
	spa_pod_parser_init(&parser, array, (uint32_t)SPA_POD_SIZE(array));
	differ(spa_pod_parser_get(&parser, "V", &found, NULL) < 0, "the form V finds a choice in an array");
	free(rewritten);
	free(array);
}

/* The bytes that hexadecimal digits spell. */
static size_t bytes_of(const char *digits, uint8_t *bytes) {
	size_t n = 0;
	for (unsigned byte; n < INPUT && sscanf(digits + 2 * n, "%2x", &byte) == 1; n++)
		bytes[n] = (uint8_t)byte;
	return n;
}

int main(void) {
	static char line[4 * INPUT];
	static uint8_t bytes[INPUT], wanted[INPUT], out[INPUT];
	static const uint8_t changes[] = { 0x01, 0x02, 0x08, 0x10, 0x80, 0xff };
	size_t rows = 0, accepted = 0, variants = 0, accepted_variants = 0;
	compare_differences();
	while (fgets(line, sizeof line, stdin)) {
		const char *name = strtok(line, "|"), *digits = strtok(NULL, "|"), *spelled = strtok(NULL, "|\n");
		size_t n = bytes_of(digits, bytes), written = 0, at = 0;
		bool is_given = strcmp(spelled, "=") && strcmp(spelled, "-");
		int32_t answer = rewrite(bytes, n, out, sizeof out, &written, &at);
		rows++;
		if (is_given) {
			size_t m = bytes_of(spelled, wanted);
			accepted++;
			compare(name, bytes, n, wanted, m);
			if (answer || written != m || memcmp(out, wanted, m)) {
				printf("readers: %s: another rewriting\n", name);
				return 1;
			}
		} else if (*spelled == '-' && answer != -EINVAL) {
			printf("readers: %s: it is rewritten\n", name);
			return 1;
		} else if (answer == 0) {
			accepted++;
			compare(name, bytes, n, out, written);
		}
		for (size_t i = 0; i < n; i++)
			for (size_t k = 0; k < SPA_N_ELEMENTS(changes); k++) {
				bytes[i] ^= changes[k];
				variants++;
				if (rewrite(bytes, n, out, sizeof out, &written, &at) == 0) {
					accepted_variants++;
					compare(name, bytes, n, out, written);
				}
				bytes[i] ^= changes[k];
			}
	}
	printf("readers: %zu rows, %zu of them rewritten; %zu variants, %zu of them rewritten\n", rows, accepted, variants, accepted_variants);
	return 0;
}
