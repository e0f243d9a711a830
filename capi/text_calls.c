/* Names, and pods as text and back. Numbers and names are PipeWire's, of its headers; the texts are those of docs/TEXT.md. The regions stand at the ends of
 * blocks, so that a sanitizer sees each byte outside of them. */
#include "see.h"

enum { FORMAT = 0x40003, PROPS = 0x40002, MOST = 32 };

struct naming { uint32_t names, type, key, number; const char *name; };

static const struct naming known[] = {
	{ SPAV_NAMES_TYPES, 0, 0, SPAV_TYPE_Int, "Int" },
	{ SPAV_NAMES_TYPES, 7, 7, FORMAT, "Format" },
	{ SPAV_NAMES_SHAPES, 0, 0, SPAV_SHAPE_Range, "Range" },
	{ SPAV_NAMES_CONTROLS, 0, 0, 2, "Midi" },
	{ SPAV_NAMES_KEYS, FORMAT, 0, 0x10003, "rate" },
	{ SPAV_NAMES_KEYS, PROPS, 0, 0x10003, "volume" },
	{ SPAV_NAMES_IDS, FORMAT, 0, 3, "EnumFormat" },
	{ SPAV_NAMES_IDS, PROPS, 0, 2, "Props" },
	{ SPAV_NAMES_VALUES, FORMAT, 1, 1, "audio" },
	{ SPAV_NAMES_VALUES, FORMAT, 0x10001, 259, "S16LE" },
	{ SPAV_NAMES_VALUES, FORMAT, 0x10005, 3, "FL" },
};

static int32_t number_of(const struct naming *of, const char *name, size_t n, uint32_t *number) {
	uint8_t *copy = block(name, n);
	int32_t answer = spav_number(of->names, of->type, of->key, (const char *)copy, n, number);
	free(copy);
	return answer;
}

static void naming(void) {
	char *out = (char *)block("................................", 32);
	size_t len = 99;
	uint32_t number;
	for (const struct naming *it = known; it < known + sizeof known / sizeof *known; it++) {
		const size_t n = strlen(it->name);
		char *exact = (char *)block("................................", n + 1);
		SEE(spav_name(it->names, it->type, it->key, it->number, exact, n, &len) == -ENOSPC && len == n && exact[0] == '.');
		SEE(spav_name(it->names, it->type, it->key, it->number, exact, n + 1, &len) == 0 && len == n && !strcmp(exact, it->name));
		number = 99;
		SEE(number_of(it, it->name, n - 1, &number) == -ENOENT && number == 99);
		SEE(number_of(it, it->name, n, &number) == 0 && number == it->number);
		free(exact);
	}
	SEE(spav_name(SPAV_NAMES_IDS, FORMAT, 0, 3, out, 32, &len) == 0 && len == 10 && !memcmp(out, "EnumFormat\0.....................", 32));
	/* A second name of a number; no number of a name, and no name of a number. */
	SEE(number_of(known + 9, "S16", 3, &number) == 0 && number == 259 && number_of(known + 9, "", 0, &number) == -ENOENT);
	SEE(spav_number(SPAV_NAMES_TYPES, 0, 0, NULL, 0, &number) == -ENOENT && number_of(known, "\xff", 1, &number) == -EINVAL && number == 259);
	SEE(number_of(known, "Int\0", 4, &number) == -ENOENT && number_of(known, "\xc3\xa4", 2, &number) == -ENOENT);
	memset(out, '.', 32);
	len = 99;
	static const struct naming unknown[] = {
		{ SPAV_NAMES_TYPES, 0, 0, 21, "" }, { SPAV_NAMES_SHAPES, 0, 0, 5, "" }, { SPAV_NAMES_CONTROLS, 0, 0, UINT32_MAX, "" },
		{ SPAV_NAMES_KEYS, PROPS, 0, 0x10009999, "" }, { SPAV_NAMES_KEYS, SPAV_TYPE_Int, 0, 1, "" }, { SPAV_NAMES_IDS, 0, 0, 3, "" },
		{ SPAV_NAMES_VALUES, FORMAT, 0x10003, 1, "" }, { SPAV_NAMES_VALUES, FORMAT, 99, 1, "" }, { SPAV_NAMES_VALUES, 0, 1, 1, "" },
		{ SPAV_NAMES_VALUES + 1, FORMAT, 1, 1, "" }, { UINT32_MAX, FORMAT, 1, 1, "" },
	};
	for (const struct naming *it = unknown; it < unknown + sizeof unknown / sizeof *unknown; it++)
		SEE(spav_name(it->names, it->type, it->key, it->number, out, 32, &len) == -ENOENT && len == 99 && out[0] == '.');
	free(out);
}

/* How many of the numbers below `end` have a name, which has to be short and theirs. */
static size_t named(uint32_t names, uint32_t type, uint32_t key, uint32_t end) {
	size_t count = 0;
	for (uint32_t number = 0; number < end; number++) {
		char name[MOST + 1];
		size_t len;
		uint32_t again;
		int32_t answer = spav_name(names, type, key, number, name, sizeof name, &len);
		SEE(answer == 0 || answer == -ENOENT);
		if (answer)
			continue;
		count++;
		SEE(len == strlen(name) && spav_number(names, type, key, name, len, &again) == 0 && again == number);
	}
	return count;
}

/* All names of types, shapes, controls and ids, and those of Props and Formats. PipeWire's headers have 5 shapes, 4 types of controls, and 17 ids of
 * parameters. */
static void naming_all(void) {
	SEE(named(SPAV_NAMES_SHAPES, 0, 0, 100) == 5 && named(SPAV_NAMES_CONTROLS, 0, 0, 100) == 4 && named(SPAV_NAMES_IDS, FORMAT, 0, 100) == 17);
	SEE(named(SPAV_NAMES_TYPES, 0, 0, 0x90000) >= SPAV_TYPE_Pod);
	size_t values = 0;
	for (uint32_t type = PROPS; type <= FORMAT; type++)
		for (uint32_t key = 0; key < 0x90000; key++) {
			char name[MOST + 1];
			size_t len;
			if (spav_name(SPAV_NAMES_KEYS, type, 0, key, name, sizeof name, &len) == 0)
				values += named(SPAV_NAMES_VALUES, type, key, 0x11000);
		}
	SEE(named(SPAV_NAMES_KEYS, PROPS, 0, 0x90000) > 30 && named(SPAV_NAMES_KEYS, FORMAT, 0, 0x90000) > 30 && values > 300);
}

/* A Format and its text; the text of Props with flags. */
static const uint32_t format[] = { 80, 15, FORMAT, 3, 1, 0, 4, 3, 1, 0, 0x10003, 0, 28, 19, 1, 0, 4, 4, 44100, 1, 0x7fffffff, 0 };
static const char format_text[] = "{\"type\":\"Format\",\"id\":\"EnumFormat\",\"props\":{\"mediaType\":\"audio\","
	"\"rate\":{\"choice\":\"Range\",\"values\":[44100,1,2147483647]}}}";
static const uint32_t props[] = { 32, 15, PROPS, 2, 0x10003, 8, 4, 6, 0x3f000000, 0 };
static const char props_text[] = "{\"type\":\"Props\",\"id\":\"Props\",\"props\":{\"volume\":{\"flags\":8,\"value\":0.5}}}";

static void printing(void) {
	const size_t n = sizeof format_text - 1;
	size_t len = 99;
	uint8_t *in = BLOCK(format);
	char *out = (char *)block(props_text, sizeof props_text), *text = malloc(n + 1);
	SEE(text && spav_json(in, sizeof format, text, n, &len) == -ENOSPC && len == n);
	SEE(spav_json(in, sizeof format, NULL, 0, &len) == -ENOSPC && len == n);
	SEE(spav_json(in, sizeof format, text, n + 1, &len) == 0 && len == n && !memcmp(text, format_text, n + 1));
	free(in);
	/* What follows the pod doesn't count; what follows the NUL stays. */
	static const uint32_t seven[] = { 4, 4, 7, 0, 4, 21, 7, 0 };
	SEE(spav_json(seven, sizeof seven, out, sizeof props_text, &len) == 0 && len == 1 && !strcmp(out, "7") && !strcmp(out + 2, props_text + 2));
	len = 99;
	SEE(spav_json(seven, 15, out, 8, &len) == -EINVAL && spav_json(seven + 4, 16, out, 8, &len) == -EINVAL && spav_json(NULL, 0, out, 8, &len) == -EINVAL);
	SEE(len == 99 && !strcmp(out, "7"));
	SEE(spav_json(props, sizeof props, out, sizeof props_text, &len) == 0 && !strcmp(out, props_text));
	SEE(spav_json(NULL, 16, out, 8, &len) == -EFAULT && spav_json(seven, 16, NULL, 8, &len) == -EFAULT);
	SEE(spav_json(out, 16, out + 15, 8, &len) == -EINVAL && len == sizeof props_text - 1);
	free(out);
	free(text);
}

#define FROM(text) from_text(text, sizeof text - 1)

static uint8_t made[256];
static size_t made_len, stopped;

static int32_t from_text(const char *text, size_t n) {
	uint8_t *copy = block(text, n);
	made_len = stopped = 99;
	memset(made, '.', sizeof made);
	int32_t answer = spav_from_json((const char *)copy, n, made, sizeof made, &made_len, &stopped);
	free(copy);
	SEE(answer ? made_len == 99 && made[0] == '.' : stopped == 99 && made[made_len] == '.');
	return answer;
}

static bool is_made(const void *words, size_t n) { return made_len == n && !memcmp(made, words, n); }

static void reading(void) {
	static const uint32_t five[] = { 4, 4, 5, 0 }, text[] = { 5, 8, '5' | 'a' << 8 | 0xa4c30000, 0 }, list[] = { 16, 14, 4, 2, 1, 0 };
	SEE(FROM(format_text) == 0 && is_made(format, sizeof format));
	SEE(FROM(props_text) == 0 && is_made(props, sizeof props));
	SEE(FROM("{\"type\":262146,\"id\":2,\"props\":{\"65539\":{\"flags\":8,\"value\":0.5}}}") == 0 && is_made(props, sizeof props));
	SEE(FROM("5") == 0 && is_made(five, 16) && FROM(" 5\n") == 0 && is_made(five, 16) && FROM("[true]") == 0 && is_made(list, sizeof list));
	SEE(FROM("\"5a\\u00e4\"") == 0 && is_made(text, sizeof text) && FROM("\"5a\xc3\xa4\"") == 0 && is_made(text, sizeof text));
	/* By docs/TEXT.md, up to where each is read: as far as it is UTF-8, up to a key that is none there; a text with NUL not at all. */
	SEE(FROM("\"5a\xff\"") == -EINVAL && stopped == 3 && FROM("") == -EINVAL && stopped == 0);
	SEE(FROM("{\"type\":\"Props\",\"id\":\"Props\",\"props\":{\"volum\":1}}") == -EINVAL && stopped == 46);
	SEE(FROM("\"a\\u0000b\"") == -EINVAL && stopped == 0);
	SEE(FROM("2147483648") == -EINVAL && FROM("[1,]") == -EINVAL && FROM("1 2") == -EINVAL && FROM("{\"array\":\"Int\",\"values\":[\"a\"]}") == -EINVAL);
	SEE(FROM("{\"width\":1,\"heigth\":2}") == -EINVAL && FROM("{\"choice\":\"Range\",\"of\":\"Int\",\"values\":[1,2]}") == -EINVAL);
	/* Too little room. */
	uint8_t out[16] = "...............";
	SEE(spav_from_json("5", 1, out, 15, &made_len, &stopped) == -ENOSPC && made_len == 16 && out[0] == '.');
	SEE(spav_from_json("5", 1, NULL, 0, &made_len, &stopped) == -ENOSPC && spav_from_json("5", 1, out, 16, &made_len, &stopped) == 0 && !memcmp(out, five, 16));
	SEE(spav_from_json(NULL, 16, out, 16, &made_len, &stopped) == -EFAULT && spav_from_json("5", 1, NULL, 16, &made_len, &stopped) == -EFAULT);
	out[15] = '5';
	made_len = 99;
	SEE(spav_from_json((const char *)out + 15, 1, out, 16, &made_len, &stopped) == -EINVAL && made_len == 99 && out[15] == '5');
}

/* Structs 100,000 deep in one another. */
static void going_deep(void) {
	enum { LEVELS = 100000 };
	char *text = malloc(2 * LEVELS), *again = malloc(2 * LEVELS + 1);
	uint32_t *pods = malloc(8 * LEVELS);
	size_t written = 99, len = 99, at = 99;
	SEE(text && again && pods);
	memset(text, '[', LEVELS);
	memset(text + LEVELS, ']', LEVELS);
	SEE(spav_from_json(text, 2 * LEVELS, pods, 8 * LEVELS, &written, &at) == 0 && written == 8 * LEVELS);
	for (uint32_t i = 0; i < LEVELS; i++)
		SEE(pods[2 * i] == 8 * (LEVELS - 1 - i) && pods[2 * i + 1] == SPAV_TYPE_Struct);
	SEE(spav_json(pods, 8 * LEVELS, again, 2 * LEVELS + 1, &len) == 0 && len == 2 * LEVELS && !memcmp(again, text, len) && !again[len]);
	SEE(spav_from_json(text, 2 * LEVELS - 1, pods, 8 * LEVELS, &written, &at) == -EINVAL && at == 2 * LEVELS - 1);
	free(text);
	free(again);
	free(pods);
}

int main(void) {
	naming();
	naming_all();
	printing();
	reading();
	going_deep();
	puts("text_calls: all done");
	return 0;
}
