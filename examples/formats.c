/* Prints what the formats among the pods on standard input say, as a recorder asks it: media type, sample format, rate and channel positions, by numbers.
 * Built over the installed library by: cc formats.c -o formats $(pkg-config --cflags --libs spav) */
#include <errno.h>
#include <inttypes.h>
#include <stdio.h>
#include <stdlib.h>
#include <spav.h>

enum { TYPE_FORMAT = 0x40003, ID_ENUM_FORMAT = 3, ID_FORMAT = 4 };

/* The properties that are printed: keys of PipeWire's <spa/param/format.h>. */
static const struct { uint32_t key; const char *name; } printed[] = {
	{ 1, "media type" }, { 2, "media subtype" }, { 0x10001, "sample format" }, { 0x10003, "rate" }, { 0x10004, "channels" }, { 0x10005, "positions" },
};

static void print_number(const struct spav_item *item) {
	if (item->type == SPAV_TYPE_Int)
		printf(" %" PRId32, (int32_t)item->first);
	else
		printf(" %" PRIu64, item->first);
}

/* Prints the value of a property; what is inside it follows its item. */
static void print_value(const char *name, const struct spav_item *value) {
	static const char *const shapes[] = { "", " (default, least, most)", " (default, least, most, step)", " (default, alternatives)", " (default, flags)" };
	printf("  %s:", name);
	if (value->type == SPAV_TYPE_Array || value->type == SPAV_TYPE_Choice)
		for (uint64_t i = 1; i <= value->second; i++)
			print_number(value + i);
	else
		print_number(value);
	puts(value->type == SPAV_TYPE_Choice ? shapes[value->first] : "");
}

static void print_formats(const struct spav_item *items, size_t count) {
	size_t inside = 0; /* how deep the properties of the format are at which the loop is, or 0 */
	for (size_t i = 0; i < count; i++) {
		if (items[i].depth < inside)
			inside = 0;
		if (items[i].type == SPAV_TYPE_Object && items[i].first == TYPE_FORMAT && (items[i].second == ID_ENUM_FORMAT || items[i].second == ID_FORMAT)) {
			puts(items[i].second == ID_FORMAT ? "Format" : "EnumFormat");
			inside = items[i].depth + 1;
		}
		for (size_t k = 0; k < sizeof printed / sizeof *printed && items[i].depth == inside; k++)
			if (items[i].key == printed[k].key)
				print_value(printed[k].name, &items[i]);
	}
}

int main(void) {
	static uint8_t in[1 << 20];
	size_t n = fread(in, 1, sizeof in, stdin), len, count, at;
	uint32_t kind;
	/* Daemons send what isn't pods, as positions in a None choice. Bytes that convey no value stay as they are; the read below names their fault. */
	int32_t answer = spav_rewrite_in_place_leniently(in, n, &len, &at);
	if (answer == -ENOMEM)
		return 2;
	if (answer == 0)
		n = len;
	answer = spav_read(in, n, NULL, 0, &count, &kind, &at);
	if (answer == -EINVAL)
		fprintf(stderr, "byte %zu: %s\n", at, spav_fault_text(kind));
	if (answer != -ENOSPC)
		return answer != 0;
	struct spav_item *items = (struct spav_item *)calloc(count, sizeof *items);
	if (!items || spav_read(in, n, items, count, &count, &kind, &at))
		return 2;
	print_formats(items, count);
	free(items);
	return 0;
}
