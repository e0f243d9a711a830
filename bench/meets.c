/* meets CALL PAIR ROUNDS: makes one call so many times on a pair of objects of five properties, and prints the size of what it came to.
   CALL is none, filter, which is spa_pod_filter, fixate, which fixates what it answers, or pods, which writes the two pods for
   `meets` of meets.rt.txt. PAIR is choices, where both sides have choices, one, where the second is plain, or plain; video, two cameras'
   formats with Ranges of sizes and rates; or one of those that don't meet, for which 0 is printed: media, audio beside video, and last,
   whose last two values are apart. It may also be met or refused, 200 pairs of objects of 88 to 112 bytes that do meet, or don't, for each of
   which the call is made. */
#include <stdio.h>
#include <stdlib.h>
#include <string.h>
#include <spa/pod/builder.h>
#include <spa/pod/filter.h>
#include <spa/pod/iter.h>
#include <spa/param/audio/format.h>
#include <spa/param/buffers.h>
#include <spa/param/video/format.h>

#define OBJECT(b, ...) spa_pod_builder_add_object(b, SPA_TYPE_OBJECT_Format, SPA_PARAM_EnumFormat, \
	SPA_FORMAT_mediaType, SPA_POD_Id(SPA_MEDIA_TYPE_audio), SPA_FORMAT_mediaSubtype, SPA_POD_Id(SPA_MEDIA_SUBTYPE_raw), __VA_ARGS__)

static struct spa_pod *ours(struct spa_pod_builder *b)
{
	return OBJECT(b,
		SPA_FORMAT_AUDIO_format, SPA_POD_CHOICE_ENUM_Id(4, SPA_AUDIO_FORMAT_S16, SPA_AUDIO_FORMAT_S16, SPA_AUDIO_FORMAT_S32, SPA_AUDIO_FORMAT_F32),
		SPA_FORMAT_AUDIO_rate, SPA_POD_CHOICE_RANGE_Int(44100, 1, 192000),
		SPA_FORMAT_AUDIO_channels, SPA_POD_CHOICE_RANGE_Int(2, 1, 64));
}

static struct spa_pod *theirs(struct spa_pod_builder *b)
{
	return OBJECT(b,
		SPA_FORMAT_AUDIO_format, SPA_POD_CHOICE_ENUM_Id(4, SPA_AUDIO_FORMAT_F32, SPA_AUDIO_FORMAT_F32, SPA_AUDIO_FORMAT_S24, SPA_AUDIO_FORMAT_S16),
		SPA_FORMAT_AUDIO_rate, SPA_POD_CHOICE_RANGE_Int(48000, 8000, 96000),
		SPA_FORMAT_AUDIO_channels, SPA_POD_CHOICE_RANGE_Int(2, 2, 8));
}

static struct spa_pod *fixed(struct spa_pod_builder *b)
{
	return OBJECT(b,
		SPA_FORMAT_AUDIO_format, SPA_POD_Id(SPA_AUDIO_FORMAT_S16),
		SPA_FORMAT_AUDIO_rate, SPA_POD_Int(48000), SPA_FORMAT_AUDIO_channels, SPA_POD_Int(2));
}

static struct spa_pod *many(struct spa_pod_builder *b)
{
	return OBJECT(b,
		SPA_FORMAT_AUDIO_format, SPA_POD_CHOICE_ENUM_Id(4, SPA_AUDIO_FORMAT_F32, SPA_AUDIO_FORMAT_F32, SPA_AUDIO_FORMAT_S24, SPA_AUDIO_FORMAT_S16),
		SPA_FORMAT_AUDIO_rate, SPA_POD_CHOICE_RANGE_Int(48000, 8000, 96000),
		SPA_FORMAT_AUDIO_channels, SPA_POD_Int(100));
}

static struct spa_pod *camera(struct spa_pod_builder *b, uint32_t layout, uint32_t width, uint32_t rate)
{
	return spa_pod_builder_add_object(b, SPA_TYPE_OBJECT_Format, SPA_PARAM_EnumFormat,
		SPA_FORMAT_mediaType, SPA_POD_Id(SPA_MEDIA_TYPE_video), SPA_FORMAT_mediaSubtype, SPA_POD_Id(SPA_MEDIA_SUBTYPE_raw),
		SPA_FORMAT_VIDEO_format, SPA_POD_CHOICE_ENUM_Id(3, layout, layout, SPA_VIDEO_FORMAT_I420),
		SPA_FORMAT_VIDEO_size, SPA_POD_CHOICE_RANGE_Rectangle(&SPA_RECTANGLE(width, 480), &SPA_RECTANGLE(160, 120), &SPA_RECTANGLE(1920, 1080)),
		SPA_FORMAT_VIDEO_framerate, SPA_POD_CHOICE_RANGE_Fraction(&SPA_FRACTION(rate, 1), &SPA_FRACTION(1, 1), &SPA_FRACTION(60, 1)));
}

enum { PAIRS = 200 };

/* A Range of rates beside an Int; an Enum of formats beside an Id; Ranges of numbers of buffers; Ints and Ids alone. Of those that don't meet
   half are apart before their last key, most of these at the first, and half at the last. */
static struct spa_pod *small(struct spa_pod_builder *b, int i, int is_second, int is_apart)
{
	int apart_at_first = is_apart && is_second && i / 4 % 2, apart_at_last = is_apart && is_second && !apart_at_first;
	uint32_t media = apart_at_first ? SPA_MEDIA_TYPE_video : SPA_MEDIA_TYPE_audio;
	int rate = apart_at_last ? 200000 : 8000 + 100 * i;
	switch (i % 4) {
	case 0:
		if (is_second)
			return spa_pod_builder_add_object(b, SPA_TYPE_OBJECT_Format, SPA_PARAM_EnumFormat, SPA_FORMAT_mediaType, SPA_POD_Id(media),
				SPA_FORMAT_mediaSubtype, SPA_POD_Id(SPA_MEDIA_SUBTYPE_raw), SPA_FORMAT_AUDIO_rate, SPA_POD_Int(rate));
		return spa_pod_builder_add_object(b, SPA_TYPE_OBJECT_Format, SPA_PARAM_EnumFormat, SPA_FORMAT_mediaType, SPA_POD_Id(media),
			SPA_FORMAT_mediaSubtype, SPA_POD_Id(SPA_MEDIA_SUBTYPE_raw), SPA_FORMAT_AUDIO_rate, SPA_POD_CHOICE_RANGE_Int(rate, 1, 192000));
	case 1:
		if (is_second)
			return spa_pod_builder_add_object(b, SPA_TYPE_OBJECT_Format, SPA_PARAM_EnumFormat, SPA_FORMAT_mediaType, SPA_POD_Id(media),
				SPA_FORMAT_mediaSubtype, SPA_POD_Id(SPA_MEDIA_SUBTYPE_raw),
				SPA_FORMAT_AUDIO_format, SPA_POD_Id(apart_at_last ? SPA_AUDIO_FORMAT_U8 : SPA_AUDIO_FORMAT_S16));
		return spa_pod_builder_add_object(b, SPA_TYPE_OBJECT_Format, SPA_PARAM_EnumFormat, SPA_FORMAT_mediaType, SPA_POD_Id(media),
			SPA_FORMAT_mediaSubtype, SPA_POD_Id(SPA_MEDIA_SUBTYPE_raw),
			SPA_FORMAT_AUDIO_format, SPA_POD_CHOICE_ENUM_Id(3, SPA_AUDIO_FORMAT_F32, SPA_AUDIO_FORMAT_F32, SPA_AUDIO_FORMAT_S16));
	case 2:
		return spa_pod_builder_add_object(b, SPA_TYPE_OBJECT_ParamBuffers, SPA_PARAM_Buffers,
			SPA_PARAM_BUFFERS_buffers, SPA_POD_CHOICE_RANGE_Int(8 + i % 8, is_second ? 2 : 4, 32),
			SPA_PARAM_BUFFERS_size, SPA_POD_Int(apart_at_first ? 7 : 4096), SPA_PARAM_BUFFERS_stride, SPA_POD_Int(apart_at_last ? 7 : 4));
	default:
		return spa_pod_builder_add_object(b, SPA_TYPE_OBJECT_Format, SPA_PARAM_EnumFormat, SPA_FORMAT_mediaType, SPA_POD_Id(media),
			SPA_FORMAT_mediaSubtype, SPA_POD_Id(SPA_MEDIA_SUBTYPE_raw), SPA_FORMAT_AUDIO_rate, SPA_POD_Int(rate));
	}
}

static struct spa_pod *first_of(struct spa_pod_builder *b, const char *pair)
{
	if (!strcmp(pair, "video")) return camera(b, SPA_VIDEO_FORMAT_YUY2, 640, 30);
	return strcmp(pair, "plain") ? ours(b) : fixed(b);
}

static struct spa_pod *second_of(struct spa_pod_builder *b, const char *pair)
{
	if (!strcmp(pair, "video") || !strcmp(pair, "media")) return camera(b, SPA_VIDEO_FORMAT_NV12, 800, 25);
	if (!strcmp(pair, "last")) return many(b);
	return strcmp(pair, "choices") ? fixed(b) : theirs(b);
}

static size_t call_once(struct spa_pod *a, struct spa_pod *b, int filters, int fixates)
{
	static uint64_t room[512];
	struct spa_pod *met = a;
	if (filters) {
		struct spa_pod_builder out = SPA_POD_BUILDER_INIT(room, sizeof room);
		if (spa_pod_filter(&out, &met, a, b) < 0) return 0;
		if (fixates) spa_pod_fixate(met);
	}
	return SPA_POD_SIZE(met);
}

int main(int count, char **words)
{
	static uint64_t room[PAIRS][2][512];
	struct spa_pod *pairs[PAIRS][2];
	if (count != 4) return 2;
	const char *call = words[1], *pair = words[2];
	int is_apart = !strcmp(pair, "refused"), many_pairs = is_apart || !strcmp(pair, "met"), length = many_pairs ? PAIRS : 1;
	for (int i = 0; i < length; i++) {
		for (int side = 0; side < 2; side++) {
			struct spa_pod_builder b = SPA_POD_BUILDER_INIT(room[i][side], sizeof room[i][side]);
			pairs[i][side] = many_pairs ? small(&b, i, side, is_apart) : side ? second_of(&b, pair) : first_of(&b, pair);
			if (!strcmp(call, "pods")) fwrite(pairs[i][side], SPA_POD_SIZE(pairs[i][side]), 1, stdout);
		}
	}
	if (!strcmp(call, "pods")) return 0;
	int filters = strcmp(call, "none"), fixates = !strcmp(call, "fixate");
	size_t size = 0;
	for (long left = atol(words[3]); left > 0; left--) {
		size = 0;
		for (int i = 0; i < length; i++) size += call_once(pairs[i][0], pairs[i][1], filters, fixates);
	}
	printf("%zu\n", size);
	return 0;
}
