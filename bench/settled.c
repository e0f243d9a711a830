/* settled plain|choices < OBJECTS: what bench/settled.rt.txt does, with PipeWire's own inline functions (libspa-0.2-dev): spa_pod_find_prop, and
 * spa_pod_get_id or spa_pod_get_int of the value; with `choices`, of what spa_pod_get_values gives of it. */
#include <spa/param/audio/format.h>
#include <spa/pod/iter.h>
#include <stdio.h>
#include <string.h>

static const struct spa_pod *value_of(const struct spa_pod *pod, uint32_t key, int choices)
{
    const struct spa_pod_prop *prop = spa_pod_find_prop(pod, NULL, key);
    uint32_t count, shape;
    if (!prop)
        return NULL;
    if (!choices)
        return &prop->value;
    return spa_pod_get_values(&prop->value, &count, &shape);
}

static uint32_t id(const struct spa_pod *pod, uint32_t key, int choices)
{
    const struct spa_pod *value = value_of(pod, key, choices);
    uint32_t id;
    return value && spa_pod_get_id(value, &id) == 0 ? id : 0;
}

static uint32_t number(const struct spa_pod *pod, uint32_t key, int choices)
{
    const struct spa_pod *value = value_of(pod, key, choices);
    int32_t number;
    return value && spa_pod_get_int(value, &number) == 0 ? (uint32_t)number : 0;
}

static inline uint32_t sum(const struct spa_pod *pod, int choices)
{
    return id(pod, SPA_FORMAT_mediaType, choices) + id(pod, SPA_FORMAT_mediaSubtype, choices) + id(pod, SPA_FORMAT_AUDIO_format, choices)
        + number(pod, SPA_FORMAT_AUDIO_rate, choices) + number(pod, SPA_FORMAT_AUDIO_channels, choices);
}

int main(int count, char **words)
{
    static uint64_t room[1 << 20];
    size_t len = fread(room, 1, sizeof room, stdin);
    const struct spa_pod *pod = (const struct spa_pod *)room;
    uint32_t all = 0;
    if (count < 2)
        return 1;
    int choices = strcmp(words[1], "choices") == 0;
    for (; len >= sizeof *pod && len >= SPA_ROUND_UP_N(SPA_POD_SIZE(pod), 8); pod = spa_pod_next(pod)) {
        len -= SPA_ROUND_UP_N(SPA_POD_SIZE(pod), 8);
        all += choices ? sum(pod, 1) : sum(pod, 0);
    }
    printf("%u\n", all);
    return 0;
}
