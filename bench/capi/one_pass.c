/* A second implementation of rewriting, by hand: the whole grammar of docs/FORMAT.md is checked and the values are written in one pass, with no
 * tree and no memory. The measures compare the proved library with it, and the fuzzer asks both. Nothing of it is proved. */
#include <stdint.h>
#include <string.h>
#include <stddef.h>
#define UP8(n) (((n) + 7) & ~(uint64_t)7)
static inline uint32_t rd(const uint8_t *p) { uint32_t x; memcpy(&x, p, 4); return x; }
static inline uint64_t rd8(const uint8_t *p) { uint64_t x; memcpy(&x, p, 8); return x; }
static inline void wr(uint8_t *p, uint32_t x) { memcpy(p, &x, 4); }
static inline void wr2(uint8_t *p, uint32_t a, uint32_t b) { uint64_t x = a | (uint64_t)b << 32; memcpy(p, &x, 8); }
/* the size of a kind of fixed size, by its type; 255: the type is another one */
static const uint8_t fsize[32] = { 255, 0, 4, 4, 4, 8, 4, 8, 255, 255, 8, 8, 255, 255, 255, 255, 255, 255, 8, 255, 255, 255, 255, 255, 255, 255, 255, 255, 255, 255, 255, 255 };
static inline uint32_t fs(uint32_t t) { return t < 32 ? fsize[t] : 255; }
/* how many values a choice has at least, by its shape */
static const uint8_t least[5] = { 1, 3, 4, 1, 1 };
/* whether the text is UTF-8 without NUL */
static int utf8(const uint8_t *p, size_t n) {
	size_t i = 0;
	while (i < n) {
		while (i + 8 <= n) { uint64_t w = rd8(p + i); if ((w & 0x8080808080808080ull) || ((w - 0x0101010101010101ull) & ~w & 0x8080808080808080ull)) break; i += 8; }
		if (i >= n) break;
		uint8_t c = p[i];
		if (c - 1u < 0x7f) { i++; continue; }
		if (c < 0xc2 || c > 0xf4) return 0;
		if (c < 0xe0) { if (n - i < 2 || (p[i + 1] & 0xc0) != 0x80) return 0; i += 2; }
		else if (c < 0xf0) { if (n - i < 3 || (p[i + 1] & 0xc0) != 0x80 || (p[i + 2] & 0xc0) != 0x80) return 0;
			if ((c == 0xe0 && p[i + 1] < 0xa0) || (c == 0xed && p[i + 1] > 0x9f)) return 0;
			i += 3; }
		else { if (n - i < 4 || (p[i + 1] & 0xc0) != 0x80 || (p[i + 2] & 0xc0) != 0x80 || (p[i + 3] & 0xc0) != 0x80) return 0;
			if ((c == 0xf0 && p[i + 1] < 0x90) || (c == 0xf4 && p[i + 1] > 0x8f)) return 0;
			i += 4; }
	}
	return 1;
}
static void vals(uint8_t *o, const uint8_t *v, uint64_t bytes, uint32_t t) {
	if (t != 2) { memcpy(o, v, bytes); return; }
	for (uint64_t i = 0; i < bytes; i += 4) wr(o + i, rd(v + i) != 0);
}
/* how many bytes the pod at b takes, of n that are there, or 0 where it is refused; *w are written at o */
static uint64_t pod(const uint8_t *b, uint64_t n, uint8_t *o, uint64_t *w) {
	if (n < 8) return 0;
	uint32_t size = rd(b), t = rd(b + 4); uint64_t e = 8 + UP8((uint64_t)size);
	if (n < e) return 0;
	const uint8_t *v = b + 8; uint32_t f = fs(t);
	if (f != 255) {
		if (size != f) return 0;
		wr2(o, size, t);
		if (f == 8) memcpy(o + 8, v, 8); else if (f == 4) wr2(o + 8, t == 2 ? rd(v) != 0 : rd(v), 0);
		*w = e; return e;
	}
	switch (t) {
	case 8: if (size == 0 || v[size - 1] != 0 || !utf8(v, size - 1)) return 0; /* fall through */
	case 9: case 12: wr2(o, size, t); if (size & 7) memset(o + e - 8, 0, 8); memcpy(o + 8, v, size); *w = e; return e;
	case 13: {
		if (size < 8) return 0;
		uint32_t ct = rd(v + 4), cs = fs(ct);
		if (cs == 255 || rd(v) != cs || (cs == 0 ? size != 8 : (size & (cs - 1)) != 0)) return 0;
		wr2(o, size, t); if (size & 7) memset(o + e - 8, 0, 8); memcpy(o + 8, v, 8); vals(o + 16, v + 8, size - 8, ct); *w = e; return e; }
	case 19: {
		if (size < 16) return 0;
		uint32_t k = rd(v), ct = rd(v + 12), cs = fs(ct);
		if (k > 4 || ct == 1 || cs == 255 || rd(v + 8) != cs || (size & (cs - 1)) != 0) return 0;
		uint64_t have = size - 16, need = (uint64_t)least[k] * cs;
		if (have < need) return 0;
		if (k <= 2) have = need;
		uint64_t we = 8 + UP8(16 + have);
		wr2(o, 16 + have, t); wr2(o + 8, k, k ? rd(v + 4) : 0); wr2(o + 16, cs, ct); if (have & 7) memset(o + we - 8, 0, 8); vals(o + 24, v + 16, have, ct); *w = we; return e; }
	case 14: case 15: {
		uint64_t i = 0, j = 0, x, y;
		if (t == 15) { if (size < 8) return 0; memcpy(o + 8, v, 8); i = j = 8; }
		while (i < size) {
			if (t == 15) { if (size - i < 8) return 0; memcpy(o + 8 + j, v + i, 8); i += 8; j += 8; }
			x = pod(v + i, size - i, o + 8 + j, &y); if (!x) return 0; i += x; j += y;
		}
		wr2(o, j, t); *w = 8 + j; return e; }
	case 17:
		if (size != 12 && size != 16) return 0;
		wr2(o, 16, 17); wr2(o + 8, rd(v), 0); { uint64_t p = size == 12 ? rd(v + 8) : rd8(v + 8); memcpy(o + 16, &p, 8); } *w = 24; return e;
	}
	return 0;
}
/* Writes the rewritings of all pods to `out`, which has n bytes at least, and gives their length; SIZE_MAX where one is refused. */
size_t one_pass(const uint8_t *in, size_t n, uint8_t *out);
size_t one_pass(const uint8_t *in, size_t n, uint8_t *out) {
	size_t i = 0, j = 0; uint64_t y;
	while (i < n) { uint64_t x = pod(in + i, n - i, out + j, &y); if (!x) return SIZE_MAX; i += x; j += y; }
	return j;
}
