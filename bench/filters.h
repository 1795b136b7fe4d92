/* Filters by branches of taps, as many 16-bit samples at a time as the processor takes that it is compiled for. */
#include <immintrin.h>
#include "wav.h"

#if defined __AVX512BW__
typedef __m512i Lanes;
enum { LANES = 32 };
#define none _mm512_setzero_si512
#define load(place) _mm512_loadu_si512(place)
#define products _mm512_madd_epi16
#define sums _mm512_add_epi32

static inline __m128i halves(Lanes a) {
    __m256i low = _mm512_castsi512_si256(a), high = _mm512_extracti64x4_epi64(a, 1);
    __m512i wide = _mm512_add_epi64(_mm512_cvtepi32_epi64(low), _mm512_cvtepi32_epi64(high));
    __m256i half = _mm256_add_epi64(_mm512_castsi512_si256(wide), _mm512_extracti64x4_epi64(wide, 1));
    return _mm_add_epi64(_mm256_castsi256_si128(half), _mm256_extracti128_si256(half, 1));
}
#elif defined __AVX2__
typedef __m256i Lanes;
enum { LANES = 16 };
#define none _mm256_setzero_si256
#define load(place) _mm256_loadu_si256((const __m256i *)(place))
#define products _mm256_madd_epi16
#define sums _mm256_add_epi32

static inline __m128i halves(Lanes a) {
    __m128i low = _mm256_castsi256_si128(a), high = _mm256_extracti128_si256(a, 1);
    __m256i wide = _mm256_add_epi64(_mm256_cvtepi32_epi64(low), _mm256_cvtepi32_epi64(high));
    return _mm_add_epi64(_mm256_castsi256_si128(wide), _mm256_extracti128_si256(wide, 1));
}
#else
typedef __m128i Lanes;
enum { LANES = 8 };
#define none _mm_setzero_si128
#define load(place) _mm_loadu_si128((const __m128i *)(place))
#define products _mm_madd_epi16
#define sums _mm_add_epi32

static inline __m128i halves(Lanes a) {
    return _mm_add_epi64(_mm_cvtepi32_epi64(a), _mm_cvtepi32_epi64(_mm_srli_si128(a, 8)));
}
#endif

/* A filter by branches: the taps of each phase, the last one first, after zeros that fill up to whole lanes. Within a
 * stretch of the first branch no lane's sum passes 32 bits, whatever the samples are; `ends` is where each ends. */
typedef struct {
    Filter f;
    int width, quiet, stretches, ends[256];
    int16_t *taps;
} Branches;

/* Whether the lanes of a stretch have room for the taps at `place`, which are added to them. */
static int has_room(int64_t *lanes, const int16_t *taps) {
    int room = 1;
    for (int l = 0; l < LANES; l++) {
        lanes[l / 2] += labs(taps[l]);
        room &= lanes[l / 2] * 32768 <= INT32_MAX;
    }
    return room;
}

static Branches branches_of(Filter f) {
    Branches b = {.f = f, .width = ((f.many + f.up - 1) / f.up + LANES - 1) / LANES * LANES, .quiet = 1};
    b.taps = zeros(sizeof *b.taps * b.width * f.up);
    for (int p = 0; p < f.up; p++) {
        int64_t lanes[LANES / 2] = {0};
        for (int k = p, i = b.width - 1; k < f.many; k += f.up, i--) b.taps[p * b.width + i] = f.taps[k];
        for (int j = 0; j < b.width; j += LANES) b.quiet &= has_room(lanes, b.taps + p * b.width + j);
    }
    int64_t lanes[LANES / 2] = {0};
    for (int j = 0; j < b.width; j += LANES) {
        if (has_room(lanes, b.taps + j)) continue;
        b.ends[b.stretches++] = j;
        memset(lanes, 0, sizeof lanes);
        if (!has_room(lanes, b.taps + j)) fail("two taps of -32,768 in a lane");
    }
    b.ends[b.stretches++] = b.width;
    return b;
}

static inline __m128i two_sums(Lanes a, Lanes b, __m128i half, int shift) {
    __m128i c = halves(a), d = halves(b);
    __m128i all = _mm_add_epi64(_mm_unpacklo_epi64(c, d), _mm_unpackhi_epi64(c, d));
    return _mm_srli_epi64(_mm_add_epi64(all, half), shift);
}

static inline Lanes more(Lanes sum, const int16_t *x, const int16_t *h) {
    return sums(sum, products(load(x), load(h)));
}

/* Whether all outputs have 16 bits. */
static inline int run_narrow(const Branches *b, const int16_t *x, int16_t *y, long outputs) {
    int up = b->f.up, down = b->f.down, shift = b->f.shift, width = b->width, loud = 0;
    __m128i half = _mm_set1_epi64x(shift ? 1LL << (shift - 1) : 0);
    for (int q = 0; q < up; q++) {
        const int16_t *h = b->taps + q * down % up * width, *p = x + q * down / up + 1;
        long n = q;
        for (; n + 3L * up < outputs; n += 4L * up, p += 4L * down) {
            Lanes s0 = none(), s1 = s0, s2 = s0, s3 = s0;
            for (int j = 0; j < width; j += LANES) {
                s0 = more(s0, p + j, h + j);
                s1 = more(s1, p + down + j, h + j);
                s2 = more(s2, p + 2 * down + j, h + j);
                s3 = more(s3, p + 3 * down + j, h + j);
            }
            __m128i a = two_sums(s0, s1, half, shift), c = two_sums(s2, s3, half, shift);
            int32_t r0 = _mm_cvtsi128_si32(a), r1 = _mm_extract_epi32(a, 2);
            int32_t r2 = _mm_cvtsi128_si32(c), r3 = _mm_extract_epi32(c, 2);
            loud |= ((r0 + 32768) | (r1 + 32768) | (r2 + 32768) | (r3 + 32768)) & ~65535;
            y[n] = r0;
            y[n + up] = r1;
            y[n + 2L * up] = r2;
            y[n + 3L * up] = r3;
        }
        for (; n < outputs; n += up, p += down) {
            int64_t sum = 0;
            for (int j = 0; j < width; j++) sum += (int32_t)h[j] * p[j];
            int32_t r = settled(sum, shift);
            loud |= (r + 32768) & ~65535;
            y[n] = r;
        }
    }
    return !loud;
}

static inline int64_t total(__m128i a) {
    return _mm_cvtsi128_si64(a) + _mm_extract_epi64(a, 1);
}

/* All outputs in 32 bits, of a filter that makes one of each sample. */
static inline void run_wide_sums(const Branches *b, const int16_t *x, int32_t *y, long outputs) {
    const int16_t *h = b->taps, *p = x + 1;
    long n = 0;
    for (; n + 3 < outputs; n += 4, p += 4) {
        __m128i t0 = _mm_setzero_si128(), t1 = t0, t2 = t0, t3 = t0;
        for (int s = 0, j = 0; s < b->stretches; s++) {
            Lanes s0 = none(), s1 = s0, s2 = s0, s3 = s0;
            for (; j < b->ends[s]; j += LANES) {
                s0 = more(s0, p + j, h + j);
                s1 = more(s1, p + 1 + j, h + j);
                s2 = more(s2, p + 2 + j, h + j);
                s3 = more(s3, p + 3 + j, h + j);
            }
            t0 = _mm_add_epi64(t0, halves(s0));
            t1 = _mm_add_epi64(t1, halves(s1));
            t2 = _mm_add_epi64(t2, halves(s2));
            t3 = _mm_add_epi64(t3, halves(s3));
        }
        y[n] = settled(total(t0), b->f.shift);
        y[n + 1] = settled(total(t1), b->f.shift);
        y[n + 2] = settled(total(t2), b->f.shift);
        y[n + 3] = settled(total(t3), b->f.shift);
    }
    for (; n < outputs; n++, p++) {
        int64_t sum = 0;
        for (int j = 0; j < b->width; j++) sum += (int32_t)h[j] * p[j];
        y[n] = settled(sum, b->f.shift);
    }
}

/* The samples of one channel behind so many zeros. */
static inline int16_t *behind(long older, Sound in) {
    int16_t *x = zeros(2 * (older + in.frames));
    memcpy(x + older, in.samples, 2 * in.frames);
    return x;
}
