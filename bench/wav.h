/* Canonical WAV files of 16-bit samples, read and written whole, and how sums become samples. */
#include <stdint.h>
#include <stdio.h>
#include <stdlib.h>
#include <string.h>

typedef struct {
    int channels;
    uint32_t rate;
    long frames;
    int16_t *samples;
} Sound;

typedef struct {
    int up, down, shift, many;
    const int *taps;
} Filter;

static void fail(const char *why) {
    fprintf(stderr, "%s\n", why);
    exit(1);
}

static void *zeros(size_t bytes) {
    void *place = calloc(1, bytes ? bytes : 1);
    if (!place) fail("no memory");
    return place;
}

static Sound read_sound(const char *path) {
    FILE *file = fopen(path, "rb");
    unsigned char head[44];
    if (!file || fread(head, 1, 44, file) != 44) fail("no WAV file");
    Sound sound;
    uint32_t size;
    sound.channels = head[22];
    memcpy(&sound.rate, head + 24, 4);
    memcpy(&size, head + 40, 4);
    sound.frames = size / 2 / sound.channels;
    sound.samples = zeros(size);
    if (fread(sound.samples, 1, size, file) != size) fail("too short");
    fclose(file);
    return sound;
}

static void write_sound(const char *path, Sound sound) {
    uint32_t size = 2 * sound.channels * sound.frames, whole = 36 + size, second = 2 * sound.channels * sound.rate;
    unsigned char head[44] = "RIFF....WAVEfmt \x10\0\0\0\x01\0";
    memcpy(head + 4, &whole, 4);
    head[22] = sound.channels;
    memcpy(head + 24, &sound.rate, 4);
    memcpy(head + 28, &second, 4);
    head[32] = 2 * sound.channels;
    head[34] = 16;
    memcpy(head + 36, "data", 4);
    memcpy(head + 40, &size, 4);
    FILE *file = fopen(path, "wb");
    if (!file || fwrite(head, 1, 44, file) != 44 || fwrite(sound.samples, 1, size, file) != size || fclose(file)) {
        fail("not written");
    }
}

static inline int32_t saturated(int64_t sum) {
    return sum > INT32_MAX ? INT32_MAX : sum < INT32_MIN ? INT32_MIN : (int32_t)sum;
}

static inline int32_t settled(int64_t sum, int shift) {
    return saturated(shift ? (sum + (1LL << (shift - 1))) >> shift : sum);
}

static inline int16_t clamped(int32_t sample) {
    return sample > 32767 ? 32767 : sample < -32768 ? -32768 : sample;
}
