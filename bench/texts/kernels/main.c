// The loops of the sample kernels in plain C, timed on the same samples.
#include <stdint.h>
#include <stdio.h>
#include <string.h>
#include <time.h>

enum { LENGTH = 1764, PASSES = 20000, SAMPLES = 35280000, EIGHTS = 4400000 };

static int16_t left[LENGTH], right[LENGTH], into[LENGTH];
static uint8_t bytes[4 * LENGTH], wide[6 * LENGTH];
static int32_t sum[LENGTH];
static volatile uint32_t unknown_length = 44100;
static volatile int unknown = 0;
static int32_t eight_sums[8] = {60000, -7, 0, 5, 90000, -98304, 1, 2};
static uint16_t eight_by[8] = {2, 3, 3, 7, 3, 3, 1, 2};

static int16_t clamped(int64_t n) { return n < -32768 ? -32768 : n > 32767 ? 32767 : (int16_t)n; }

__attribute__((noinline)) static void scale(int64_t millionths, const int16_t *from, int16_t *to, size_t n) {
    int64_t most = 32768000000;
    if (millionths > most) millionths = most;
    if (millionths < -most) millionths = -most;
    for (size_t i = 0; i < n; i++) to[i] = clamped(from[i] * millionths / 1000000);
}
__attribute__((noinline)) static void halves(const int16_t *l, const int16_t *r, int16_t *to, size_t n) {
    for (size_t i = 0; i < n; i++) to[i] = (int16_t)((l[i] + r[i]) / 2);
}
__attribute__((noinline)) static void mix(const int16_t *a, const int16_t *b, uint32_t start, uint32_t whole, int16_t *to, size_t n) {
    for (size_t i = 0; i < n; i++) {
        int64_t at = start + i;
        to[i] = (int16_t)((a[i] * ((int64_t)whole - at) + b[i] * at) / (int64_t)whole);
    }
}
__attribute__((noinline)) static void encode(const int16_t *l, const int16_t *r, uint8_t *to, size_t n) {
    for (size_t i = 0; i < n; i++) {
        to[4 * i] = (uint8_t)l[i];
        to[4 * i + 1] = (uint8_t)((uint16_t)l[i] >> 8);
        to[4 * i + 2] = (uint8_t)r[i];
        to[4 * i + 3] = (uint8_t)((uint16_t)r[i] >> 8);
    }
}
static void lay_wide(int16_t sample, uint8_t *to) {
    to[0] = 0;
    to[1] = (uint8_t)sample;
    to[2] = (uint8_t)((uint16_t)sample >> 8);
}
__attribute__((noinline)) static void encode_wide(const int16_t *l, const int16_t *r, uint8_t *to, size_t n) {
    for (size_t i = 0; i < n; i++) {
        lay_wide(l[i], to + 6 * i);
        lay_wide(r[i], to + 6 * i + 3);
    }
}
__attribute__((noinline)) static void encode_wide_mono(const int16_t *samples, uint8_t *to, size_t n) {
    for (size_t i = 0; i < n; i++) lay_wide(samples[i], to + 3 * i);
}
__attribute__((noinline)) static void decode_wide(const uint8_t *from, int16_t *to, size_t n) {
    for (size_t i = 0; i < n; i++) to[i] = (int16_t)(uint16_t)(from[3 * i + 1] | from[3 * i + 2] << 8);
}
__attribute__((noinline)) static void divide(const int32_t *s, const uint16_t *d, int16_t *to, size_t n) {
    for (size_t i = 0; i < n; i++) to[i] = (int16_t)(s[i] / d[i]);
}
__attribute__((noinline)) static void add_into(int32_t *s, const int16_t *part, size_t n) {
    for (size_t i = 0; i < n; i++) s[i] += part[i];
}
__attribute__((noinline)) static void clamp_all(const int32_t *s, int16_t *to, size_t n) {
    for (size_t i = 0; i < n; i++) to[i] = clamped(s[i]);
}

static void fill(int16_t *samples, uint32_t state) {
    for (size_t i = 0; i < LENGTH; i++) {
        state = state * 1664525u + 1013904223u;
        samples[i] = (int16_t)(uint16_t)(state >> 16);
    }
}

static int64_t now(void) {
    struct timespec t;
    clock_gettime(CLOCK_PROCESS_CPUTIME_ID, &t);
    return (int64_t)t.tv_sec * 1000000000 + t.tv_nsec;
}

static void tell(const char *name, int64_t start, int64_t count, const int16_t *samples, size_t n) {
    int64_t taken = now() - start, total = 0;
    for (size_t i = 0; i < n; i++) total += samples[i];
    printf("%s\t%lld\tsamples, sum %lld\t%lld\n", name, (long long)count, (long long)total, (long long)taken);
}

int main(void) {
    fill(left, 7);
    fill(right, 11);
    int64_t start = now();
    for (int pass = 0; pass < PASSES; pass++) scale(700000 + pass, left, into, LENGTH);
    tell("scale", start, SAMPLES, into, LENGTH);
    start = now();
    for (int pass = 0; pass < PASSES; pass++) halves(left, right, into, LENGTH);
    tell("halves", start, SAMPLES, into, LENGTH);
    start = now();
    uint32_t whole = unknown_length;
    for (int pass = 0; pass < PASSES; pass++) mix(left, right, (uint32_t)pass, whole, into, LENGTH);
    tell("mix", start, SAMPLES, into, LENGTH);
    start = now();
    whole = 44100 + unknown_length;
    for (int pass = 0; pass < PASSES; pass++) mix(left, right, (uint32_t)pass, whole, into, LENGTH);
    tell("long_mix", start, SAMPLES, into, LENGTH);
    start = now();
    for (int pass = 0; pass < PASSES; pass++) encode(left, right, bytes, LENGTH);
    tell("encode", start, SAMPLES, left, LENGTH);
    start = now();
    for (int pass = 0; pass < PASSES; pass++) encode_wide(left, right, wide, LENGTH);
    tell("encode_wide", start, SAMPLES, left, LENGTH);
    start = now();
    for (int pass = 0; pass < PASSES; pass++) encode_wide_mono(left, wide, LENGTH);
    tell("wide_mono", start, SAMPLES, left, LENGTH);
    start = now();
    for (int pass = 0; pass < PASSES; pass++) decode_wide(wide, into, LENGTH);
    tell("decode_wide", start, SAMPLES, into, LENGTH);
    start = now();
    eight_sums[7] += unknown;
    eight_by[7] += unknown;
    for (int pass = 0; pass < EIGHTS; pass++) {
        divide(eight_sums, eight_by, into, 8);
        __asm__ volatile("" : : "r"(into) : "memory");
    }
    tell("divide", start, EIGHTS * 8LL, into, 8);
    start = now();
    for (int pass = 0; pass < PASSES; pass++) {
        memset(sum, 0, sizeof sum);
        add_into(sum, left, LENGTH);
    }
    tell("add_into", start, SAMPLES, left, LENGTH);
    start = now();
    for (int pass = 0; pass < PASSES; pass++) clamp_all(sum, into, LENGTH);
    tell("clamp_all", start, SAMPLES, into, LENGTH);
    return 0;
}
