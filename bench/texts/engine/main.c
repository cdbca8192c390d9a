// The same sounds in plain C: one file, and the sum of 20 amplified files, rendered into memory tick by tick.
#include <stdint.h>
#include <stdio.h>
#include <stdlib.h>
#include <string.h>
#include <time.h>

enum { TURNS = 10, TICKS = 100, FRAME = 1764, SAMPLES = 176400, FILES = 20, TRACK = 132300 };

static int16_t files[FILES][2 * TRACK];
static uint32_t at[FILES];
static int16_t tick[2 * FRAME];
static uint8_t piece[4 * FRAME];

static int16_t clamped(int64_t n) { return n < -32768 ? -32768 : n > 32767 ? 32767 : (int16_t)n; }

// The next sample of a file, which is played again and again.
static const int16_t *next(int file) {
    const int16_t *sample = &files[file][2 * at[file]];
    if (++at[file] == TRACK) at[file] = 0;
    return sample;
}

static void one_file(void) {
    for (int i = 0; i < FRAME; i++) {
        const int16_t *sample = next(0);
        tick[2 * i] = sample[0];
        tick[2 * i + 1] = sample[1];
    }
}

static void amplified_sum(void) {
    for (int i = 0; i < FRAME; i++) {
        int64_t left = 0, right = 0;
        for (int k = 0; k < FILES; k++) {
            const int16_t *sample = next(k);
            left += clamped((int64_t)sample[0] * 50000 / 1000000);
            right += clamped((int64_t)sample[1] * 50000 / 1000000);
        }
        tick[2 * i] = clamped(left);
        tick[2 * i + 1] = clamped(right);
    }
}

static void encode(void) {
    for (int i = 0; i < 2 * FRAME; i++) {
        piece[2 * i] = (uint8_t)tick[i];
        piece[2 * i + 1] = (uint8_t)((uint16_t)tick[i] >> 8);
    }
}

static int64_t now(void) {
    struct timespec t;
    clock_gettime(CLOCK_PROCESS_CPUTIME_ID, &t);
    return (int64_t)t.tv_sec * 1000000000 + t.tv_nsec;
}

static void measure(const char *name, void (*make)(void)) {
    int64_t least = INT64_MAX;
    uint64_t sum = 0;
    for (int turn = 0; turn < TURNS; turn++) {
        memset(at, 0, sizeof at);
        int64_t start = now();
        uint8_t *bytes = malloc(4 * SAMPLES);
        for (int k = 0; k < TICKS; k++) {
            make();
            encode();
            memcpy(bytes + 4 * FRAME * k, piece, sizeof piece);
        }
        int64_t taken = now() - start;
        if (taken < least) least = taken;
        sum = 0;
        for (int i = 0; i < 4 * SAMPLES; i++) sum += bytes[i];
        free(bytes);
    }
    printf("%s\t%d\tsamples, sum %llu\t%lld\n", name, SAMPLES, (unsigned long long)sum, (long long)least);
}

int main(void) {
    for (uint32_t k = 0; k < FILES; k++) {
        uint32_t state = k;
        for (int i = 0; i < 2 * TRACK; i++) {
            state = state * 1664525u + 1013904223u;
            files[k][i] = (int16_t)(uint16_t)(state >> 16);
        }
    }
    measure("one file", one_file);
    measure("sum of 20 amplified files", amplified_sum);
    return 0;
}
