// A plain copy of as many bytes as a stereo file of one hour has at 16000 Hz, into memory that is new at each turn; and
// the same of one of 23 minutes at 48000 Hz, which then is changed to 44100 Hz into other new memory.
#include <stdint.h>
#include <stdio.h>
#include <stdlib.h>
#include <string.h>
#include <time.h>

enum { TURNS = 5, BYTES = 230400000, FILE_BYTES = 264960000 };

// The rates of the file and of the script, which are known only when the program runs.
static volatile uint32_t file_rate = 48000, script_rate = 44100;

static int64_t now(void) {
    struct timespec t;
    clock_gettime(CLOCK_PROCESS_CPUTIME_ID, &t);
    return (int64_t)t.tv_sec * 1000000000 + t.tv_nsec;
}

// The stereo file of so many blocks at another rate, by linear interpolation.
static void change(uint32_t from, uint32_t to, const int16_t *file, size_t blocks, int16_t *into, size_t length) {
    size_t block = 0;
    uint32_t part = 0;
    for (size_t j = 0; j < length; j++) {
        size_t next = block + 1 < blocks ? block + 1 : blocks - 1;
        for (size_t side = 0; side < 2; side++) {
            int64_t before = file[2 * block + side], behind = file[2 * next + side];
            into[2 * j + side] = (int16_t)((before * (int64_t)(to - part) + behind * (int64_t)part) / (int64_t)to);
        }
        block += from / to;
        part += from % to;
        if (part >= to) {
            part -= to;
            block++;
        }
    }
}

int main(void) {
    uint8_t *file = malloc(FILE_BYTES);
    if (!file) return 1;
    for (size_t at = 0; at < FILE_BYTES; at++) file[at] = (uint8_t)at;
    int64_t least = INT64_MAX, changed = INT64_MAX;
    volatile uint8_t seen = 0;
    for (int turn = 0; turn < TURNS; turn++) {
        int64_t start = now();
        uint8_t *copy = malloc(BYTES);
        if (!copy) return 1;
        memcpy(copy, file, BYTES);
        seen += copy[(size_t)turn * 1000003];
        free(copy);
        int64_t taken = now() - start;
        if (taken < least) least = taken;
    }
    uint32_t from = file_rate, to = script_rate;
    size_t blocks = FILE_BYTES / 4, length = blocks * to / from;
    for (int turn = 0; turn < TURNS; turn++) {
        int64_t start = now();
        int16_t *copy = malloc(FILE_BYTES);
        if (!copy) return 1;
        memcpy(copy, file, FILE_BYTES);
        int16_t *into = malloc(length * 4);
        if (!into) return 1;
        change(from, to, copy, blocks, into, length);
        free(copy);
        seen += (uint8_t)into[(size_t)turn * 1000003];
        free(into);
        int64_t taken = now() - start;
        if (taken < changed) changed = taken;
    }
    printf("load one hour of %d\t%d\tbytes\t%lld\n", BYTES, BYTES, (long long)least);
    printf("change 23 minutes of %d\t%d\tbytes\t%lld\n", FILE_BYTES, FILE_BYTES, (long long)changed);
    return 0;
}
