// The sounds of the scripts of bench/station in plain C: exact arithmetic, loops over the samples of a tick, and a write for
// each tick. `station NUMBER SECONDS SIDES` writes c.wav, mono or stereo, and for two clocks d.wav beside it.
#include <fcntl.h>
#include <stdint.h>
#include <stdio.h>
#include <stdlib.h>
#include <string.h>
#include <sys/stat.h>
#include <unistd.h>

enum { FRAME = 1764, RATE = 44100, OTHER = 48000, FILES = 20, FADE = 44100, LEAVES = 30, SUMS = 20, PICKS = 19 };
enum { LOOPED = 1, SUM, CROSSFADE, SWITCHED, GRAPH, WIDE, ROTATE, RATED, JOINED };

// A file of one channel, and how far it is played.
struct file {
    int16_t *samples;
    size_t count, at;
};

// The sides of a tick; a mono one has the left side alone.
struct lanes {
    int16_t left[FRAME], right[FRAME];
};

static struct file long_file, short_file, wide_file, other_file, tracks[FILES];
static struct lanes tick, other, leaves[LEAVES], sums[SUMS], picks[PICKS];
static int32_t sum_left[FRAME], sum_right[FRAME];
static int sides = 2;

static int16_t clamped(int64_t n) { return n < -32768 ? -32768 : n > 32767 ? 32767 : (int16_t)n; }

static struct file opened(const char *name) {
    struct stat found;
    int from = open(name, O_RDONLY);
    if (from < 0 || fstat(from, &found) != 0) exit(2);
    uint8_t *bytes = malloc((size_t)found.st_size);
    if (!bytes || read(from, bytes, (size_t)found.st_size) != found.st_size) exit(2);
    close(from);
    struct file file = {(int16_t *)(bytes + 44), ((size_t)found.st_size - 44) / 2, 0};
    return file;
}

// A file of 24 bits, of whose samples the upper two bytes are kept.
static struct file opened_wide(const char *name) {
    struct file file = opened(name);
    const uint8_t *bytes = (const uint8_t *)file.samples;
    size_t count = 2 * file.count / 3;
    int16_t *samples = malloc(2 * count);
    if (!samples) exit(2);
    for (size_t i = 0; i < count; i++) samples[i] = (int16_t)(bytes[3 * i + 1] | bytes[3 * i + 2] << 8);
    free(file.samples - 22);
    return (struct file){samples, count, 0};
}

// So many samples of a file, which is played again and again, on each side.
static void play(struct file *file, int16_t *left, int16_t *right, size_t many) {
    while (many > 0) {
        size_t step = file->count - file->at < many ? file->count - file->at : many;
        memcpy(left, file->samples + file->at, 2 * step);
        if (sides == 2) memcpy(right, file->samples + file->at, 2 * step);
        left += step, right += step, many -= step;
        file->at = (file->at + step) % file->count;
    }
}

static void amplify(int64_t millionths, struct lanes *lanes) {
    for (int i = 0; i < FRAME; i++) lanes->left[i] = clamped(lanes->left[i] * millionths / 1000000);
    if (sides == 2)
        for (int i = 0; i < FRAME; i++) lanes->right[i] = clamped(lanes->right[i] * millionths / 1000000);
}

static void begin_sum(void) {
    memset(sum_left, 0, sizeof sum_left);
    if (sides == 2) memset(sum_right, 0, sizeof sum_right);
}

static void add(const struct lanes *lanes) {
    for (int i = 0; i < FRAME; i++) sum_left[i] += lanes->left[i];
    if (sides == 2)
        for (int i = 0; i < FRAME; i++) sum_right[i] += lanes->right[i];
}

static void end_sum(struct lanes *lanes) {
    for (int i = 0; i < FRAME; i++) lanes->left[i] = clamped(sum_left[i]);
    if (sides == 2)
        for (int i = 0; i < FRAME; i++) lanes->right[i] = clamped(sum_right[i]);
}

static void one_file(long now) { (void)now, play(&long_file, tick.left, tick.right, FRAME); }

static void one_wide_file(long now) { (void)now, play(&wide_file, tick.left, tick.right, FRAME); }

static void looped(long now) { (void)now, play(&short_file, tick.left, tick.right, FRAME); }

static void sum_of_20(long now) {
    (void)now;
    begin_sum();
    for (int k = 0; k < FILES; k++) {
        play(&tracks[k], other.left, other.right, FRAME);
        amplify(50000, &other);
        add(&other);
    }
    end_sum(&tick);
}

// Each track but for its last second, and that second mixed with the first one of the next track.
static void crossfaded(long now) {
    static int track = 0;
    (void)now;
    for (size_t done = 0; done < FRAME;) {
        struct file *from = &tracks[track], *to = &tracks[(track + 1) % FILES];
        size_t border = from->at < from->count - FADE ? from->count - FADE : from->count;
        size_t step = border - from->at < FRAME - done ? border - from->at : FRAME - done;
        int16_t *left = tick.left + done, *right = tick.right + done;
        if (border < from->count) {
            play(from, left, right, step);
        } else {
            const int16_t *falling = from->samples + from->at, *rising = to->samples + to->at;
            int64_t start = (int64_t)to->at, whole = FADE;
            for (size_t i = 0; i < step; i++) {
                int64_t at = start + (int64_t)i;
                left[i] = (int16_t)((falling[i] * (whole - at) + rising[i] * at) / whole);
            }
            for (size_t i = 0; sides == 2 && i < step; i++) {
                int64_t at = start + (int64_t)i;
                right[i] = (int16_t)((falling[i] * (whole - at) + rising[i] * at) / whole);
            }
            from->at += step, to->at += step;
            if (from->at == from->count) from->at = 0, track = (track + 1) % FILES;
        }
        done += step;
    }
}

// The long file from 22h to 6h, the short one at other times; ticks begin at midnight.
static void switched(long now) {
    long hour = now / 25 / 3600 % 24;
    struct file *file = hour >= 22 || hour < 6 ? &long_file : &short_file;
    play(file, tick.left, tick.right, FRAME);
}

static void graph(long now) {
    (void)now;
    static struct file played[LEAVES];
    if (!played[0].samples)
        for (int k = 0; k < LEAVES; k++) played[k] = tracks[k % FILES];
    for (int k = 0; k < LEAVES; k++) {
        play(&played[k], leaves[k].left, leaves[k].right, FRAME);
        amplify(100000, &leaves[k]);
    }
    for (int k = 0; k < SUMS; k++) {
        begin_sum();
        add(&leaves[k]);
        add(&leaves[(k + 1) % LEAVES]);
        end_sum(&sums[k]);
    }
    for (int k = 0; k < PICKS; k++) {
        memcpy(picks[k].left, sums[k].left, sizeof sums[k].left);
        if (sides == 2) memcpy(picks[k].right, sums[k].right, sizeof sums[k].right);
    }
    begin_sum();
    for (int k = 0; k < PICKS; k++) add(&picks[k]);
    end_sum(&tick);
}

// Each track whole, one after another.
static void rotated(long now) {
    static int track = 0;
    (void)now;
    for (size_t done = 0; done < FRAME;) {
        struct file *from = &tracks[track];
        size_t step = from->count - from->at < FRAME - done ? from->count - from->at : FRAME - done;
        play(from, tick.left + done, tick.right + done, step);
        if (from->at == 0) track = (track + 1) % FILES;
        done += step;
    }
}

// A file of another rate: each sample lies between two of the file.
static void rated(long now) {
    for (int64_t i = 0; i < FRAME; i++) {
        int64_t place = (now * FRAME + i) * OTHER, part = place % RATE;
        size_t at = (size_t)(place / RATE), behind = at + 1 < other_file.count ? at + 1 : at;
        tick.left[i] = (int16_t)((other_file.samples[at] * (RATE - part) + other_file.samples[behind] * part) / RATE);
    }
    if (sides == 2) memcpy(tick.right, tick.left, sizeof tick.left);
}

// The tick in bytes, of three a sample in a wide output; how many they are.
static size_t encoded(int wide, uint8_t *bytes) {
    if (!wide && sides == 1) {
        for (int i = 0; i < FRAME; i++) {
            bytes[2 * i] = (uint8_t)tick.left[i];
            bytes[2 * i + 1] = (uint8_t)((uint16_t)tick.left[i] >> 8);
        }
        return 2 * FRAME;
    }
    if (sides == 1) {
        for (int i = 0; i < FRAME; i++) {
            bytes[3 * i] = 0;
            bytes[3 * i + 1] = (uint8_t)tick.left[i];
            bytes[3 * i + 2] = (uint8_t)((uint16_t)tick.left[i] >> 8);
        }
        return 3 * FRAME;
    }
    if (!wide) {
        for (int i = 0; i < FRAME; i++) {
            bytes[4 * i] = (uint8_t)tick.left[i];
            bytes[4 * i + 1] = (uint8_t)((uint16_t)tick.left[i] >> 8);
            bytes[4 * i + 2] = (uint8_t)tick.right[i];
            bytes[4 * i + 3] = (uint8_t)((uint16_t)tick.right[i] >> 8);
        }
        return 4 * FRAME;
    }
    for (int i = 0; i < FRAME; i++) {
        bytes[6 * i] = 0;
        bytes[6 * i + 1] = (uint8_t)tick.left[i];
        bytes[6 * i + 2] = (uint8_t)((uint16_t)tick.left[i] >> 8);
        bytes[6 * i + 3] = 0;
        bytes[6 * i + 4] = (uint8_t)tick.right[i];
        bytes[6 * i + 5] = (uint8_t)((uint16_t)tick.right[i] >> 8);
    }
    return 6 * FRAME;
}

static void put(uint8_t *bytes, uint32_t number) {
    for (int i = 0; i < 4; i++) bytes[i] = (uint8_t)(number >> 8 * i);
}

static int created(const char *name, long ticks, int wide) {
    uint8_t head[44];
    int block = sides * (wide ? 3 : 2);
    uint32_t size = (uint32_t)(ticks * FRAME * block);
    memcpy(head, "RIFF....WAVEfmt \x10\0\0\0\1\0\2\0........\4\0\x10\0data....", 44);
    head[22] = (uint8_t)sides, head[32] = (uint8_t)block, head[34] = wide ? 24 : 16;
    put(head + 4, size + 36), put(head + 24, RATE), put(head + 28, (uint32_t)block * RATE), put(head + 40, size);
    int to = open(name, O_WRONLY | O_CREAT | O_TRUNC, 0644);
    if (to < 0 || write(to, head, 44) != 44) exit(2);
    return to;
}

static void open_tracks(void) {
    for (int k = 0; k < FILES; k++) {
        char name[20];
        snprintf(name, sizeof name, "t%d.wav", k);
        tracks[k] = opened(name);
    }
}

// The files of a script, and no others.
static void load(int number) {
    switch (number) {
    case SUM: case CROSSFADE: case GRAPH: case ROTATE: open_tracks(); break;
    case LOOPED: short_file = opened("short.wav"); break;
    case SWITCHED: short_file = opened("short.wav"), long_file = opened("long.wav"), open_tracks(); break;
    case WIDE: wide_file = opened_wide("wide.wav"); break;
    case RATED: other_file = opened("other.wav"); break;
    default: long_file = opened("long.wav");
    }
}

int main(int count, char **words) {
    static void (*const made[])(long) = {one_file, looped, sum_of_20, crossfaded, switched, graph, one_wide_file, rotated, rated, one_file};
    static uint8_t bytes[6 * FRAME];
    static struct lanes queued;
    if (count != 4) return 2;
    int number = atoi(words[1]), wide = number == WIDE;
    long ticks = atol(words[2]) * 25;
    sides = atoi(words[3]);
    load(number);
    int to = created("c.wav", ticks, wide), beside = number == JOINED ? created("d.wav", ticks, wide) : -1;
    for (long now = 0; now < ticks; now++) {
        made[number](now);
        size_t size = encoded(wide, bytes);
        if (write(to, bytes, size) != (ssize_t)size) return 2;
        if (beside < 0) continue;
        memcpy(&queued, &tick, sizeof tick);
        memcpy(&tick, &queued, sizeof tick);
        size = encoded(wide, bytes);
        if (write(beside, bytes, size) != (ssize_t)size) return 2;
    }
    return close(to) != 0 || (beside >= 0 && close(beside) != 0);
}
