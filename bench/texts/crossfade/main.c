// The same crossfade in plain C: two rings of cells, fed and emptied one slot at a time.
#include <stdbool.h>
#include <stdint.h>
#include <stdio.h>
#include <stdlib.h>
#include <time.h>

enum { TRACK = 132300, OVERLAP = 44100, STEPS = 60000000 };

struct cell {
    int16_t left, right;
    bool first;
};

struct ring {
    struct cell *cells;
    uint32_t room, start, count;
};

static struct ring held, next;
static uint32_t ready, whole;

static void push(struct ring *ring, struct cell cell) {
    uint32_t at = ring->start + ring->count;
    if (at >= ring->room) at -= ring->room;
    ring->cells[at] = cell;
    ring->count++;
}
static void pop(struct ring *ring) {
    if (++ring->start == ring->room) ring->start = 0;
    ring->count--;
}
static struct cell front(const struct ring *ring) { return ring->cells[ring->start]; }

static void feed(struct cell cell) {
    if (next.count > 0 && cell.first) {
        whole = next.count;
        ready = held.count;
        push(&held, cell);
    } else if (next.count > 0 || (cell.first && held.count > 0)) {
        push(&next, cell);
        if (next.count == held.count) {
            whole = next.count;
            ready = held.count;
        }
    } else {
        push(&held, cell);
        if (held.count > OVERLAP) ready = 1;
    }
}
static int16_t mixed(int16_t a, int16_t b, uint32_t at) {
    return (int16_t)((a * (int64_t)(whole - at) + b * (int64_t)at) / (int64_t)whole);
}
static struct cell offer(void) {
    struct cell a = front(&held);
    if (next.count < ready) return a;
    struct cell b = front(&next);
    uint32_t at = whole - next.count;
    return (struct cell){mixed(a.left, b.left, at), mixed(a.right, b.right, at), at == 0};
}
static void advance(void) {
    if (next.count == ready) pop(&next);
    pop(&held);
    ready--;
}

static int64_t now(void) {
    struct timespec t;
    clock_gettime(CLOCK_PROCESS_CPUTIME_ID, &t);
    return (int64_t)t.tv_sec * 1000000000 + t.tv_nsec;
}

int main(void) {
    held.room = OVERLAP + 1;
    next.room = OVERLAP;
    held.cells = malloc(held.room * sizeof(struct cell));
    next.cells = malloc(next.room * sizeof(struct cell));
    int64_t start = now(), sum = 0, items = 0;
    uint32_t at = 0;
    for (uint32_t step = 0; step < STEPS; step++) {
        if (ready == 0) {
            int16_t sample = (int16_t)(uint16_t)step;
            feed((struct cell){sample, sample, at == 0});
            at = at + 1 < TRACK ? at + 1 : 0;
        } else {
            struct cell cell = offer();
            sum += cell.left + cell.right;
            items++;
            advance();
        }
    }
    printf("crossfade\t%lld\titems, sum %lld\t%lld\n", (long long)items, (long long)sum, (long long)(now() - start));
    return 0;
}
