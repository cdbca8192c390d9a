/* Times offers of selections over eight children that come and go, one in eight changing at each instant. */
#include <stdbool.h>
#include <stdint.h>
#include <stdio.h>
#include <time.h>

#define TURNS 10
#define OFFERS 2000000u
#define CHILDREN 8
#define NONE UINT32_MAX

struct slot {
    bool there;
    int16_t left, right;
    bool first;
};

struct picked {
    bool there;
    uint32_t child;
    struct slot cell;
};

struct selection {
    bool turns, sensitive;
    uint32_t children, last;
};

static uint32_t ready_from(const struct slot *offers, const bool *eligible, uint32_t from, uint32_t children) {
    for (uint32_t child = from; child < children; child++)
        if ((!eligible || eligible[child]) && offers[child].there) return child;
    return NONE;
}

static bool plays_on(const struct slot *offers, uint32_t child) { return offers[child].there && !offers[child].first; }

static uint32_t pick(const struct selection *s, const struct slot *offers, const bool *eligible) {
    if (!s->turns) {
        if (s->sensitive && s->last != NONE && plays_on(offers, s->last)) return s->last;
        return ready_from(offers, eligible, 0, s->children);
    }
    if (s->last == NONE) return ready_from(offers, NULL, 0, s->children);
    if (s->last + 1 == s->children) return offers[s->last].there ? s->last : NONE;
    if (plays_on(offers, s->last)) return s->last;
    return ready_from(offers, NULL, s->last + 1, s->children);
}

__attribute__((noinline)) static struct picked offer(const struct selection *s, const struct slot *offers, const bool *eligible) {
    struct picked picked = {false, 0, {0}};
    uint32_t child = pick(s, offers, eligible);
    if (child == NONE || !offers[child].there) return picked;
    picked.there = true;
    picked.child = child;
    picked.cell = offers[child];
    picked.cell.first = picked.cell.first || s->last != child;
    return picked;
}

static uint64_t sum_of(bool turns, bool sensitive) {
    struct selection state = {turns, sensitive, CHILDREN, NONE};
    struct slot offers[CHILDREN] = {{0}};
    bool eligible[CHILDREN];
    for (int i = 0; i < CHILDREN; i++) eligible[i] = true;
    uint64_t sum = 0;
    for (uint32_t instant = 0; instant < OFFERS; instant++) {
        struct slot slot = {instant % 11 >= 3, 1, 1, instant % 7 == 0};
        offers[instant & 7] = slot;
        struct picked picked = offer(&state, offers, eligible);
        if (!picked.there) continue;
        state.last = picked.child;
        sum += picked.child + 1 + picked.cell.first;
    }
    return sum;
}

static int64_t now(void) {
    struct timespec t;
    clock_gettime(CLOCK_MONOTONIC, &t);
    return (int64_t)t.tv_sec * 1000000000 + t.tv_nsec;
}

static void tell(const char *name, bool turns, bool sensitive) {
    int64_t least = INT64_MAX;
    uint64_t sum = 0;
    for (int turn = 0; turn < TURNS; turn++) {
        int64_t start = now();
        sum = sum_of(turns, sensitive);
        int64_t taken = now() - start;
        if (taken < least) least = taken;
    }
    printf("%s, sum %llu\t%u\toffers\t%lld\n", name, (unsigned long long)sum, OFFERS, (long long)least);
}

int main(void) {
    tell("fallback", false, true);
    tell("fallback at any time", false, false);
    tell("sequence", true, false);
    return 0;
}
