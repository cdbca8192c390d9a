/* A plain unifier of list types over variables, written by hand, with a trail and the check that no type holds itself. */
#include <stdint.h>
#include <stdio.h>
#include <stdlib.h>
#include <time.h>

/* a variable, or a list of a type */
struct type {
    int is_list;
    uint64_t variable;
    struct type *item;
};

struct variable {
    struct type *bound;
    int nested; /* it may stand within what another is bound to */
};

struct subst {
    struct variable *all;
    size_t count, room;
};

struct pairs {
    struct type **all;
    size_t count, room;
};

static void push(struct pairs *p, struct type *t) {
    if (p->count == p->room) {
        p->room = p->room ? 2 * p->room : 4;
        p->all = realloc(p->all, p->room * sizeof *p->all);
    }
    p->all[p->count++] = t;
}

static struct type *fresh(struct subst *s) {
    if (s->count == s->room) {
        s->room = s->room ? 2 * s->room : 4;
        s->all = realloc(s->all, s->room * sizeof *s->all);
    }
    struct type *t = calloc(1, sizeof *t);
    t->variable = s->count;
    s->all[s->count].bound = NULL;
    s->all[s->count++].nested = 0;
    return t;
}

static struct type *list(struct type *item) {
    struct type *t = calloc(1, sizeof *t);
    t->is_list = 1;
    t->item = item;
    return t;
}

static struct type *found(struct subst *s, struct type *t) {
    while (!t->is_list && s->all[t->variable].bound) t = s->all[t->variable].bound;
    return t;
}

static int holds(struct subst *s, struct type *t, uint64_t variable) {
    int through = s->all[variable].nested;
    for (;;) {
        if (through) t = found(s, t);
        if (!t->is_list) return t->variable == variable;
        t = t->item;
    }
}

static int bind(struct subst *s, struct pairs *trail, struct type *v, struct type *t) {
    if (t->is_list && holds(s, t, v->variable)) return 0;
    s->all[v->variable].bound = t;
    push(trail, v);
    while (t->is_list) t = t->item;
    s->all[t->variable].nested = 1;
    return 1;
}

static int unify(struct subst *s, struct type *left, struct type *right) {
    struct pairs todo = {0}, trail = {0};
    int equal = 1;
    push(&todo, left);
    push(&todo, right);
    while (equal && todo.count) {
        struct type *b = found(s, todo.all[--todo.count]), *a = found(s, todo.all[--todo.count]);
        if (a == b || (!a->is_list && !b->is_list && a->variable == b->variable)) continue;
        if (!a->is_list) equal = bind(s, &trail, a, b);
        else if (!b->is_list) equal = bind(s, &trail, b, a);
        else {
            push(&todo, a->item);
            push(&todo, b->item);
        }
    }
    if (!equal)
        for (size_t k = 0; k < trail.count; k++) s->all[trail.all[k]->variable].bound = NULL;
    free(todo.all);
    free(trail.all);
    return equal;
}

static struct type *chain(struct subst *s, size_t height) {
    struct type *top = fresh(s);
    for (size_t k = 0; k < height; k++) {
        struct type *l = list(top);
        top = fresh(s);
        if (!unify(s, top, l)) exit(1);
    }
    return top;
}

static int64_t now(void) {
    struct timespec t;
    clock_gettime(CLOCK_MONOTONIC, &t);
    return (int64_t)t.tv_sec * 1000000000 + t.tv_nsec;
}

int main(void) {
    for (size_t height = 10000; height <= 160000; height *= 4) {
        int64_t least = INT64_MAX;
        for (int turn = 0; turn < 10; turn++) {
            int64_t start = now();
            struct subst s = {0};
            struct type *left = chain(&s, height), *right = chain(&s, height);
            if (!unify(&s, left, right)) exit(1);
            /* what was built is given back, as the other program does when its substitution ends */
            for (size_t k = 0; k < s.count; k++)
                if (s.all[k].bound && s.all[k].bound->is_list) {
                    free(s.all[k].bound->item);
                    free(s.all[k].bound);
                }
            free(left);
            free(right);
            free(s.all);
            int64_t time = now() - start;
            if (time < least) least = time;
        }
        printf("two chains of %zu\t%zu\ttypes\t%lld\n", height, height, (long long)least);
    }
    return 0;
}
