/* Parses the tokens of the same texts by a plain parser, and prints how long it took. */
#include "parser.h"
#include <stdio.h>
#include <time.h>

static int64_t now(void) {
    struct timespec t;
    clock_gettime(CLOCK_MONOTONIC, &t);
    return (int64_t)t.tv_sec * 1000000000 + t.tv_nsec;
}

int main(void) {
    static char sample[1 << 16];
    size_t length = fread(sample, 1, sizeof sample, stdin);
    for (size_t kib = 64; kib <= 1024; kib *= 4) {
        size_t times = length ? kib * 1024 / length : 0, count = 0;
        char *text = malloc(kib * 1024);
        for (size_t k = 0; k < times; k++) memcpy(text + k * length, sample, length);
        struct token *tokens = lex(text, times * length, &count);
        int64_t least = INT64_MAX;
        int right = 1;
        for (int turn = 0; turn < 10; turn++) {
            int64_t start = now();
            struct node *script = parse(tokens, count);
            int64_t time = now() - start;
            if (time < least) least = time;
            right = right && script != NULL;
            discard(script);
        }
        if (right) printf("parse %zu KiB\t%zu\ttokens\t%lld\n", kib, count, (long long)least);
        for (size_t k = 0; k < count; k++) free(tokens[k].text);
        free(tokens);
        free(text);
    }
    return 0;
}
