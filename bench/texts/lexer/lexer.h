/* A plain scanner of the same tokens, written by hand: an array of tokens that own their texts. */
#include <stdint.h>
#include <stdlib.h>
#include <string.h>

enum kind { NAME, NAME_OPEN, INT, NUMBER, STR, TIME, KEYWORD, WAV, SYMBOL, BAD };

struct token {
    enum kind kind;
    uint32_t start, end;
    int64_t value; /* of a number, the millionths; of a keyword or symbol, which */
    char *text;
    int16_t part[4];
};

static const char *keywords[] = {"def", "end", "if", "then", "else", "true", "false", "and", "or", "not"};

static int is_digit(int c) { return c >= '0' && c <= '9'; }
static int starts(int c) { return (c >= 'a' && c <= 'z') || (c >= 'A' && c <= 'Z') || c == '_'; }
static int is_word(int c) { return starts(c) || is_digit(c); }

static char *copied(const char *from, size_t length) {
    char *made = malloc(length + 1);
    memcpy(made, from, length);
    made[length] = 0;
    return made;
}

/* digits up to a bound; -1 past it */
static int64_t digits(const char *s, size_t from, size_t to, int64_t most) {
    int64_t value = 0;
    for (; from < to; from++) {
        int digit = s[from] - '0';
        if (value > (most - digit) / 10) return -1;
        value = value * 10 + digit;
    }
    return value;
}

static size_t after_digits(const char *s, size_t at, size_t n) {
    while (at < n && is_digit(s[at])) at++;
    return at;
}

static size_t word(struct token *t, const char *s, size_t at, size_t n) {
    size_t end = at;
    for (;;) {
        while (end < n && is_word(s[end])) end++;
        if (end + 1 < n && s[end] == '.' && starts(s[end + 1])) end++;
        else break;
    }
    for (size_t k = 0; k < 10; k++)
        if (strlen(keywords[k]) == end - at && !memcmp(keywords[k], s + at, end - at)) {
            t->kind = KEYWORD;
            t->value = (int64_t)k;
            return end;
        }
    t->text = copied(s + at, end - at);
    t->kind = NAME;
    if (end < n && s[end] == '(') {
        t->kind = NAME_OPEN;
        end++;
    }
    return end;
}

/* the parts of a time, each a number and its unit in order */
static size_t moment(struct token *t, const char *s, size_t at, size_t n) {
    static const char units[] = "whms";
    static const int most[] = {7, 24, 60, 60};
    int unit = 0;
    t->kind = TIME;
    memset(t->part, -1, sizeof t->part);
    while (unit < 4) {
        size_t end = after_digits(s, at, n);
        if (end == at) break;
        int found = unit;
        while (found < 4 && !(end < n && s[end] == units[found])) found++;
        if (found == 4) {
            if (unit != 2) break; /* digits behind an hour are its minutes */
            t->part[2] = (int16_t)digits(s, at, end, 60);
            if (t->part[2] < 0) t->kind = BAD;
            return end;
        }
        t->part[found] = (int16_t)digits(s, at, end, most[found]);
        if (t->part[found] < 0) t->kind = BAD;
        unit = found + 1;
        at = end + 1;
    }
    return at;
}

static size_t number(struct token *t, const char *s, size_t at, size_t n) {
    size_t end = after_digits(s, at, n);
    if (end < n && strchr("whms", s[end])) return moment(t, s, at, n);
    if (end < n && s[end] == '.') {
        size_t last = after_digits(s, end + 1, n), places = last - end - 1;
        int64_t whole = digits(s, at, end, 1000000000), part = digits(s, end + 1, last, 999999);
        for (size_t k = places; k < 6; k++) part *= 10;
        t->kind = whole < 0 || places > 6 || whole * 1000000 + part > 1000000000000000 ? BAD : NUMBER;
        t->value = whole * 1000000 + part;
        return last;
    }
    t->value = digits(s, at, end, INT64_MAX);
    t->kind = t->value < 0 ? BAD : INT;
    return end;
}

/* the bytes of the character that begins here; 0 where none does */
static size_t character(const unsigned char *s, size_t at, size_t n) {
    unsigned c = s[at];
    if (c < 0x80) return c >= 0x20 && c != 0x7f;
    size_t more = c >= 0xf0 && c < 0xf5 ? 3 : c >= 0xe0 && c < 0xf0 ? 2 : c >= 0xc2 && c < 0xe0 ? 1 : 0;
    if (!more || at + more >= n) return 0;
    for (size_t k = 1; k <= more; k++)
        if ((s[at + k] & 0xc0) != 0x80) return 0;
    if ((c == 0xe0 && s[at + 1] < 0xa0) || (c == 0xed && s[at + 1] > 0x9f)) return 0;
    if ((c == 0xf0 && s[at + 1] < 0x90) || (c == 0xf4 && s[at + 1] > 0x8f)) return 0;
    return more + 1;
}

static size_t text(struct token *t, const char *s, size_t at, size_t n) {
    char quote = s[at];
    size_t begin = ++at, escapes = 0;
    t->kind = BAD;
    while (at < n && s[at] != quote) {
        size_t step = character((const unsigned char *)s, at, n);
        if (!step) return at;
        if (s[at] == '\\') {
            if (at + 1 >= n || !strchr("\"'\\", s[at + 1])) return at;
            escapes++;
            step = 2;
        }
        at += step;
    }
    if (at >= n) return at;
    t->kind = STR;
    t->text = malloc(at - begin - escapes + 1);
    size_t to = 0;
    for (size_t k = begin; k < at; k++) {
        if (s[k] == '\\') k++;
        t->text[to++] = s[k];
    }
    t->text[to] = 0;
    return at + 1;
}

static size_t sign(struct token *t, const char *s, size_t at, size_t n) {
    t->kind = SYMBOL;
    t->value = s[at];
    if (at + 1 < n && s[at + 1] == '=' && strchr("=!<>", s[at])) {
        t->value = s[at] + 256;
        return at + 2;
    }
    if (!strchr("=<>+-*/()[]{},;~", s[at])) t->kind = BAD;
    return at + 1;
}

/* all tokens, and their count; fewer where a byte is bad */
static struct token *lex(const char *s, size_t n, size_t *count) {
    size_t room = 0, at = 0;
    struct token *made = NULL;
    *count = 0;
    for (;;) {
        while (at < n && (s[at] == ' ' || s[at] == '\t' || s[at] == '\r' || s[at] == '\n' || s[at] == '#')) {
            if (s[at] == '#')
                while (at < n && s[at] != '\n') at++;
            else
                at++;
        }
        if (at >= n) return made;
        if (*count == room) {
            room = room ? 2 * room : 4;
            made = realloc(made, room * sizeof *made);
        }
        struct token *t = &made[*count];
        memset(t, 0, sizeof *t);
        t->start = (uint32_t)at;
        if (starts(s[at])) at = word(t, s, at, n);
        else if (is_digit(s[at])) at = number(t, s, at, n);
        else if (s[at] == '"' || s[at] == '\'') at = text(t, s, at, n);
        else if (n - at >= 4 && !memcmp(s + at, "%wav", 4)) {
            t->kind = WAV;
            at += 4;
        } else
            at = sign(t, s, at, n);
        t->end = (uint32_t)at;
        if (t->kind == BAD) return made;
        ++*count;
    }
}
