/* A plain parser by descent, written by hand: a tree of nodes that own their names. */
#include "../lexer/lexer.h"

enum shape {
    BIND, DEF, PARAM, CALL, ARGUMENT, IF, OR, AND, NOT, COMPARE, SUM, PRODUCT, NEGATIVE, LITERAL, TEXT, WORD, NOTHING,
    PAREN, TUPLE, LIST, BRACES, FORMAT, MOMENT, INTERVAL, SCRIPT
};

struct node {
    enum shape shape;
    uint32_t at;
    int64_t value; /* of a literal, a format or a moment; of a sum, product or comparison, the operator before this part */
    char *text;
    struct node *first, *last, *next;
};

/* which keyword: the place in the table of the scanner */
enum { K_DEF, K_END, K_IF, K_THEN, K_ELSE, K_TRUE, K_FALSE, K_AND, K_OR, K_NOT };
enum { EQUAL = '=' + 256, DIFFERS = '!' + 256, AT_MOST = '<' + 256, AT_LEAST = '>' + 256, MOST_LEVELS = 200 };

struct parser {
    const struct token *tokens;
    size_t at, count;
    int failed, levels;
};

static struct node *value(struct parser *p);
static struct node *expression(struct parser *p);

static const struct token *here(struct parser *p, size_t ahead) {
    return p->at + ahead < p->count ? &p->tokens[p->at + ahead] : NULL;
}

static int is(struct parser *p, size_t ahead, enum kind kind, int64_t which) {
    const struct token *t = here(p, ahead);
    return t && t->kind == kind && t->value == which;
}

static int is_kind(struct parser *p, size_t ahead, enum kind kind) {
    const struct token *t = here(p, ahead);
    return t && t->kind == kind;
}

static int take(struct parser *p, enum kind kind, int64_t which) {
    if (p->failed || !is(p, 0, kind, which)) return 0;
    p->at++;
    return 1;
}

static void want(struct parser *p, enum kind kind, int64_t which) {
    if (!take(p, kind, which)) p->failed = 1;
}

static struct node *made(struct parser *p, enum shape shape) {
    struct node *n = calloc(1, sizeof *n);
    n->shape = shape;
    n->at = (uint32_t)p->at;
    return n;
}

static void add(struct node *n, struct node *child) {
    if (n->last) n->last->next = child;
    else n->first = child;
    n->last = child;
}

static void discard(struct node *n) {
    while (n) {
        struct node *next = n->next;
        discard(n->first);
        free(n->text);
        free(n);
        n = next;
    }
}

/* the text of the token here, which is taken */
static char *name(struct parser *p, enum kind kind) {
    if (p->failed || !is_kind(p, 0, kind)) {
        p->failed = 1;
        return NULL;
    }
    const char *text = p->tokens[p->at++].text;
    return copied(text, strlen(text));
}

static int opened(struct parser *p) {
    if (++p->levels > MOST_LEVELS) p->failed = 1;
    return !p->failed;
}

static void closed(struct parser *p, enum kind kind, int64_t which) {
    p->levels--;
    want(p, kind, which);
}

static struct node *moments(struct parser *p) {
    struct node *n = made(p, MOMENT);
    p->at++;
    if (!take(p, SYMBOL, '-')) return n;
    n->shape = INTERVAL;
    if (is_kind(p, 0, TIME)) p->at++;
    else p->failed = 1;
    return n;
}

static struct node *predicate(struct parser *p) {
    struct node *any = made(p, OR);
    do {
        struct node *all = made(p, AND);
        add(any, all);
        do {
            struct node *one = made(p, NOT);
            add(all, one);
            one->value = take(p, KEYWORD, K_NOT);
            if (is(p, 0, KEYWORD, K_TRUE) || is(p, 0, KEYWORD, K_FALSE)) {
                add(one, made(p, LITERAL));
                p->at++;
            } else if (is_kind(p, 0, TIME))
                add(one, moments(p));
            else if (take(p, SYMBOL, '(') && opened(p)) {
                add(one, predicate(p));
                closed(p, SYMBOL, ')');
            } else
                p->failed = 1;
        } while (!p->failed && take(p, KEYWORD, K_AND));
    } while (!p->failed && take(p, KEYWORD, K_OR));
    return any;
}

/* values with commas between, up to a closing bracket */
static void values(struct parser *p, struct node *n, int64_t close) {
    if (!is(p, 0, SYMBOL, close))
        do add(n, value(p));
        while (take(p, SYMBOL, ','));
    closed(p, SYMBOL, close);
}

static struct node *call(struct parser *p) {
    struct node *n = made(p, CALL);
    n->text = name(p, NAME_OPEN);
    if (!opened(p)) return n;
    if (!is(p, 0, SYMBOL, ')'))
        do {
            struct node *argument = made(p, ARGUMENT);
            add(n, argument);
            if (is_kind(p, 0, NAME) && is(p, 1, SYMBOL, '=')) {
                argument->text = name(p, NAME);
                p->at++;
            }
            add(argument, value(p));
        } while (take(p, SYMBOL, ','));
    closed(p, SYMBOL, ')');
    return n;
}

static struct node *choice(struct parser *p) {
    struct node *n = made(p, IF);
    want(p, KEYWORD, K_IF);
    if (!opened(p)) return n;
    add(n, value(p));
    want(p, KEYWORD, K_THEN);
    add(n, value(p));
    want(p, KEYWORD, K_ELSE);
    add(n, value(p));
    closed(p, KEYWORD, K_END);
    return n;
}

static struct node *format(struct parser *p) {
    struct node *n = made(p, FORMAT);
    p->at++;
    if (!take(p, SYMBOL, '(')) return n;
    const struct token *option = here(p, 0);
    if (!option || option->kind != NAME || strcmp(option->text, "samplesize")) p->failed = 1;
    p->at++;
    want(p, SYMBOL, '=');
    if (is_kind(p, 0, INT)) n->value = p->tokens[p->at++].value;
    else p->failed = 1;
    want(p, SYMBOL, ')');
    return n;
}

static struct node *operand(struct parser *p) {
    const struct token *t = here(p, 0);
    struct node *n;
    if (p->failed || !t) {
        p->failed = 1;
        return made(p, NOTHING);
    }
    switch (t->kind) {
    case INT:
    case NUMBER:
        n = made(p, LITERAL);
        n->value = t->value;
        p->at++;
        return n;
    case STR:
    case NAME:
        n = made(p, t->kind == STR ? TEXT : WORD);
        n->text = name(p, t->kind);
        return n;
    case NAME_OPEN:
        return call(p);
    case WAV:
        return format(p);
    default:
        break;
    }
    if (is(p, 0, KEYWORD, K_IF)) return choice(p);
    n = made(p, LITERAL);
    if (take(p, KEYWORD, K_TRUE) || take(p, KEYWORD, K_FALSE)) return n;
    n->shape = NOTHING;
    if (take(p, SYMBOL, '(') && opened(p)) {
        values(p, n, ')');
        if (n->first) n->shape = n->first->next ? TUPLE : PAREN;
    } else if (take(p, SYMBOL, '[') && opened(p)) {
        n->shape = LIST;
        values(p, n, ']');
    } else if (take(p, SYMBOL, '{') && opened(p)) {
        n->shape = BRACES;
        add(n, predicate(p));
        closed(p, SYMBOL, '}');
    } else
        p->failed = 1;
    return n;
}

/* parts with one of two signs between, each with the sign before it */
static struct node *joined(struct parser *p, enum shape shape, struct node *(*part)(struct parser *), int64_t one,
                           int64_t other) {
    struct node *n = made(p, shape);
    int64_t sign = 0;
    do {
        struct node *next = made(p, shape);
        next->value = sign;
        add(next, part(p));
        add(n, next);
        sign = is(p, 0, SYMBOL, one) ? one : other;
    } while (!p->failed && (take(p, SYMBOL, one) || take(p, SYMBOL, other)));
    return n;
}

static struct node *product(struct parser *p) { return joined(p, PRODUCT, operand, '*', '/'); }
static struct node *sum(struct parser *p) { return joined(p, SUM, product, '+', '-'); }

static struct node *comparison(struct parser *p) {
    static const int64_t signs[] = {EQUAL, DIFFERS, '<', AT_MOST, '>', AT_LEAST};
    struct node *n = made(p, COMPARE);
    add(n, sum(p));
    for (size_t k = 0; k < 6; k++)
        if (take(p, SYMBOL, signs[k])) {
            n->value = signs[k];
            add(n, sum(p));
            break;
        }
    return n;
}

static struct node *expression(struct parser *p) {
    struct node *any = made(p, OR);
    do {
        struct node *all = made(p, AND);
        add(any, all);
        do {
            struct node *one = made(p, NOT);
            one->value = take(p, KEYWORD, K_NOT);
            add(one, comparison(p));
            add(all, one);
        } while (!p->failed && take(p, KEYWORD, K_AND));
    } while (!p->failed && take(p, KEYWORD, K_OR));
    return any;
}

static struct node *value(struct parser *p) {
    if (!is(p, 0, SYMBOL, '-')) return expression(p);
    struct node *n = made(p, NEGATIVE);
    p->at++;
    if (is_kind(p, 0, INT) || is_kind(p, 0, NUMBER)) n->value = p->tokens[p->at++].value;
    else p->failed = 1;
    return n;
}

static struct node *binding(struct parser *p) {
    struct node *n = made(p, BIND);
    n->text = name(p, NAME);
    want(p, SYMBOL, '=');
    add(n, value(p));
    return n;
}

static struct node *definition(struct parser *p) {
    struct node *n = made(p, DEF);
    want(p, KEYWORD, K_DEF);
    n->text = name(p, NAME_OPEN);
    if (!is(p, 0, SYMBOL, ')'))
        do {
            struct node *param = made(p, PARAM);
            add(n, param);
            param->value = take(p, SYMBOL, '~');
            param->text = name(p, NAME);
            if (param->value && take(p, SYMBOL, '=')) add(param, value(p));
        } while (!p->failed && take(p, SYMBOL, ','));
    want(p, SYMBOL, ')');
    n->value = take(p, SYMBOL, '=');
    while (!p->failed && is_kind(p, 0, NAME) && is(p, 1, SYMBOL, '=')) {
        add(n, binding(p));
        take(p, SYMBOL, ';');
    }
    add(n, expression(p));
    want(p, KEYWORD, K_END);
    return n;
}

/* the script of the tokens, or NULL */
static struct node *parse(const struct token *tokens, size_t count) {
    struct parser p = {tokens, 0, count, 0, 0};
    struct node *script = made(&p, SCRIPT);
    while (!p.failed && p.at < count) {
        if (is(&p, 0, KEYWORD, K_DEF)) add(script, definition(&p));
        else if (is(&p, 0, KEYWORD, K_IF)) add(script, choice(&p));
        else if (is_kind(&p, 0, NAME_OPEN)) add(script, call(&p));
        else add(script, binding(&p));
        take(&p, SYMBOL, ';');
    }
    if (!p.failed) return script;
    discard(script);
    return NULL;
}
