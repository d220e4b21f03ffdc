/*
 * The engine's text calls, in hand-written C: docs/TEXT.md read from the left in one pass, with one
 * byte ahead, and a condition printed.
 */
#include <string.h>

#include "engine.h"

enum { MOST_CARD = 24128, MOST_DEEP = 32, MOST_ENTRIES = 256, MOST_POOL = 8192 };
enum { NONE, NODE = 7, NO_ROOM = 12, TEXT = 17, NESTED = 18, LARGE = 25 };

/* A text being read, and the sections of the card being made. */
struct reading {
    const uint8_t *text;
    size_t len, at;
    int wrong, nested, large;
    uint32_t atoms;
    unsigned weights, nodes, specifications, selections, revisions, pool, start, length;
    uint8_t sets[32], weight[2 * MOST_ENTRIES], node[4 * MOST_ENTRIES], pools[MOST_POOL];
    uint8_t selection[8 * MOST_ENTRIES], revision[12 * MOST_ENTRIES];
    uint8_t card[MOST_CARD];
};

static int ahead(const struct reading *r)
{
    return r->at < r->len ? r->text[r->at] : -1;
}

static int is_digit(int x)
{
    return x >= '0' && x <= '9';
}

/* Passes over a word. */
static void word(struct reading *r, const char *w)
{
    for (; *w && !r->wrong; w++)
        if (ahead(r) == (uint8_t)*w)
            r->at++;
        else
            r->wrong = 1;
}

/* A number, 65,536 where it is greater than 65,535. */
static uint32_t number(struct reading *r)
{
    uint32_t n = 0;
    if (!is_digit(ahead(r))) {
        r->wrong = 1;
        return 0;
    }
    while (is_digit(ahead(r))) {
        n = 10 * n + (uint32_t)(r->text[r->at++] - '0');
        if (n > 65535)
            n = 65536;
    }
    return n;
}

/* Whether a list goes on. */
static int listed(const struct reading *r)
{
    return ahead(r) == ' ' && r->at + 1 < r->len && is_digit(r->text[r->at + 1]);
}

static void set(struct reading *r, uint8_t *atoms)
{
    memset(atoms, 0, 16);
    while (listed(r)) {
        r->at++;
        uint32_t n = number(r);
        if (n > 127)
            r->large = 1;
        else
            atoms[n / 8] |= (uint8_t)(1 << n % 8);
    }
}

static void plan(struct reading *r)
{
    while (listed(r)) {
        r->at++;
        uint32_t n = number(r);
        if (n > 255 || r->pool == MOST_POOL)
            r->large = 1;
        else
            r->pools[r->pool++] = (uint8_t)n;
    }
}

static void remark(struct reading *r)
{
    const uint8_t *end = memchr(r->text + r->at, '\n', r->len - r->at);
    if (end)
        r->at = (size_t)(end - r->text) + 1;
    else {
        r->at = r->len;
        r->wrong = 1;
    }
}

static void end(struct reading *r)
{
    if (r->wrong)
        return;
    if (ahead(r) == '\n')
        r->at++;
    else {
        word(r, " #");
        if (!r->wrong)
            remark(r);
    }
}

/* ---- conditions */

static void put_node(struct reading *r, unsigned kind, uint32_t a, uint32_t b)
{
    if (r->nodes == MOST_ENTRIES || a > 255 || b > 255) {
        r->large = 1;
        return;
    }
    uint8_t *n = r->node + 4 * r->nodes++;
    n[0] = (uint8_t)kind;
    n[1] = (uint8_t)a;
    n[2] = (uint8_t)b;
    n[3] = 0;
}

static void or_list(struct reading *r, unsigned left);

static void unit(struct reading *r, unsigned left)
{
    switch (ahead(r)) {
    case 'T':
        r->at++;
        put_node(r, 0, 0, 0);
        break;
    case 'B':
    case 'G': {
        unsigned kind = r->text[r->at++] == 'B' ? 1 : 2;
        uint32_t n = number(r);
        if (!r->wrong)
            put_node(r, kind, n, 0);
        break;
    }
    case '!':
        if (left == 0) {
            r->nested = 1;
            return;
        }
        r->at++;
        unit(r, left - 1);
        put_node(r, 3, r->nodes - 1, 0);
        break;
    case '(':
        if (left == 0) {
            r->nested = 1;
            return;
        }
        r->at++;
        or_list(r, left - 1);
        if (!r->wrong && !r->nested)
            word(r, ")");
        break;
    default:
        r->wrong = 1;
    }
}

static void and_list(struct reading *r, unsigned left)
{
    unit(r, left);
    while (!r->wrong && !r->nested && ahead(r) == '&') {
        unsigned before = r->nodes - 1;
        r->at++;
        unit(r, left);
        put_node(r, 4, before, r->nodes - 1);
    }
}

static void or_list(struct reading *r, unsigned left)
{
    and_list(r, left);
    while (!r->wrong && !r->nested && ahead(r) == '|') {
        unsigned before = r->nodes - 1;
        r->at++;
        and_list(r, left);
        put_node(r, 5, before, r->nodes - 1);
    }
}

/* A condition that nests too deep, looked at for 17 alone: a count of open brackets is enough. */
static void pass_over(struct reading *r)
{
    size_t open = 0;
    for (;;) {
        while (ahead(r) == '!' || ahead(r) == '(')
            open += r->text[r->at++] == '(';
        int x = ahead(r);
        if (x == 'T')
            r->at++;
        else if (x == 'B' || x == 'G') {
            r->at++;
            number(r);
        } else
            r->wrong = 1;
        if (r->wrong)
            return;
        for (; open > 0 && ahead(r) == ')'; open--)
            r->at++;
        if (ahead(r) != '&' && ahead(r) != '|') {
            r->wrong = open > 0;
            return;
        }
        r->at++;
    }
}

static unsigned condition(struct reading *r)
{
    size_t begin = r->at;
    if (r->wrong)
        return 0;
    if (!r->nested)
        or_list(r, MOST_DEEP);
    if (r->nested) {
        r->wrong = 0;
        r->at = begin;
        pass_over(r);
    }
    return r->nodes - 1;
}

/* ---- lines */

static void two(uint8_t *at, unsigned n)
{
    at[0] = (uint8_t)n;
    at[1] = (uint8_t)(n >> 8);
}

/* The specifications stand in the card itself, where they would begin in the largest one. */
enum { SPECIFICATIONS_AT = 64 + 6 * MOST_ENTRIES };

static void do_line(struct reading *r)
{
    uint8_t none[36], *s = none;
    word(r, "do ");
    uint32_t action = r->wrong ? 0 : number(r);
    word(r, " if ");
    unsigned node = condition(r);
    if (r->specifications < MOST_ENTRIES)
        s = r->card + SPECIFICATIONS_AT + 36 * r->specifications;
    word(r, " add");
    if (!r->wrong)
        set(r, s + 4);
    word(r, " del");
    if (!r->wrong)
        set(r, s + 20);
    end(r);
    if (action > 255 || s == none)
        r->large = 1;
    else
        r->specifications++;
    s[0] = (uint8_t)action;
    s[1] = (uint8_t)node;
    s[2] = s[3] = 0;
}

static void select_line(struct reading *r)
{
    word(r, "select if ");
    unsigned belief = condition(r);
    word(r, " goal ");
    unsigned goal = condition(r), start = r->pool;
    word(r, " plan");
    if (!r->wrong)
        plan(r);
    end(r);
    if (r->selections == MOST_ENTRIES) {
        r->large = 1;
        return;
    }
    uint8_t *s = r->selection + 8 * r->selections++;
    s[0] = (uint8_t)belief;
    s[1] = (uint8_t)goal;
    two(s + 2, start);
    two(s + 4, r->pool - start);
    two(s + 6, 0);
}

static void revise_line(struct reading *r)
{
    unsigned head = r->pool;
    word(r, "revise");
    if (!r->wrong)
        plan(r);
    unsigned body = r->pool;
    word(r, " if ");
    unsigned node = condition(r);
    word(r, " to");
    if (!r->wrong)
        plan(r);
    end(r);
    if (r->revisions == MOST_ENTRIES) {
        r->large = 1;
        return;
    }
    uint8_t *s = r->revision + 12 * r->revisions++;
    s[0] = (uint8_t)node;
    s[1] = 0;
    two(s + 2, head);
    two(s + 4, body - head);
    two(s + 6, body);
    two(s + 8, r->pool - body);
    two(s + 10, 0);
}

static void begin_line(struct reading *r)
{
    word(r, "begin beliefs");
    if (!r->wrong)
        set(r, r->sets);
    word(r, " goals");
    if (!r->wrong)
        set(r, r->sets + 16);
    word(r, " plan");
    r->start = r->pool;
    if (!r->wrong)
        plan(r);
    r->length = r->pool - r->start;
    end(r);
}

static void action_line(struct reading *r)
{
    word(r, "action ");
    uint32_t weight = r->wrong ? 0 : number(r);
    end(r);
    if (weight > 65535 || r->weights == MOST_ENTRIES)
        r->large = 1;
    else
        two(r->weight + 2 * r->weights++, weight);
}

/* Reads every line; a line of a kind may stand where none of a later kind stands before it. */
static void lines(struct reading *r)
{
    enum { FIRST, ACTIONS, DOS, SELECTS, REVISES, ENDING } stage = FIRST;
    while (!r->wrong && r->at < r->len) {
        int x = ahead(r);
        if (x == '\n')
            r->at++;
        else if (x == '#') {
            r->at++;
            remark(r);
        } else if (stage == FIRST) {
            word(r, "atoms ");
            r->atoms = r->wrong ? 0 : number(r);
            end(r);
            stage = ACTIONS;
        } else if (x == 'a' && stage == ACTIONS)
            action_line(r);
        else if (x == 'd' && stage <= DOS) {
            stage = DOS;
            do_line(r);
        } else if (x == 's' && stage <= SELECTS) {
            stage = SELECTS;
            select_line(r);
        } else if (x == 'r' && stage <= REVISES) {
            stage = REVISES;
            revise_line(r);
        } else if (x == 'b' && stage <= REVISES) {
            stage = ENDING;
            begin_line(r);
        } else
            r->wrong = 1;
    }
    if (stage != ENDING)
        r->wrong = 1;
}

/* The card of what was read; how many bytes it has. */
static size_t assemble(struct reading *r)
{
    uint8_t *c = r->card;
    unsigned counts[] = {r->nodes, r->specifications, r->selections, r->revisions, r->pool};
    static const unsigned sizes[] = {4, 36, 8, 12, 1};
    const uint8_t *from[] = {r->node, c + SPECIFICATIONS_AT, r->selection, r->revision, r->pools};
    size_t at = 64 + 2 * r->weights;
    memcpy(c, "\x33\x41\x01", 4);
    two(c + 4, r->atoms);
    two(c + 6, r->weights);
    memcpy(c + 64, r->weight, 2 * r->weights);
    for (unsigned i = 0; i < 5; i++) {
        two(c + 8 + 4 * i, counts[i]);
        two(c + 10 + 4 * i, (unsigned)at);
        memmove(c + at, from[i], sizes[i] * counts[i]);
        at += sizes[i] * counts[i];
    }
    two(c + 28, r->start);
    two(c + 30, r->length);
    memcpy(c + 32, r->sets, 32);
    return at;
}

uint16_t engine_text(const uint8_t *text, size_t text_len, uint8_t *card, size_t card_len,
                     uint16_t *bytes, size_t *place)
{
    struct reading r;
    memset(&r, 0, offsetof(struct reading, weight));
    r.text = text;
    r.len = text_len;
    *bytes = 0;
    *place = 0;
    lines(&r);
    if (r.wrong) {
        *place = r.at;
        return TEXT;
    }
    if (r.nested)
        return NESTED;
    if (r.large || r.atoms > 65535)
        return LARGE;
    size_t n = assemble(&r);
    uint16_t answer = engine_check(r.card, n);
    if (answer)
        return answer;
    if (n > card_len)
        return NO_ROOM;
    memcpy(card, r.card, n);
    *bytes = (uint16_t)n;
    return NONE;
}

/* ---- printing */

/* A text being printed, from its end to its front. */
struct printing {
    const uint8_t *nodes;
    uint8_t *at;
};

static unsigned rank(unsigned kind)
{
    return kind == 5 ? 0 : kind == 4 ? 1 : 2;
}

static void print(struct printing *p, unsigned node, unsigned wanted)
{
    const uint8_t *n = p->nodes + 4 * node;
    int brackets = rank(n[0]) < wanted;
    if (brackets)
        *--p->at = ')';
    switch (n[0]) {
    case 0:
        *--p->at = 'T';
        break;
    case 1:
    case 2: {
        unsigned a = n[1];
        do
            *--p->at = (uint8_t)('0' + a % 10);
        while (a /= 10);
        *--p->at = n[0] == 1 ? 'B' : 'G';
        break;
    }
    case 3:
        print(p, n[1], 2);
        *--p->at = '!';
        break;
    default:
        print(p, n[2], n[0] == 4 ? 2 : 1);
        *--p->at = n[0] == 4 ? '&' : '|';
        print(p, n[1], n[0] == 4 ? 1 : 0);
    }
    if (brackets)
        *--p->at = '(';
}

static unsigned capped(unsigned n, unsigned most)
{
    return n < most ? n : most;
}

uint16_t engine_print(const uint8_t *card, size_t card_len, uint16_t node, uint8_t *text,
                      size_t text_len, uint16_t *bytes)
{
    uint16_t size[MOST_ENTRIES], length[MOST_ENTRIES];
    uint8_t deep[MOST_ENTRIES], out[2048];
    uint16_t answer = engine_check(card, card_len);
    *bytes = 0;
    if (answer)
        return answer;
    if (node >= (unsigned)(card[8] | card[9] << 8))
        return NODE;
    const uint8_t *nodes = card + (card[10] | card[11] << 8);
    for (unsigned i = 0; i <= node; i++) {
        const uint8_t *n = nodes + 4 * i;
        unsigned left = 0, right = 0;
        switch (n[0]) {
        case 0:
        case 1:
        case 2:
            size[i] = 1;
            deep[i] = 0;
            length[i] = (uint16_t)(n[0] == 0 ? 1 : n[1] < 10 ? 2 : n[1] < 100 ? 3 : 4);
            continue;
        case 3:
            left = rank(nodes[4 * n[1]]) < 2;
            size[i] = (uint16_t)capped(size[n[1]] + 1u, 257);
            deep[i] = (uint8_t)capped(deep[n[1]] + left + 1u, 33);
            length[i] = (uint16_t)capped(length[n[1]] + 2 * left + 1u, 2048);
            continue;
        default:
            left = rank(nodes[4 * n[1]]) < rank(n[0]);
            right = rank(nodes[4 * n[2]]) < rank(n[0]) + 1;
            size[i] = (uint16_t)capped(size[n[1]] + size[n[2]] + 1u, 257);
            left += deep[n[1]];
            right += deep[n[2]];
            deep[i] = (uint8_t)capped(left > right ? left : right, 33);
            left -= deep[n[1]];
            right -= deep[n[2]];
            length[i] =
                (uint16_t)capped(length[n[1]] + length[n[2]] + 2 * (left + right) + 1u, 2048);
        }
    }
    if (deep[node] > MOST_DEEP)
        return NESTED;
    if (size[node] > MOST_ENTRIES)
        return LARGE;
    if (length[node] > text_len)
        return NO_ROOM;
    struct printing p = {nodes, out + sizeof out};
    print(&p, node, 0);
    memcpy(text, p.at, length[node]);
    *bytes = length[node];
    return NONE;
}
