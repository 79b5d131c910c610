/* Plain C versions of the calls, written straight from document 01. Nothing here is proved. */
#include "plain.h"

#include <stdlib.h>
#include <string.h>

enum {
    OK,
    LONG,
    FORM,
    DEEP,
    BIG,
    KIND,
    SHORT,
    FIELD,
    EXTRA,
    REGISTERS = 10,
    SITUATIONS,
    OUT_SMALL,
    TABLE_FORM,
    EMPTY_READ,
    LINE_LONG,
    NO_MATCH
};
enum { NOW = 64, NONE = 65, MOST = 96 };

/* ---- pattern text ---- */

enum { EMPTY, BYTES, SET, TAG, SEQUENCE, CHOICE, STAR, PLUS, OPTION };

typedef struct {
    int kind, a, b, records; /* a byte range, a tag, or the nodes it is made of; how many records it needs */
    uint8_t bits[32];
} node;

typedef struct {
    const uint8_t *text;
    size_t len, at;
    int depth, code, tags, count;
    node nodes[1200];
} reader;

static const struct {
    const char *name;
    uint8_t spans[8]; /* pairs lo, hi */
} classes[12] = {
    {"alnum", "09AZaz"},   {"alpha", "AZaz"},   {"blank", "\t\t  "}, {"cntrl", {0, 31, 127, 127}},
    {"digit", "09"},       {"graph", "!~"},     {"lower", "az"},     {"print", " ~"},
    {"punct", "!/:@[`{~"}, {"space", "\t\r  "}, {"upper", "AZ"},     {"xdigit", "09AFaf"},
};

static int add(reader *r, int kind, int a, int b, int records) {
    node *n = &r->nodes[r->count];
    *n = (node){.kind = kind, .a = a, .b = b, .records = records};
    return r->count++;
}

static int records_of(const reader *r, int n) { return r->nodes[n].records; }
static int more(const reader *r) { return r->at < r->len; }
static int peek(const reader *r) { return more(r) ? r->text[r->at] : -1; }
static int among(int byte, const char *set) { return byte > 0 && strchr(set, byte) != NULL; }
static int fault(reader *r) { return r->code = FORM; }

static void allow(node *n, int lo, int hi) {
    for (int b = lo; b <= hi; b++) n->bits[b / 8] |= (uint8_t)(1 << b % 8);
}

/* Behind `[:`: the class whose name stands there, its `:]` read. */
static int class_name(reader *r) {
    char name[8] = "";
    for (size_t n = 0;; r->at++) {
        int byte = peek(r), fits = 0;
        for (int c = 0; c < 12; c++) {
            if (strncmp(classes[c].name, name, n) != 0) continue;
            if (byte == ':' && classes[c].name[n] == 0) {
                r->at++;
                if (peek(r) != ']') return fault(r), 0;
                r->at++;
                return c;
            }
            fits |= byte > 0 && classes[c].name[n] == byte;
        }
        if (!fits) return fault(r), 0;
        name[n++] = (char)byte;
        name[n] = 0;
    }
}

/* A byte of a set, escaped or not, at least `low`. */
static int set_byte(reader *r, int low) {
    int escaped = peek(r) == '\\';
    r->at += (size_t)escaped;
    if (!more(r) || peek(r) < low || (!escaped && among(peek(r), "[]\\-^"))) return fault(r), 0;
    return r->text[r->at++];
}

static int set(reader *r) {
    int n = add(r, SET, 0, 0, 1), inverse = peek(r) == '^';
    r->at += (size_t)inverse;
    do {
        if (peek(r) == '[') {
            r->at++;
            if (peek(r) != ':') return fault(r), n;
            r->at++;
            int c = class_name(r);
            if (r->code) return n;
            const uint8_t *s = classes[c].spans;
            for (int i = 0; i < 8 && s[i + 1]; i += 2) allow(&r->nodes[n], s[i], s[i + 1]);
        } else {
            int lo = set_byte(r, 0), hi = lo;
            if (r->code) return n;
            if (peek(r) == '-') {
                r->at++;
                hi = set_byte(r, lo);
                if (r->code) return n;
            }
            allow(&r->nodes[n], lo, hi);
        }
    } while (peek(r) != ']');
    r->at++;
    for (int i = 0; inverse && i < 32; i++) r->nodes[n].bits[i] ^= 255;
    return n;
}

static int choice(reader *r);

static int atom(reader *r) {
    int byte = r->text[r->at], inner;
    if (among(byte, "*+?]")) return fault(r), 0;
    if (byte == '(' && r->depth == 16) return r->code = DEEP, 0;
    r->at++;
    switch (byte) {
    case '.':
        return add(r, BYTES, 0, 255, 1);
    case '\\':
        if (!more(r)) return fault(r), 0;
        byte = r->text[r->at++];
        return add(r, BYTES, byte, byte, 1);
    case '@':
        if (peek(r) < '0' || peek(r) > '7') return fault(r), 0;
        byte = r->text[r->at++] - '0';
        if (byte >= r->tags) r->tags = byte + 1;
        return add(r, TAG, byte, 0, 1);
    case '[':
        return set(r);
    case '(':
        r->depth++;
        inner = choice(r);
        if (!r->code && peek(r) != ')') fault(r);
        r->at += !r->code;
        r->depth--;
        return inner;
    default:
        return add(r, BYTES, byte, byte, 1);
    }
}

static int sequence(reader *r) {
    int whole = add(r, EMPTY, 0, 0, 0);
    while (!r->code && more(r) && peek(r) != '|' && !(peek(r) == ')' && r->depth > 0)) {
        if (peek(r) == ')') return fault(r), whole;
        int piece = atom(r);
        if (r->code) return whole;
        const char *marks = "*+?", *mark = among(peek(r), marks) ? strchr(marks, peek(r)) : NULL;
        if (mark) {
            piece = add(r, STAR + (int)(mark - marks), piece, 0, 1 + records_of(r, piece));
            r->at++;
        }
        whole = add(r, SEQUENCE, whole, piece, records_of(r, whole) + records_of(r, piece));
    }
    return whole;
}

static int choice(reader *r) {
    int first = sequence(r);
    if (r->code || peek(r) != '|') return first;
    r->at++;
    int second = choice(r);
    return add(r, CHOICE, first, second, 1 + records_of(r, first) + records_of(r, second));
}

/* A piece's first record: the start of an empty one is what follows it. */
static int start_of(const reader *r, int n, int at, int follow) { return records_of(r, n) ? at : follow; }

static uint8_t *emit_fork(uint8_t *w, int first, int second) {
    *w++ = 0x13;
    *w++ = (uint8_t)first;
    *w++ = (uint8_t)second;
    return w;
}

static uint8_t *emit(const reader *r, int n, int at, int follow, uint8_t *w) {
    const node *p = &r->nodes[n];
    int middle;
    switch (p->kind) {
    case BYTES:
        *w++ = 0x11;
        *w++ = (uint8_t)p->a;
        *w++ = (uint8_t)p->b;
        break;
    case SET:
        *w++ = 0x12;
        memcpy(w, p->bits, 32);
        w += 32;
        break;
    case TAG:
        *w++ = 0x14;
        *w++ = (uint8_t)p->a;
        break;
    case SEQUENCE:
        middle = at + records_of(r, p->a);
        w = emit(r, p->a, at, start_of(r, p->b, middle, follow), w);
        return emit(r, p->b, middle, follow, w);
    case CHOICE:
        middle = at + 1 + records_of(r, p->a);
        w = emit_fork(w, start_of(r, p->a, at + 1, follow), start_of(r, p->b, middle, follow));
        return emit(r, p->b, middle, follow, emit(r, p->a, at + 1, follow, w));
    case STAR:
        return emit(r, p->a, at + 1, at, emit_fork(w, start_of(r, p->a, at + 1, at), follow));
    case PLUS:
        middle = at + records_of(r, p->a);
        w = emit(r, p->a, at, middle, w);
        return emit_fork(w, start_of(r, p->a, at, middle), follow);
    case OPTION:
        return emit(r, p->a, at + 1, follow, emit_fork(w, start_of(r, p->a, at + 1, follow), follow));
    default:
        return w;
    }
    *w++ = (uint8_t)follow;
    return w;
}

uint8_t plain_pattern(const uint8_t *text, size_t len, uint8_t *out, size_t out_len, size_t *place, size_t *length) {
    static reader r;
    *place = *length = 0;
    if (len > 255) return LONG;
    r.text = text;
    r.len = len;
    r.at = 0;
    r.depth = r.code = r.tags = r.count = 0;
    int whole = choice(&r);
    if (r.code) {
        *place = r.at;
        return (uint8_t)r.code;
    }
    int records = records_of(&r, whole) + 1;
    if (records > 64) return BIG;
    uint8_t file[4 + 64 * 34] = {0x10, 1, (uint8_t)r.tags, (uint8_t)records};
    uint8_t *end = emit(&r, whole, 0, records - 1, file + 4);
    *end++ = 0x15;
    *end++ = 0;
    if ((size_t)(end - file) > out_len) return OUT_SMALL;
    *length = (size_t)(end - file);
    memcpy(out, file, *length);
    return OK;
}

/* ---- the automaton ---- */

typedef struct {
    uint8_t kind, a, b;  /* the body's small fields, in the file's order; a MASK's next is in b */
    const uint8_t *bits; /* a MASK's 32 bytes */
} rec;

typedef struct {
    int tags, count;
    rec recs[64];
} net;

static int read_net(const uint8_t *file, size_t len, net *n) {
    if (len == 0) return SHORT;
    if (file[0] != 0x10) return KIND;
    if (len < 4) return SHORT;
    if (file[1] != 1 || file[2] > 8 || file[3] < 1 || file[3] > 64) return FIELD;
    n->tags = file[2];
    n->count = file[3];
    size_t at = 4;
    for (int i = 0; i < n->count; i++) {
        static const uint8_t sizes[5] = {3, 33, 2, 2, 1};
        if (at >= len) return SHORT;
        uint8_t kind = file[at];
        if (kind < 0x11 || kind > 0x15) return KIND;
        size_t size = sizes[kind - 0x11];
        if (len - at - 1 < size) return SHORT;
        const uint8_t *body = file + at + 1;
        rec *r = &n->recs[i];
        r->kind = kind;
        r->a = body[0];
        r->b = size > 1 ? body[1] : 0;
        switch (kind) {
        case 0x11:
            if (body[0] > body[1] || body[2] >= n->count) return FIELD;
            r->bits = body;
            break;
        case 0x12:
            if (body[32] >= n->count) return FIELD;
            r->bits = body;
            break;
        case 0x13:
            if (body[0] >= n->count || body[1] >= n->count) return FIELD;
            break;
        case 0x14:
            if (body[0] >= n->tags || body[1] >= n->count) return FIELD;
            break;
        default:
            if (body[0] == 255) return FIELD;
        }
        at += 1 + size;
    }
    return at == len ? OK : EXTRA;
}

static int takes(const rec *r, int b) {
    if (r->kind == 0x11) return r->bits[0] <= b && b <= r->bits[1];
    if (r->kind == 0x12) return r->bits[b / 8] >> (b % 8) & 1;
    return 0;
}

static int next_of(const rec *r) { return r->kind == 0x11 ? r->bits[2] : r->bits[32]; }

/* ---- situations ---- */

typedef struct {
    int count;
    uint8_t recs[64];
    uint8_t regs[64][8]; /* a register number, or NONE */
} situation;

/* The list under way: for each record and tag where its place comes from, a register of before, NOW or NONE. */
typedef struct {
    const net *n;
    uint64_t marks;
    situation found;
} walk;

static void visit(walk *w, int at, const uint8_t from[8]) {
    for (;;) {
        if (w->marks >> at & 1) return;
        w->marks |= (uint64_t)1 << at;
        const rec *r = &w->n->recs[at];
        if (r->kind == 0x13) {
            visit(w, r->a, from);
            at = r->b;
        } else if (r->kind == 0x14) {
            uint8_t tagged[8];
            memcpy(tagged, from, 8);
            tagged[r->a] = NOW;
            visit(w, r->b, tagged);
            return;
        } else {
            int i = w->found.count++;
            w->found.recs[i] = (uint8_t)at;
            memcpy(w->found.regs[i], from, 8);
            return;
        }
    }
}

/* Numbers the registers by first appearance; origin[k] is where register k comes from. Returns how many. */
static int number(situation *s, int tags, uint8_t origin[64]) {
    int names[8][NONE], many = 0;
    memset(names, -1, sizeof names);
    for (int i = 0; i < s->count; i++)
        for (int t = 0; t < tags; t++) {
            int from = s->regs[i][t];
            if (from == NONE) continue;
            if (names[t][from] < 0) {
                if (many == 64) return 65;
                origin[many] = (uint8_t)from;
                names[t][from] = many++;
            }
            s->regs[i][t] = (uint8_t)names[t][from];
        }
    return many;
}

static int same(const situation *a, const situation *b) {
    return a->count == b->count && memcmp(a->recs, b->recs, (size_t)a->count) == 0 &&
           memcmp(a->regs, b->regs, (size_t)a->count * 8) == 0;
}

/* ---- the table's bytes: counted always, written while there is room ---- */

typedef struct {
    uint8_t *out;
    size_t room, len;
} writer;

static void put(writer *w, const uint8_t *bytes, size_t n) {
    if (w->out && w->room - w->len >= n && w->len <= w->room) memcpy(w->out + w->len, bytes, n);
    w->len += n;
}

static size_t commands(const uint8_t *origin, int many, uint8_t out[192]) {
    size_t len = 0;
    for (int k = 0; k < many; k++) {
        if (origin[k] == NOW) {
            out[len++] = 0x25;
            out[len++] = (uint8_t)k;
        } else if (origin[k] != k) {
            out[len++] = 0x24;
            out[len++] = (uint8_t)k;
            out[len++] = origin[k];
        }
    }
    return len;
}

static int lookup(situation *all, int *known, const situation *s, int many) {
    if (many > 64) return -REGISTERS;
    for (int i = 0; i < *known; i++)
        if (same(&all[i], s)) return i;
    if (*known == MOST) return -SITUATIONS;
    all[*known] = *s;
    return (*known)++;
}

uint8_t plain_build(const uint8_t *file, size_t file_len, uint8_t *out, size_t out_len, size_t *length,
                    size_t *situations, size_t *registers) {
    static situation all[MOST];
    static uint8_t held[4817989]; /* the longest table of right form */
    net n;
    *length = *situations = *registers = 0;
    int code = read_net(file, file_len, &n);
    if (code) return (uint8_t)code;

    uint8_t first[256]; /* does some record tell this byte from the one before? */
    first[0] = 1;
    for (int b = 1; b < 256; b++) {
        first[b] = 0;
        for (int i = 0; i < n.count; i++) first[b] |= takes(&n.recs[i], b) != takes(&n.recs[i], b - 1);
    }

    static uint8_t absent[8] = {NONE, NONE, NONE, NONE, NONE, NONE, NONE, NONE};
    uint8_t origin[64], cmds[192], head[5] = {0x21, 1, (uint8_t)n.tags, 0, 0};
    writer w = {held, sizeof held, 0};
    int known = 0, most = 0;
    walk start = {.n = &n};
    visit(&start, 0, absent);
    int many = number(&start.found, n.tags, origin);
    if (lookup(all, &known, &start.found, many) < 0) return REGISTERS;
    most = many;
    put(&w, head, 5);
    put(&w, cmds, commands(origin, many, cmds));

    for (int q = 0; q < known; q++) {
        const situation *s = &all[q];
        uint8_t item[10] = {0x22, 255, 255, 255, 255, 255, 255, 255, 255, 255};
        for (int i = 0; i < s->count; i++)
            if (n.recs[s->recs[i]].kind == 0x15) {
                item[1] = n.recs[s->recs[i]].a;
                for (int t = 0; t < n.tags; t++)
                    if (s->regs[i][t] != NONE) item[2 + t] = s->regs[i][t];
                break;
            }
        put(&w, item, 10);
        uint8_t row[4] = {0x23, 0, 0, 0}, open[192];
        size_t open_len = 0;
        for (int b = 0; b < 256; b++) {
            if (!first[b]) continue;
            walk step = {.n = &n};
            for (int i = 0; i < s->count; i++)
                if (takes(&n.recs[s->recs[i]], b)) visit(&step, next_of(&n.recs[s->recs[i]]), s->regs[i]);
            many = number(&step.found, n.tags, origin);
            int next = lookup(all, &known, &step.found, many);
            if (next < 0) return (uint8_t)-next;
            if (many > most) most = many;
            size_t len = commands(origin, many, cmds);
            if (b > 0 && next == row[3] && len == open_len && memcmp(cmds, open, len) == 0) continue;
            if (b > 0) {
                row[2] = (uint8_t)(b - 1);
                put(&w, row, 4);
                put(&w, open, open_len);
            }
            row[1] = (uint8_t)b;
            row[3] = (uint8_t)next;
            memcpy(open, cmds, len);
            open_len = len;
        }
        row[2] = 255;
        put(&w, row, 4);
        put(&w, open, open_len);
    }
    if (w.len > out_len || w.len > sizeof held) return OUT_SMALL;
    held[3] = (uint8_t)most;
    held[4] = (uint8_t)known;
    memcpy(out, held, w.len);
    *length = w.len;
    *situations = (size_t)known;
    *registers = (size_t)most;
    return OK;
}

/* ---- the table ---- */

typedef struct {
    const uint8_t *bytes;
    size_t len;
    int tags, regs, count;
    uint32_t at[MOST]; /* where each situation's item stands */
} card;

/* The end of a legal command list, or 0; `wrote` gathers its targets, `read` its sources. */
static size_t list(const card *c, size_t at, int moves, uint64_t *wrote, uint64_t *read) {
    int low = 0;
    *wrote = *read = 0;
    for (;;) {
        size_t size = 2;
        if (at >= c->len) return at;
        if (c->bytes[at] == 0x24 && moves)
            size = 3;
        else if (c->bytes[at] != 0x25)
            return at;
        if (c->len - at < size) return 0;
        int to = c->bytes[at + 1];
        if (to >= c->regs || to < low) return 0;
        if (size == 3) {
            if (c->bytes[at + 2] >= c->regs) return 0;
            *read |= (uint64_t)1 << c->bytes[at + 2];
        }
        *wrote |= (uint64_t)1 << to;
        low = to + 1;
        at += size;
    }
}

static int form(const uint8_t *b, size_t len, card *c) {
    uint64_t wrote, read;
    if (len < 5 || b[0] != 0x21 || b[1] != 1 || b[2] > 8 || b[3] > 64 || b[4] < 1 || b[4] > MOST) return 0;
    *c = (card){.bytes = b, .len = len, .tags = b[2], .regs = b[3], .count = b[4]};
    size_t at = list(c, 5, 0, &wrote, &read);
    if (!at) return 0;
    for (int q = 0; q < c->count; q++) {
        if (len - at < 10 || b[at] != 0x22) return 0;
        for (int t = 0; t < 8; t++) {
            int f = b[at + 2 + t];
            if (f != 255 && (f >= c->regs || t >= c->tags || b[at + 1] == 255)) return 0;
        }
        c->at[q] = (uint32_t)at;
        at += 10;
        for (int lo = 0; lo < 256;) {
            if (len - at < 4 || b[at] != 0x23 || b[at + 1] != lo || b[at + 2] < lo || b[at + 3] >= c->count) return 0;
            lo = b[at + 2] + 1;
            at = list(c, at + 4, 1, &wrote, &read);
            if (!at) return 0;
        }
    }
    return at == len;
}

/* The registers that some line leaves empty, pushed on until nothing grows. */
static int stuck(const card *c) {
    uint64_t empty[MOST] = {0}, wrote, read;
    uint8_t reached[MOST] = {0}, waiting[MOST] = {0};
    list(c, 5, 0, &wrote, &read);
    empty[0] = ~wrote;
    reached[0] = waiting[0] = 1;
    for (int more = 1; more;) {
        more = 0;
        for (int q = 0; q < c->count; q++) {
            if (!waiting[q]) continue;
            waiting[q] = 0;
            const uint8_t *item = c->bytes + c->at[q];
            for (int t = 0; t < 8; t++)
                if (item[2 + t] != 255 && empty[q] >> item[2 + t] & 1) return 1;
            for (size_t at = c->at[q] + 10, hi = 0; hi < 255;) {
                int next = c->bytes[at + 3];
                hi = c->bytes[at + 2];
                at = list(c, at + 4, 1, &wrote, &read);
                if (read & empty[q]) return 1;
                uint64_t after = empty[next] | (empty[q] & ~wrote);
                if (!reached[next] || after != empty[next]) {
                    reached[next] = waiting[next] = 1;
                    empty[next] = after;
                    more = 1;
                }
            }
        }
    }
    return 0;
}

static int judge(const uint8_t *table, size_t len, card *c) {
    if (!form(table, len, c)) return TABLE_FORM;
    return stuck(c) ? EMPTY_READ : OK;
}

uint8_t plain_load(const uint8_t *table, size_t len) {
    card c;
    return (uint8_t)judge(table, len, &c);
}

static void apply(const uint8_t *cmds, int16_t place, int16_t bank[64]) {
    int16_t old[64];
    memcpy(old, bank, sizeof old);
    for (;;) {
        if (cmds[0] == 0x25) {
            bank[cmds[1]] = place;
            cmds += 2;
        } else if (cmds[0] == 0x24) {
            bank[cmds[1]] = old[cmds[2]];
            cmds += 3;
        } else {
            return;
        }
    }
}

static int is_command(uint8_t kind) { return kind == 0x24 || kind == 0x25; }

static uint8_t refuse(int code, uint8_t *answer, int16_t places[8]) {
    *answer = 255;
    for (int t = 0; t < 8; t++) places[t] = -1;
    return (uint8_t)code;
}

static uint8_t finish(const uint8_t *item, const int16_t bank[64], uint8_t *answer, int16_t places[8]) {
    if (item[1] == 255) return refuse(NO_MATCH, answer, places);
    *answer = item[1];
    for (int t = 0; t < 8; t++) places[t] = item[2 + t] == 255 ? -1 : bank[item[2 + t]];
    return OK;
}

/* A list that ends the table is followed by no byte: the last row's commands are copied with one behind them. */
static void apply_at(const uint8_t *table, size_t len, size_t at, int16_t place, int16_t bank[64]) {
    if (at >= len || !is_command(table[at])) return;
    if (len - at > 192) {
        apply(table + at, place, bank);
    } else {
        uint8_t tail[193] = {0};
        memcpy(tail, table + at, len - at);
        apply(tail, place, bank);
    }
}

uint8_t plain_run(const uint8_t *table, size_t len, const uint8_t *line, size_t line_len, uint8_t *answer,
                  int16_t places[8]) {
    card c;
    int code = judge(table, len, &c);
    if (code) return refuse(code, answer, places);
    if (line_len > 32767) return refuse(LINE_LONG, answer, places);
    int16_t bank[64];
    memset(bank, -1, sizeof bank);
    apply_at(table, len, 5, 0, bank);
    size_t q = c.at[0];
    for (size_t i = 0; i < line_len; i++) {
        size_t at = q + 10;
        while (line[i] > table[at + 2]) {
            at += 4;
            while (is_command(table[at])) at += table[at] == 0x24 ? 3 : 2;
        }
        apply_at(table, len, at + 4, (int16_t)(i + 1), bank);
        q = c.at[table[at + 3]];
    }
    return finish(table + q, bank, answer, places);
}

/*
 * An image word: at % 256 + 256 * next + 32768 * (at / 256) + 2^30 * kind, so that the place of the next situation's
 * row stands in it as it is. Kind 0 is no command or one SET, `at` its register or 64: what a word without command
 * stores goes to a cell that nothing reads, and a word that stays so is its row's place and 64. Kind 1 is a block, `at`
 * its numbers: SETs of k registers from a on, then MOVEs of the n registers after them from those from f on, which are
 * no higher. Kind 2 is SETs only, 3 a list with a MOVE, `at` where it stands. Behind the words of all situations, one
 * word each where the situation's item stands.
 */
enum { IDLE = 64, CELLS = 128, ROW = 0x7f00, LISTED = 1 << 30 };

static uint32_t packed(uint32_t next, uint32_t kind, uint32_t at) {
    return at % 256 + 256 * next + 32768 * (at / 256) + (kind << 30);
}

static uint32_t at_of(uint32_t e) { return e % 256 + 256 * (e / 32768 % 32768); }

static uint32_t block_bits(const uint8_t *b, size_t at, size_t end, int *found) {
    uint32_t a = b[at + 1], k = 0, f = 0, n = 0;
    for (; at < end && b[at] == 0x25 && b[at + 1] == a + k; at += 2) k++;
    if (at < end && b[at] == 0x24) f = b[at + 2];
    for (; at < end && b[at] == 0x24 && b[at + 1] == a + k + n && b[at + 2] == f + n; at += 3) n++;
    *found = at == end && 1 <= k && k <= 32 && f <= a + k;
    return a + 64 * (k - 1) + 2048 * n + 131072 * f;
}

static uint32_t image_word(const card *c, size_t row, size_t *after) {
    uint64_t wrote, read;
    size_t cmds = row + 4;
    *after = list(c, cmds, 1, &wrote, &read);
    uint32_t next = c->bytes[row + 3];
    if (*after == cmds) return packed(next, 0, IDLE);
    int block;
    uint32_t bits = block_bits(c->bytes, cmds, *after, &block);
    if (block) return packed(next, bits < 64 ? 0 : 1, bits);
    return packed(next, read ? 3 : 2, (uint32_t)cmds);
}

uint8_t plain_mount(const uint8_t *table, size_t len, uint32_t *image, size_t image_len) {
    card c;
    int code = judge(table, len, &c);
    if (code) return (uint8_t)code;
    if (image_len < (size_t)c.count * 257) return OUT_SMALL;
    for (int q = 0; q < c.count; q++) {
        size_t at = c.at[q] + 10;
        for (int b = 0; b < 256;) {
            int hi = table[at + 2];
            uint32_t word = image_word(&c, at, &at);
            while (b <= hi) image[q * 256 + b++] = word;
        }
        image[c.count * 256 + q] = c.at[q];
    }
    return OK;
}

static void obey_block(uint32_t w, int16_t place, int16_t bank[CELLS]) {
    size_t a = w % 64, k = w / 64 % 32 + 1, n = w / 2048 % 64, f = w / 131072;
    memmove(bank + a + k, bank + f, n * sizeof *bank);
    for (size_t i = a; i < a + k; i++) bank[i] = place;
}

/* A word of kind 1 to 3. */
static void obey(const uint8_t *table, size_t len, uint32_t e, int16_t place, int16_t bank[CELLS]) {
    uint32_t at = at_of(e);
    switch (e >> 30) {
    case 1:
        obey_block(at, place, bank);
        break;
    case 2:
        for (; at < len && table[at] == 0x25; at += 2) bank[table[at + 1]] = place;
        break;
    default:
        apply_at(table, len, at, place, bank);
    }
}

/* A line on its way over an image: its next byte, its row, its bank. */
typedef struct {
    const uint8_t *line;
    size_t len, at, row;
    int16_t bank[CELLS]; /* 64 registers; the others are only written */
} rider;

static void start(rider *r, const uint8_t *table, size_t len, const uint8_t *line, size_t line_len) {
    r->line = line;
    r->len = line_len;
    r->at = r->row = 0;
    for (int k = 0; k < 64; k++) r->bank[k] = -1;
    apply_at(table, len, 5, 0, r->bank);
}

/* The rest of a line, and what is told of it. */
static uint8_t rest(rider *r, const uint8_t *table, size_t len, const uint32_t *image, uint8_t *answer,
                    int16_t places[8]) {
    const uint8_t *line = r->line;
    size_t line_len = r->len, row = r->row, limit = 256u * table[4];
    for (size_t i = r->at; i < line_len;) {
        uint32_t e = image[row + line[i]];
        i++;
        if (e == row + IDLE) continue; /* the next load does not wait for this one */
        if (e < LISTED)
            r->bank[e % CELLS] = (int16_t)i;
        else
            obey(table, len, e, (int16_t)i, r->bank);
        row = e & ROW;
        if (row >= limit) return refuse(TABLE_FORM, answer, places);
    }
    return finish(table + image[limit + row / 256], r->bank, answer, places);
}

uint8_t plain_ride(const uint8_t *table, size_t len, const uint32_t *image, size_t image_len, const uint8_t *line,
                   size_t line_len, uint8_t *answer, int16_t places[8]) {
    (void)image_len;
    if (line_len > 32767) return refuse(LINE_LONG, answer, places);
    rider r;
    start(&r, table, len, line, line_len);
    return rest(&r, table, len, image, answer, places);
}

/* Two lines in one loop, so that their loads overlap: as long as both have bytes and words of kind 0. */
static void in_step(rider *a, rider *b, const uint32_t *image, size_t limit) {
    const uint8_t *line = a->line, *other = b->line;
    size_t i = 0, row = 0, other_row = 0, both = a->len < b->len ? a->len : b->len;
    for (; i < both; i++) {
        uint32_t e = image[row + line[i]], f = image[other_row + other[i]];
        if (e == row + IDLE && f == other_row + IDLE) continue;
        if ((e | f) >= LISTED || (e & ROW) >= limit || (f & ROW) >= limit) break;
        a->bank[e % CELLS] = b->bank[f % CELLS] = (int16_t)(i + 1);
        row = e & ROW;
        other_row = f & ROW;
    }
    a->at = b->at = i;
    a->row = row;
    b->row = other_row;
}

void plain_ride_two(const uint8_t *table, size_t len, const uint32_t *image, size_t image_len, const uint8_t *line,
                    size_t line_len, const uint8_t *other, size_t other_len, uint8_t codes[2], uint8_t answers[2],
                    int16_t first[8], int16_t second[8]) {
    if (line_len > 32767 || other_len > 32767) {
        codes[0] = plain_ride(table, len, image, image_len, line, line_len, &answers[0], first);
        codes[1] = plain_ride(table, len, image, image_len, other, other_len, &answers[1], second);
        return;
    }
    rider a, b;
    start(&a, table, len, line, line_len);
    start(&b, table, len, other, other_len);
    in_step(&a, &b, image, 256u * table[4]);
    codes[0] = rest(&a, table, len, image, &answers[0], first);
    codes[1] = rest(&b, table, len, image, &answers[1], second);
}
