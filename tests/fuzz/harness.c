/*
 * One input of the fuzzer, as one of the exported calls sees it, beside the plain C version of the call
 * (bench/plain.c). The proved library is not instrumented: the plain version is, and leads the fuzzer through the same
 * cases. Every buffer ends at a page that nobody may touch and has guard bytes before it; inputs lie in pages that
 * cannot be written while the call runs. A broken promise aborts: answers, lengths, places, what output and work memory
 * hold afterwards.
 *
 * Byte 0 of an input chooses the call, byte 1 its output's length, the rest is what the call reads.
 */
#define _GNU_SOURCE
#include "../../bench/plain.h"
#include "../../include/chorvugdan.h"

#include <stdio.h>
#include <stdlib.h>
#include <string.h>
#include <sys/mman.h>

enum { PAGE = 4096, GUARD = 64, FILL = 0xa5 };

#define CHECK(fact) \
    do { \
        if (!(fact)) { \
            fprintf(stderr, "broken: %s (line %d)\n", #fact, __LINE__); \
            abort(); \
        } \
    } while (0)

/* A buffer that ends where memory ends. */
typedef struct {
    uint8_t *all;
    size_t room;
} arena;

static arena in_a, in_b, out_a, out_b, work_a, image_a;

static void open_arena(arena *a, size_t room) {
    room = (room + GUARD + PAGE - 1) / PAGE * PAGE;
    uint8_t *all = mmap(NULL, room + PAGE, PROT_READ | PROT_WRITE, MAP_PRIVATE | MAP_ANONYMOUS, -1, 0);
    CHECK(all != MAP_FAILED);
    CHECK(mprotect(all + room, PAGE, PROT_NONE) == 0);
    a->all = all;
    a->room = room;
    memset(all, FILL, room);
}

static void shut(const arena *a, int writable) {
    CHECK(mprotect(a->all, a->room, writable ? PROT_READ | PROT_WRITE : PROT_READ) == 0);
}

/* The bytes, lent for reading only. */
static const uint8_t *lend(arena *a, const uint8_t *bytes, size_t len) {
    shut(a, 1);
    uint8_t *at = a->all + a->room - len;
    if (len) memcpy(at, bytes, len);
    shut(a, 0);
    return at;
}

static uint8_t *lend_empty(arena *a, size_t len) {
    uint8_t *at = a->all + a->room - len;
    memset(at - GUARD, FILL, len + GUARD);
    return at;
}

static int all_are(const uint8_t *bytes, size_t len, uint8_t value) {
    return len == 0 || (bytes[0] == value && memcmp(bytes, bytes + 1, len - 1) == 0);
}

/* Output whose first bytes are those, and nothing else changed. */
static void check_output(const uint8_t *out, size_t out_len, const uint8_t *want, size_t len) {
    CHECK(len <= out_len);
    CHECK(all_are(out - GUARD, GUARD, FILL));
    CHECK(len == 0 || memcmp(out, want, len) == 0);
    CHECK(all_are(out + len, out_len - len, FILL));
}

static void fuzz_field(const uint8_t *line, size_t len, const int16_t places[8], int a, int b) {
    int16_t from = a < 8 ? places[a] : -1, to = b < 8 ? places[b] : -1;
    uint8_t code = from < 0 || to < 0 ? CV_FIELD_ABSENT
                   : from > to        ? CV_FIELD_BACK
                   : (size_t)to > len ? CV_FIELD_PAST
                                      : CV_OK;
    size_t part = code ? 0 : (size_t)(to - from);
    const uint8_t *want = code ? line : line + from;
    CHECK(cv_reading_code(line, len, places, (uint8_t)a, (uint8_t)b) == code);
    CHECK(cv_field_code(line, len, from, to) == code);
    for (size_t room = part > 0 ? part - 1 : 0; room <= part + 1; room++) {
        uint8_t *out = lend_empty(&out_a, room);
        CHECK(cv_reading(line, len, places, (uint8_t)a, (uint8_t)b, out, room) == part);
        check_output(out, room, want, part <= room ? part : 0);
        out = lend_empty(&out_a, room);
        CHECK(cv_field(line, len, from, to, out, room) == part);
        check_output(out, room, want, part <= room ? part : 0);
    }
}

/* Two lines in step, the second of them the first's last half: each is told as it is alone, also in the other order. */
static void fuzz_two(const uint8_t *table, size_t table_len, const uint32_t *image, size_t words, const uint8_t *line,
                     size_t len) {
    for (int turned = 0; turned < 2; turned++) {
        size_t lens[2] = {turned ? len / 2 : len, turned ? len : len / 2};
        const uint8_t *lines[2] = {line + (len - lens[0]), line + (len - lens[1])};
        uint8_t codes[2], answers[2], answer;
        int16_t places[2][8], alone[8];
        cv_ride_two(table, table_len, image, words, lines[0], lens[0], lines[1], lens[1], codes, answers, places[0],
                    places[1]);
        for (int i = 0; i < 2; i++) {
            CHECK(cv_ride(table, table_len, image, words, lines[i], lens[i], &answer, alone) == codes[i]);
            CHECK(answer == answers[i] && memcmp(alone, places[i], 16) == 0);
        }
    }
}

/* The image of a table that is taken: the ride is the run. Damaged, any answer is right that keeps to its buffers. */
static void fuzz_ride(const uint8_t *table, size_t table_len, const uint8_t *line, size_t len, uint8_t code,
                      uint8_t answer, const int16_t places[8]) {
    size_t words = table_len > 4 ? table[4] * (size_t)CV_IMAGE_WORDS : 0;
    if (words > CV_IMAGE_MAX) words = CV_IMAGE_MAX;
    uint32_t *image = (uint32_t *)lend_empty(&image_a, words * 4);
    uint8_t mounted = cv_mount(table, table_len, image, words), got;
    int16_t got_places[8];
    CHECK(mounted == plain_load(table, table_len));
    CHECK(all_are((const uint8_t *)image - GUARD, GUARD, FILL));
    if (mounted != CV_OK) CHECK(all_are((const uint8_t *)image, words * 4, FILL));
    uint8_t ridden = cv_ride(table, table_len, image, words, line, len, &got, got_places);
    if (mounted == CV_OK) CHECK(ridden == code && got == answer && memcmp(got_places, places, 16) == 0);
    fuzz_two(table, table_len, image, words, line, len);
    for (size_t i = 0; i < words; i += 1 + len % 7) image[i] ^= (uint32_t)1 << (i + len) % 32;
    ridden = cv_ride(table, table_len, image, words, line, len, &got, got_places);
    CHECK(ridden == CV_OK || ridden == CV_TABLE_FORM || ridden == CV_LINE_LONG || ridden == CV_NO_MATCH);
    fuzz_two(table, table_len, image, words, line, len);
}

static void fuzz_run(const uint8_t *table, size_t table_len, const uint8_t *line, size_t len) {
    struct {
        int16_t before[4], places[8], after[4];
    } ours;
    memset(&ours, FILL, sizeof ours);
    uint8_t answer[3] = {FILL, FILL, FILL}, plain_answer;
    int16_t plain_places[8];
    uint8_t code = cv_run(table, table_len, line, len, &answer[1], ours.places);
    CHECK(code == plain_run(table, table_len, line, len, &plain_answer, plain_places));
    CHECK(answer[1] == plain_answer && answer[0] == FILL && answer[2] == FILL);
    CHECK(memcmp(ours.places, plain_places, sizeof plain_places) == 0);
    CHECK(all_are((const uint8_t *)ours.before, 8, FILL) && all_are((const uint8_t *)ours.after, 8, FILL));
    CHECK(code == CV_OK || (answer[1] == 255 && all_are((const uint8_t *)ours.places, 16, 255)));
    fuzz_ride(table, table_len, line, len, code, plain_answer, plain_places);
    for (int t = 0; t < 8; t++) CHECK(ours.places[t] >= -1 && (ours.places[t] < 0 || (size_t)ours.places[t] <= len));
}

/* A table, then one byte of how, then a line; the line is long where the byte says so. */
static void fuzz_table(const uint8_t *data, size_t len) {
    static uint8_t long_line[CV_LINE_MAX + 1];
    size_t table_len = len < 3 ? len : (data[0] | (size_t)data[1] << 8) % len, skip = len < 3 ? 0 : 2;
    if (table_len + skip > len) table_len = len - skip;
    const uint8_t *table = lend(&in_a, data + skip, table_len), *rest = data + skip + table_len;
    size_t rest_len = len - skip - table_len;
    uint8_t code = cv_load(table, table_len);
    CHECK(code == plain_load(table, table_len));
    fuzz_run(table, table_len, lend(&in_b, rest, rest_len), rest_len);
    if (rest_len > 0 && rest[0] >= 0xfe) {
        size_t long_len = CV_LINE_MAX + (size_t)(rest[0] & 1);
        for (size_t i = 0; i < long_len; i++) long_line[i] = rest[i % rest_len];
        fuzz_run(table, table_len, lend(&in_b, long_line, long_len), long_len);
    }
}

static size_t fuzz_build(const uint8_t *data, size_t len, size_t work_len, size_t out_len) {
    static uint8_t want[CV_TABLE_ROOM];
    const uint8_t *net = lend(&in_a, data, len);
    uint8_t *work = lend_empty(&work_a, work_len), *out = lend_empty(&out_a, out_len);
    size_t length = 99, situations = 99, registers = 99, want_len = 0, want_situations = 0, want_registers = 0;
    uint8_t code = cv_build(net, len, work, work_len, out, out_len, &length, &situations, &registers);
    uint8_t want_code = CV_WORK_SMALL;
    if (work_len >= CV_WORK_MIN)
        want_code = plain_build(net, len, want, out_len, &want_len, &want_situations, &want_registers);
    CHECK(code == want_code);
    CHECK(length == want_len && situations == want_situations && registers == want_registers);
    check_output(out, out_len, want, length);
    CHECK(all_are(work, work_len, 0) && all_are(work - GUARD, GUARD, FILL));
    for (size_t i = 0; i < 66; i += 13) {
        uint32_t count[3] = {FILL, FILL, FILL};
        uint8_t counted = cv_count(net, len, i, &count[1]);
        CHECK(counted == CV_OK ? count[1] <= 256 : count[1] == 0);
        CHECK(counted == CV_OK || counted == CV_NOT_BYTES || (counted >= CV_NET_KIND && counted <= CV_NET_EXTRA));
        CHECK(count[0] == FILL && count[2] == FILL);
    }
    if (code == CV_OK) CHECK(cv_load(out, length) == CV_OK);
    return length;
}

/* A pattern, up to the first byte 10; the rest is a line for its table. */
static void fuzz_pattern(const uint8_t *data, size_t len, size_t out_len) {
    static uint8_t want[4096], net[CV_NET_MAX], card[CV_TABLE_ROOM];
    const uint8_t *end = memchr(data, '\n', len);
    size_t text_len = end ? (size_t)(end - data) : len, rest = end ? text_len + 1 : len;
    const uint8_t *text = lend(&in_a, data, text_len);
    uint8_t *out = lend_empty(&out_b, out_len);
    size_t place = 99, length = 99, want_place, want_len;
    uint8_t code = cv_pattern(text, text_len, out, out_len, &place, &length);
    CHECK(code == plain_pattern(text, text_len, want, out_len, &want_place, &want_len));
    CHECK(place == want_place && length == want_len);
    check_output(out, out_len, want, length);
    if (code != CV_OK) return;
    memcpy(net, out, length);
    size_t card_len = fuzz_build(net, length, CV_WORK_MIN, CV_TABLE_ROOM);
    if (card_len == 0) return;
    memcpy(card, out_a.all + out_a.room - CV_TABLE_ROOM, card_len);
    fuzz_run(lend(&in_a, card, card_len), card_len, lend(&in_b, data + rest, len - rest), len - rest);
}

/* Files of the right form or one byte beside it, drawn from the input: what chance alone would hardly write. */
typedef struct {
    const uint8_t *data;
    size_t len;
} draw;

static int below(draw *d, int n) {
    if (d->len == 0) return 0;
    d->len--;
    return *d->data++ % n;
}

static uint8_t *put(uint8_t *w, int a, int b) {
    *w++ = (uint8_t)a;
    *w++ = (uint8_t)b;
    return w;
}

static uint8_t *drawn_commands(draw *d, int registers, int kinds, uint8_t *w) {
    for (int to = 0; to < registers; to++) {
        int kind = below(d, kinds);
        if (kind > 0) w = put(w, kind == 1 ? 0x25 : 0x24, to);
        if (kind == 2) *w++ = (uint8_t)below(d, registers);
    }
    return w;
}

/* One byte of the file made another, for one input in four. */
static int damage(draw *d, uint8_t *file, size_t len) {
    if (below(d, 4) != 1) return 0;
    size_t at = (size_t)(below(d, 256) << 8 | below(d, 256)) % len;
    file[at] = (uint8_t)(below(d, 2) ? file[at] + 1 - 2 * below(d, 2) : below(d, 256));
    return 1;
}

static void fuzz_drawn_table(draw d) {
    static uint8_t table[1 << 12];
    int registers = below(&d, 6), situations = 1 + below(&d, 6);
    uint8_t *w = put(put(table, 0x21, 1), 2, registers);
    *w++ = (uint8_t)situations;
    w = drawn_commands(&d, registers, 2, w);
    for (int q = 0; q < situations; q++) {
        int answer = below(&d, 2) ? below(&d, 255) : 255;
        w = put(w, 0x22, answer);
        for (int t = 0; t < 8; t++) {
            int field = t < 2 && answer < 255 ? below(&d, registers + 1) : registers;
            *w++ = (uint8_t)(field == registers ? 255 : field);
        }
        for (int lo = 0, rows = 0; lo < 256; rows++) {
            int hi = rows == 3 ? 255 : lo + below(&d, 256 - lo);
            w = put(put(w, 0x23, lo), hi, below(&d, situations));
            w = drawn_commands(&d, registers, 3, w);
            lo = hi + 1;
        }
    }
    size_t len = (size_t)(w - table);
    int damaged = damage(&d, table, len);
    const uint8_t *lent = lend(&in_a, table, len);
    uint8_t code = cv_load(lent, len);
    CHECK(damaged || code != CV_TABLE_FORM);
    CHECK(code == plain_load(lent, len));
    fuzz_run(lent, len, lend(&in_b, d.data, d.len), d.len);
}

static void fuzz_drawn_net(draw d) {
    static uint8_t net[CV_NET_MAX];
    int count = 1 + below(&d, 16), tags = below(&d, 9);
    uint8_t *w = put(put(net, 0x10, 1), tags, count);
    for (int i = 0; i < count; i++) {
        int kind = 0x11 + below(&d, 5);
        if (kind == 0x14 && tags == 0) kind = 0x13;
        *w++ = (uint8_t)kind;
        if (kind == 0x11) {
            int lo = below(&d, 256);
            w = put(w, lo, lo + below(&d, 256 - lo));
        } else if (kind == 0x12) {
            memset(w, below(&d, 256), 32);
            w[below(&d, 32)] = (uint8_t)below(&d, 256);
            w += 32;
        } else if (kind == 0x13) {
            *w++ = (uint8_t)below(&d, count);
        } else if (kind == 0x14) {
            *w++ = (uint8_t)below(&d, tags);
        }
        *w++ = (uint8_t)below(&d, kind == 0x15 ? 255 : count);
    }
    static uint8_t card[CV_TABLE_ROOM];
    damage(&d, net, (size_t)(w - net));
    size_t card_len = fuzz_build(net, (size_t)(w - net), CV_WORK_MIN, CV_TABLE_ROOM);
    if (card_len == 0) return;
    memcpy(card, out_a.all + out_a.room - CV_TABLE_ROOM, card_len);
    fuzz_run(lend(&in_a, card, card_len), card_len, lend(&in_b, d.data, d.len), d.len);
}

int LLVMFuzzerTestOneInput(const uint8_t *data, size_t len) {
    if (in_a.all == NULL) {
        open_arena(&in_a, 1 << 17);
        open_arena(&in_b, 1 << 17);
        open_arena(&out_a, 1 << 17);
        open_arena(&out_b, 1 << 13);
        open_arena(&work_a, 1 << 17);
        open_arena(&image_a, CV_IMAGE_MAX * 4);
    }
    if (len < 2 || len > 1 << 15) return 0;
    const uint8_t *rest = data + 2;
    size_t rest_len = len - 2;
    int16_t places[8];
    switch (data[0] % 6) {
    case 0: /* mostly with room enough */
        fuzz_pattern(rest, rest_len, data[1] < 200 ? CV_NET_MAX : data[1] - 200u);
        break;
    case 1:
        fuzz_build(rest, rest_len,
                   data[1] == 255   ? CV_WORK_MIN - 1
                   : data[1] == 254 ? 0
                                    : CV_WORK_MIN,
                   data[1] < 200 ? CV_TABLE_ROOM : 7u * (data[1] - 200u));
        break;
    case 2:
        fuzz_table(rest, rest_len);
        break;
    case 3:
        fuzz_drawn_table((draw){rest, rest_len});
        break;
    case 4:
        fuzz_drawn_net((draw){rest, rest_len});
        break;
    default:
        if (rest_len < 16) return 0;
        memcpy(places, rest, 16);
        fuzz_field(lend(&in_b, rest + 16, rest_len - 16), rest_len - 16, places, data[1] % 10, data[1] / 10 % 10);
    }
    return 0;
}
