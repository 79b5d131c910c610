/*
 * How much stack the calls use. Each call runs on a thread whose stack is painted first; the lowest byte that is no
 * longer paint tells how deep it went.
 *   stack [VECTORS..]   files of vectors (their lines P, C, B, L, R, F and G) beside the cases that are made here
 */
#include "../include/chorvugdan.h"

#include <pthread.h>
#include <stdio.h>
#include <stdlib.h>
#include <string.h>

enum { STACK = 1 << 20, NEAR = 256, LINE = 40000 };
static const uint64_t paint = 0x9e3779b97f4a7c15u;

static uint8_t *stack;
static uint8_t net[LINE], work[CV_WORK_MIN], table[CV_TABLE_MAX], line[LINE], part[LINE];
static size_t net_len, table_len, line_len;
static uint32_t image[CV_IMAGE_MAX];
static int16_t places[CV_TAGS];

/* ---- the calls, on what the buffers hold ---- */

static uint8_t code; /* of the last call that tells one */

static void do_pattern(void) {
    size_t place;
    code = cv_pattern(line, line_len, net, sizeof net, &place, &net_len);
}
static void do_count(void) {
    uint32_t count;
    code = cv_count(net, net_len, 0, &count);
}
static void do_build(void) {
    size_t situations, registers;
    code = cv_build(net, net_len, work, sizeof work, table, sizeof table, &table_len, &situations, &registers);
}
static void do_load(void) { code = cv_load(table, table_len); }
static void do_run(void) {
    uint8_t answer;
    code = cv_run(table, table_len, line, line_len, &answer, places);
}
static void do_mount(void) { code = cv_mount(table, table_len, image, CV_IMAGE_MAX); }
static void do_ride(void) {
    uint8_t answer;
    code = cv_ride(table, table_len, image, CV_IMAGE_MAX, line, line_len, &answer, places);
}
static void do_ride_two(void) {
    uint8_t codes[2], answers[2];
    int16_t second[8];
    cv_ride_two(table, table_len, image, CV_IMAGE_MAX, line, line_len, line, line_len, codes, answers, places, second);
    code = codes[0];
}
static void do_field(void) {
    code = cv_field_code(line, line_len, 0, 1);
    cv_field(line, line_len, 0, 1, part, sizeof part);
}
static void do_reading(void) {
    code = cv_reading_code(line, line_len, places, 0, 1);
    cv_reading(line, line_len, places, 0, 1, part, sizeof part);
}

enum { PATTERN, COUNT, BUILD, LOAD, RUN, MOUNT, RIDE, RIDE_TWO, FIELD, READING, CALLS };
static struct {
    const char *name;
    void (*call)(void);
    size_t most, times;
    char *with; /* the case that used the most */
} calls[CALLS] = {
    {"cv_pattern", do_pattern, 0, 0, NULL}, {"cv_count", do_count, 0, 0, NULL}, {"cv_build", do_build, 0, 0, NULL},
    {"cv_load", do_load, 0, 0, NULL},       {"cv_run", do_run, 0, 0, NULL},     {"cv_mount", do_mount, 0, 0, NULL},
    {"cv_ride", do_ride, 0, 0, NULL},       {"cv_ride_two", do_ride_two, 0, 0, NULL},
    {"cv_field", do_field, 0, 0, NULL},     {"cv_reading", do_reading, 0, 0, NULL},
};

/* ---- measuring ---- */

struct task {
    void (*call)(void);
    size_t used;
};

/* Paints what is below its own frame, and sees what the call left of it. Use below NEAR bytes counts as NEAR. */
static void *on_thread(void *with) {
    struct task *t = with;
    uint8_t *frame = __builtin_frame_address(0);
    uint64_t *low = (uint64_t *)(void *)stack, *near = (uint64_t *)(void *)(stack + (frame - NEAR - stack) / 8 * 8);
    for (volatile uint64_t *p = low; p < near; p++) *p = paint;
    t->call();
    volatile uint64_t *p = low;
    while (p < near && *p == paint) p++;
    t->used = (size_t)(frame - (uint8_t *)(uintptr_t)p);
    return NULL;
}

static void measure(int which, const char *with) {
    struct task t = {calls[which].call, 0};
    pthread_attr_t own;
    pthread_t thread;
    if (pthread_attr_init(&own) || pthread_attr_setstack(&own, stack, STACK) ||
        pthread_create(&thread, &own, on_thread, &t) || pthread_join(thread, NULL)) {
        fprintf(stderr, "stack: no thread\n");
        exit(1);
    }
    pthread_attr_destroy(&own);
    calls[which].times++;
    if (t.used <= calls[which].most) return;
    calls[which].most = t.used;
    free(calls[which].with);
    calls[which].with = strdup(with);
}

/* ---- cases ---- */

/* Everything that a table goes through; the line stays what it is. */
static void try_table(const char *with) {
    measure(LOAD, with);
    measure(RUN, with);
    measure(MOUNT, with);
    if (code == CV_OK) {
        measure(RIDE, with);
        measure(RIDE_TWO, with);
    }
    measure(FIELD, with);
    measure(READING, with);
}

static void try_net(const char *with) {
    measure(COUNT, with);
    measure(BUILD, with);
    if (code != CV_OK) return;
    line_len = 600;
    for (size_t i = 0; i < line_len; i++) line[i] = (uint8_t)i;
    try_table(with);
}

static void try_pattern(const char *text, size_t len) {
    char name[64];
    snprintf(name, sizeof name, "`%.*s%s`", len > 40 ? 40 : (int)len, text, len > 40 ? ".." : "");
    memcpy(line, text, len);
    line_len = len;
    measure(PATTERN, name);
    if (code == CV_OK) try_net(name);
}

/* A chain of 62 FORKs whose one side is the next record and whose other side, like the last FORK's next, is END. */
static void try_chain(const char *with, int first) {
    const uint8_t head[4] = {0x10, 1, 0, 64}, tail[6] = {0x11, 0, 255, 63, 0x15, 0};
    memcpy(net, head, 4);
    for (uint8_t i = 0; i < 62; i++) {
        const uint8_t fork[3] = {0x13, first ? (uint8_t)(i + 1) : 63, first ? 63 : (uint8_t)(i + 1)};
        memcpy(net + 4 + 3 * i, fork, 3);
    }
    memcpy(net + 4 + 3 * 62, tail, 6);
    net_len = 4 + 3 * 62 + 6;
    try_net(with);
}

/* As long as a pattern may be: what comes first, then a piece again and again, then what comes last. */
static void try_long(const char *first, const char *piece, const char *last) {
    char text[CV_PATTERN_MAX + 1];
    size_t len = 0, each = strlen(piece), end = strlen(last);
    for (const char *p = first; *p; p++) text[len++] = *p;
    for (; len + each + end <= CV_PATTERN_MAX; len += each) memcpy(text + len, piece, each);
    memcpy(text + len, last, end);
    try_pattern(text, len + end);
}

static void try_made(void) {
    static const char *const texts[] = {
        "",
        "TRK-@0[0-9]+@1;(NET|GROSS|TARE); *@2[0-9]+(\\.[0-9]+)?@3 @4(kg|t|lb)@5;[0-9:]+;[0-9A-F]+",
        ".*a.....",
        ".*a......",
        ".*@0@1@2@3@4@5@6@7.......",
        ".*@0@1@2@3@4@5@6@7........",
        "((((((((((((((((a|b)*|c)+|d)?|e)*|f)+|g)?|h)*|i)+|j)?|k)*|l)+|m)?|n)*|o)+|p)?|q)*",
        "((((((((((((((((([a])))))))))))))))))",
        "(@0a*@1)*(@2b*@3)*(@4c*@5)*(@6d*@7)*",
    };
    for (size_t i = 0; i < sizeof texts / sizeof texts[0]; i++) try_pattern(texts[i], strlen(texts[i]));
    try_long("", "a", "");
    try_long("", "|", "");
    try_long("", "@0", "");
    try_long("", "()", "");
    try_long("[", "a", "]");
    try_long("[", "a-b", "]");
    try_long("[^", "[:alpha:]", "]");
    try_long("((((((((((((((((", "|a", "))))))))))))))))");
    try_chain("62 FORKs, the chain on the first side", 1);
    try_chain("62 FORKs, the chain on the second side", 0);
}

/* ---- vectors ---- */

static int digit(char c) { return c >= '0' && c <= '9' ? c - '0' : c >= 'a' && c <= 'f' ? c - 'a' + 10 : -1; }

static size_t unhex(const char *word, uint8_t *out, size_t room) {
    size_t n = 0;
    for (; word && n < room && digit(word[0]) >= 0 && digit(word[1]) >= 0; word += 2)
        out[n++] = (uint8_t)(16 * digit(word[0]) + digit(word[1]));
    return n;
}

static void try_vector(char *text) {
    char name[64];
    snprintf(name, sizeof name, "%.*s", (int)strcspn(text, "\n"), text);
    char kind = text[0];
    const char *first = strtok(text + 1, " \n"), *second = strtok(NULL, " \n");
    switch (kind) {
    case 'P':
        line_len = unhex(first, line, sizeof line);
        measure(PATTERN, name);
        break;
    case 'C':
        net_len = unhex(first, net, sizeof net);
        measure(COUNT, name);
        break;
    case 'B':
        net_len = unhex(first, net, sizeof net);
        try_net(name);
        break;
    case 'L':
        line_len = 0;
        table_len = unhex(first, table, sizeof table);
        try_table(name);
        break;
    case 'R':
        table_len = unhex(first, table, sizeof table);
        line_len = unhex(second, line, sizeof line);
        try_table(name);
        break;
    case 'F':
    case 'G':
        line_len = unhex(first, line, sizeof line);
        measure(kind == 'F' ? FIELD : READING, name);
        break;
    }
}

static void try_file(const char *path) {
    FILE *f = fopen(path, "r");
    if (!f) {
        perror(path);
        exit(1);
    }
    char *text = NULL;
    size_t room = 0;
    while (getline(&text, &room, f) > 0) try_vector(text);
    free(text);
    fclose(f);
}

int main(int argc, char **argv) {
    if (posix_memalign((void **)&stack, 4096, STACK)) return 1;
    try_made();
    for (int i = 1; i < argc; i++) try_file(argv[i]);
    printf("%-12s %8s %8s  the case that used the most\n", "call", "stack", "of calls");
    for (int i = 0; i < CALLS; i++)
        printf("%-12s %8zu %8zu  %s\n", calls[i].name, calls[i].most, calls[i].times,
               calls[i].with ? calls[i].with : "-");
    return 0;
}
