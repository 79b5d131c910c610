// The bench: ours against its peers, in one process, in interleaved rounds, the least of many rounds for each. An
// engine's time counts only where it finds what ours finds: every line's match and places are compared first.
//   bench [--rounds N] [--svg FILE --class TEXT --date TEXT]
#include "bench.h"
#include "../include/chorvugdan.h"
#include "plain.h"

#include <malloc.h>
#include <time.h>

#include <algorithm>
#include <cmath>
#include <cstdio>
#include <cstdlib>
#include <cstring>
#include <functional>
#include <memory>
#include <string>
#include <vector>

#ifdef HAVE_RE2
#include <re2/re2.h>
#endif
#ifdef HAVE_PCRE2
#define PCRE2_CODE_UNIT_WIDTH 8
#include <pcre2.h>
#endif
#ifdef HAVE_TRE
#include <tre/tre.h>
#endif
#ifdef HAVE_ONIG
#define ONIG_ESCAPE_REGEX_T_COLLISION
#include <oniguruma.h>
#endif

using std::string;
using std::vector;

// ---- cases ----

struct Bound {
    int group;
    bool end;
};

struct Case {
    string name, ours, peer; // the pattern in our notation, and with groups for the peers
    vector<Bound> tags;      // the group's bound that each tag stands for
    vector<string> lines;
    int (*re2c)(const unsigned char *, int32_t *);
};

struct Numbers { // the same cases everywhere
    uint64_t state;
    uint32_t next(uint32_t below) {
        state = state * 6364136223846793005u + 1442695040888963407u;
        return (uint32_t)(state >> 33) % below;
    }
    string digits(int n) {
        string s;
        while (n-- > 0) s += (char)('0' + next(10));
        return s;
    }
    string printable(int n, char but) {
        string s;
        while ((int)s.size() < n) {
            char c = (char)(33 + next(94));
            if (c != but) s += c;
        }
        return s;
    }
};

// A feed as it comes: names, units, spaces and digits change from line to line.
static string mixed_line(Numbers &n) {
    const char *names[] = {"NET", "GROSS", "TARE"}, *units[] = {"kg", "t", "lb"}, *hex = "0123456789ABCDEF";
    string line = "TRK-" + n.digits(4 + (int)n.next(3)) + ";" + names[n.next(3)] + ";" + string(n.next(4), ' ');
    line += n.digits(2 + (int)n.next(4));
    if (n.next(4)) line += "." + n.digits(1 + (int)n.next(2));
    line += string(" ") + units[n.next(3)] + ";" + n.digits(2) + ":" + n.digits(2) + ":" + n.digits(2) + ";";
    line += hex[n.next(16)];
    return line + hex[n.next(16)];
}

static vector<Case> cases() {
    Numbers n{20};
    vector<Case> all;
    {
        Case c{"feed, 37 bytes",
               "TRK-@0[0-9]+@1;(NET|GROSS|TARE); *@2[0-9]+(\\.[0-9]+)?@3 @4(kg|t|lb)@5;[0-9:]+;[0-9A-F]+",
               "TRK-([0-9]+);(?:NET|GROSS|TARE); *([0-9]+(?:\\.[0-9]+)?) (kg|t|lb);[0-9:]+;[0-9A-F]+",
               {{1, false}, {1, true}, {2, false}, {2, true}, {3, false}, {3, true}},
               {},
               re2c_feed};
        for (int i = 0; i < 64; i++)
            c.lines.push_back("TRK-" + n.digits(4) + ";NET;  " + n.digits(5) + "." + n.digits(1) + " kg;06:0" +
                              n.digits(1) + ":1" + n.digits(1) + ";A" + n.digits(1));
        all.push_back(c);
        c.name = "feed, mixed lines"; // more of them than a processor learns by heart
        c.lines.clear();
        Numbers own{21};
        for (int i = 0; i < 2048; i++) c.lines.push_back(mixed_line(own));
        all.push_back(c);
    }
    {
        Case c{"noise, 200 bytes", "[^#]*#@0[0-9]+@1[^#]*", "[^#]*#([0-9]+)[^#]*", {{1, false}, {1, true}}, {},
               re2c_noise};
        for (int i = 0; i < 32; i++) {
            int before = (int)n.next(180);
            c.lines.push_back(n.printable(before, '#') + "#" + n.digits(5) + " " + n.printable(193 - before, '#'));
        }
        all.push_back(c);
    }
    {
        Case c{"shift, 32767 bytes",
               "(@0[0-9]+@1 @2(kg|t)@3;)*",
               "(?:([0-9]+) (kg|t);)*",
               {{1, false}, {1, true}, {2, false}, {2, true}},
               {},
               re2c_shift};
        string line;
        for (int i = 0; i < 4681; i++) line += n.digits(4) + " t;";
        c.lines.push_back(line);
        all.push_back(c);
    }
    {
        Case c{"eight fields", "", "", {}, {}, re2c_fields};
        for (int t = 0; t < 8; t++) {
            c.ours += (t ? ",@" : "@") + std::to_string(t) + "[^,]*";
            c.peer += t ? ",([^,]*)" : "([^,]*)";
            c.tags.push_back({t + 1, false});
        }
        for (int i = 0; i < 64; i++) {
            string line;
            for (int t = 0; t < 8; t++) line += (t ? "," : "") + n.printable((int)n.next(12), ',');
            c.lines.push_back(line);
        }
        all.push_back(c);
    }
    {
        Case c{"64 registers", ".*@0@1@2@3@4@5@6@7.......", ".*()()()()()()()().......", {}, {}, re2c_registers};
        for (int t = 0; t < 8; t++) c.tags.push_back({t + 1, false});
        for (int i = 0; i < 32; i++) c.lines.push_back(n.printable(100 + (int)n.next(100), '\n'));
        all.push_back(c);
    }
    {
        Case c{"(a|aa)*b", "(a|aa)*@0b", "(?:a|aa)*()b", {{1, false}}, {}, re2c_ambiguous};
        for (int i = 0; i < 16; i++) c.lines.push_back(string(150 + n.next(100), 'a') + "b");
        all.push_back(c);
        c.name = "(a|aa)*b, refused";
        c.lines.clear();
        for (int i = 0; i < 16; i++) c.lines.push_back(string(40 + n.next(8), 'a') + "bc");
        all.push_back(c);
    }
    return all;
}

// ---- engines ----

enum { NO = 0, YES = 1, GAVE_UP = -1 };

static const uint8_t *bytes(const string &s) { return reinterpret_cast<const uint8_t *>(s.data()); }

struct Found {
    int match;
    int32_t places[8];
};

struct Engine {
    string name, note;
    explicit Engine(string n) : name(std::move(n)) {}
    virtual ~Engine() {}
    virtual bool build(const Case &c) = 0;
    virtual void drop() {}
    virtual int match(const string &line, int32_t places[8]) = 0;
    virtual bool pairs() { return false; } // takes two lines at once
    virtual void match_two(const string &, const string &, Found[2]) {}
    virtual size_t extra() { return 0; } // bytes held outside the heap
    virtual bool builds() { return true; }
};

// What an engine finds of each line, in order; one that takes pairs has a last odd line alone.
template <class F> static void match_all(Engine &e, const vector<string> &lines, F told) {
    Found found[2];
    size_t i = 0;
    if (e.pairs())
        for (; i + 1 < lines.size(); i += 2) {
            e.match_two(lines[i], lines[i + 1], found);
            told(lines[i], found[0]);
            told(lines[i + 1], found[1]);
        }
    for (; i < lines.size(); i++) {
        found[0].match = e.match(lines[i], found[0].places);
        told(lines[i], found[0]);
    }
}

struct Card : Engine { // what ours and the plain C versions share
    vector<uint8_t> net = vector<uint8_t>(CV_NET_MAX), work = vector<uint8_t>(CV_WORK_MIN),
                    table = vector<uint8_t>(CV_TABLE_ROOM);
    size_t net_len = 0, table_len = 0, situations = 0, registers = 0;
    using Engine::Engine;
    bool build(const Case &c) override {
        size_t place;
        return cv_pattern(bytes(c.ours), c.ours.size(), net.data(), net.size(), &place, &net_len) == CV_OK &&
               cv_build(net.data(), net_len, work.data(), work.size(), table.data(), table.size(), &table_len,
                        &situations, &registers) == CV_OK;
    }
    int told(uint8_t code, const int16_t *from, int32_t *to) {
        for (int t = 0; t < 8; t++) to[t] = from[t];
        return code == CV_OK ? YES : NO;
    }
};

struct Run : Card {
    Run() : Card("cv_run") { note = "judges at each call"; }
    int match(const string &line, int32_t places[8]) override {
        uint8_t answer;
        int16_t p[8];
        return told(cv_run(table.data(), table_len, bytes(line), line.size(), &answer, p), p, places);
    }
    size_t extra() override { return table_len; }
};

struct PlainRun : Card {
    PlainRun() : Card("plain C run") { note = "judges at each call"; }
    int match(const string &line, int32_t places[8]) override {
        uint8_t answer;
        int16_t p[8];
        return told(plain_run(table.data(), table_len, bytes(line), line.size(), &answer, p), p, places);
    }
    bool builds() override { return false; }
};

struct Image : Card {
    vector<uint32_t> image = vector<uint32_t>(CV_IMAGE_MAX);
    using Card::Card;
    template <decltype(cv_ride_two) *ride> void two(const string &line, const string &other, Found found[2]) {
        uint8_t codes[2], answers[2];
        int16_t p[2][8];
        ride(table.data(), table_len, image.data(), image.size(), bytes(line), line.size(), bytes(other), other.size(),
             codes, answers, p[0], p[1]);
        for (int i = 0; i < 2; i++) found[i].match = told(codes[i], p[i], found[i].places);
    }
};

struct PlainRide : Image {
    explicit PlainRide(string n = "plain C ride") : Image(std::move(n)) { note = "loaded once"; }
    bool build(const Case &c) override {
        return Card::build(c) && plain_mount(table.data(), table_len, image.data(), image.size()) == CV_OK;
    }
    int match(const string &line, int32_t places[8]) override {
        uint8_t answer;
        int16_t p[8];
        return told(
            plain_ride(table.data(), table_len, image.data(), image.size(), bytes(line), line.size(), &answer, p), p,
            places);
    }
    bool builds() override { return false; }
};

struct PlainRideTwo : PlainRide {
    PlainRideTwo() : PlainRide("plain C ride two") { note = "two lines in step, loaded once"; }
    bool pairs() override { return true; }
    void match_two(const string &line, const string &other, Found found[2]) override {
        two<plain_ride_two>(line, other, found);
    }
};

struct Ride : Image {
    explicit Ride(string n = "cv_ride") : Image(std::move(n)) { note = "loaded once"; }
    bool build(const Case &c) override {
        return Card::build(c) && cv_mount(table.data(), table_len, image.data(), image.size()) == CV_OK;
    }
    int match(const string &line, int32_t places[8]) override {
        uint8_t answer;
        int16_t p[8];
        return told(cv_ride(table.data(), table_len, image.data(), image.size(), bytes(line), line.size(), &answer, p),
                    p, places);
    }
    size_t extra() override { return table_len + situations * CV_IMAGE_WORDS * 4; }
};

struct RideTwo : Ride {
    RideTwo() : Ride("cv_ride_two") { note = "two lines in step, loaded once"; }
    bool pairs() override { return true; }
    void match_two(const string &line, const string &other, Found found[2]) override {
        two<cv_ride_two>(line, other, found);
    }
    bool builds() override { return false; }
};

// Places of the case's tags out of a peer's groups.
template <class F> static void places_of(const Case &c, int32_t places[8], F bound) {
    for (size_t t = 0; t < 8; t++) places[t] = t < c.tags.size() ? bound(c.tags[t].group, c.tags[t].end) : -1;
}

#ifdef HAVE_RE2
struct Re2 : Engine {
    const Case *c = nullptr;
    std::unique_ptr<RE2> re;
    Re2() : Engine("RE2") {}
    bool build(const Case &with) override {
        c = &with;
        RE2::Options o;
        o.set_encoding(RE2::Options::EncodingLatin1);
        o.set_dot_nl(true);
        re.reset(new RE2(with.peer, o));
        return re->ok();
    }
    void drop() override { re.reset(); }
    int match(const string &line, int32_t places[8]) override {
        re2::StringPiece groups[10];
        if (!re->Match(line, 0, line.size(), RE2::ANCHOR_BOTH, groups, 10)) {
            places_of(*c, places, [](int, bool) { return -1; });
            return NO;
        }
        places_of(*c, places, [&](int g, bool end) {
            return groups[g].data() ? (int)(groups[g].data() - line.data() + (end ? groups[g].size() : 0)) : -1;
        });
        return YES;
    }
};
#endif

#ifdef HAVE_PCRE2
struct Pcre2 : Engine {
    const Case *c = nullptr;
    bool jit;
    pcre2_code *code = nullptr;
    pcre2_match_data *data = nullptr;
    pcre2_match_context *context;
    pcre2_jit_stack *stack;
    explicit Pcre2(bool with_jit) : Engine(with_jit ? "PCRE2 JIT" : "PCRE2"), jit(with_jit) {
        context = pcre2_match_context_create(nullptr);
        stack = pcre2_jit_stack_create(32 * 1024, 64 * 1024 * 1024, nullptr);
        pcre2_jit_stack_assign(context, nullptr, stack);
        pcre2_set_match_limit(context, 1000000);
    }
    bool build(const Case &with) override {
        c = &with;
        int error;
        PCRE2_SIZE at;
        code = pcre2_compile(bytes(with.peer), with.peer.size(), PCRE2_ANCHORED | PCRE2_ENDANCHORED | PCRE2_DOTALL,
                             &error, &at, nullptr);
        if (!code || (jit && pcre2_jit_compile(code, PCRE2_JIT_COMPLETE) != 0)) return false;
        data = pcre2_match_data_create_from_pattern(code, nullptr);
        return true;
    }
    void drop() override {
        pcre2_match_data_free(data);
        pcre2_code_free(code);
        data = nullptr;
        code = nullptr;
    }
    int match(const string &line, int32_t places[8]) override {
        int n = jit ? pcre2_jit_match(code, bytes(line), line.size(), 0, 0, data, context)
                    : pcre2_match(code, bytes(line), line.size(), 0, PCRE2_NO_UTF_CHECK, data, context);
        if (n < 0) {
            places_of(*c, places, [](int, bool) { return -1; });
            return n == PCRE2_ERROR_NOMATCH ? NO : GAVE_UP;
        }
        PCRE2_SIZE *v = pcre2_get_ovector_pointer(data);
        places_of(*c, places,
                  [&](int g, bool end) { return g < n && v[2 * g] != PCRE2_UNSET ? (int)v[2 * g + end] : -1; });
        return YES;
    }
    size_t extra() override {
        size_t size = 0;
        if (jit) pcre2_pattern_info(code, PCRE2_INFO_JITSIZE, &size);
        return size;
    }
};
#endif

#ifdef HAVE_TRE
struct Tre : Engine {
    const Case *c = nullptr;
    regex_t re;
    Tre() : Engine("TRE") {}
    bool build(const Case &with) override {
        c = &with;
        string anchored = "^(?:" + with.peer + ")$";
        return tre_regncomp(&re, anchored.data(), anchored.size(), REG_EXTENDED) == 0;
    }
    void drop() override { tre_regfree(&re); }
    int match(const string &line, int32_t places[8]) override {
        regmatch_t groups[10];
        if (tre_regnexec(&re, line.data(), line.size(), 10, groups, 0) != 0) {
            places_of(*c, places, [](int, bool) { return -1; });
            return NO;
        }
        places_of(*c, places, [&](int g, bool end) { return (int)(end ? groups[g].rm_eo : groups[g].rm_so); });
        return YES;
    }
};
#endif

#ifdef HAVE_ONIG
struct Onig : Engine {
    const Case *c = nullptr;
    OnigRegex re = nullptr;
    OnigRegion *region = onig_region_new();
    Onig() : Engine("Oniguruma") {
        OnigEncoding use[] = {ONIG_ENCODING_ASCII};
        onig_initialize(use, 1);
        onig_set_retry_limit_in_match(1000000);
    }
    bool build(const Case &with) override {
        c = &with;
        string whole = "(?:" + with.peer + ")\\z";
        OnigErrorInfo error;
        return onig_new(&re, bytes(whole), bytes(whole) + whole.size(), ONIG_OPTION_SINGLELINE | ONIG_OPTION_MULTILINE,
                        ONIG_ENCODING_ASCII, ONIG_SYNTAX_PERL, &error) == ONIG_NORMAL;
    }
    void drop() override { onig_free(re); }
    int match(const string &line, int32_t places[8]) override {
        const uint8_t *s = bytes(line);
        int n = onig_match(re, s, s + line.size(), s, region, ONIG_OPTION_NONE);
        if (n < 0) {
            places_of(*c, places, [](int, bool) { return -1; });
            return n == ONIG_MISMATCH ? NO : GAVE_UP;
        }
        places_of(*c, places,
                  [&](int g, bool end) { return g < region->num_regs ? (end ? region->end[g] : region->beg[g]) : -1; });
        return YES;
    }
};
#endif

#ifdef HAVE_RE2C
struct Re2c : Engine {
    const Case *c = nullptr;
    Re2c() : Engine("re2c") { note = "compiled beforehand"; }
    bool build(const Case &with) override {
        c = &with;
        return with.re2c != nullptr;
    }
    int match(const string &line, int32_t places[8]) override {
        for (int t = 0; t < 8; t++) places[t] = -1;
        return c->re2c(bytes(line), places) ? YES : NO;
    }
    bool builds() override { return false; }
};
#endif

#ifdef HAVE_RUST_REGEX
struct RustRegex : Engine {
    const Case *c = nullptr;
    void *re = nullptr;
    RustRegex() : Engine("Rust regex") {}
    bool build(const Case &with) override {
        c = &with;
        string whole = "(?s-u)^(?:" + with.peer + ")$";
        re = rust_regex_new(bytes(whole), whole.size());
        return re != nullptr;
    }
    void drop() override { rust_regex_free(re); }
    int match(const string &line, int32_t places[8]) override {
        int32_t bounds[20];
        int found = rust_regex_match(re, bytes(line), line.size(), bounds, 10);
        places_of(*c, places, [&](int g, bool end) { return found ? bounds[2 * g + end] : -1; });
        return found ? YES : NO;
    }
};
#endif

static vector<std::unique_ptr<Engine>> engines() {
    vector<std::unique_ptr<Engine>> all;
    all.emplace_back(new Ride);
    all.emplace_back(new RideTwo);
    all.emplace_back(new Run);
    all.emplace_back(new PlainRun);
    all.emplace_back(new PlainRide);
    all.emplace_back(new PlainRideTwo);
#ifdef HAVE_RE2C
    all.emplace_back(new Re2c);
#endif
#ifdef HAVE_RE2
    all.emplace_back(new Re2);
#endif
#ifdef HAVE_PCRE2
    all.emplace_back(new Pcre2(true));
    all.emplace_back(new Pcre2(false));
#endif
#ifdef HAVE_RUST_REGEX
    all.emplace_back(new RustRegex);
#endif
#ifdef HAVE_ONIG
    all.emplace_back(new Onig);
#endif
#ifdef HAVE_TRE
    all.emplace_back(new Tre);
#endif
    return all;
}

// ---- time ----

static double now_ns() { // of this thread alone: what else the machine does is left out as far as it can be
    timespec t;
    clock_gettime(CLOCK_THREAD_CPUTIME_ID, &t);
    return (double)t.tv_sec * 1e9 + (double)t.tv_nsec;
}

struct Job {
    std::function<void()> once;
    int times = 1;
    double least = 1e300;
    void calibrate(double goal_ns) {
        for (;;) {
            double begin = now_ns();
            for (int i = 0; i < times; i++) once();
            double took = now_ns() - begin;
            if (took > goal_ns || times > 1 << 20) return;
            times = took < goal_ns / 8 ? times * 8 : times * 2;
        }
    }
    void round() {
        double begin = now_ns();
        for (int i = 0; i < times; i++) once();
        least = std::min(least, (now_ns() - begin) / times);
    }
};

// Interleaved: every job once a round, so that a slow spell of the machine meets them all.
static void measure(vector<Job> &jobs, int rounds, double goal_ns = 50000) {
    for (Job &j : jobs) j.calibrate(goal_ns);
    for (int r = 0; r < rounds; r++)
        for (Job &j : jobs) j.round();
}

static size_t heap() {
    struct mallinfo2 m = mallinfo2();
    return m.uordblks + m.hblkhd;
}

static volatile int32_t sink;

struct Row {
    string engine, why; // why it does not count, if so
    double ns = 0, build_ns = 0;
    size_t size = 0;
};

struct Sheet {
    string name;
    vector<Row> rows;
};

static string differs(Engine &e, const Case &c, Engine &ours) {
    string why;
    match_all(e, c.lines, [&](const string &line, const Found &theirs) {
        if (!why.empty()) return;
        int32_t mine[8];
        int m = ours.match(line, mine);
        bool same = m == theirs.match;
        for (int i = 0; i < 8 && m == YES; i++) same = same && mine[i] == theirs.places[i];
        if (theirs.match == GAVE_UP)
            why = "gave up";
        else if (!same)
            why = "another answer";
    });
    return why;
}

static Sheet bench_case(const Case &c, int rounds) {
    Sheet sheet{c.name, {}};
    size_t total = 0;
    for (const string &line : c.lines) total += line.size();
    auto all = engines();
    Run ours;
    if (!ours.build(c)) {
        fprintf(stderr, "bench: ours refuses the pattern of '%s'\n", c.name.c_str());
        exit(1);
    }
    vector<Job> jobs;
    vector<size_t> at;
    for (size_t i = 0; i < all.size(); i++) {
        Engine &e = *all[i];
        Row row;
        row.engine = e.name;
        size_t before = heap();
        if (!e.build(c)) {
            row.why = "pattern refused";
            sheet.rows.push_back(row);
            continue;
        }
        row.why = differs(e, c, ours);
        row.size = (e.extra() && dynamic_cast<Card *>(&e) ? 0 : heap() - before) + e.extra();
        if (row.why.empty()) {
            Job j;
            j.once = [&e, &c] {
                match_all(e, c.lines, [](const string &, const Found &f) { sink = f.match + f.places[0]; });
            };
            jobs.push_back(j);
            at.push_back(i);
        }
        sheet.rows.push_back(row);
    }
    measure(jobs, rounds);
    for (size_t k = 0; k < jobs.size(); k++) sheet.rows[at[k]].ns = jobs[k].least / (double)total;

    vector<Job> building;
    at.clear();
    for (size_t i = 0; i < all.size(); i++) {
        Engine &e = *all[i];
        if (!e.builds() || sheet.rows[i].why == "pattern refused") continue;
        Job j;
        j.once = [&e, &c] {
            e.drop();
            e.build(c);
        };
        building.push_back(j);
        at.push_back(i);
    }
    measure(building, std::max(5, rounds / 4));
    for (size_t k = 0; k < building.size(); k++) sheet.rows[at[k]].build_ns = building[k].least;
    for (size_t i = 0; i < all.size(); i++)
        if (sheet.rows[i].why != "pattern refused") all[i]->drop();
    return sheet;
}

static void print(const Sheet &s) {
    double ours = s.rows[0].ns;
    printf("\n%s\n  %-16s %9s %9s %12s %10s\n", s.name.c_str(), "engine", "ns/byte", "to ours", "build us", "bytes");
    for (const Row &r : s.rows) {
        printf("  %-16s ", r.engine.c_str());
        if (r.why.empty())
            printf("%9.2f %8.2fx", r.ns, r.ns / ours);
        else
            printf("%19s", r.why.c_str());
        if (r.build_ns > 0)
            printf(" %12.1f", r.build_ns / 1000);
        else
            printf(" %12s", "-");
        if (r.size > 0)
            printf(" %10zu\n", r.size);
        else
            printf(" %10s\n", "-");
    }
}

// ---- ours against the same in plain C, call by call ----

// The calls of one case, ours and plain C's by turns: on its first two lines, or on its only one twice.
struct Calls {
    const string &pattern, &line, &other;
    Run r;
    vector<uint8_t> net = vector<uint8_t>(CV_NET_MAX), out = vector<uint8_t>(CV_TABLE_ROOM);
    vector<uint32_t> ours = vector<uint32_t>(CV_IMAGE_MAX), plain = vector<uint32_t>(CV_IMAGE_MAX);
    size_t place, len, situations, registers;
    uint8_t answer, codes[2], answers[2];
    int16_t p[8], q[8];
    vector<Job> jobs;

    explicit Calls(const Case &c) : pattern(c.ours), line(c.lines[0]), other(c.lines[c.lines.size() > 1]) {
        if (!r.build(c)) exit(1);
        if (!makers_agree()) {
            fprintf(stderr, "bench: the plain makers differ on '%s'\n", c.name.c_str());
            exit(1);
        }
        add_makers();
        add_runners();
    }
    bool makers_agree() {
        return plain_pattern(bytes(pattern), pattern.size(), net.data(), net.size(), &place, &len) == CV_OK &&
               len == r.net_len && memcmp(net.data(), r.net.data(), len) == 0 &&
               plain_build(net.data(), len, out.data(), out.size(), &len, &situations, &registers) == CV_OK &&
               len == r.table_len && memcmp(out.data(), r.table.data(), len) == 0;
    }
    bool images_agree() const { // once the jobs have written them
        return memcmp(ours.data(), plain.data(), r.situations * CV_IMAGE_WORDS * sizeof ours[0]) == 0;
    }
    void add(std::function<void()> once) {
        jobs.emplace_back();
        jobs.back().once = std::move(once);
    }
    void add_makers() {
        add([&] { sink = cv_pattern(bytes(pattern), pattern.size(), net.data(), net.size(), &place, &len); });
        add([&] { sink = plain_pattern(bytes(pattern), pattern.size(), net.data(), net.size(), &place, &len); });
        add([&] {
            sink = cv_build(r.net.data(), r.net_len, r.work.data(), r.work.size(), out.data(), out.size(), &len,
                            &situations, &registers);
        });
        add([&] {
            sink = plain_build(r.net.data(), r.net_len, out.data(), out.size(), &len, &situations, &registers);
        });
        add([&] { sink = cv_load(r.table.data(), r.table_len); });
        add([&] { sink = plain_load(r.table.data(), r.table_len); });
        add([&] { sink = cv_mount(r.table.data(), r.table_len, ours.data(), ours.size()); });
        add([&] { sink = plain_mount(r.table.data(), r.table_len, plain.data(), plain.size()); });
    }
    void add_runners() {
        add([&] { sink = cv_run(r.table.data(), r.table_len, bytes(line), line.size(), &answer, p); });
        add([&] { sink = plain_run(r.table.data(), r.table_len, bytes(line), line.size(), &answer, p); });
        add([&] {
            sink = cv_ride(r.table.data(), r.table_len, ours.data(), ours.size(), bytes(line), line.size(), &answer, p);
        });
        add([&] {
            sink = plain_ride(r.table.data(), r.table_len, plain.data(), plain.size(), bytes(line), line.size(),
                              &answer, p);
        });
        add([&] {
            cv_ride_two(r.table.data(), r.table_len, ours.data(), ours.size(), bytes(line), line.size(), bytes(other),
                        other.size(), codes, answers, p, q);
            sink = codes[0] + codes[1];
        });
        add([&] {
            plain_ride_two(r.table.data(), r.table_len, plain.data(), plain.size(), bytes(line), line.size(),
                           bytes(other), other.size(), codes, answers, p, q);
            sink = codes[0] + codes[1];
        });
    }
};

static void print_pairs(const vector<Case> &all, int rounds) {
    const char *names[] = {"pattern", "build", "load", "mount", "run", "ride", "ride two"};
    printf("\nours and plain C, microseconds a call (run and ride: the case's first line; ride two: its first two)\n");
    printf("  %-20s", "case");
    for (const char *name : names) printf(" %9s %8s %6s", name, "plain", "ratio");
    printf("\n");
    for (const Case &c : all) {
        Calls calls(c);
        measure(calls.jobs, rounds);
        printf("  %-20s", c.name.c_str());
        for (size_t i = 0; i < calls.jobs.size(); i += 2) {
            double ours = calls.jobs[i].least, plain = calls.jobs[i + 1].least;
            if (string(names[i / 2]) == "mount" && !calls.images_agree())
                printf(" %9.2f %15s", ours / 1000, "another image");
            else
                printf(" %9.2f %8.2f %5.1fx", ours / 1000, plain / 1000, ours / plain);
        }
        printf("\n");
    }
}

// ---- the builder against plain Rust's and plain C's ----

struct Heavy {
    string name, pattern;
};

// Seven dots behind eight tags need 64 registers; the other side has the situations, and its set of every other byte a
// row for each byte.
static string largest() {
    string every_other;
    for (int b = 0; b < 256; b += 2) {
        if (b == '\\' || b == '^') every_other += '\\';
        every_other += (char)b;
    }
    return ".*@0@1@2@3@4@5@6@7.......|........*[" + every_other + "]\1........";
}

static vector<Heavy> heavy(const Case &feed) {
    return {{"feed", feed.ours}, {".*a.....", ".*a....."}, {"largest table", largest()}};
}

struct Built {
    size_t length = 0, situations = 0, registers = 0;
    vector<uint8_t> table = vector<uint8_t>(CV_TABLE_MAX);
    bool same(const Built &as) const {
        return length == as.length && situations == as.situations && registers == as.registers &&
               memcmp(table.data(), as.table.data(), length) == 0;
    }
};

// One sheet a pattern, its times in microseconds.
static Sheet bench_builders(const Heavy &h, int rounds, Built &ours) {
    vector<uint8_t> net(CV_NET_MAX), work(CV_WORK_MIN);
    size_t place, net_len;
    Built rust, c;
    if (cv_pattern(bytes(h.pattern), h.pattern.size(), net.data(), net.size(), &place, &net_len) != CV_OK) {
        fprintf(stderr, "bench: ours refuses the pattern of '%s'\n", h.name.c_str());
        exit(1);
    }
    vector<Job> jobs(3);
    jobs[0].once = [&] {
        sink = cv_build(net.data(), net_len, work.data(), work.size(), ours.table.data(), ours.table.size(),
                        &ours.length, &ours.situations, &ours.registers);
    };
    jobs[1].once = [&] {
        sink = plain_rust_build(net.data(), net_len, rust.table.data(), rust.table.size(), &rust.length,
                                &rust.situations, &rust.registers);
    };
    jobs[2].once = [&] {
        sink = plain_build(net.data(), net_len, c.table.data(), c.table.size(), &c.length, &c.situations, &c.registers);
    };
    measure(jobs, rounds, 1e6);
    Sheet sheet{h.name, {}};
    const char *names[] = {"cv_build", "plain Rust", "plain C"};
    const Built *built[] = {&ours, &rust, &c};
    for (size_t i = 0; i < jobs.size(); i++) {
        Row row;
        row.engine = names[i];
        row.why = built[i]->same(ours) ? "" : "another table";
        row.ns = jobs[i].least / 1000;
        sheet.rows.push_back(row);
    }
    return sheet;
}

static vector<Sheet> print_builders(const Case &feed, int rounds) {
    vector<Sheet> sheets;
    printf("\nbuilding, microseconds\n  %-14s %10s %9s %9s %11s", "pattern", "situations", "registers", "bytes",
           "cv_build");
    printf(" %11s %6s %11s %6s\n", "plain Rust", "ratio", "plain C", "ratio");
    for (const Heavy &h : heavy(feed)) {
        Built ours;
        sheets.push_back(bench_builders(h, rounds, ours));
        const vector<Row> &rows = sheets.back().rows;
        printf("  %-14s %10zu %9zu %9zu %11.1f", h.name.c_str(), ours.situations, ours.registers, ours.length,
               rows[0].ns);
        for (size_t i = 1; i < rows.size(); i++) {
            if (rows[i].why.empty())
                printf(" %11.1f %5.1fx", rows[i].ns, rows[0].ns / rows[i].ns);
            else
                printf(" %18s", rows[i].why.c_str());
        }
        printf("\n");
        fflush(stdout);
    }
    return sheets;
}

// ---- the picture ----

static string escaped(const string &s) {
    string out;
    for (char c : s) out += c == '<' ? "&lt;" : c == '&' ? "&amp;" : string(1, c);
    return out;
}

// Bars on one logarithmic scale; a bar of no length is `low`.
struct Panel {
    string title;
    double low;
    vector<Sheet> sheets;
};

static const int bar = 13, gap = 30, left_edge = 120, width = 560;

static int height_of(const Panel &p) {
    int height = 24;
    for (const Sheet &s : p.sheets) height += gap + bar * (int)s.rows.size();
    return height;
}

static void draw_row(FILE *f, const Row &r, int y, double low, double scale) {
    bool ours = r.engine.compare(0, 3, "cv_") == 0;
    fprintf(f, "<text x=\"%d\" y=\"%d\" text-anchor=\"end\">%s</text>\n", left_edge - 6, y + bar - 4,
            escaped(r.engine).c_str());
    if (!r.why.empty()) {
        fprintf(f, "<text x=\"%d\" y=\"%d\" fill=\"#888\">%s</text>\n", left_edge, y + bar - 4, escaped(r.why).c_str());
        return;
    }
    double len = std::max(1.0, std::log(r.ns / low) * scale);
    fprintf(f, "<rect x=\"%d\" y=\"%d\" width=\"%.1f\" height=\"%d\" fill=\"%s\"/>\n", left_edge, y + 1, len, bar - 3,
            ours ? "#c1440e" : "#7d8ca3");
    fprintf(f, "<text x=\"%.1f\" y=\"%d\">%.*f</text>\n", left_edge + len + 4, y + bar - 4, r.ns < 1000 ? 2 : 0, r.ns);
}

static void draw_panel(FILE *f, const Panel &p, int y) {
    double most = 1;
    for (const Sheet &s : p.sheets)
        for (const Row &r : s.rows) most = std::max(most, r.ns);
    const double scale = (width - left_edge - 70) / std::log(most / p.low);
    fprintf(f, "<text x=\"8\" y=\"%d\" font-size=\"13\">%s</text>\n", y + 16, escaped(p.title).c_str());
    y += 24;
    for (const Sheet &s : p.sheets) {
        y += gap - 8;
        fprintf(f, "<text x=\"8\" y=\"%d\" font-size=\"11\" font-weight=\"bold\">%s</text>\n", y - 4,
                escaped(s.name).c_str());
        for (const Row &r : s.rows) {
            draw_row(f, r, y, p.low, scale);
            y += bar;
        }
        y += 8;
    }
}

static void draw(const vector<Panel> &panels, const string &path, const string &machine, const string &date) {
    FILE *f = fopen(path.c_str(), "w");
    if (!f) {
        perror(path.c_str());
        exit(1);
    }
    int height = 36;
    for (const Panel &p : panels) height += height_of(p);
    fprintf(f,
            "<svg xmlns=\"http://www.w3.org/2000/svg\" width=\"%d\" height=\"%d\" font-family=\"sans-serif\" "
            "font-size=\"10\">\n",
            width, height);
    fprintf(f, "<rect width=\"100%%\" height=\"100%%\" fill=\"white\"/>\n");
    fprintf(f, "<text x=\"8\" y=\"16\">Least of many rounds; %s</text>\n",
            escaped(date + (machine.empty() ? "" : ", " + machine)).c_str());
    int y = 22;
    for (const Panel &p : panels) {
        draw_panel(f, p, y);
        y += height_of(p);
    }
    fprintf(f, "</svg>\n");
    fclose(f);
}

int main(int argc, char **argv) {
    int rounds = 40;
    string svg, machine, date;
    for (int i = 1; i + 1 < argc; i += 2) {
        string option = argv[i];
        if (option == "--rounds")
            rounds = std::max(1, atoi(argv[i + 1]));
        else if (option == "--svg")
            svg = argv[i + 1];
        else if (option == "--class")
            machine = argv[i + 1];
        else if (option == "--date")
            date = argv[i + 1];
        else {
            fprintf(stderr, "usage: bench [--rounds N] [--svg FILE] [--class TEXT] [--date TEXT]\n");
            return 2;
        }
    }
    printf("engines:");
    for (auto &e : engines()) printf(" %s%s;", e->name.c_str(), e->note.empty() ? "" : (" (" + e->note + ")").c_str());
    printf("\n%d rounds; ratios are to the first engine; bytes: ours the table (and its image), a peer what it holds "
           "after\n"
           "building and matching, its machine code included\n",
           rounds);
    vector<Case> all = cases();
    vector<Sheet> sheets;
    for (const Case &c : all) {
        sheets.push_back(bench_case(c, rounds));
        print(sheets.back());
        fflush(stdout);
    }
    print_pairs(all, rounds);
    vector<Sheet> builders = print_builders(all[0], std::max(5, rounds / 4));
    if (!svg.empty())
        draw({{"Nanoseconds per byte, logarithmic from 0.25", 0.25, sheets},
              {"Building: microseconds, logarithmic from 10", 10, builders}},
             svg, machine, date);
    return 0;
}
