// Measures the library and its peers side by side. Each line of output is: row, unit, what one unit of ours costs in nanoseconds,
// what all units of a repetition cost together, how many they are, then for each peer the peer's time over ours ("-" where it
// does not take part).
//
// In a repetition every contender makes the same call, in an order that turns from one repetition to the next, and the interval
// is another one in every call. What is printed is the median over the repetitions; a ratio is taken within a repetition.
// Before each call the buffers that it writes are cleared, or the map filled with 255 that a plain map call has to clear, outside
// the measured time. All contenders must leave the same bytes: each call's are summed up, and a difference ends the run.
#include "bench.h"
#include "ours.h"
#include <stdio.h>
#include <stdlib.h>
#include <string.h>
#include <time.h>

// The contenders, and their number. NAIVE is compiled by gcc; LIMIT writes all bytes, or looks at those that have to be looked at,
// and works out none.
enum { OURS, NAIVE, GCC, CLANG, RUST, LIMIT, WHO };
enum { REPETITIONS = 41, CALLS = 20000, SOURCES = 1000, LONGEST = 64 << 20, ROOM = 1 << 22 };

typedef struct {
    const char *name;
    uint32_t low, high, count;
} set;
static const set SETS[] = {{"mix", 3, 2000, 30}, {"2^20", 4096, (1 << 20) - 1, 1000}, {"2^31", 4096, 2147483647, 1000}};

static uint64_t seed;
static uint64_t any(void) {
    seed ^= seed << 13;
    seed ^= seed >> 7;
    return seed ^= seed << 17;
}

static double seconds(void) {
    struct timespec t;
    clock_gettime(CLOCK_THREAD_CPUTIME_ID, &t);
    return t.tv_sec + 1e-9 * t.tv_nsec;
}

static int rising(const void *a, const void *b) { return (*(double *)a > *(double *)b) - (*(double *)a < *(double *)b); }
static double median(double *v, int n) {
    qsort(v, n, sizeof *v, rising);
    return n % 2 ? v[n / 2] : (v[n / 2 - 1] + v[n / 2]) / 2;
}

// What the calls of a row use. `units` and `sum` are what the call came to.
static uint32_t periods[SOURCES], weights[SOURCES], phases[SOURCES];
static size_t sources;
static source source_of[CALLS];
static uint32_t remainder_of[CALLS], interval_of[CALLS];
static uint64_t starts[CALLS];
static run r;
static uint8_t *map, *file;
static uint64_t *room;
static uint64_t units, sum;

// A set's periods and weights, always the same; the phases are any below the periods, or 0. They are drawn last and only where they
// are wanted, so that the rows without them have the intervals that they always had.
static void choose(const set *s, int phased) {
    sources = s->count, seed = 88172645463325252u;
    for (size_t k = 0; k < sources; k++) {
        periods[k] = s->low + any() % (s->high - s->low + 1);
        weights[k] = 1 + any() % 8;
    }
    for (size_t k = 0; k < sources; k++) phases[k] = phased ? any() % periods[k] : 0;
}

static source source_at(size_t k) { return (source){periods[k], phases[k]}; }

static uint64_t sum_of(const void *bytes, uint64_t length) {
    const uint8_t *at = bytes;
    uint64_t total = length, word;
    for (; length >= 8; length -= 8, at += 8) {
        memcpy(&word, at, 8);
        total = total * 0x9e3779b97f4a7c15u + word;
    }
    while (length--) total = total * 0x9e3779b97f4a7c15u + *at++;
    return total;
}

// ---- the map

static uint64_t count_hits(void) {
    uint64_t hits = 0, next;
    for (size_t k = 0; k < sources; k++) hits += gcc_list(r, source_at(k), 0, room, LONGEST, &next);
    return hits;
}

// Whether the rows being measured are of the plain call, which makes a clean map, or of the adding one.
static int clean;

// A peer of the plain call clears the map and then adds; the limit there is the clearing.
static void add(int who) {
    uint64_t all = cells_of(r);
    if (who == OURS) {
        mapping *call = clean ? zenithgong_make_map : zenithgong_add_to_map;
        mapped_reply m = call(r.window, r.interval, r.first, r.last, periods, sources, weights, sources, phases, sources, map, all);
        if (m.refusal) exit(3);
    } else if (clean) {
        memset(map, 0, all);
    }
    if (who == NAIVE) gcc_naive(r, periods, weights, phases, sources, map);
    if (who == GCC) gcc_walk(r, periods, weights, phases, sources, map);
    if (who == CLANG) clang_walk(r, periods, weights, phases, sources, map);
    if (who == RUST) rust_walk(r, periods, weights, phases, sources, map);
    if (who == LIMIT && !clean) memset(map, r.interval, all);
}

static double call_map(int who) {
    memset(map, clean ? 255 : 0, cells_of(r));
    double began = seconds();
    add(who);
    double took = seconds() - began;
    sum = sum_of(map, cells_of(r));
    if (who == OURS) units = count_hits();
    return took;
}

// ---- vectors, first hit, listing: many calls in a row

// What each call is given: another interval every time, and its remainder. Outside the measured time.
static void prepare(void) {
    for (uint32_t k = 0; k < CALLS; k++) {
        source_of[k] = source_at(k % sources);
        interval_of[k] = r.interval + 2 * k;
        remainder_of[k] = interval_of[k] % source_of[k].period;
    }
}

static double call_vectors(int who) {
    uint64_t total = 0;
    prepare();
    double began = seconds();
    for (uint32_t k = 0; k < CALLS; k++) {
        uint32_t p = source_of[k].period, remainder = remainder_of[k];
        pair v;
        if (who == OURS) {
            steps_reply s;
            zenithgong_step_vectors(&s, p, remainder, r.window);
            v = (pair){{s.alpha, s.beta}, {s.gamma, s.delta}};
        } else {
            v = who == GCC     ? gcc_vectors(p, remainder, r.window)
                : who == CLANG ? clang_vectors(p, remainder, r.window)
                               : rust_vectors(p, remainder, r.window);
        }
        total = total * 31 + v.left.offset + 3 * v.left.line + 5 * v.right.offset + 7 * v.right.line;
    }
    sum = total, units = CALLS;
    return seconds() - began;
}

static double call_first(int who) {
    uint64_t total = 0, all = cells_of(r);
    run at = r;
    prepare();
    double began = seconds();
    for (uint32_t k = 0; k < CALLS; k++) {
        source s = source_of[k];
        uint64_t cell;
        at.interval = interval_of[k];
        if (who == OURS) {
            first_hit_reply f = zenithgong_first_hit(at.window, at.interval, at.first, at.last, s.period, s.phase, starts[k]);
            cell = f.found ? f.cell : all;
        } else {
            cell = who == GCC     ? gcc_first_hit(at, s, starts[k])
                   : who == CLANG ? clang_first_hit(at, s, starts[k])
                                  : rust_first_hit(at, s, starts[k]);
        }
        total = total * 31 + cell;
    }
    sum = total, units = CALLS;
    return seconds() - began;
}

static double call_list(int who) {
    uint64_t next, done = 0;
    run at = r;
    memset(room, 0, ROOM * 8);
    double began = seconds();
    for (size_t k = 0; k < sources; k++, at.interval += 2) {
        source s = source_at(k);
        if (who == OURS) {
            listing_reply l;
            zenithgong_list_hits(&l, at.window, at.interval, at.first, at.last, s.period, s.phase, 0, room + done, ROOM - done);
            done += l.count;
        } else if (who == GCC) {
            done += gcc_list(at, s, 0, room + done, ROOM - done, &next);
        } else if (who == RUST) {
            done += rust_list(at, s, 0, room + done, ROOM - done, &next);
        } else {
            done += clang_list(at, s, 0, room + done, ROOM - done, &next);
        }
    }
    double took = seconds() - began;
    sum = sum_of(room, ROOM * 8), units = done;
    return took;
}

// ---- the saved map

// How the peers work out the check in the rows being measured.
static way check_by;

static double call_save(int who) {
    uint64_t all = cells_of(r), length = file_of(r);
    memset(file, 0, length);
    double began = seconds();
    if (who == OURS && zenithgong_save(r.window, r.interval, r.first, r.last, map, all, file, length)) exit(3);
    if (who == GCC) gcc_save(check_by, r, map, file);
    if (who == CLANG) clang_save(check_by, r, map, file);
    if (who == LIMIT) memcpy(file, map, all);
    double took = seconds() - began;
    sum = sum_of(file, length), units = all;
    return took;
}

static double call_read(int who) {
    uint64_t all = cells_of(r), length = file_of(r);
    run found;
    run_reply reply = {0};
    gcc_save(WEIGHTED, r, map, file);
    uint8_t *to = (uint8_t *)room;
    memset(to, 0, all);
    double began = seconds();
    if (who == OURS) zenithgong_read(&reply, file, length, to, all);
    int done = who == GCC ? gcc_read(check_by, file, length, &found, to) : who == CLANG ? clang_read(check_by, file, length, &found, to) : 1;
    if (!done || reply.refusal) exit(3);
    if (who == LIMIT) memcpy(to, file, all);
    double took = seconds() - began;
    sum = sum_of(to, all), units = all;
    return took;
}

// ---- the blanking list

// What is asked for, and how many of each line's guard cells have to be looked at.
static guard g;
static uint32_t needed[LONGEST / 512];

static uint8_t *line_of(uint32_t j) { return map + (uint64_t)(j - r.first) * r.window; }
static uint8_t *guard_of(uint32_t j) { return line_of(j) + (g.lowest + r.window / 2); }

// Up to the first that reaches the threshold, or all.
static uint32_t needed_of(const uint8_t *cells) {
    uint32_t n = 0, width = g.highest - g.lowest + 1;
    while (n < width && cells[n] < g.threshold) n++;
    return n < width ? n + 1 : width;
}

// A map below the threshold but for one cell of some lines: of one line in 50, anywhere (sparse), or of 15 lines in 16, among the
// first eight of the guard (dense).
static void fill(int dense) {
    seed = 88172645463325252u;
    for (uint64_t k = 0; k < cells_of(r); k++) map[k] = any() % g.threshold;
    for (uint32_t j = r.first; j <= r.last; j++) {
        if (!dense && any() % 50 == 0) line_of(j)[any() % r.window] = g.threshold;
        if (dense && any() % 16 > 0) guard_of(j)[any() % 8] = g.threshold;
        needed[j - r.first] = needed_of(guard_of(j));
    }
}

// The limit: one pass over those cells, the largest of each line, without a branch on any of them.
__attribute__((optimize("O3"))) static uint64_t look(void) {
    uint64_t total = 0;
    for (uint32_t j = r.first; j <= r.last; j++) {
        const uint8_t *cells = guard_of(j);
        uint8_t most = 0;
        for (uint32_t k = 0, n = needed[j - r.first]; k < n; k++) most = most < cells[k] ? cells[k] : most;
        total += most;
    }
    return total;
}

static double call_blank(int who) {
    uint64_t lines = r.last - r.first + 1, count = 0;
    uint32_t *to = (uint32_t *)room;
    memset(to, 0, 8 * lines);
    double began = seconds();
    if (who == OURS) {
        blanking_reply b = zenithgong_list_stretches(r.window, r.interval, r.first, r.last, map, cells_of(r), g.threshold,
                                                     g.lowest, g.highest, to, 2 * lines);
        if (b.refusal) exit(3);
        count = b.count;
    }
    if (who == GCC) count = gcc_blank(r, g, map, to, 2 * lines);
    if (who == CLANG) count = clang_blank(r, g, map, to, 2 * lines);
    if (who == RUST) count = rust_blank(r, g, map, to, 2 * lines);
    if (who == LIMIT) count = look();
    double took = seconds() - began;
    sum = sum_of(to, 8 * lines) + count, units = lines;
    return took;
}

// ---- a row

// Only rows that begin so are measured.
static const char *only = "";
static int wanted(const char *row) { return !strncmp(row, only, strlen(only)); }

// Measures a row: 41 repetitions, or as many as fit in four seconds, at least 5. `takes_part` has a + for each contender that does.
static void measure(const char *row, const char *unit, double (*call)(int), const char *takes_part) {
    if (!wanted(row)) return;
    static double took[WHO][REPETITIONS], ratio[REPETITIONS], each[REPETITIONS], whole[REPETITIONS], had[REPETITIONS];
    int n = 0;
    for (double spent = 0; n < REPETITIONS && (n < 5 || spent < 4); n++) {
        double began = seconds();
        uint64_t expected = 0;
        int seen = 0;
        r.interval = 1 + any() % 4000000000u;
        for (int k = 0; k < WHO; k++) {
            int who = (k + n) % WHO;
            if (takes_part[who] != '+') continue;
            took[who][n] = call(who);
            if (who == OURS) had[n] = units, whole[n] = took[who][n], each[n] = took[who][n] / units;
            if (who == LIMIT) continue;
            if (seen++ && sum != expected) {
                fprintf(stderr, "%s: contender %d differs at interval %u\n", row, who, r.interval);
                exit(1);
            }
            expected = sum;
        }
        spent += seconds() - began;
    }
    printf("%s\t%s\t%.3f\t%.0f\t%.0f", row, unit, 1e9 * median(each, n), 1e9 * median(whole, n), median(had, n));
    for (int who = NAIVE; who < WHO; who++) {
        for (int k = 0; k < n; k++) ratio[k] = took[who][k] / took[OURS][k];
        if (takes_part[who] == '+')
            printf("\t%.3f", median(ratio, n));
        else
            printf("\t-");
    }
    printf("\n");
    fflush(stdout);
}

// ---- the rows

static const uint32_t WINDOWS[] = {64, 512, 4096};
static const int SIZES[] = {1, 64};
// What the name of a row ends its first word with if the sources have phases.
static const char *const PHASED[] = {"", "-phased"};

// A run of so many MiB. From line 0 every source of phase 0 has a hit on the first line, from line 1 few with a long period have.
static void take_run(uint32_t window, uint64_t mib, uint32_t first) {
    r = (run){window, 1, first, first + (uint32_t)((mib << 20) / window) - 1};
}

// The adding call from line 1, from line 0, and from line 1 with phases; the plain call from line 1.
static void measure_maps(void) {
    static const struct {
        const char *name;
        uint32_t first;
        int phased, clean;
    } kinds[] = {{"map", 1, 0, 0}, {"map0", 0, 0, 0}, {"map", 1, 1, 0}, {"plain", 1, 0, 1}};
    char row[64];
    for (int k = 0; k < 4 * 3 * 2 * 3; k++) {
        int kind = k / 18, s = k / 6 % 3, size = k / 3 % 2, w = k % 3, phased = kinds[kind].phased;
        choose(&SETS[s], phased);
        clean = kinds[kind].clean;
        take_run(WINDOWS[w], SIZES[size], kinds[kind].first);
        snprintf(row, sizeof row, "%s%s %s %u %d", kinds[kind].name, PHASED[phased], SETS[s].name, WINDOWS[w], SIZES[size]);
        measure(row, "hit", call_map, "++++++");
    }
}

// The first hit, and without phases the vectors, which have none.
static void measure_calls(const set *s, uint32_t window, int phased) {
    char row[64];
    choose(s, phased);
    take_run(window, 64, 1);
    for (int k = 0; k < CALLS; k++) starts[k] = any() % cells_of(r);
    snprintf(row, sizeof row, "vectors %s %u -", s->name, window);
    if (!phased) measure(row, "call", call_vectors, "+-+++-");
    snprintf(row, sizeof row, "first%s %s %u 64", PHASED[phased], s->name, window);
    measure(row, "call", call_first, "+-+++-");
}

// The listing of a run of so many MiB.
static void measure_list(const set *s, uint32_t window, int mib, int phased) {
    char row[64];
    choose(s, phased);
    take_run(window, mib, 1);
    snprintf(row, sizeof row, "list%s %s %u %d", PHASED[phased], s->name, window, mib);
    measure(row, "hit", call_list, "+-+++-");
}

// Saving and reading, against C that works a block's check out in either way.
static void measure_files(void) {
    char row[64];
    for (int k = 0; k < 2 * 2; k++) {
        int columns = k / 2, size = k % 2;
        const char *name = columns ? "columns" : "weighted";
        check_by = columns ? COLUMNS : WEIGHTED;
        take_run(512, SIZES[size], 1);
        for (uint64_t cell = 0; cell < cells_of(r); cell++) map[cell] = any();
        snprintf(row, sizeof row, "save %s 512 %d", name, SIZES[size]);
        measure(row, "cell", call_save, "+-++-+");
        snprintf(row, sizeof row, "read %s 512 %d", name, SIZES[size]);
        measure(row, "cell", call_read, "+-++-+");
    }
}

// The blanking list of maps that few lines or most reach, over half the window and over all of it.
static void measure_blanking(void) {
    char row[64];
    for (int k = 0; k < 2 * 2 * 2; k++) {
        int dense = k / 4, all = k / 2 % 2, size = k % 2;
        take_run(512, SIZES[size], 1);
        g = all ? (guard){200, -256, 255} : (guard){200, -128, 127};
        snprintf(row, sizeof row, "blank %s-%s 512 %d", dense ? "dense" : "sparse", all ? "all" : "half", SIZES[size]);
        if (wanted(row)) fill(dense);
        measure(row, "line", call_blank, "+-++++");
    }
}

// With phases there is one row of the first hit and one of the listing: a phase moves where a search begins, not how it goes on.
static void measure_all(void) {
    measure_maps();
    for (int k = 0; k < 2 * 3; k++) measure_calls(&SETS[1 + k / 3], WINDOWS[k % 3], 0);
    measure_calls(&SETS[1], 512, 1);
    for (int k = 0; k < 2 * 3; k++) measure_list(&SETS[k / 3], WINDOWS[k % 3], SIZES[k / 3], 0);
    measure_list(&SETS[1], 512, 64, 1);
    measure_files();
    measure_blanking();
}

// One adding call of one contender, for a tool that counts instructions, and its hits. With no contender, what is not the call's.
static void count(const char *name, uint32_t window, uint64_t mib, int who) {
    for (int s = 0; s < 3; s++)
        if (!strcmp(SETS[s].name, name)) choose(&SETS[s], 0);
    take_run(window, mib, 1);
    r.interval = 1234567891;
    add(who);
    printf("%llu\n", (unsigned long long)count_hits());
}

int main(int argc, char **argv) {
    map = malloc(LONGEST), file = malloc(LONGEST + LONGEST / 32), room = malloc((size_t)LONGEST * 8);
    if (!map || !file || !room) return 3;
    if (argc == 5) {
        count(argv[1], atoi(argv[2]), atoi(argv[3]), atoi(argv[4]));
        return 0;
    }
    if (argc == 2) only = argv[1];
    measure_all();
    return 0;
}
