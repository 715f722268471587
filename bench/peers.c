// The peers in plain C: what a user would write today (naive, and the blanking list), and the walk of Franke and Kleinjung with
// all that belongs to it.
// They judge nothing that they are given but the blocks of a file and the room of a blanking list. NAME(x) puts the compiler's name
// before x.
#include "bench.h"
#include <string.h>

#define IN(by, x) by##_##x
#define AS(by, x) IN(by, x)
#define NAME(x) AS(BY, x)

static inline uint8_t plus(uint8_t cell, uint8_t weight) { return cell > 255 - weight ? 255 : cell + weight; }

// How far right of the window's left edge a source's first edge on a line is; it may lie past the window.
static inline uint32_t distance(run r, source s, uint64_t line) {
    return (r.interval * line + r.window / 2 + (s.period - s.phase)) % s.period;
}

// On each line a remainder, then every period-th cell.
void NAME(naive)(run r, LISTS, size_t n, uint8_t *map) {
    for (size_t k = 0; k < n; k++) {
        source s = {periods[k], phases[k]};
        uint8_t weight = weights[k], *line = map;
        for (uint64_t j = r.first; j <= r.last; j++, line += r.window)
            for (uint64_t x = distance(r, s, j); x < r.window; x += s.period) line[x] = plus(line[x], weight);
    }
}

// The pair of step vectors of a window no wider than the period, or the single one: sizes and lines, the side kept apart.
pair NAME(vectors)(uint32_t period, uint32_t remainder, uint32_t window) {
    uint32_t n = period, m = remainder;
    uint64_t b = 0, c = 1;
    int right = 1;
    while (m >= window) {
        uint32_t q = n / m, rest = n % m;
        uint64_t lines = b + q * c;
        n = m, m = rest, b = c, c = lines, right = !right;
    }
    if (m == 0) return (pair){{0, c}, {0, 0}};
    uint32_t turns = (n - window) / m + 1;
    int64_t size = (int64_t)n - (int64_t)turns * m;
    uint64_t lines = b + turns * c;
    if (right) return (pair){{-size, lines}, {m, c}};
    return (pair){{-(int64_t)m, c}, {size, lines}};
}

// The first hit not below `start`, or the number of cells: a point is carried down the same divisions into the window.
uint64_t NAME(first_hit)(run r, source s, uint64_t start) {
    uint32_t window = r.window, period = s.period;
    uint64_t row = start / window, from = start % window, line = r.first + row;
    uint32_t d = distance(r, s, line);
    uint64_t place = from + (d + (period - from % period)) % period;
    if (place < window) return row * window + place;
    uint32_t n = period, m = r.interval % period;
    uint64_t b = 0, c = 1;
    int right = 1;
    line++;
    d = ((uint64_t)d + m) % period;
    while (line <= r.last) {
        if (d < window) return (line - r.first) * window + d;
        if (m == 0) break;
        if (d >= m && right) {
            uint32_t turns = (n - d - 1) / m + 1;
            d = d + (uint64_t)turns * m - n;
            line += turns * c + b;
        } else if (d >= m) {
            uint32_t turns = (d - (m > window ? m : window)) / m + 1;
            d -= turns * m;
            line += turns * c;
        }
        uint32_t q = n / m, rest = n % m;
        uint64_t lines = b + q * c;
        n = m, m = rest, b = c, c = lines, right = !right;
    }
    return cells_of(r);
}

// What the walk goes by, worked out once a source: how far each step leads in offset and in cells, and where it may be taken.
typedef struct {
    int64_t left, right, low, high;
    uint64_t left_cells, right_cells;
} plan;

static plan plan_of(run r, uint32_t period) {
    uint32_t width = period < r.window ? period : r.window;
    pair v = NAME(vectors)(period, r.interval % period, width);
    if (v.right.line == 0) v.right = v.left;
    int64_t edge = -(int64_t)(r.window / 2);
    return (plan){v.left.offset, v.right.offset, edge - v.left.offset, edge + width - v.right.offset,
                  v.left.line * r.window + v.left.offset, v.right.line * r.window + v.right.offset};
}

// Proposition 2: the first hit of the next line that has one.
static inline void step(const plan *w, int64_t *i, uint64_t *x) {
    if (*i >= w->low) {
        *i += w->left, *x += w->left_cells;
    } else if (*i < w->high) {
        *i += w->right, *x += w->right_cells;
    } else {
        *i += w->left + w->right, *x += w->left_cells + w->right_cells;
    }
}

// A source with a period below the window: each line's first distance is the last line's and the interval.
static void add_rows(run r, source s, uint8_t weight, uint8_t *map) {
    uint32_t p = s.period;
    uint64_t start = distance(r, s, r.first), by = r.interval % p;
    for (uint8_t *line = map, *end = map + cells_of(r); line < end; line += r.window) {
        for (uint64_t x = start; x < r.window; x += p) line[x] = plus(line[x], weight);
        start += by;
        if (start >= p) start -= p;
    }
}

static void add_hits(run r, source s, uint8_t weight, uint8_t *map) {
    plan w = plan_of(r, s.period);
    uint64_t all = cells_of(r), x = NAME(first_hit)(r, s, 0);
    int64_t i = (int64_t)(x % r.window) - r.window / 2;
    while (x < all) {
        map[x] = plus(map[x], weight);
        step(&w, &i, &x);
    }
}

void NAME(walk)(run r, LISTS, size_t n, uint8_t *map) {
    for (size_t k = 0; k < n; k++) {
        source s = {periods[k], phases[k]};
        if (s.period < r.window)
            add_rows(r, s, weights[k], map);
        else
            add_hits(r, s, weights[k], map);
    }
}

// The hits not below `start` into the room; `next` is the first that did not fit, or the number of cells.
size_t NAME(list)(run r, source s, uint64_t start, uint64_t *room, size_t length, uint64_t *next) {
    uint32_t period = s.period;
    plan w = plan_of(r, period);
    uint64_t all = cells_of(r), cell = NAME(first_hit)(r, s, start), from = cell % r.window;
    uint64_t x = cell - from + from % period, end = x - from % period + r.window;
    int64_t i = (int64_t)(from % period) - r.window / 2;
    size_t n = 0;
    while (cell < all) {
        for (; cell < end; cell += period) {
            if (n == length) {
                *next = cell;
                return n;
            }
            room[n++] = cell;
        }
        step(&w, &i, &x);
        cell = x;
        end = x - (i + r.window / 2) + r.window;
    }
    *next = all;
    return n;
}

// A block's check by its weighted sum, and in two columns as ours.
static uint32_t weighted(const uint8_t *block) {
    uint32_t sum = 1;
    for (uint32_t k = 0; k < 508; k++) sum += (k + 1) * block[k];
    return sum;
}

static uint32_t columns(const uint8_t *block) {
    uint32_t total = 0, sum = 1;
    for (int k = 507; k >= 0; k--) {
        total += block[k];
        sum += total;
    }
    return sum;
}

static uint32_t check(way how, const uint8_t *block) { return how == WEIGHTED ? weighted(block) : columns(block); }

// Numbers are stored as this machine has them: both kinds that this benchmark knows have the lowest byte first.
static void put_block(way how, uint32_t number, const void *bytes, size_t size, uint8_t *block) {
    memcpy(block, &number, 4);
    memcpy(block + 4, bytes, size);
    memset(block + 4 + size, 0, 504 - size);
    uint32_t sum = check(how, block);
    memcpy(block + 508, &sum, 4);
}

void NAME(save)(way how, run r, const uint8_t *map, uint8_t *file) {
    uint32_t heading[5] = {1, r.window, r.interval, r.first, r.last}, number = 0;
    put_block(how, 0, heading, sizeof heading, file);
    for (uint64_t left = cells_of(r), size; left > 0; left -= size, map += size) {
        size = left < 504 ? left : 504;
        put_block(how, ++number, map, size, file += 512);
    }
}

// Whether a block has its number and its check, and zeros behind its bytes.
static int is_block(way how, uint32_t number, size_t size, const uint8_t *block) {
    uint32_t found[2];
    memcpy(&found[0], block, 4);
    memcpy(&found[1], block + 508, 4);
    if (found[0] != number || found[1] != check(how, block)) return 0;
    for (size_t k = size; k < 504; k++)
        if (block[4 + k]) return 0;
    return 1;
}

// All blocks are judged before the first cell is filled.
int NAME(read)(way how, const uint8_t *file, uint64_t length, run *r, uint8_t *map) {
    uint32_t heading[5];
    memcpy(heading, file + 4, sizeof heading);
    *r = (run){heading[1], heading[2], heading[3], heading[4]};
    if (!is_block(how, 0, 20, file) || heading[0] != 1 || length != file_of(*r)) return 0;
    uint64_t all = cells_of(*r);
    for (uint64_t at = 0, k = 1; at < all; at += 504, k++)
        if (!is_block(how, k, all - at, file + 512 * k)) return 0;
    for (uint64_t at = 0, k = 1; at < all; at += 504, k++) memcpy(map + at, file + 512 * k + 4, all - at < 504 ? all - at : 504);
    return 1;
}

// Whether one of a line's guard cells reaches the threshold.
static int is_blanked(const uint8_t *cells, size_t count, uint8_t threshold) {
    for (size_t k = 0; k < count; k++)
        if (cells[k] >= threshold) return 1;
    return 0;
}

// The stretches of blanked lines into the room, and how many they are. They are counted first: if there are too many, none is written.
size_t NAME(blank)(run r, guard g, const uint8_t *map, uint32_t *room, size_t length) {
    const uint8_t *left = map + (g.lowest + r.window / 2), *cells = left;
    size_t width = g.highest - g.lowest + 1, count = 0, n = 0;
    int before = 0;
    for (uint32_t j = r.first; j <= r.last; j++, cells += r.window) {
        int blanked = is_blanked(cells, width, g.threshold);
        if (blanked && !before) count++;
        before = blanked;
    }
    if (length / 2 < count) return count;
    cells = left, before = 0;
    for (uint32_t j = r.first; j <= r.last; j++, cells += r.window) {
        int blanked = is_blanked(cells, width, g.threshold);
        if (blanked && !before) room[n++] = j;
        if (!blanked && before) room[n++] = j - 1;
        before = blanked;
    }
    if (before) room[n++] = r.last;
    return count;
}
