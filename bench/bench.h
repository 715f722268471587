// What is measured, and the peers that it is measured against.
#include <stddef.h>
#include <stdint.h>

typedef struct {
    uint32_t window, interval, first, last;
} run;

// A source, less its weight: it has an edge at its phase, and whole periods before and after it.
typedef struct {
    uint32_t period, phase;
} source;

typedef struct {
    int64_t offset;
    uint64_t line;
} vector;

// Two vectors, or one and zeros.
typedef struct {
    vector left, right;
} pair;

// What a blanking list goes by: a threshold, and the lowest and the highest offset of the guard.
typedef struct {
    uint8_t threshold;
    int64_t lowest, highest;
} guard;

// How a peer works out the check of a file's blocks.
typedef enum { WEIGHTED, COLUMNS } way;

// How many cells a run has, and how long its file is.
static inline uint64_t cells_of(run r) { return (uint64_t)r.window * (r.last - r.first + 1); }
static inline uint64_t file_of(run r) { return 512 * (1 + (cells_of(r) + 503) / 504); }

// What a list of sources is given by: three lists of one length.
#define LISTS const uint32_t *periods, const uint32_t *weights, const uint32_t *phases

// The functions of one compiler: peers.c is compiled once by each, under its own prefix.
#define PEERS(by)                                                                                     \
    void by##_naive(run r, LISTS, size_t n, uint8_t *map);                                            \
    void by##_walk(run r, LISTS, size_t n, uint8_t *map);                                             \
    pair by##_vectors(uint32_t period, uint32_t remainder, uint32_t window);                          \
    uint64_t by##_first_hit(run r, source s, uint64_t start);                                         \
    size_t by##_list(run r, source s, uint64_t start, uint64_t *room, size_t length, uint64_t *next); \
    void by##_save(way how, run r, const uint8_t *map, uint8_t *file);                                \
    int by##_read(way how, const uint8_t *file, uint64_t length, run *r, uint8_t *map);               \
    size_t by##_blank(run r, guard g, const uint8_t *map, uint32_t *room, size_t length);
PEERS(gcc)
PEERS(clang)

// Those of peers.rs.
pair rust_vectors(uint32_t period, uint32_t remainder, uint32_t window);
uint64_t rust_first_hit(run r, source s, uint64_t start);
size_t rust_list(run r, source s, uint64_t start, uint64_t *room, size_t length, uint64_t *next);
void rust_walk(run r, LISTS, size_t n, uint8_t *map);
size_t rust_blank(run r, guard g, const uint8_t *map, uint32_t *room, size_t length);
