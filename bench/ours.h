// The exports of the library. An answer of more than 16 bytes comes through a pointer before the other arguments: so the
// x86-64 convention has it, and so the compiled module does wherever it is compiled. What a caller owes for the pointers:
// rust/zenithgong/src/declarations.rs.
#include <stddef.h>
#include <stdint.h>

typedef struct {
    uint8_t refusal, vectors;
    int64_t alpha;
    uint64_t beta;
    int64_t gamma;
    uint64_t delta;
} steps_reply;

typedef struct {
    uint8_t refusal, found;
    uint64_t cell;
} first_hit_reply;

typedef struct {
    uint8_t refusal, more;
    size_t count;
    uint64_t next;
} listing_reply;

typedef struct {
    uint8_t refusal;
    uint64_t place;
} mapped_reply;

typedef struct {
    uint8_t refusal;
    size_t count;
} blanking_reply;

typedef struct {
    uint8_t refusal;
    uint32_t window, interval, first, last;
} run_reply;

#define RUN uint32_t window, uint32_t interval, uint32_t first, uint32_t last

steps_reply *zenithgong_step_vectors(steps_reply *reply, uint32_t period, uint32_t remainder, uint32_t window);
first_hit_reply zenithgong_first_hit(RUN, uint32_t period, uint32_t phase, uint64_t start);
listing_reply *zenithgong_list_hits(listing_reply *reply, RUN, uint32_t period, uint32_t phase, uint64_t start, uint64_t *room,
                                    size_t length);
// The two map calls have the same parameters.
typedef mapped_reply mapping(RUN, const uint32_t *periods, size_t periods_length, const uint32_t *weights, size_t weights_length,
                             const uint32_t *phases, size_t phases_length, uint8_t *map, size_t cells);
// The plain call. Clears first: every cell becomes the weights of its hits, whatever it held.
mapping zenithgong_make_map;
// The adding call. Adds the weights of its hits onto what each cell holds.
mapping zenithgong_add_to_map;
blanking_reply zenithgong_list_stretches(RUN, const uint8_t *map, size_t cells, uint8_t threshold, int64_t lowest, int64_t highest,
                                         uint32_t *room, size_t length);
uint8_t zenithgong_save(RUN, const uint8_t *map, size_t cells, uint8_t *file, size_t length);
run_reply *zenithgong_read(run_reply *reply, const uint8_t *file, size_t length, uint8_t *map, size_t cells);
