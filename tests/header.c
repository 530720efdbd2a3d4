/* What a program in C or C++ does with the names of include/lta.h; compiled as both, with every warning an error. */
#include "lta.h"
#include "lta.h"

#if LTA_VERSION < 1000 || LTA_VERSION_MAJOR > 999
#error "LTA_VERSION"
#endif

typedef char a_shape_has_so_many[LTA_SHAPE_SECOND + 1 == LTA_SHAPE_LEN ? 1 : -1];
typedef char a_header_has_so_many[LTA_HEAD_OFFSET + 1 == LTA_HEAD_LEN ? 1 : -1];
typedef char a_reading_has_so_many[LTA_SUMS_Q + 1 == LTA_SUMS_LEN && LTA_COUNTS_CENTRE + 1 == LTA_COUNTS_LEN ? 1 : -1];
typedef char the_longest_frame[LTA_FRAME_LEN(LTA_LAGS_MOST) == 1058 ? 1 : -1];
typedef char the_longest_speed_frame[LTA_SPEED_FRAME_LEN(LTA_LAGS_MOST) == 1062 ? 1 : -1];
typedef char a_part_has_a_start[LTA_PART_START(34 * 65536 + 1024) == 34 ? 1 : -1];
typedef char a_part_has_a_length[LTA_PART_LEN(34 * 65536 + 1024) == 1024 ? 1 : -1];
typedef char a_validity_byte_has_two_bits[(LTA_VALIDITY_X | LTA_VALIDITY_Y) == 3 ? 1 : -1];
typedef char the_longest_page[LTA_PAGE_LEN(LTA_CELLS_MOST) == 3977 ? 1 : -1];

int tick_without_y(const uint64_t *shape, uint64_t *mem, size_t words, uint8_t x);
int discard(const uint64_t *shape, uint64_t *mem, size_t words, uint64_t cell);
size_t frame_of(const uint64_t *shape, uint64_t *mem, size_t words, uint8_t *out);
int drain(const uint64_t *shape, uint64_t *mem, size_t words, uint8_t *out);
size_t page_of(const uint64_t *shape, const uint64_t *mem, size_t words, uint8_t *out);
const uint8_t *pairs_of(const uint64_t *shape, uint64_t *mem, size_t words, uint8_t *out, size_t *length);

/* 1 where a tick whose Y sample is invalid finds the one cell of a run full, and else 0. */
int tick_without_y(const uint64_t *shape, uint64_t *mem, size_t words, uint8_t x) {
    const uint8_t samples[] = {x, 0, LTA_VALIDITY_X};
    uint64_t result = lta_tick(shape, LTA_SHAPE_LEN, mem, words, samples, sizeof samples);
    return LTA_REFUSAL(result) == LTA_REFUSAL_NONE && LTA_ANSWER(result) == 1;
}

/* 1 where what was open went to loss 1, 0 where it did not, and else the refusal, negative. */
int discard(const uint64_t *shape, uint64_t *mem, size_t words, uint64_t cell) {
    uint64_t result = lta_dump(shape, LTA_SHAPE_LEN, mem, words, cell, LTA_COMMAND_DISCARD, 0, 0, NULL, 0);
    switch (LTA_REFUSAL(result)) {
    case LTA_REFUSAL_NONE:
        return LTA_ANSWER(result) == LTA_LOSS_ORDERED;
    case LTA_REFUSAL_NO_CELL:
        return -LTA_REFUSAL_NO_CELL;
    default:
        return -LTA_REFUSAL_BAD_RECORD;
    }
}

/* The length of a frame of the first bin, or 0. */
size_t frame_of(const uint64_t *shape, uint64_t *mem, size_t words, uint8_t *out) {
    size_t room = LTA_FRAME_LEN(shape[LTA_SHAPE_LAGS]);
    uint64_t result = lta_emit(shape, LTA_SHAPE_LEN, mem, words, 0, 0, 0, out, room);
    return LTA_REFUSAL(result) == LTA_REFUSAL_NONE && LTA_ANSWER(result) == room ? room : 0;
}

/* How many frames the Ready bins of a run give, each in the place of the one before; -1 where a pick is refused while
 * there are any. */
int drain(const uint64_t *shape, uint64_t *mem, size_t words, uint8_t *out) {
    size_t room = LTA_FRAME_LEN(shape[LTA_SHAPE_LAGS]);
    int frames = 0;
    uint64_t result = lta_pick(shape, LTA_SHAPE_LEN, mem, words, out, room);
    while (LTA_REFUSAL(result) == LTA_REFUSAL_NONE) {
        frames++;
        result = lta_pick(shape, LTA_SHAPE_LEN, mem, words, out, room);
    }
    return LTA_REFUSAL(result) == LTA_REFUSAL_NOTHING_READY ? frames : -1;
}

/* The length of a page, or 0. */
size_t page_of(const uint64_t *shape, const uint64_t *mem, size_t words, uint8_t *out) {
    size_t room = LTA_PAGE_LEN(shape[LTA_SHAPE_CELLS]);
    uint64_t result = lta_page(shape, LTA_SHAPE_LEN, mem, words, out, room);
    return LTA_REFUSAL(result) == LTA_REFUSAL_NONE && LTA_ANSWER(result) == room ? room : 0;
}

/* The lag pairs of a speed frame of the first cell and their length, 0 where there is none. */
const uint8_t *pairs_of(const uint64_t *shape, uint64_t *mem, size_t words, uint8_t *out, size_t *length) {
    size_t room = LTA_SPEED_FRAME_LEN(shape[LTA_SHAPE_LAGS]);
    uint64_t result = lta_dump(shape, LTA_SHAPE_LEN, mem, words, 0, LTA_COMMAND_SPEED, 0, 0, out, room);
    uint64_t part = lta_lag_part(shape[LTA_SHAPE_LAGS], out, LTA_ANSWER(result));
    *length = LTA_PART_LEN(part);
    return out + LTA_PART_START(part);
}
