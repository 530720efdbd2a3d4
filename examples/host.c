/* A run from C: two aerials see the same noise, one of them two ticks later, and a lag stands out. A speed dump shows
 * what is open. Then more ticks come than an Open takes, and dumps planned by the forecast keep all of them. A loop of
 * picks sends every Ready bin, the cells in turn. A loss page ends it.
 *
 *   cc -std=c99 -Wall -Wextra -Werror -Iinclude examples/host.c crates/lta_c/out/liblta_c.a -o target/host
 */
#include <inttypes.h>
#include <stdio.h>
#include <stdlib.h>
#include <string.h>

#include "lta.h"

enum { CELLS = 2, LAGS = 16, BINS = 4, DELAY = 2 };
enum { DISCARDED = 100, TICKS = 4000, GLANCE = 500, LONG = 600000, GROUP = 1000, PULSE = 50 };

static const uint64_t shape[LTA_SHAPE_LEN] = {
    [LTA_SHAPE_CELLS] = CELLS, [LTA_SHAPE_LAGS] = LAGS, [LTA_SHAPE_BINS] = BINS,   [LTA_SHAPE_BLOCKS] = 1,
    [LTA_SHAPE_START] = 0,     [LTA_SHAPE_RATE] = 1000, [LTA_SHAPE_SECOND] = 1000,
};

static uint64_t *mem;
static size_t words;

/* The answer of a call that must be accepted. */
static uint32_t accepted(const char *what, uint64_t result) {
    if (LTA_REFUSAL(result) != LTA_REFUSAL_NONE) {
        fprintf(stderr, "%s was refused by %" PRIu32 "\n", what, LTA_REFUSAL(result));
        exit(1);
    }
    return LTA_ANSWER(result);
}

static void expect(const char *what, int holds) {
    if (!holds) {
        fprintf(stderr, "unexpected: %s\n", what);
        exit(1);
    }
}

/* Noise of the sky, -8 to 7, as the low four bits of a sampler byte; phase 0. */
static uint8_t noise(void) {
    static uint32_t state = 2463534242u;
    state ^= state << 13;
    state ^= state >> 17;
    state ^= state << 5;
    return (uint8_t)(state >> 28);
}

/* Both cells get the signal as X and the same, delayed, as Y; cell 1 has invalid Y samples for half of the time. */
static void feed(int ticks) {
    enum { BOTH = LTA_VALIDITY_X | LTA_VALIDITY_Y };
    static uint8_t late[DELAY];
    static int at;
    for (int t = 0; t < ticks; t++) {
        uint8_t x = noise();
        uint8_t y = late[at % DELAY];
        late[at % DELAY] = x;
        at++;
        uint8_t samples[3 * CELLS] = {x, y, BOTH, x, y, at % 2 ? BOTH : LTA_VALIDITY_X};
        uint64_t result = lta_tick(shape, LTA_SHAPE_LEN, mem, words, samples, sizeof samples);
        expect("no cell is held off", accepted("a tick", result) == 0);
    }
}

/* What is open goes to a bin of bank 0. With one recirculation block a phase is the data bin of that number. */
static void keep(uint64_t cell, uint64_t command, uint64_t phase) {
    uint64_t result = lta_dump(shape, LTA_SHAPE_LEN, mem, words, cell, command, 0, phase, NULL, 0);
    expect("what was open is held", accepted("a dump", result) == LTA_MOVED_KEPT);
    result = lta_integrate(shape, LTA_SHAPE_LEN, mem, words, cell);
    expect("it is kept", accepted("an integration", result) == LTA_MOVED_KEPT);
}

static void show_lags(const uint8_t *frame, size_t length) {
    int peak = 0;
    double most = -1;
    printf("  lag  delay      real      imag\n");
    for (int k = 0; k < LAGS; k++) {
        double pair[LTA_PAIR_LEN];
        uint64_t result = lta_normalised_lag(LAGS, frame, length, (uint64_t)k, pair, LTA_PAIR_LEN);
        expect("data in the frame", accepted("a normalised lag", result) == 1);
        printf("  %3d  %5d  %8.3f  %8.3f\n", k, k - LAGS / 2, pair[LTA_PAIR_REAL], pair[LTA_PAIR_IMAGINARY]);
        if (pair[LTA_PAIR_REAL] > most) {
            most = pair[LTA_PAIR_REAL];
            peak = k;
        }
    }
    /* Lag k has X from (k + 1) div 2 ticks ago and Y from N/2 - k div 2: relative delay k - N/2. */
    printf("the greatest is at lag %d, relative delay %d\n", peak, peak - LAGS / 2);
    expect("the lag of the delay", peak - LAGS / 2 == DELAY);
}

/* The header of a frame of that kind; answers its ticks. */
static uint32_t show_head(const uint8_t *frame, size_t length, uint32_t kind) {
    uint32_t head[LTA_HEAD_LEN];
    accepted("reading the frame", lta_read_frame(LAGS, frame, length, head, LTA_HEAD_LEN));
    expect("the kind of the frame", head[LTA_HEAD_KIND] == kind);
    printf("cell %" PRIu32 ", bin %" PRIu32 ": ", head[LTA_HEAD_CELL], head[LTA_HEAD_BIN]);
    printf("%" PRIu32 " ticks, %" PRIu32 " valid at the centre, second %" PRIu32 "\n", head[LTA_HEAD_TICKS],
           head[LTA_HEAD_CENTRE], head[LTA_HEAD_SECOND]);
    return head[LTA_HEAD_TICKS];
}

static void show_frame(uint64_t cell) {
    uint8_t frame[LTA_FRAME_LEN(LAGS)];
    uint64_t result = lta_emit(shape, LTA_SHAPE_LEN, mem, words, cell, 0, 0, frame, sizeof frame);
    uint32_t length = accepted("an emission", result);
    expect("the length of a frame", length == sizeof frame);
    expect("the ticks of the bin", show_head(frame, length, LTA_KIND_ACCUMULATED) == TICKS);
    show_lags(frame, length);
}

/* What is open, as a speed frame: it is neither held nor put into a bin. */
static void show_speed(uint64_t cell) {
    uint8_t frame[LTA_SPEED_FRAME_LEN(LAGS)];
    uint64_t result =
        lta_dump(shape, LTA_SHAPE_LEN, mem, words, cell, LTA_COMMAND_SPEED, 0, 0, frame, sizeof frame);
    uint32_t length = accepted("a speed dump", result);
    expect("the length of a speed frame", length == sizeof frame);
    printf("a speed dump: ");
    expect("the ticks that were open", show_head(frame, length, LTA_KIND_SPEED) == GLANCE);
    uint64_t part = lta_lag_part(LAGS, frame, length);
    uint32_t start = LTA_PART_START(part), bytes = LTA_PART_LEN(part);
    printf("  its lag pairs are %" PRIu32 " bytes from byte %" PRIu32 " on\n", bytes, start);
    expect("only the last word is behind the lag pairs", start + bytes + 4 == length);
}

/* A loss at the centre lag. */
static void read_loss(uint64_t cell, uint64_t loss, int64_t *sums, uint64_t *counts) {
    accepted("a reading", lta_reading(shape, LTA_SHAPE_LEN, mem, words, cell, LAGS / 2, loss, sums, LTA_SUMS_LEN,
                                      counts, LTA_COUNTS_LEN));
}

static void show_loss(uint64_t cell) {
    int64_t sums[LTA_SUMS_LEN];
    uint64_t counts[LTA_COUNTS_LEN];
    read_loss(cell, LTA_LOSS_ORDERED, sums, counts);
    printf("cell %" PRIu64 ", loss 1: %" PRIu64 " ticks, at the centre I %" PRId64 ", Q %" PRId64 "\n", cell,
           counts[LTA_COUNTS_TICKS], sums[LTA_SUMS_I], sums[LTA_SUMS_Q]);
    expect("the ticks of the loss", counts[LTA_COUNTS_TICKS] == DISCARDED);
}

/* A cell is dumped ahead of a group of ticks for which its Open has no room; answers whether it was. */
static int dump_in_time(uint64_t cell) {
    uint64_t result = lta_forecast(shape, LTA_SHAPE_LEN, mem, words, cell);
    int full = accepted("a forecast", result) < GROUP;
    if (full) {
        keep(cell, LTA_COMMAND_ADD, 0);
    }
    return full;
}

/* More ticks than an Open takes, and loss 6 is empty behind them. */
static void plan(void) {
    int dumps = 0;
    for (int t = 0; t < LONG; t += GROUP) {
        for (uint64_t cell = 0; cell < CELLS; cell++) {
            dumps += dump_in_time(cell);
        }
        feed(GROUP);
    }
    for (uint64_t cell = 0; cell < CELLS; cell++) {
        int64_t sums[LTA_SUMS_LEN];
        uint64_t counts[LTA_COUNTS_LEN];
        read_loss(cell, LTA_LOSS_HOLDOFF, sums, counts);
        expect("loss 6 is empty", counts[LTA_COUNTS_TICKS] == 0);
    }
    printf("%d ticks more with %d dumps by the forecast, and none is held off\n", LONG, dumps);
    expect("a dump of each cell", dumps == CELLS);
}

/* Every bin of bank 0 becomes Ready: the first with what the forecasts kept, each other with some ticks of its own. */
static void fill_bins(void) {
    for (uint64_t phase = 0; phase < BINS; phase++) {
        for (uint64_t cell = 0; cell < CELLS; cell++) {
            keep(cell, LTA_COMMAND_LAST, phase);
        }
        feed(PULSE);
    }
}

/* Whatever is Ready leaves as frames, until a pick finds no more; the host names no bin. */
static void drain(void) {
    uint8_t frame[LTA_FRAME_LEN(LAGS)];
    int frames = 0;
    uint32_t ticks = 0;
    uint64_t result = lta_pick(shape, LTA_SHAPE_LEN, mem, words, frame, sizeof frame);
    while (LTA_REFUSAL(result) != LTA_REFUSAL_NOTHING_READY) {
        uint32_t length = accepted("a pick", result);
        expect("the length of a picked frame", length == sizeof frame);
        printf("picked: ");
        ticks += show_head(frame, length, LTA_KIND_ACCUMULATED);
        frames++;
        result = lta_pick(shape, LTA_SHAPE_LEN, mem, words, frame, sizeof frame);
    }
    printf("%d frames picked, %" PRIu32 " ticks, and no bin is Ready\n", frames, ticks);
    expect("a frame of each bin", frames == CELLS * BINS);
    /* Cell 1 has kept its ticks of the glance too: only cell 0 sent them by the speed dump. */
    expect("the ticks of the bins", ticks == CELLS * LONG + GLANCE + CELLS * (BINS - 1) * PULSE);
}

/* All that was lost, as printed lines: what was discarded of each cell, and nothing else. */
static void show_page(void) {
    uint8_t page[LTA_PAGE_LEN(CELLS)];
    char totals[LTA_PAGE_LINE_LEN + 1];
    uint64_t result = lta_page(shape, LTA_SHAPE_LEN, mem, words, page, sizeof page);
    uint32_t length = accepted("a page", result);
    expect("the length of a page", length == sizeof page);
    expect("the page on standard output", fwrite(page, 1, length, stdout) == length);
    snprintf(totals, sizeof totals, "** * %11d ", CELLS * DISCARDED);
    expect("the ticks of the losses", memcmp(page + length - LTA_PAGE_LINE_LEN, totals, strlen(totals)) == 0);
}

int main(void) {
    words = accepted("the size", lta_words_needed(shape, LTA_SHAPE_LEN));
    mem = malloc(words * sizeof *mem);
    expect("memory", mem != NULL);
    accepted("setup", lta_setup(shape, LTA_SHAPE_LEN, mem, words));
    feed(DISCARDED);
    for (uint64_t cell = 0; cell < CELLS; cell++) {
        uint64_t result = lta_dump(shape, LTA_SHAPE_LEN, mem, words, cell, LTA_COMMAND_DISCARD, 0, 0, NULL, 0);
        expect("what was open goes to loss 1", accepted("a dump", result) == LTA_LOSS_ORDERED);
    }
    feed(TICKS);
    for (uint64_t cell = 0; cell < CELLS; cell++) {
        keep(cell, LTA_COMMAND_LAST, 0);
        show_frame(cell);
    }
    show_loss(1);
    uint32_t refusal = LTA_REFUSAL(lta_integrate(shape, LTA_SHAPE_LEN, mem, words, 0));
    printf("an integration with nothing held is refused by %" PRIu32 "\n", refusal);
    expect("refusal 8", refusal == LTA_REFUSAL_NOTHING_HELD);
    feed(GLANCE);
    show_speed(0);
    plan();
    fill_bins();
    drain();
    show_page();
    free(mem);
    return 0;
}
