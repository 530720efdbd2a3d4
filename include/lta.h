/* The lag engine and its long-term accumulator, proved, for programs in C and C++.
 *
 * A result is one 64-bit number: LTA_REFUSAL of it is the refusal number, 0 where the call was accepted, and
 * LTA_ANSWER of it the answer. A refused call changes nothing. Any numbers, and any pointer with the length of what it
 * points to, may be passed; the parts lent to one call must not overlap. A pointer that comes with length 0 may be
 * null.
 *
 * Lengths count numbers of what is pointed to, not bytes: mem_len is a number of 64-bit words, and memory of mem_len
 * words has mem_len * sizeof(uint64_t) bytes.
 *
 * Memory. mem is the run's work memory, which the host owns. All of a run is in its words; the library keeps nothing
 * between calls, allocates nothing and starts nothing. Nothing else writes the words between the calls of a run.
 *
 * Threads. Calls on different memory may run at the same time. Calls on the same memory come one at a time, except that
 * calls that take it as const, lta_reading, lta_forecast and lta_page, may run at the same time as each other. The same
 * holds for the other parts lent: what one call may write, no other call reads or writes meanwhile.
 *
 * Saving. Between calls the words may be kept on disc and lent again later, with the same shape, by the same program
 * or another of the same LTA_VERSION on a machine of the same byte order. They are to be written whole, in a new file
 * that then gets the name of the old one: refusal 11 finds words that are out of their limits, and a copy half old and
 * half new can be within them.
 */
#ifndef LTA_H
#define LTA_H

#include <stddef.h>
#include <stdint.h>

#ifdef __cplusplus
#define LTA_U32(number) (static_cast<uint32_t>(number))
extern "C" {
#else
#define LTA_U32(number) ((uint32_t)(number))
#endif

#define LTA_VERSION_MAJOR 0
#define LTA_VERSION_MINOR 6
#define LTA_VERSION_PATCH 0
#define LTA_VERSION (LTA_VERSION_MAJOR * 1000000 + LTA_VERSION_MINOR * 1000 + LTA_VERSION_PATCH)

/* The parts of a result. */
#define LTA_REFUSAL(result) LTA_U32((result) >> 32)
#define LTA_ANSWER(result) LTA_U32(result)

/* Refusals. Where several apply, a call gives the first in the order that stands with it. */
enum lta_refusal {
    LTA_REFUSAL_NONE = 0,          /* the call was accepted */
    LTA_REFUSAL_BAD_SHAPE = 1,     /* a shape value out of its limits, or not seven of them */
    LTA_REFUSAL_WRONG_MEMORY = 2,  /* work memory not exactly the needed length */
    LTA_REFUSAL_WRONG_SAMPLES = 3, /* not 3C bytes */
    LTA_REFUSAL_RUN_FULL = 4,      /* the run has had 2,147,483,648 ticks */
    LTA_REFUSAL_NO_CELL = 5,       /* no such cell */
    LTA_REFUSAL_BAD_COMMAND = 6,   /* command 5, 6 or above 7 */
    LTA_REFUSAL_NO_BIN = 7,        /* bank not 0 or 1, (phase + 1) * M above B, or a data bin not below B */
    LTA_REFUSAL_NOTHING_HELD = 8,  /* Held unoccupied */
    LTA_REFUSAL_NOT_READY = 9,     /* bin not Ready */
    LTA_REFUSAL_SHORT_BUFFER = 10, /* room for less than what the call would write */
    LTA_REFUSAL_DAMAGED = 11,      /* work memory is as no call leaves it */
    LTA_REFUSAL_NO_LAG = 12,       /* no such lag or loss */
    LTA_REFUSAL_WRONG_LENGTH = 13, /* a frame of the wrong length */
    LTA_REFUSAL_WRONG_MARK = 14,   /* a frame with the wrong mark */
    LTA_REFUSAL_WRONG_SUM = 15,    /* a frame with the wrong last word */
    LTA_REFUSAL_BAD_FIELD = 16,    /* a field of a frame breaks its rule */
    LTA_REFUSAL_BAD_RECORD = 17,   /* of scripts alone: unknown mark or a cut record */
    LTA_REFUSAL_WRONG_BIAS = 18,   /* a speed frame with the wrong DATA_BIAS */
    LTA_REFUSAL_BAD_VALIDITY = 19, /* a validity byte has another bit set than its lowest two */
    LTA_REFUSAL_NOTHING_READY = 20 /* no cell has a Ready bin */
};

/* A shape is seven numbers, in this order: C, N, B, M, S, R, Z. */
#define LTA_SHAPE_LEN 7
enum lta_shape {
    LTA_SHAPE_CELLS = 0,  /* C: cells, 1 to 16 */
    LTA_SHAPE_LAGS = 1,   /* N: lags of a cell, even, 2 to 128 */
    LTA_SHAPE_BINS = 2,   /* B: data bins of each of the two banks, 1 to 1,000 */
    LTA_SHAPE_BLOCKS = 3, /* M: recirculation blocks, 1 to 256 */
    LTA_SHAPE_START = 4,  /* S: the start block; S + M at most 256 */
    LTA_SHAPE_RATE = 5,   /* R: ticks of a second, 1 to 256,000,000 */
    LTA_SHAPE_SECOND = 6  /* Z: the second in which the run starts, 0 to 2,147,483,647 */
};
#define LTA_CELLS_MOST 16
#define LTA_LAGS_MOST 128

/* The bits of a validity byte. */
enum lta_validity {
    LTA_VALIDITY_X = 1, /* the X sample is valid */
    LTA_VALIDITY_Y = 2  /* the Y sample is valid */
};

/* The commands of a dump; what they do to the cell's block and to the buffer lent stands with lta_dump. */
enum lta_command {
    LTA_COMMAND_SAVE = 0,    /* 000: hold what is open, to replace what its bin has */
    LTA_COMMAND_ADD = 1,     /* 001: hold what is open, to join its bin */
    LTA_COMMAND_LAST = 2,    /* 010: hold what is open, to join its bin and make it Ready */
    LTA_COMMAND_SPEED = 3,   /* 011: what is open leaves as a speed frame */
    LTA_COMMAND_DISCARD = 4, /* 100: what is open goes to loss 1 */
    LTA_COMMAND_IDLE = 7     /* 111: nothing */
};

/* The answers of a dump or an integration besides the losses and the length of a speed frame. */
enum lta_moved {
    LTA_MOVED_KEPT = 0, /* the set is kept */
    LTA_MOVED_IDLE = 7  /* command 7: nothing was to do */
};

/* The losses of a cell; of them a dump or an integration answers the one that took a set. */
enum lta_loss {
    LTA_LOSS_ORDERED = 1,  /* discarded by command 4 */
    LTA_LOSS_OVERRUN = 2,  /* dumped by command 0, 1 or 2 while Held was occupied */
    LTA_LOSS_FULL = 3,     /* integrated into a Ready bin */
    LTA_LOSS_REPLACED = 4, /* replaced in its bin by command 0 */
    LTA_LOSS_WIDE = 5,     /* the joint set would have had more than 16,777,215 ticks */
    LTA_LOSS_HOLDOFF = 6   /* ticks that came while Open was full */
};

/* What a reading gives. */
#define LTA_SUMS_LEN 2
enum lta_sums { LTA_SUMS_I = 0, LTA_SUMS_Q = 1 };
#define LTA_COUNTS_LEN 3
enum lta_counts { LTA_COUNTS_TICKS = 0, LTA_COUNTS_EDGE = 1, LTA_COUNTS_CENTRE = 2 };

/* The bytes of a line of a page, its line feed included, and of the page of so many cells. */
#define LTA_PAGE_LINE_LEN 41
#define LTA_PAGE_LEN(cells) (LTA_PAGE_LINE_LEN * (6 * (cells) + 1))

/* The kinds of frame. */
enum lta_kind {
    LTA_KIND_ACCUMULATED = 2, /* of a bin, by lta_emit or lta_pick */
    LTA_KIND_SPEED = 3        /* a speed frame: of what is open, by lta_dump with command 3 */
};

/* The fields of a frame's header. */
#define LTA_HEAD_LEN 10
enum lta_head {
    LTA_HEAD_KIND = 0,   /* by lta_kind */
    LTA_HEAD_CELL = 1,   /* 0 to 15 */
    LTA_HEAD_BLOCK = 2,  /* Y block, 0 to 255 */
    LTA_HEAD_BIN = 3,    /* data bin, 0 to 999 */
    LTA_HEAD_BANK = 4,   /* 0 or 1 */
    LTA_HEAD_TICKS = 5,  /* at most 16,777,215 */
    LTA_HEAD_CENTRE = 6, /* of those, valid at lag N/2 */
    LTA_HEAD_EDGE = 7,   /* of those, valid at lag 0 */
    LTA_HEAD_SECOND = 8, /* the second of the stamp */
    LTA_HEAD_OFFSET = 9  /* the ticks of the stamp within its second, at most 255,999,999 */
};

/* The bytes of a frame of so many lags, and of a speed frame. A speed frame has one word more ahead of its lag pairs,
 * DATA_BIAS, which is 128 * its ticks. It is already taken off them: the pairs of both kinds are plain signed sums.
 * Before version 0.5.0 it was 98 * its ticks: of those speed frames the reader takes the ones without ticks alone. */
#define LTA_FRAME_LEN(lags) (34 + 8 * (lags))
#define LTA_SPEED_FRAME_LEN(lags) (38 + 8 * (lags))

/* The part of a frame that a result of lta_lag_part tells of: at which byte it starts, and its bytes. */
#define LTA_PART_START(result) LTA_U32((result) / 65536)
#define LTA_PART_LEN(result) LTA_U32((result) % 65536)

/* A normalised lag. */
#define LTA_PAIR_LEN 2
enum lta_pair { LTA_PAIR_REAL = 0, LTA_PAIR_IMAGINARY = 1 };

/* The 64-bit words of work memory that a shape needs.
 * Refuses 1: a shape value out of its limits. */
uint64_t lta_words_needed(const uint64_t *shape, size_t shape_len);

/* Clears the memory: a fresh run; answers 0.
 * Refuses 1, 2: memory not exactly the needed length. */
uint64_t lta_setup(const uint64_t *shape, size_t shape_len, uint64_t *mem, size_t mem_len);

/* One tick: an X byte, a Y byte and a validity byte for each cell in turn; answers the number of cells held off.
 *
 * The low four bits of an X or Y byte are its sample, two's complement, -8 to 7; the high four are its phase, 0 to 15.
 * The validity byte has LTA_VALIDITY_X set where the X sample is valid, LTA_VALIDITY_Y where the Y sample is, and no
 * other bit. A sample whose bit is clear adds nothing, whatever its four bits are.
 *
 * Refuses 1, 2, 3: not 3C bytes, 19: a validity byte has another bit set, 4: the run is full, 11: damaged memory. */
uint64_t lta_tick(const uint64_t *shape, size_t shape_len, uint64_t *mem, size_t mem_len,
                  const uint8_t *samples, size_t samples_len);

/* A dump of one cell; answers LTA_MOVED_KEPT, LTA_MOVED_IDLE, or loss 1 ordered or 2 overrun, and for command 3, a
 * speed dump, the length of the frame, LTA_SPEED_FRAME_LEN(N).
 *
 * Command 3 writes the speed frame of what is open into the front of out, and Open is then empty. It takes no notice
 * of Held: occupied or not, Held stays as it is, and so do bins and losses. The frame's stamp is the number of ticks
 * that the run had had at the cell's previous accepted dump other than an idle one, 0 if there was none. Where nothing
 * is open it is a frame of 0 ticks. The bytes of out behind the frame stay as they are. Every other command leaves all
 * of out alone, whatever its length, which may be 0.
 *
 * Each cell has a current block, from S to S + M - 1, which its dumps drive. Command 4 returns it to S, and so does
 * command 2 where the cell's last command before it was 0, 1 or 3. Any other command but 7 moves it one on, and from
 * S + M - 1 back to S. A cell's first dump but 7 in a fresh run uses S. A dump that goes to a loss moves the block,
 * and counts as a last command, like one that is kept. Command 7 and a refused dump leave the block where it is, and
 * neither counts as a last command.
 *
 * The block after that step is the dump's: what is held is for data bin phase * M + (block - S) of the bank, and that
 * bin's frame has the block as its LTA_HEAD_BLOCK. A speed frame has that bank, data bin and block in its own header.
 *
 * Refuses 1, 2, 5: no such cell, 6: bad command, 7: bank not 0 or 1, or (phase + 1) * M above B, 11: damaged memory,
 * the cell's block and last command included, and last, for command 3 alone, 10: buffer shorter than a speed frame. */
uint64_t lta_dump(const uint64_t *shape, size_t shape_len, uint64_t *mem, size_t mem_len,
                  uint64_t cell, uint64_t command, uint64_t bank, uint64_t phase, uint8_t *out, size_t out_len);

/* An integration of one cell; answers LTA_MOVED_KEPT, or loss 3 full, 4 replaced or 5 wide.
 * Refuses 1, 2, 5, 11: damaged memory, the cell's number of Ready bins included, 8: nothing held. */
uint64_t lta_integrate(const uint64_t *shape, size_t shape_len, uint64_t *mem, size_t mem_len, uint64_t cell);

/* An emission: the frame of a Ready bin into the front of out; answers the frame's length.
 * Refuses 1, 2, 5, 7: no such bank or data bin, 11: damaged memory, the cell's number of Ready bins included, 9: bin
 * not Ready, 10: buffer shorter than a frame. */
uint64_t lta_emit(const uint64_t *shape, size_t shape_len, uint64_t *mem, size_t mem_len,
                  uint64_t cell, uint64_t bank, uint64_t bin, uint8_t *out, size_t out_len);

/* A pick: an emission of the Ready bin whose turn it is; answers the frame's length. The header of the frame has the
 * cell, the bank and the data bin.
 *
 * Cells take turns, and so do the bins of a cell. From the cell after the last one served, cell 0 in a fresh run, and
 * going round, the first cell with a Ready bin is served. Within it the bins of bank 0 and then those of bank 1 go
 * round, from after the bin last picked in that cell, at first from bank 0, bin 0. The cell last served and the bin
 * last picked are the last candidates of their rounds, not left out. Only an accepted pick moves these places: that of
 * the run, and that of the cell it served. An emission by lta_emit moves none.
 *
 * So a Ready bin is emitted within C * 2B accepted picks, whatever other calls stand between. A loop that empties all
 * Ready bins of a run, and ends with LTA_REFUSAL_NOTHING_READY:
 *
 *     uint64_t result = lta_pick(shape, LTA_SHAPE_LEN, mem, words, frame, sizeof frame);
 *     while (LTA_REFUSAL(result) == LTA_REFUSAL_NONE) {
 *         send(frame, LTA_ANSWER(result));
 *         result = lta_pick(shape, LTA_SHAPE_LEN, mem, words, frame, sizeof frame);
 *     }
 *
 * Refuses 1, 2, 11: damaged memory, which here is a bin of any cell, a number of Ready bins that differs from them, or
 * a place that is none of the run's, 20: no cell has a Ready bin, 10: buffer shorter than a frame. */
uint64_t lta_pick(const uint64_t *shape, size_t shape_len, uint64_t *mem, size_t mem_len,
                  uint8_t *out, size_t out_len);

/* A reading of one loss at one lag into sums and counts, by lta_sums and lta_counts; answers 0. It changes nothing.
 * Refuses 1, 2, 5, 12: no such lag or loss, 11, and last 10: room for fewer than 2 sums or 3 counts. */
uint64_t lta_reading(const uint64_t *shape, size_t shape_len, const uint64_t *mem, size_t mem_len,
                     uint64_t cell, uint64_t lag, uint64_t loss,
                     int64_t *sums, size_t sums_len, uint64_t *counts, size_t counts_len);

/* A forecast of one cell: exactly 524,288 less the ticks of its Open. It changes nothing.
 *
 * A forecast of n holds up to the cell's next accepted dump with a command other than LTA_COMMAND_IDLE. Until then the
 * next n accepted ticks join the cell's Open, and none of them counts the cell among those held off. Each accepted tick
 * after them does, and goes to loss 6 of the cell. Refused calls make no difference, nor do calls on other cells, nor
 * the cell's own integrations, emissions, readings, forecasts and idle dumps, nor picks and pages. The end of the run
 * is not taken into account: where it comes first, the ticks are refused by 4.
 *
 * So loss 6 stays empty where the host dumps when the forecast is 0, or below the number of ticks that come before it
 * can dump again. Ahead of each group of ticks, 1 to 524,288 of them:
 *
 *     uint64_t result = lta_forecast(shape, LTA_SHAPE_LEN, mem, words, cell);
 *     if (LTA_REFUSAL(result) == LTA_REFUSAL_NONE && LTA_ANSWER(result) < ticks) {
 *         lta_dump(shape, LTA_SHAPE_LEN, mem, words, cell, LTA_COMMAND_ADD, bank, phase, NULL, 0);
 *         lta_integrate(shape, LTA_SHAPE_LEN, mem, words, cell);
 *     }
 *
 * Refuses 1, 2, 5, 11. */
uint64_t lta_forecast(const uint64_t *shape, size_t shape_len, const uint64_t *mem, size_t mem_len, uint64_t cell);

/* A loss page: the losses of every cell as printed lines of ASCII, into the front of out; answers the page's length,
 * LTA_PAGE_LEN(C). It changes no word of memory, and no byte of out behind the page; there is no null byte at its end.
 *
 * One line for each cell and loss, cells ascending, losses 1 to 6 within a cell, and a last line of totals. A line is
 * LTA_PAGE_LINE_LEN bytes. Its columns, the first of them 1, have numbers in decimal, right-aligned and filled with
 * spaces; each other column is a space, and byte 41 a line feed:
 *
 *     1-2    the cell, ** in the last line
 *     4      the loss, by lta_loss, * in the last line
 *     6-16   its ticks
 *     18-28  its edge count: of those, valid at lag 0
 *     30-40  its centre count: of those, valid at lag N/2
 *
 *     15 6     1234567      123456       12345
 *     ** *     1234567      123456       12345
 *
 * The totals are the sums of the lines above them, which are the numbers that readings give of each cell and loss.
 *
 * Refuses 1, 2, 11: a loss of any cell damaged, or six of one cell that have more than 2,147,483,648 ticks together,
 * 10: buffer shorter than a page. */
uint64_t lta_page(const uint64_t *shape, size_t shape_len, const uint64_t *mem, size_t mem_len,
                  uint8_t *out, size_t out_len);

/* The fields of a frame of so many lags, of either kind, into head, by lta_head; answers 0.
 * Refuses 1, 13: the length of neither kind, 14: mark, 15: last word, 16: a field rule, or a kind that is not the one
 * of that length, 18: a speed frame's DATA_BIAS is not 128 * its ticks, and last 10: fewer than 10 numbers. */
uint64_t lta_read_frame(uint64_t lags, const uint8_t *bytes, size_t bytes_len, uint32_t *head, size_t head_len);

/* The part of a frame that holds its lag pairs. LTA_PART_START of the result is the byte at which it starts, counted
 * from 0: 30, in a speed frame 34. LTA_PART_LEN of the result is its length, 8N.
 * Refuses nothing: 0, the empty part, where the reader refuses. */
uint64_t lta_lag_part(uint64_t lags, const uint8_t *bytes, size_t bytes_len);

/* The frame of ten fields, by lta_head, and 2N lag numbers, I and Q in turn; answers its length. It is of the kind that
 * its first field names. A speed frame's DATA_BIAS is no field: it is worked out.
 * Refuses 1, 16: a field rule, a kind that is none, not ten fields or not 2N numbers, 10: buffer shorter than a frame
 * of that kind. */
uint64_t lta_write_frame(uint64_t lags, const uint32_t *head, size_t head_len,
                         const int32_t *numbers, size_t numbers_len, uint8_t *out, size_t out_len);

/* One lag of a frame by its centre count into pair, by lta_pair; answers 1, or 0 where there is no data.
 * Refuses 1, 13, 14, 15, 16, 18, 12: no such lag, and last 10: pair has fewer than 2 numbers. */
uint64_t lta_normalised_lag(uint64_t lags, const uint8_t *bytes, size_t bytes_len, uint64_t lag,
                            double *pair, size_t pair_len);

#ifdef __cplusplus
}
#endif

#endif
