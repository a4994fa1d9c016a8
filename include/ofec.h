/* The oFEC line reference: the library for C and Rust (libcapi.a).
 *
 * Profiles. A line is one of 16-QAM or of QPSK. In 16-QAM a byte of bits is a symbol and gives one cell; in QPSK it is two symbols of four
 * bits, upper half first, and gives two. Calls that depend on this are there twice: those with _qpsk in their names are for QPSK, and those
 * without are for 16-QAM. All other calls serve both.
 *
 * Buffers. Each buffer is passed as a pointer and a length in bytes. The pointer must not be null, and the call may read all of these bytes
 * or, where its comment says "written", change them. The buffers of one call must not overlap, except that two buffers which are only read
 * may be the same. The library has no state: calls may run on several threads at once, as long as no call writes what another one is using.
 *
 * Refusals. A call that cannot be done is refused with a number: the first in the call's list that applies. A refused call leaves every
 * buffer as it was. A buffer that does not have the stated length is refused with number 1, with two exceptions: a line file may have any
 * length from 16 bytes on, and the payload of a sub-frame number of 48 or more is not measured (that call is refused with number 4, if its
 * other buffers have the right lengths). */
#ifndef OFEC_H
#define OFEC_H

#include <stddef.h>
#include <stdint.h>

#define OFEC_VERSION "0.1.0"
#define OFEC_VERSION_MAJOR 0
#define OFEC_VERSION_MINOR 1
#define OFEC_VERSION_PATCH 0

/* Lengths in bytes. */
#define OFEC_WORD_BYTES 32                  /* a check word */
#define OFEC_PAYLOAD_BYTES 444              /* the payload of a pair */
#define OFEC_CODED_BYTES 512                /* a coded pair */
#define OFEC_MARKS_BYTES 32                 /* the marks of a pair, one for each word */
#define OFEC_HISTORY_BYTES 5128             /* a history: two numbers of 32 bits, and the ten coded pairs before */
#define OFEC_PAIRS_BYTES 10752              /* a buffer's coded pairs of one encoder */
#define OFEC_BITS_BYTES 21504               /* a buffer's bits */
#define OFEC_CELLS_BYTES 43008              /* a buffer's cells in 16-QAM; in QPSK they are twice as many */
#define OFEC_FRAME_BYTES 7424               /* a sub-frame */
#define OFEC_FRAME_PAYLOAD_BYTES 7172       /* the payload cells of a sub-frame from 1 to 47, */
#define OFEC_FIRST_FRAME_PAYLOAD_BYTES 6980 /* and those of sub-frame 0 */
#define OFEC_FRAME_OVERHEAD_BYTES 252       /* the part of the overhead list that belongs to a sub-frame from 1 to 47, */
#define OFEC_FIRST_FRAME_OVERHEAD_BYTES 444 /* and the part that belongs to sub-frame 0 */
#define OFEC_OVERHEAD_BYTES 12288           /* the overhead list */
#define OFEC_HEADER_BYTES 16                /* the header of a line file */
#define OFEC_SUPERFRAME_BYTES 356352        /* a super-frame in a line file */

/* Counts. */
#define OFEC_BUFFER_PAIRS 21      /* pairs of one encoder in a buffer */
#define OFEC_SUPERFRAME_BUFFERS 8 /* buffers in a super-frame of 16-QAM; in QPSK half as many */
#define OFEC_SUPERFRAME_PAIRS 168 /* pairs of each encoder in a super-frame of 16-QAM; in QPSK half as many */
#define OFEC_SUBFRAMES 48         /* sub-frames in a super-frame */
#define OFEC_MOST_SUPERFRAMES 64  /* the most super-frames that a line file can have */
#define OFEC_LOST 3               /* the mark of a lost word; a lower mark is the number of flips */

/* Why a call is refused, in the order of the tests. */
enum ofec_refusal {
    OFEC_DONE = 0,          /* not refused */
    OFEC_MISFIT = 1,        /* a buffer does not have the stated length; a file is shorter than 16 bytes */
    OFEC_STRAY_HISTORY = 6, /* a number in front of the history is not the call's, or the encoder is above 1 */
    OFEC_BAD_HEADER = 2,    /* a rule of the line file's header fails */
    OFEC_COUNT_SPENT = 3,   /* the pair number is 4,294,967,295, the largest */
    OFEC_NO_SUCH_FRAME = 4, /* the sub-frame number is above 47, or the file does not have that super-frame */
    OFEC_OFF_GRID = 5       /* a byte of a cell is illegal: 16 or more, or in a payload cell of QPSK with a level of -3 or 3 */
};

/* The name that belongs to a number: "misfit" and so on, and "done" for 0. */
static inline const char *ofec_refusal_name(uint32_t refusal) {
    switch (refusal) {
    case OFEC_DONE: return "done";
    case OFEC_MISFIT: return "misfit";
    case OFEC_STRAY_HISTORY: return "stray history";
    case OFEC_BAD_HEADER: return "bad header";
    case OFEC_COUNT_SPENT: return "count spent";
    case OFEC_NO_SUCH_FRAME: return "no such frame";
    case OFEC_OFF_GRID: return "off grid";
    default: return "no such refusal";
    }
}

#ifdef __cplusplus
extern "C" {
#endif

/* What a call answers.
 *   refusal  0 if the call was done, otherwise a number of enum ofec_refusal
 *   value    the call's own number, explained at each call; 0 if the call has none, and 0 in a refusal unless the call says otherwise
 *   index    in refusal 5, the index of the first illegal byte in its buffer; otherwise 0, except in ofec_read_line */
typedef struct {
    uint32_t refusal;
    uint32_t value;
    uint64_t index;
} ofec_outcome;

/* What opening a line file answers: the refusal (0, 1 or 2), and from the header the number of super-frames, the offset of the overhead
 * list and the offset of the frames. The last three are 0 in a refusal. */
typedef struct {
    uint32_t refusal;
    uint32_t superframes;
    uint32_t overhead;
    uint32_t frames;
} ofec_line;

/* Check words and pairs ------------------------------------------------------------------------------------------------------- */

/* Repairs a check word of 32 bytes in place.
 * front: if 0, flips may fall in the back half (bits 128 to 255) only; any other number allows them in both halves.
 * value: the number of flips, 0 to 2; or 3 if no code word is within two flips, and then the word is unaltered. Refusal: 1. */
ofec_outcome ofec_repair_word(uint8_t *word, size_t word_length, uint32_t front);

/* A history, whether an encoder's or a receiver's, is 5,128 bytes: the encoder's number, 0 or 1, and the number of the next pair, 32 bits
 * each and most significant byte first; then the ten coded pairs before, oldest first. A fresh one has pair number 0, and zeros for the
 * pairs. For encoder 1 it is made by
 *
 *     uint8_t history[OFEC_HISTORY_BYTES];
 *     memset(history, 0, sizeof history);
 *     history[3] = 1;
 */

/* Encodes a pair. payload: 444 bytes. coded: 512 bytes, written. history: 5,128 bytes, moved on by this pair, so that the next pair number
 * stands in front. encoder: the encoder's number. pair: the pair number. Both must be those in front of the history. value: the next pair
 * number; in a refusal, the number that was passed. Refusals: 1, 6, 3. */
ofec_outcome ofec_encode_pair(const uint8_t *payload, size_t payload_length, uint8_t *coded, size_t coded_length, uint8_t *history,
                              size_t history_length, uint32_t encoder, uint32_t pair);

/* Receives a pair. coded: 512 bytes. payload: 444 bytes, written. marks: 32 bytes, written, one for each word: 0 to 2 flips, or 3 for a
 * lost word. history, encoder and pair: as in ofec_encode_pair, but the history is the receiver's own, and the encoder is the one whose
 * pairs it receives. value: the next pair number; in a refusal, the number that was passed. Refusals: 1, 6, 3. */
ofec_outcome ofec_receive_pair(const uint8_t *coded, size_t coded_length, uint8_t *payload, size_t payload_length, uint8_t *marks,
                               size_t marks_length, uint8_t *history, size_t history_length, uint32_t encoder, uint32_t pair);

/* The line -------------------------------------------------------------------------------------------------------------------- */

/* Interleaves a buffer: 21 pairs of each encoder, 10,752 bytes each, into 21,504 bytes of bits (written). Refusal: 1. */
ofec_outcome ofec_interleave(const uint8_t *pairs0, size_t pairs0_length, const uint8_t *pairs1, size_t pairs1_length, uint8_t *bits,
                             size_t bits_length);

/* Takes a buffer apart: 21,504 bytes of bits into 21 pairs of each encoder, 10,752 bytes each (written). Refusal: 1. */
ofec_outcome ofec_deinterleave(const uint8_t *bits, size_t bits_length, uint8_t *pairs0, size_t pairs0_length, uint8_t *pairs1,
                               size_t pairs1_length);

/* Maps a buffer's 21,504 bytes of bits to 43,008 bytes of cells (written). Refusal: 1. */
ofec_outcome ofec_bits_to_cells(const uint8_t *bits, size_t bits_length, uint8_t *cells, size_t cells_length);

/* Maps a buffer's 43,008 bytes of cells to 21,504 bytes of bits (written). A byte of 16 or more is illegal. Refusals: 1, 5. */
ofec_outcome ofec_cells_to_bits(const uint8_t *cells, size_t cells_length, uint8_t *bits, size_t bits_length);

/* Frames sub-frame `number`, 0 to 47. payload: 6,980 bytes for number 0 and 7,172 for each other; not measured if the number is above 47.
 * overhead: the whole overhead list, 12,288 bytes. frame: 7,424 bytes, written. Refusals: 1, 4, 5.
 *
 * Of the list only the bytes that belong to the sub-frame are read: bytes 0 to 443 for number 0, and for each other number 252 bytes from
 * 444 + 252 * (number - 1) on. They are looked at before any byte of the payload, and the index of refusal 5 counts from the start of its
 * buffer. So if the index falls in these bytes, and the list has 16 or more there, it is an index of the list; otherwise it is an index of
 * the payload (in ofec_unframe, of the frame). */
ofec_outcome ofec_frame(uint32_t number, const uint8_t *payload, size_t payload_length, const uint8_t *overhead, size_t overhead_length,
                        uint8_t *frame, size_t frame_length);

/* Unframes sub-frame `number`: the same buffers, but the payload is written. value: the number of overhead cells that differ from the list.
 * Refusals: 1, 4, 5, with the index as in ofec_frame. */
ofec_outcome ofec_unframe(uint32_t number, const uint8_t *frame, size_t frame_length, const uint8_t *overhead, size_t overhead_length,
                          uint8_t *payload, size_t payload_length);

/* Maps a buffer's 21,504 bytes of bits to 86,016 bytes of QPSK cells (written). Refusal: 1. */
ofec_outcome ofec_bits_to_cells_qpsk(const uint8_t *bits, size_t bits_length, uint8_t *cells, size_t cells_length);

/* Maps a buffer's 86,016 bytes of QPSK cells to 21,504 bytes of bits (written). A byte is illegal unless it is 5, 6, 9 or 10: it is 16 or
 * more, or has a level of -3 or 3. Refusals: 1, 5. */
ofec_outcome ofec_cells_to_bits_qpsk(const uint8_t *cells, size_t cells_length, uint8_t *bits, size_t bits_length);

/* As ofec_frame, with payload cells of QPSK: a byte of the payload is illegal unless it is 5, 6, 9 or 10. Overhead cells are not narrowed:
 * a byte of the list is illegal from 16 on. Refusals: 1, 4, 5. */
ofec_outcome ofec_frame_qpsk(uint32_t number, const uint8_t *payload, size_t payload_length, const uint8_t *overhead,
                             size_t overhead_length, uint8_t *frame, size_t frame_length);

/* As ofec_unframe, with payload cells of QPSK. The bytes of the frame are looked at in their order: one of an overhead cell is illegal from
 * 16 on, and one of a payload cell unless it is 5, 6, 9 or 10. value: the number of overhead cells that differ from the list. Refusals: 1,
 * 4, 5. */
ofec_outcome ofec_unframe_qpsk(uint32_t number, const uint8_t *frame, size_t frame_length, const uint8_t *overhead, size_t overhead_length,
                               uint8_t *payload, size_t payload_length);

/* The line file --------------------------------------------------------------------------------------------------------------- */

/* Opens a line file, given as a whole. Refusals: 1, 2. */
ofec_line ofec_open_line(const uint8_t *file, size_t file_length);

/* Finds sub-frame `subframe` of super-frame `superframe` in an open line file, given with the numbers that ofec_open_line answered.
 * index: where the sub-frame starts in the file. value: its length, 7,424. Both are 0 in a refusal. Refusals: 1, 2, 4. */
ofec_outcome ofec_read_line(const uint8_t *file, size_t file_length, uint32_t superframes, uint32_t overhead, uint32_t frames,
                            uint32_t superframe, uint32_t subframe);

/* Writes the header, 16 bytes, of a line file of 1 to 64 super-frames without gaps. Refusals: 1, 2. */
ofec_outcome ofec_write_header(uint32_t superframes, uint8_t *header, size_t header_length);

#ifdef __cplusplus
}
#endif

#endif
