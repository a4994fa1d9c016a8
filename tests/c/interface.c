/* Every function of include/ofec.h called as a C or C++ program calls it, against values known beforehand: those of the scope paper's
 * bench, and its formulas. The numbers of a call all differ, every member of both answers is read, and every refusal that a call can
 * give is met. The text is C99 and C++11 alike.
 *
 * It prints what was checked; the exit status is 1 at the first thing that is not as it should be. */
#include <stdio.h>
#include <stdlib.h>
#include <string.h>

#include "ofec.h"

#define LEFT 0xa5 /* what stands in a written buffer before a call */
#define LAST 4294967295u

static unsigned checks = 0;

static void expect_at(int line, int holds, const char *what) {
    checks++;
    if (!holds) {
        printf("line %d: not as it should be: %s\n", line, what);
        exit(1);
    }
}
#define EXPECT(claim) expect_at(__LINE__, (claim) ? 1 : 0, #claim)

static void answer_at(int line, ofec_outcome o, uint32_t refusal, uint32_t value, uint64_t index) {
    checks++;
    if (o.refusal != refusal || o.value != value || o.index != index) {
        printf("line %d: refusal %lu, value %lu, index %lu\n", line, (unsigned long)o.refusal, (unsigned long)o.value,
               (unsigned long)o.index);
        exit(1);
    }
}
#define ANSWER(call, refusal, value, index) answer_at(__LINE__, call, refusal, value, index)

static void line_at(int line, ofec_line l, uint32_t refusal, uint32_t superframes, uint32_t overhead, uint32_t frames) {
    checks++;
    if (l.refusal != refusal || l.superframes != superframes || l.overhead != overhead || l.frames != frames) {
        printf("line %d: refusal %lu, superframes %lu, overhead %lu, frames %lu\n", line, (unsigned long)l.refusal,
               (unsigned long)l.superframes, (unsigned long)l.overhead, (unsigned long)l.frames);
        exit(1);
    }
}
#define LINE(call, refusal, superframes, overhead, frames) line_at(__LINE__, call, refusal, superframes, overhead, frames)

static void fill(uint8_t *bytes, size_t length, int byte) {
    memset(bytes, byte, length);
}

/* Whether every byte is this one. */
static int filled(const uint8_t *bytes, size_t length, int byte) {
    for (size_t i = 0; i < length; i++) {
        if (bytes[i] != byte) {
            return 0;
        }
    }
    return 1;
}

/* Bit numbers rise from the most significant bit of the first byte on. */
static void set_bit(uint8_t *bytes, size_t bit) {
    bytes[bit / 8] = (uint8_t)(bytes[bit / 8] | 0x80 >> bit % 8);
}

static int bit_alone(const uint8_t *bytes, size_t length, size_t bit) {
    for (size_t i = 0; i < length; i++) {
        if (bytes[i] != (i == bit / 8 ? 0x80 >> bit % 8 : 0)) {
            return 0;
        }
    }
    return 1;
}

/* Most significant byte first. */
static void put32(uint8_t *bytes, uint32_t number) {
    for (int i = 0; i < 4; i++) {
        bytes[i] = (uint8_t)(number >> (24 - 8 * i));
    }
}

static void structs(void) {
    EXPECT(sizeof(ofec_outcome) == 16 && sizeof(ofec_line) == 16);
    EXPECT(offsetof(ofec_outcome, refusal) == 0 && offsetof(ofec_outcome, value) == 4 && offsetof(ofec_outcome, index) == 8);
    EXPECT(offsetof(ofec_line, refusal) == 0 && offsetof(ofec_line, superframes) == 4 && offsetof(ofec_line, overhead) == 8 &&
           offsetof(ofec_line, frames) == 12);
    puts("structs: 16 bytes each, members in the order of the header");
}

static void constants(void) {
    EXPECT(OFEC_WORD_BYTES == 32 && OFEC_PAYLOAD_BYTES == 444 && OFEC_CODED_BYTES == 512 && OFEC_MARKS_BYTES == 32);
    EXPECT(OFEC_HISTORY_BYTES == 8 + 10 * OFEC_CODED_BYTES && OFEC_PAIRS_BYTES == OFEC_BUFFER_PAIRS * OFEC_CODED_BYTES);
    EXPECT(OFEC_BITS_BYTES == 2 * OFEC_PAIRS_BYTES && OFEC_CELLS_BYTES == 2 * OFEC_BITS_BYTES);
    EXPECT(OFEC_FRAME_BYTES == 2 * 3712 && OFEC_FRAME_PAYLOAD_BYTES == 2 * 3586 && OFEC_FIRST_FRAME_PAYLOAD_BYTES == 2 * 3490);
    EXPECT(OFEC_FRAME_OVERHEAD_BYTES == 2 * 126 && OFEC_FIRST_FRAME_OVERHEAD_BYTES == 2 * 222 && OFEC_OVERHEAD_BYTES == 2 * 6144);
    EXPECT(OFEC_HEADER_BYTES == 16 && OFEC_SUPERFRAME_BYTES == 356352 && OFEC_MOST_SUPERFRAMES == 64 && OFEC_LOST == 3);
    EXPECT(OFEC_SUBFRAMES == 48 && OFEC_SUPERFRAME_BYTES == OFEC_SUBFRAMES * OFEC_FRAME_BYTES && OFEC_BUFFER_PAIRS == 21);
    EXPECT(OFEC_SUPERFRAME_BUFFERS == 8 && OFEC_SUPERFRAME_PAIRS == OFEC_SUPERFRAME_BUFFERS * OFEC_BUFFER_PAIRS);
    EXPECT(OFEC_SUPERFRAME_BUFFERS * OFEC_CELLS_BYTES == OFEC_FIRST_FRAME_PAYLOAD_BYTES + 47 * OFEC_FRAME_PAYLOAD_BYTES);
    puts("constants: the lengths and counts as stated");
}

static void names(void) {
    static const char *const table[8] = {"done",          "misfit",   "bad header",    "count spent",
                                         "no such frame", "off grid", "stray history", "no such refusal"};
    char version[32];
    for (uint32_t number = 0; number < 8; number++) {
        EXPECT(strcmp(ofec_refusal_name(number), table[number]) == 0);
    }
    EXPECT(strcmp(ofec_refusal_name(LAST), table[7]) == 0);
    EXPECT(OFEC_DONE == 0 && OFEC_MISFIT == 1 && OFEC_BAD_HEADER == 2 && OFEC_COUNT_SPENT == 3 && OFEC_NO_SUCH_FRAME == 4);
    EXPECT(OFEC_OFF_GRID == 5 && OFEC_STRAY_HISTORY == 6);
    snprintf(version, sizeof version, "%d.%d.%d", OFEC_VERSION_MAJOR, OFEC_VERSION_MINOR, OFEC_VERSION_PATCH);
    EXPECT(strcmp(version, OFEC_VERSION) == 0);
    puts("ofec_refusal_name: the six names, that of 0 and that of any other number; the version");
}

static void repair_word(void) {
    /* Only bit 238 set among 0 to 238: check bits 240, 241, 243 to 246, 248, 249, 253, 254, 255. */
    uint8_t code[32] = {0}, word[32];
    code[29] = 0x02, code[30] = 0xde, code[31] = 0xc7;
    memcpy(word, code, 32);
    ANSWER(ofec_repair_word(word, 32, 1), 0, 0, 0);
    EXPECT(memcmp(word, code, 32) == 0);

    fill(word, 32, 0);
    set_bit(word, 0);
    set_bit(word, 255);
    ANSWER(ofec_repair_word(word, 32, 0), 0, 3, 0); /* bit 0 is in the front half */
    EXPECT(word[0] == 0x80 && word[31] == 0x01);
    ANSWER(ofec_repair_word(word, 32, 2), 0, 2, 0); /* any number but 0 is the flag */
    EXPECT(filled(word, 32, 0));
    set_bit(word, 255);
    ANSWER(ofec_repair_word(word, 32, 0), 0, 1, 0);
    EXPECT(filled(word, 32, 0));

    set_bit(word, 0);
    set_bit(word, 1);
    set_bit(word, 2);
    ANSWER(ofec_repair_word(word, 32, 1), 0, 3, 0);
    EXPECT(word[0] == 0xe0 && filled(word + 1, 31, 0));

    fill(word, 32, LEFT);
    ANSWER(ofec_repair_word(word, 31, 1), 1, 0, 0);
    ANSWER(ofec_repair_word(word, 33, 1), 1, 0, 0);
    EXPECT(filled(word, 32, LEFT));
    puts("ofec_repair_word: 0, 1 and 2 flips, lost, the front flag; refusal 1");
}

/* The last payload bit, 3551, is bit 238 of word (1, 15): block 6 of row 1, bit row 15, column 14^15. Its check bits stand in block 7. */
static void last_payload_bit(uint8_t *payload, uint8_t *coded) {
    fill(payload, 444, 0);
    fill(coded, 512, 0);
    set_bit(payload, 3551);
    coded[508] = 0x40, coded[510] = 0xe3, coded[511] = 0x7b;
}

/* The numbers in front of a history. */
static void put_front(uint8_t *history, uint32_t encoder, uint32_t pair) {
    put32(history, encoder);
    put32(history + 4, pair);
}

static int front_is(const uint8_t *history, uint32_t encoder, uint32_t pair) {
    uint8_t front[8];
    put_front(front, encoder, pair);
    return memcmp(history, front, 8) == 0;
}

static void encode_pair(void) {
    static uint8_t payload[444], known[512], coded[512], history[5129], before[5128];
    last_payload_bit(payload, known);
    fill(coded, 512, LEFT);
    for (size_t i = 0; i < 5120; i++) {
        history[8 + i] = before[8 + i] = (uint8_t)(i / 512 + 1);
    }
    put_front(history, 1, 7);
    /* Below pair 10 the pairs before do not matter, and are shifted by one. */
    ANSWER(ofec_encode_pair(payload, 444, coded, 512, history, 5128, 1, 7), 0, 8, 0);
    EXPECT(memcmp(coded, known, 512) == 0 && front_is(history, 1, 8));
    EXPECT(memcmp(history + 8, before + 520, 4608) == 0 && memcmp(history + 4616, known, 512) == 0);

    fill(coded, 512, LEFT);
    memcpy(before, history, 5128);
    ANSWER(ofec_encode_pair(payload, 443, coded, 512, history, 5128, 1, 8), 1, 8, 0);
    ANSWER(ofec_encode_pair(payload, 444, coded, 511, history, 5128, 1, 8), 1, 8, 0);
    ANSWER(ofec_encode_pair(payload, 444, coded, 512, history, 5127, 1, 8), 1, 8, 0);
    ANSWER(ofec_encode_pair(payload, 444, coded, 512, history, 5129, 1, 8), 1, 8, 0);
    ANSWER(ofec_encode_pair(payload, 444, coded, 512, history, 5120, 1, 9), 1, 9, 0);
    ANSWER(ofec_encode_pair(payload, 444, coded, 512, history, 5120, 2, LAST), 1, LAST, 0);
    ANSWER(ofec_encode_pair(payload, 444, coded, 512, history, 5128, 1, 7), 6, 7, 0);
    ANSWER(ofec_encode_pair(payload, 444, coded, 512, history, 5128, 1, 9), 6, 9, 0);
    ANSWER(ofec_encode_pair(payload, 444, coded, 512, history, 5128, 0, 8), 6, 8, 0);
    ANSWER(ofec_encode_pair(payload, 444, coded, 512, history, 5128, 1, LAST), 6, LAST, 0);
    ANSWER(ofec_encode_pair(payload, 444, coded, 512, history, 5128, 8, 1), 6, 1, 0);
    EXPECT(filled(coded, 512, LEFT) && memcmp(history, before, 5128) == 0);
    put_front(history, 2, 8);
    ANSWER(ofec_encode_pair(payload, 444, coded, 512, history, 5128, 2, 8), 6, 8, 0);
    put_front(history, 2, LAST);
    ANSWER(ofec_encode_pair(payload, 444, coded, 512, history, 5128, 2, LAST), 6, LAST, 0);
    EXPECT(filled(coded, 512, LEFT) && front_is(history, 2, LAST) && memcmp(history + 8, before + 8, 5120) == 0);
    put_front(history, 1, 0x00ffffff);
    for (int i = 0; i < 8; i++) {
        history[i] ^= 2;
        ANSWER(ofec_encode_pair(payload, 444, coded, 512, history, 5128, 1, 0x00ffffff), 6, 0x00ffffff, 0);
        history[i] ^= 2;
    }
    EXPECT(filled(coded, 512, LEFT) && front_is(history, 1, 0x00ffffff) && memcmp(history + 8, before + 8, 5120) == 0);
    ANSWER(ofec_encode_pair(payload, 444, coded, 512, history, 5128, 1, 0x00ffffff), 0, 0x01000000, 0);
    EXPECT(front_is(history, 1, 0x01000000));
    put_front(history, 0, LAST - 1);
    ANSWER(ofec_encode_pair(payload, 444, coded, 512, history, 5128, 0, LAST - 1), 0, LAST, 0);
    EXPECT(front_is(history, 0, LAST));
    memcpy(before, history, 5128);
    fill(coded, 512, LEFT);
    ANSWER(ofec_encode_pair(payload, 444, coded, 512, history, 5128, 0, LAST), 3, LAST, 0);
    ANSWER(ofec_encode_pair(payload, 444, coded, 512, history, 5128, 0, LAST - 1), 6, LAST - 1, 0);
    EXPECT(filled(coded, 512, LEFT) && memcmp(history, before, 5128) == 0);
    puts("ofec_encode_pair: a known pair, the history moved on with its numbers; refusals 1, 6 and 3");
}

/* The history of the header's comment. */
static void fresh_history(void) {
    static uint8_t payload[444], coded[512];
    uint8_t history[OFEC_HISTORY_BYTES];
    memset(history, 0, sizeof history);
    history[3] = 1;
    EXPECT(front_is(history, 1, 0) && filled(history + 8, sizeof history - 8, 0));
    ANSWER(ofec_encode_pair(payload, 444, coded, 512, history, sizeof history, 0, 0), 6, 0, 0);
    for (uint32_t pair = 0; pair < 12; pair++) {
        ANSWER(ofec_encode_pair(payload, 444, coded, 512, history, sizeof history, 1, pair), 0, pair + 1, 0);
        EXPECT(front_is(history, 1, pair + 1));
        ANSWER(ofec_encode_pair(payload, 444, coded, 512, history, sizeof history, 1, pair), 6, pair, 0);
    }
    puts("a fresh history: the pairs of its encoder from 0 on, each once");
}

static void receive_pair(void) {
    static uint8_t payload[444], known[512], coded[512], received[444], marks[32], history[5129], before[5128];
    last_payload_bit(payload, known);
    memcpy(coded, known, 512);
    coded[0] = 0x80;        /* word (0, 0): one flip */
    coded[16] = 0x30;       /* word (0, 1): two */
    coded[256 + 32] = 0x0e; /* word (1, 2): three, so lost */
    coded[508] ^= 0x40;     /* word (1, 15): its payload bit */
    fill(history, 5128, 9);
    put_front(history, 1, 3);
    ANSWER(ofec_receive_pair(coded, 512, received, 444, marks, 32, history, 5128, 1, 3), 0, 4, 0);
    for (int word = 0; word < 32; word++) {
        EXPECT(marks[word] == (word == 0 ? 1 : word == 1 ? 2 : word == 18 ? 3 : word == 31 ? 1 : 0));
    }
    /* The lost word passes as received: columns 4 to 6 of block 0, which bit row 2 crosses to k = 6, 7 and 4; payload bits of row 1
     * start at 256. */
    uint8_t passed[444], kept[512];
    memcpy(passed, payload, 444);
    set_bit(passed, (16 + 2) * 16 + 4);
    set_bit(passed, (16 + 2) * 16 + 6);
    set_bit(passed, (16 + 2) * 16 + 7);
    EXPECT(memcmp(received, passed, 444) == 0);
    memcpy(kept, known, 512);
    kept[256 + 32] = 0x0e;
    EXPECT(front_is(history, 1, 4) && filled(history + 8, 4608, 9) && memcmp(history + 4616, kept, 512) == 0);

    fill(received, 444, LEFT);
    fill(marks, 32, LEFT);
    memcpy(before, history, 5128);
    ANSWER(ofec_receive_pair(coded, 511, received, 444, marks, 32, history, 5128, 1, 4), 1, 4, 0);
    ANSWER(ofec_receive_pair(coded, 512, received, 443, marks, 32, history, 5128, 1, 4), 1, 4, 0);
    ANSWER(ofec_receive_pair(coded, 512, received, 444, marks, 31, history, 5128, 1, 4), 1, 4, 0);
    ANSWER(ofec_receive_pair(coded, 512, received, 444, marks, 32, history, 5127, 1, 4), 1, 4, 0);
    ANSWER(ofec_receive_pair(coded, 512, received, 444, marks, 32, history, 5129, 1, 4), 1, 4, 0);
    ANSWER(ofec_receive_pair(coded, 512, received, 444, marks, 32, history, 5120, 1, 5), 1, 5, 0);
    ANSWER(ofec_receive_pair(coded, 512, received, 444, marks, 32, history, 5120, 2, LAST), 1, LAST, 0);
    ANSWER(ofec_receive_pair(coded, 512, received, 444, marks, 32, history, 5128, 1, 3), 6, 3, 0);
    ANSWER(ofec_receive_pair(coded, 512, received, 444, marks, 32, history, 5128, 1, 5), 6, 5, 0);
    ANSWER(ofec_receive_pair(coded, 512, received, 444, marks, 32, history, 5128, 0, 4), 6, 4, 0);
    ANSWER(ofec_receive_pair(coded, 512, received, 444, marks, 32, history, 5128, 1, LAST), 6, LAST, 0);
    ANSWER(ofec_receive_pair(coded, 512, received, 444, marks, 32, history, 5128, 4, 1), 6, 1, 0);
    EXPECT(filled(received, 444, LEFT) && filled(marks, 32, LEFT) && memcmp(history, before, 5128) == 0);
    put_front(history, 2, 4);
    ANSWER(ofec_receive_pair(coded, 512, received, 444, marks, 32, history, 5128, 2, 4), 6, 4, 0);
    put_front(history, 2, LAST);
    ANSWER(ofec_receive_pair(coded, 512, received, 444, marks, 32, history, 5128, 2, LAST), 6, LAST, 0);
    EXPECT(filled(received, 444, LEFT) && filled(marks, 32, LEFT));
    EXPECT(front_is(history, 2, LAST) && memcmp(history + 8, before + 8, 5120) == 0);
    put_front(history, 1, 0x00ffffff);
    for (int i = 0; i < 8; i++) {
        history[i] ^= 2;
        ANSWER(ofec_receive_pair(coded, 512, received, 444, marks, 32, history, 5128, 1, 0x00ffffff), 6, 0x00ffffff, 0);
        history[i] ^= 2;
    }
    EXPECT(filled(received, 444, LEFT) && front_is(history, 1, 0x00ffffff) && memcmp(history + 8, before + 8, 5120) == 0);
    ANSWER(ofec_receive_pair(coded, 512, received, 444, marks, 32, history, 5128, 1, 0x00ffffff), 0, 0x01000000, 0);
    EXPECT(front_is(history, 1, 0x01000000));
    put_front(history, 0, LAST - 1);
    ANSWER(ofec_receive_pair(coded, 512, received, 444, marks, 32, history, 5128, 0, LAST - 1), 0, LAST, 0);
    EXPECT(front_is(history, 0, LAST));
    fill(received, 444, LEFT);
    fill(marks, 32, LEFT);
    memcpy(before, history, 5128);
    ANSWER(ofec_receive_pair(coded, 512, received, 444, marks, 32, history, 5128, 0, LAST), 3, LAST, 0);
    ANSWER(ofec_receive_pair(coded, 512, received, 444, marks, 32, history, 5128, 0, LAST - 1), 6, LAST - 1, 0);
    EXPECT(filled(received, 444, LEFT) && filled(marks, 32, LEFT) && memcmp(history, before, 5128) == 0);
    puts("ofec_receive_pair: flips and a lost word in their places, the history moved on with its numbers; refusals 1, 6 and 3");
}

/* A bit of a pair's bytes: row R counted in the buffer, block C, bit row r, column c. */
static size_t pair_bit(int R, int C, int r, int c) {
    return (size_t)(2048 * R + 128 * r + 16 * C + c);
}

/* The output bit of this one bit of an encoder, both ways. */
static void interleaved(int encoder, size_t bit, size_t output) {
    static uint8_t pairs[2][10752], back[2][10752], bits[21504];
    fill(pairs[0], 10752, 0);
    fill(pairs[1], 10752, 0);
    set_bit(pairs[encoder], bit);
    fill(bits, 21504, LEFT);
    ANSWER(ofec_interleave(pairs[0], 10752, pairs[1], 10752, bits, 21504), 0, 0, 0);
    EXPECT(bit_alone(bits, 21504, output));
    fill(back[0], 10752, LEFT);
    fill(back[1], 10752, LEFT);
    ANSWER(ofec_deinterleave(bits, 21504, back[0], 10752, back[1], 10752), 0, 0, 0);
    EXPECT(memcmp(back[0], pairs[0], 10752) == 0 && memcmp(back[1], pairs[1], 10752) == 0);
}

static void interleaver(void) {
    static uint8_t pairs0[10752], pairs1[10752], bits[21504];
    interleaved(0, pair_bit(0, 0, 14, 15), 1);
    interleaved(0, pair_bit(21, 0, 0, 0), 16);
    interleaved(0, pair_bit(0, 0, 15, 7), 32);
    interleaved(1, pair_bit(41, 7, 0, 15), 172031);

    fill(bits, 21504, LEFT);
    ANSWER(ofec_interleave(pairs0, 10751, pairs1, 10752, bits, 21504), 1, 0, 0);
    ANSWER(ofec_interleave(pairs0, 10752, pairs1, 10751, bits, 21504), 1, 0, 0);
    ANSWER(ofec_interleave(pairs0, 10752, pairs1, 10752, bits, 21503), 1, 0, 0);
    EXPECT(filled(bits, 21504, LEFT));
    fill(pairs0, 10752, LEFT);
    fill(pairs1, 10752, LEFT);
    ANSWER(ofec_deinterleave(bits, 21503, pairs0, 10752, pairs1, 10752), 1, 0, 0);
    ANSWER(ofec_deinterleave(bits, 21504, pairs0, 10751, pairs1, 10752), 1, 0, 0);
    ANSWER(ofec_deinterleave(bits, 21504, pairs0, 10752, pairs1, 10751), 1, 0, 0);
    EXPECT(filled(pairs0, 10752, LEFT) && filled(pairs1, 10752, LEFT));
    puts("ofec_interleave, ofec_deinterleave: the four output bits of the bench, each encoder in its own buffer; refusal 1");
}

/* The calls of a profile, and what is known of its cells. */
typedef struct {
    ofec_outcome (*bits_to_cells)(const uint8_t *, size_t, uint8_t *, size_t);
    ofec_outcome (*cells_to_bits)(const uint8_t *, size_t, uint8_t *, size_t);
    ofec_outcome (*frame)(uint32_t, const uint8_t *, size_t, const uint8_t *, size_t, uint8_t *, size_t);
    ofec_outcome (*unframe)(uint32_t, const uint8_t *, size_t, const uint8_t *, size_t, uint8_t *, size_t);
    size_t cells_length;
    uint8_t bytes[4];   /* four bytes of bits, */
    uint8_t points[16]; /* and their cells */
    size_t points_length;
    uint8_t zero;      /* each byte of the cell of zeros */
    uint8_t legal[13]; /* bytes of payload cells, */
    size_t legal_count;
    uint8_t illegal; /* and one that is none */
} profile_calls;

static const profile_calls QAM16 = {ofec_bits_to_cells,
                                    ofec_cells_to_bits,
                                    ofec_frame,
                                    ofec_unframe,
                                    43008,
                                    {255, 128, 8, 1},
                                    {10, 10, 12, 0, 3, 0, 0, 1},
                                    8,
                                    0,
                                    {0, 1, 2, 3, 4, 5, 6, 7, 8, 9, 10, 11, 12},
                                    13,
                                    200};
/* 0x1b is the symbols 0001 and 1011. */
static const profile_calls QPSK = {ofec_bits_to_cells_qpsk,
                                   ofec_cells_to_bits_qpsk,
                                   ofec_frame_qpsk,
                                   ofec_unframe_qpsk,
                                   86016,
                                   {0x1b, 0x28, 0xa1, 0x45},
                                   {5, 6, 10, 6, 6, 5, 9, 5, 10, 5, 5, 6, 5, 9, 5, 10},
                                   16,
                                   5,
                                   {5, 6, 9, 10},
                                   4,
                                   15};

static void cells_of(const profile_calls *p) {
    static uint8_t bits[21504], cells[86016], back[21504];
    size_t length = p->cells_length, points = p->points_length;
    fill(bits, 21504, 0);
    memcpy(bits, p->bytes, 4);
    memcpy(bits + 21500, p->bytes, 4);
    fill(cells, length, LEFT);
    ANSWER(p->bits_to_cells(bits, 21504, cells, length), 0, 0, 0);
    EXPECT(memcmp(cells, p->points, points) == 0 && memcmp(cells + length - points, p->points, points) == 0);
    EXPECT(filled(cells + points, length - 2 * points, p->zero));
    ANSWER(p->cells_to_bits(cells, length, back, 21504), 0, 0, 0);
    EXPECT(memcmp(back, bits, 21504) == 0);

    fill(back, 21504, LEFT);
    cells[30001] = p->illegal;
    cells[30003] = 16;
    ANSWER(p->cells_to_bits(cells, length, back, 21504), 5, 0, 30001);
    ANSWER(p->cells_to_bits(cells, length - 1, back, 21504), 1, 0, 0);
    ANSWER(p->cells_to_bits(cells, length, back, 21503), 1, 0, 0);
    EXPECT(filled(back, 21504, LEFT));
    fill(cells, length, LEFT);
    ANSWER(p->bits_to_cells(bits, 21503, cells, length), 1, 0, 0);
    ANSWER(p->bits_to_cells(bits, 21504, cells, length - 1), 1, 0, 0);
    EXPECT(filled(cells, length, LEFT));
}

static void cells(void) {
    cells_of(&QAM16);
    puts("ofec_bits_to_cells, ofec_cells_to_bits: the cells of the bench; refusals 1 and 5");
    cells_of(&QPSK);
    puts("ofec_bits_to_cells_qpsk, ofec_cells_to_bits_qpsk: every pair of levels; refusals 1 and 5");
}

/* Pilots, training and, in sub-frame 0, the cells up to 109. */
static int is_overhead(uint32_t number, int cell) {
    return cell % 32 == 0 || cell < 11 || (number == 0 && cell < 110);
}

/* A list and a payload in which neighbours differ, and their frame by the rule above. */
static size_t framed(const profile_calls *p, uint32_t number, uint8_t *payload, uint8_t *overhead, uint8_t *frame) {
    size_t in_list = number == 0 ? 0 : 444 + 252 * (size_t)(number - 1), in_payload = 0;
    for (size_t i = 0; i < 12288; i++) {
        overhead[i] = (uint8_t)(i * 7 % 13);
    }
    for (size_t i = 0; i < 7172; i++) {
        payload[i] = p->legal[i * 5 % 13 % p->legal_count];
    }
    for (int cell = 0; cell < 3712; cell++) {
        int over = is_overhead(number, cell);
        for (int rail = 0; rail < 2; rail++) {
            frame[2 * cell + rail] = over ? overhead[in_list++] : payload[in_payload++];
        }
    }
    return in_payload;
}

static void one_subframe(const profile_calls *p, uint32_t number, size_t payload_length) {
    static uint8_t payload[7172], overhead[12288], known[7424], frame[7424], back[7172];
    EXPECT(framed(p, number, payload, overhead, known) == payload_length);
    fill(frame, 7424, LEFT);
    ANSWER(p->frame(number, payload, payload_length, overhead, 12288, frame, 7424), 0, 0, 0);
    EXPECT(memcmp(frame, known, 7424) == 0);

    frame[2 * 10 + 1] ^= 1; /* the last training cell */
    frame[2 * 3680] ^= 1;   /* two pilots, one of them in both bytes */
    frame[2 * 640] ^= 1;
    frame[2 * 640 + 1] ^= 1;
    fill(back, 7172, LEFT);
    ANSWER(p->unframe(number, frame, 7424, overhead, 12288, back, payload_length), 0, 3, 0);
    EXPECT(memcmp(back, payload, payload_length) == 0 && filled(back + payload_length, 7172 - payload_length, LEFT));
}

/* Refusals of both calls for sub-frame 2, whose part of the overhead list is bytes 696 to 947. */
static void frame_refusals(const profile_calls *p) {
    static uint8_t payload[7172], overhead[12288], known[7424], frame[7424], back[7172];
    framed(p, 2, payload, overhead, known);
    fill(frame, 7424, LEFT);
    fill(back, 7172, LEFT);
    ANSWER(p->frame(2, payload, 6980, overhead, 12288, frame, 7424), 1, 0, 0);
    ANSWER(p->frame(2, payload, 7172, overhead, 12287, frame, 7424), 1, 0, 0);
    ANSWER(p->frame(2, payload, 7172, overhead, 12288, frame, 7423), 1, 0, 0);
    ANSWER(p->frame(0, payload, 7172, overhead, 12288, frame, 7424), 1, 0, 0);
    ANSWER(p->unframe(2, known, 7423, overhead, 12288, back, 7172), 1, 0, 0);
    ANSWER(p->unframe(2, known, 7424, overhead, 12287, back, 7172), 1, 0, 0);
    ANSWER(p->unframe(2, known, 7424, overhead, 12288, back, 6980), 1, 0, 0);
    ANSWER(p->unframe(0, known, 7424, overhead, 12288, back, 7172), 1, 0, 0);
    /* From 48 on the payload is not measured; the other buffers are. */
    ANSWER(p->frame(48, payload, 5, overhead, 12288, frame, 7424), 4, 0, 0);
    ANSWER(p->frame(48, payload, 5, overhead, 12287, frame, 7424), 1, 0, 0);
    ANSWER(p->frame(48, payload, 5, overhead, 12288, frame, 7423), 1, 0, 0);
    ANSWER(p->unframe(LAST, known, 7424, overhead, 12288, back, 5), 4, 0, 0);
    ANSWER(p->unframe(LAST, known, 7423, overhead, 12288, back, 5), 1, 0, 0);
    ANSWER(p->unframe(LAST, known, 7424, overhead, 12287, back, 5), 1, 0, 0);
    /* An illegal byte of the payload or the frame, with illegal bytes of the list that belong to other sub-frames. */
    overhead[695] = overhead[948] = 16;
    payload[700] = 200;
    known[7423] = 16;
    payload[5] = known[700] = p->illegal;
    ANSWER(p->frame(2, payload, 7172, overhead, 12288, frame, 7424), 5, 0, 5);
    ANSWER(p->unframe(2, known, 7424, overhead, 12288, back, 7172), 5, 0, 700);
    /* The list comes first, and its byte at the index says that the index is one of the list. */
    EXPECT(overhead[700] < 16);
    overhead[947] = overhead[701] = 16;
    ANSWER(p->frame(2, payload, 7172, overhead, 12288, frame, 7424), 5, 0, 701);
    ANSWER(p->unframe(2, known, 7424, overhead, 12288, back, 7172), 5, 0, 701);
    EXPECT(filled(frame, 7424, LEFT) && filled(back, 7172, LEFT));
}

static void frames_of(const profile_calls *p) {
    one_subframe(p, 0, 6980);
    one_subframe(p, 1, 7172);
    one_subframe(p, 47, 7172);
    frame_refusals(p);
}

static void frames(void) {
    frames_of(&QAM16);
    puts("ofec_frame, ofec_unframe: sub-frames 0, 1 and 47 cell by cell, 3 cells that differ; refusals 1, 4 and 5");
    frames_of(&QPSK);
    puts("ofec_frame_qpsk, ofec_unframe_qpsk: the same, with any levels in overhead cells");
}

/* A file of two super-frames with gaps: the overhead list at 20, the frames at 12,400. */
static void line_file(void) {
    enum { o = 20, f = 12400, total = f + 2 * 356352 };
    uint8_t *file = (uint8_t *)calloc(total, 1);
    if (file == NULL) {
        puts("no memory");
        exit(1);
    }
    put32(file, 2);
    put32(file + 4, o);
    put32(file + 8, f);
    put32(file + 12, total);
    LINE(ofec_open_line(file, total), 0, 2, o, f);
    ANSWER(ofec_read_line(file, total, 2, o, f, 1, 3), 0, 7424, f + 356352 + 3 * 7424);
    ANSWER(ofec_read_line(file, total, 2, o, f, 0, 47), 0, 7424, f + 47 * 7424);
    ANSWER(ofec_read_line(file, total, 2, o, f, 1, 47), 0, 7424, total - 7424);
    ANSWER(ofec_read_line(file, total, 2, o, f, 2, 3), 4, 0, 0);
    ANSWER(ofec_read_line(file, total, 2, o, f, 1, 48), 4, 0, 0);
    ANSWER(ofec_read_line(file, total, 3, o, f, 1, 3), 2, 0, 0);
    ANSWER(ofec_read_line(file, total, 2, o + 1, f, 1, 3), 2, 0, 0);
    ANSWER(ofec_read_line(file, total, 2, o, f - 1, 1, 3), 2, 0, 0);
    ANSWER(ofec_read_line(file, total - 1, 2, o, f, 1, 3), 2, 0, 0);
    ANSWER(ofec_read_line(file, 15, 2, o, f, 1, 3), 1, 0, 0);
    LINE(ofec_open_line(file, total - 1), 2, 0, 0, 0);
    LINE(ofec_open_line(file, 16), 2, 0, 0, 0);
    LINE(ofec_open_line(file, 15), 1, 0, 0, 0);
    free(file);
    puts("ofec_open_line, ofec_read_line: a file of two super-frames with gaps, super-frame and sub-frame told apart; refusals 1, 2 and 4");
}

static void write_header(void) {
    static const uint8_t two[16] = {0, 0, 0, 2, 0, 0, 0, 16, 0, 0, 0x30, 0x10, 0, 0x0b, 0x10, 0x10};
    uint8_t header[16];
    fill(header, 16, LEFT);
    ANSWER(ofec_write_header(0, header, 16), 2, 0, 0);
    ANSWER(ofec_write_header(65, header, 16), 2, 0, 0);
    ANSWER(ofec_write_header(65, header, 15), 1, 0, 0);
    ANSWER(ofec_write_header(2, header, 17), 1, 0, 0);
    EXPECT(filled(header, 16, LEFT));
    ANSWER(ofec_write_header(2, header, 16), 0, 0, 0);
    EXPECT(memcmp(header, two, 16) == 0);
    ANSWER(ofec_write_header(64, header, 16), 0, 0, 0);
    EXPECT(header[3] == 64);
    puts("ofec_write_header: the bytes for two super-frames; refusals 1 and 2");
}

int main(void) {
    structs();
    constants();
    names();
    repair_word();
    encode_pair();
    fresh_history();
    receive_pair();
    interleaver();
    cells();
    frames();
    line_file();
    write_header();
    printf("16 functions, %u checks\n", checks);
    return 0;
}
