/* The library from C: a word is repaired, a pair is sent and received, a sub-frame is framed and unframed.
 *
 *     bash .ci/build library
 *     cc -std=c11 -Wall -Wextra -I include examples/c/line.c target/staticlib/libcapi.a -o line && ./line
 *
 * It prints what stands in line.expected. */
#include <stdbool.h>
#include <stdio.h>
#include <stdlib.h>
#include <string.h>

#include "ofec.h"

/* Ends the program where something is not as it should be. */
static void expect(bool holds, const char *what) {
    if (!holds) {
        fprintf(stderr, "unexpected: %s\n", what);
        exit(1);
    }
}

static void flip(uint8_t *bytes, size_t bit) {
    bytes[bit / 8] ^= (uint8_t)(0x80 >> bit % 8);
}

static void repair_word(void) {
    uint8_t zero[OFEC_WORD_BYTES] = {0}, word[OFEC_WORD_BYTES] = {0};
    flip(word, 0);
    flip(word, 255);
    ofec_outcome o = ofec_repair_word(word, sizeof word, 1);
    expect(o.refusal == OFEC_DONE && o.value == 2 && memcmp(word, zero, sizeof word) == 0, "two flips");
    printf("word: %u flips, and it is the code word again\n", (unsigned)o.value);

    flip(word, 0);
    flip(word, 1);
    flip(word, 2);
    o = ofec_repair_word(word, sizeof word, 1);
    expect(o.refusal == OFEC_DONE && o.value == OFEC_LOST && word[0] == 0xe0, "a lost word, unaltered");
    puts("word: three wrong bits, lost and unaltered");
}

/* Twelve pairs, each with one wrong bit on the line; pairs 10 and 11 have full words. */
static void send_pairs(void) {
    /* The histories of encoder and receiver, both fresh and of encoder 1. */
    static uint8_t sent[OFEC_HISTORY_BYTES] = {0, 0, 0, 1}, held[OFEC_HISTORY_BYTES] = {0, 0, 0, 1};
    uint32_t next = 0;
    unsigned flips = 0;
    for (uint32_t pair = 0; pair < 12; pair++) {
        uint8_t payload[OFEC_PAYLOAD_BYTES], coded[OFEC_CODED_BYTES], received[OFEC_PAYLOAD_BYTES], marks[OFEC_MARKS_BYTES];
        for (size_t i = 0; i < sizeof payload; i++) {
            payload[i] = (uint8_t)(i * i + pair);
        }
        ofec_outcome o = ofec_encode_pair(payload, sizeof payload, coded, sizeof coded, sent, sizeof sent, 1, pair);
        expect(o.refusal == OFEC_DONE, "a pair encoded");
        flip(coded, 300 * pair);
        o = ofec_receive_pair(coded, sizeof coded, received, sizeof received, marks, sizeof marks, held, sizeof held, 1, pair);
        expect(o.refusal == OFEC_DONE, "a pair received");
        expect(memcmp(received, payload, sizeof payload) == 0, "the payload as it was sent");
        for (size_t word = 0; word < sizeof marks; word++) {
            expect(marks[word] != OFEC_LOST, "no lost word");
            flips += marks[word];
        }
        next = o.value;
    }
    expect(memcmp(sent, held, sizeof sent) == 0, "the same history on both sides");
    printf("pairs: %u received, %u flips, every payload as it was sent\n", (unsigned)next, flips);
}

static void frame_subframe(void) {
    static uint8_t overhead[OFEC_OVERHEAD_BYTES], payload[OFEC_FIRST_FRAME_PAYLOAD_BYTES], frame[OFEC_FRAME_BYTES],
        received[OFEC_FIRST_FRAME_PAYLOAD_BYTES];
    memset(overhead, 5, sizeof overhead);
    memset(payload, 10, sizeof payload);
    ofec_outcome o = ofec_frame(0, payload, sizeof payload, overhead, sizeof overhead, frame, sizeof frame);
    expect(o.refusal == OFEC_DONE, "a sub-frame framed");

    frame[2 * 32] = 6; /* cell 32 is a pilot */
    o = ofec_unframe(0, frame, sizeof frame, overhead, sizeof overhead, received, sizeof received);
    expect(o.refusal == OFEC_DONE && memcmp(received, payload, sizeof payload) == 0, "the payload cells back");
    printf("sub-frame: %u overhead cell differs, the payload is untouched\n", (unsigned)o.value);

    frame[7423] = 16;
    o = ofec_unframe(0, frame, sizeof frame, overhead, sizeof overhead, received, sizeof received);
    expect(o.refusal == OFEC_OFF_GRID && memcmp(received, payload, sizeof payload) == 0, "an illegal cell refused");
    printf("sub-frame: refusal %u, %s, at byte %lu\n", (unsigned)o.refusal, ofec_refusal_name(o.refusal), (unsigned long)o.index);
}

int main(void) {
    repair_word();
    send_pairs();
    frame_subframe();
    return 0;
}
