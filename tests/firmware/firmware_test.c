/* Calls box_read and box_write as box firmware does, and compares answer and memory with document 01, "The box routine" and refusals 16
 * and 17, and with wishes 2 and 7 of document 02. Prints the number of checks made, or the first that fails, with exit status 1. Valid
 * C99 and C++11. */
#include "box_firmware.h"
#include "box_firmware.h" /* a second time: the header's guard */

#include "check.h"

#include <stdint.h>
#include <stdio.h>
#include <stdlib.h>
#include <string.h>

/* ---- One call, with guard bytes on both sides of record and reply, all of them compared */

#define ROOM 64
#define AT 20 /* where record and reply begin in their rooms */

struct bench {
    uint8_t record[ROOM], reply[ROOM];             /* what is lent, amid guard bytes */
    uint8_t record_wanted[ROOM], reply_wanted[ROOM]; /* what is to be there after the call */
};

/* Guard bytes differ from place to place, so that a byte moved is seen too. */
static void lay_out(struct bench *b, const uint8_t *record, size_t record_len, size_t shift) {
    size_t i;
    for (i = 0; i < ROOM; i++) {
        b->record[i] = (uint8_t)(0xC0 + i);
        b->reply[i] = (uint8_t)(0x40 + i);
    }
    memcpy(b->record + AT + shift, record, record_len);
    memcpy(b->record_wanted, b->record, ROOM);
    memcpy(b->reply_wanted, b->reply, ROOM);
}

static void compare(const struct bench *b, uint32_t answer, uint32_t wanted, int line) {
    check(answer == wanted, line, "the answer is the one wanted");
    check(memcmp(b->record, b->record_wanted, ROOM) == 0, line, "record and guard bytes are those wanted");
    check(memcmp(b->reply, b->reply_wanted, ROOM) == 0, line, "reply and guard bytes are those wanted");
}

/* A read that is answered, one that is outranked, or a write: record and reply after it are given. */
static void read_gives(const uint8_t *before, uint32_t rank, const uint8_t *after, const uint8_t *reply, int line) {
    struct bench b;
    lay_out(&b, before, 12, 0);
    memcpy(b.record_wanted + AT, after, 12);
    memcpy(b.reply_wanted + AT, reply, 8);
    compare(&b, box_read(b.record + AT, 12, rank, b.reply + AT, 8), 0, line);
}

static void read_outranked(const uint8_t *record, uint32_t rank, int line) {
    struct bench b;
    lay_out(&b, record, 12, 0);
    memset(b.reply_wanted + AT, 0, 8);
    compare(&b, box_read(b.record + AT, 12, rank, b.reply + AT, 8), 100, line);
}

static void write_gives(const uint8_t *before, uint32_t rank, uint32_t revision, uint32_t wanted, const uint8_t *after, int line) {
    struct bench b;
    lay_out(&b, before, 12, 0);
    memcpy(b.record_wanted + AT, after, 12);
    compare(&b, box_write(b.record + AT, 12, rank, revision), wanted, line);
}

/* ---- The header's numbers */

static void header(void) {
    CHECK(BOX_RECORD_BYTES == 12);
    CHECK(BOX_REPLY_BYTES == 8);
    CHECK(BOX_DONE == 0);
    CHECK(BOX_OUTRANKED == 100);
    CHECK(BOX_NOT_TAKEN == 100);
    CHECK(BOX_REFUSED_LENGTH == 16);
    CHECK(BOX_REFUSED_ZERO == 17);
}

/* ---- The layout, byte for byte: read rank, write rank, value, each big-endian; the reply is write rank and value */

static void layout(void) {
    static const uint8_t record[12] = {0x05, 0x06, 0x07, 0x08, 0x01, 0x02, 0x03, 0x04, 0x09, 0x0A, 0x0B, 0x0C};
    static const uint8_t reply[8] = {0x01, 0x02, 0x03, 0x04, 0x09, 0x0A, 0x0B, 0x0C};
    static const uint8_t raised[12] = {0xF1, 0xE2, 0xD3, 0xC4, 0x01, 0x02, 0x03, 0x04, 0x09, 0x0A, 0x0B, 0x0C};
    static const uint8_t written[12] = {0x05, 0x06, 0x07, 0x08, 0xF1, 0xE2, 0xD3, 0xC4, 0xB5, 0xA6, 0x97, 0x88};
    /* a write rank above the read rank, as no run of calls leaves it */
    static const uint8_t unread[12] = {0x01, 0x02, 0x03, 0x04, 0x05, 0x06, 0x07, 0x08, 0x09, 0x0A, 0x0B, 0x0C};
    static const uint8_t unread_reply[8] = {0x05, 0x06, 0x07, 0x08, 0x09, 0x0A, 0x0B, 0x0C};
    static const uint8_t unread_raised[12] = {0x05, 0x06, 0x07, 0x08, 0x05, 0x06, 0x07, 0x08, 0x09, 0x0A, 0x0B, 0x0C};
    static const uint8_t zeros[12] = {0, 0, 0, 0, 0, 0, 0, 0, 0, 0, 0, 0};
    static const uint8_t zeros_raised[12] = {0, 0, 0, 1, 0, 0, 0, 0, 0, 0, 0, 0};
    static const uint8_t ones[12] = {0xFF, 0xFF, 0xFF, 0xFF, 0xFF, 0xFF, 0xFF, 0xFF, 0xFF, 0xFF, 0xFF, 0xFF};
    /* 0x05060708 raised or lowered by one in each byte: which bytes a rank is compared by */
    static const uint32_t above[4] = {0x06060708u, 0x05070708u, 0x05060808u, 0x05060709u};
    static const uint32_t below[4] = {0x04060708u, 0x05050708u, 0x05060608u, 0x05060707u};
    int i;

    read_gives(record, 0xF1E2D3C4u, raised, reply, __LINE__);
    read_gives(record, 0x05060708u, record, reply, __LINE__); /* a rank equal to the read rank is not outranked */
    read_gives(unread, 0x05060708u, unread_raised, unread_reply, __LINE__); /* nor one equal to the write rank */
    write_gives(record, 0xF1E2D3C4u, 0xB5A69788u, 0, written, __LINE__);
    read_gives(zeros, 1, zeros_raised, zeros, __LINE__);
    read_gives(ones, 0xFFFFFFFFu, ones, ones, __LINE__);
    write_gives(ones, 0xFFFFFFFFu, 1, 100, ones, __LINE__);
    for (i = 0; i < 4; i++) {
        uint8_t after[12];
        memcpy(after, record, 12);
        after[i] = (uint8_t)(after[i] + 1);
        read_gives(record, above[i], after, reply, __LINE__);
        read_outranked(record, below[i], __LINE__); /* by the read rank alone */
        read_outranked(unread, below[i], __LINE__); /* by the write rank alone */
        write_gives(record, below[i], 9, 100, record, __LINE__);
    }
}

/* ---- Examples C to F of document 01, and what follows on each */

static void examples(void) {
    static const uint8_t c[12] = {0, 0, 0, 16, 0, 0, 0, 0, 0, 0, 0, 0};
    static const uint8_t c_after[12] = {0, 0, 0, 16, 0, 0, 0, 16, 0, 0, 0, 7};
    static const uint8_t d[12] = {0, 0, 0, 17, 0, 0, 0, 0, 0, 0, 0, 0};
    static const uint8_t d_after[12] = {0, 0, 0, 17, 0, 0, 0, 17, 0, 0, 0, 7};
    static const uint8_t e_after[12] = {0, 0, 0, 16, 0, 0, 0, 17, 0, 0, 0, 9};
    static const uint8_t f[12] = {0, 0, 0, 33, 0, 0, 0, 16, 0, 0, 0, 7};
    static const uint8_t f_reply[8] = {0, 0, 0, 16, 0, 0, 0, 7};
    static const uint8_t f_after[12] = {0, 0, 0, 34, 0, 0, 0, 16, 0, 0, 0, 7};

    write_gives(c, 16, 7, 0, c_after, __LINE__);         /* C: taken, (16, 16, 7) */
    write_gives(d, 16, 7, 100, d, __LINE__);             /* D: not taken, unchanged */
    write_gives(d, 17, 7, 0, d_after, __LINE__);         /* with the rank of its own read it is taken */
    write_gives(c_after, 16, 9, 100, c_after, __LINE__); /* E: not taken */
    write_gives(c_after, 17, 9, 0, e_after, __LINE__);   /* with the next rank it is taken, and the read rank stays */
    read_outranked(f, 18, __LINE__);                     /* F: outranked, unchanged (wish 2) */
    read_outranked(f, 32, __LINE__);                     /* so is the rank next below the read rank */
    read_gives(f, 33, f, f_reply, __LINE__);             /* the rank of the last read is answered (16, 7) */
    read_gives(f, 34, f_after, f_reply, __LINE__);       /* a higher read has the same answer and raises the read rank */
}

/* ---- Wish 7: "Revision 0 means do not cut". A write of it is as any other, and "a box holds nothing exactly while its write rank is 0" */

static void revision_0(void) {
    static const uint8_t new_box[12] = {0, 0, 0, 0, 0, 0, 0, 0, 0, 0, 0, 0};
    static const uint8_t new_lowest[12] = {0, 0, 0, 0, 0, 0, 0, 1, 0, 0, 0, 0};
    static const uint8_t new_after[12] = {0, 0, 0, 0, 0, 0, 0, 16, 0, 0, 0, 0};
    static const uint8_t read_16[12] = {0, 0, 0, 16, 0, 0, 0, 0, 0, 0, 0, 0};
    static const uint8_t read_17[12] = {0, 0, 0, 17, 0, 0, 0, 0, 0, 0, 0, 0};
    static const uint8_t holds_0[12] = {0, 0, 0, 16, 0, 0, 0, 16, 0, 0, 0, 0};
    static const uint8_t holds_0_raised[12] = {0, 0, 0, 17, 0, 0, 0, 16, 0, 0, 0, 0};
    static const uint8_t holds_0_again[12] = {0, 0, 0, 16, 0, 0, 0, 17, 0, 0, 0, 0};
    static const uint8_t holds_0_reply[8] = {0, 0, 0, 16, 0, 0, 0, 0};
    static const uint8_t holds_7[12] = {0, 0, 0, 16, 0, 0, 0, 16, 0, 0, 0, 7};
    static const uint8_t holds_9[12] = {0, 0, 0, 16, 0, 0, 0, 17, 0, 0, 0, 9};
    static const uint8_t read_above[12] = {0, 0, 0, 33, 0, 0, 0, 15, 0, 0, 0, 7};
    static const uint8_t write_above[12] = {0, 0, 0, 15, 0, 0, 0, 33, 0, 0, 0, 7}; /* as no run of calls leaves it */
    static const uint8_t both_above[12] = {0, 0, 0, 33, 0, 0, 0, 33, 0, 0, 0, 7};
    /* numbers whose bytes all differ: all four bytes of the value become 0 */
    static const uint8_t bytes[12] = {0x05, 0x06, 0x07, 0x08, 0x01, 0x02, 0x03, 0x04, 0x09, 0x0A, 0x0B, 0x0C};
    static const uint8_t bytes_after[12] = {0x05, 0x06, 0x07, 0x08, 0xF1, 0xE2, 0xD3, 0xC4, 0, 0, 0, 0};
    static const uint8_t bytes_reply[8] = {0xF1, 0xE2, 0xD3, 0xC4, 0, 0, 0, 0};
    static const uint8_t bytes_raised[12] = {0xFF, 0xFF, 0xFF, 0xFF, 0xF1, 0xE2, 0xD3, 0xC4, 0, 0, 0, 0};
    static const uint8_t bytes_highest[12] = {0xFF, 0xFF, 0xFF, 0xFF, 0xFF, 0xFF, 0xFF, 0xFF, 0, 0, 0, 0};
    /* write rank 0 and a value, as no run of calls leaves it: a box that holds nothing, and its numbers are answered as they stand */
    static const uint8_t nothing[12] = {0, 0, 0, 0, 0, 0, 0, 0, 0x09, 0x0A, 0x0B, 0x0C};
    static const uint8_t nothing_reply[8] = {0, 0, 0, 0, 0x09, 0x0A, 0x0B, 0x0C};
    static const uint8_t nothing_raised[12] = {0, 0, 0, 16, 0, 0, 0, 0, 0x09, 0x0A, 0x0B, 0x0C};

    /* taken */
    write_gives(new_box, 1, 0, 0, new_lowest, __LINE__);
    write_gives(new_box, 16, 0, 0, new_after, __LINE__);
    write_gives(read_16, 16, 0, 0, holds_0, __LINE__);
    write_gives(holds_7, 17, 0, 0, holds_0_again, __LINE__); /* in place of another revision */
    write_gives(bytes, 0xF1E2D3C4u, 0, 0, bytes_after, __LINE__);
    write_gives(bytes_raised, 0xFFFFFFFFu, 0, 0, bytes_highest, __LINE__);
    write_gives(nothing_raised, 16, 0, 0, holds_0, __LINE__);
    /* not taken: by the read rank, by the write rank, by both, by a write rank equal to the rank */
    write_gives(read_17, 16, 0, 100, read_17, __LINE__);
    write_gives(read_above, 16, 0, 100, read_above, __LINE__);
    write_gives(write_above, 16, 0, 100, write_above, __LINE__);
    write_gives(both_above, 16, 0, 100, both_above, __LINE__);
    write_gives(holds_7, 16, 0, 100, holds_7, __LINE__);
    write_gives(new_lowest, 1, 0, 100, new_lowest, __LINE__);
    /* over revision 0: a higher rank is taken, no other is */
    write_gives(holds_0, 17, 9, 0, holds_9, __LINE__);
    write_gives(holds_0, 17, 0, 0, holds_0_again, __LINE__);
    write_gives(holds_0, 16, 9, 100, holds_0, __LINE__);
    write_gives(holds_0, 16, 0, 100, holds_0, __LINE__);
    write_gives(holds_0, 15, 9, 100, holds_0, __LINE__);
    write_gives(holds_0_raised, 16, 9, 100, holds_0_raised, __LINE__);
    /* read: the write rank tells that the box holds revision 0 */
    read_gives(holds_0, 16, holds_0, holds_0_reply, __LINE__);
    read_gives(holds_0, 17, holds_0_raised, holds_0_reply, __LINE__);
    read_gives(bytes_after, 0xFFFFFFFFu, bytes_raised, bytes_reply, __LINE__);
    read_outranked(holds_0, 15, __LINE__);
    read_outranked(holds_0_raised, 16, __LINE__);
    /* read of a box that holds nothing */
    read_gives(new_box, 16, read_16, new_box, __LINE__);
    read_gives(nothing, 16, nothing_raised, nothing_reply, __LINE__);
    read_gives(nothing_raised, 16, nothing_raised, nothing_reply, __LINE__);
    read_outranked(nothing_raised, 15, __LINE__);
}

/* ---- Every refusal leaves record and reply as they were, byte for byte; 16 stands before 17 */

static const uint8_t any[24] = {0xA1, 0xB2, 0xC3, 0xD4, 0x00, 0x11, 0x22, 0x33, 0x44, 0x55, 0x66, 0x77,
                                0x88, 0x99, 0xAA, 0xBB, 0xCC, 0xDD, 0xEE, 0xFF, 0x12, 0x34, 0x56, 0x78};

static void refused_reads(void) {
    static const struct {
        size_t record_len, reply_len;
        uint32_t rank, answer;
    } calls[] = {
        {0, 8, 0xF0000000u, 16},  {11, 8, 0xF0000000u, 16}, {13, 8, 0xF0000000u, 16}, {24, 8, 0xF0000000u, 16},
        {12, 0, 0xF0000000u, 16}, {12, 7, 0xF0000000u, 16}, {12, 9, 0xF0000000u, 16}, {12, 12, 0xF0000000u, 16},
        {0, 0, 0xF0000000u, 16},  {11, 7, 0xF0000000u, 16}, {13, 9, 0xF0000000u, 16}, {8, 12, 0xF0000000u, 16},
        {0, 8, 0, 16},            {11, 8, 0, 16},           {13, 8, 0, 16},           {12, 0, 0, 16},
        {12, 7, 0, 16},           {12, 9, 0, 16},           {0, 0, 0, 16},            {11, 7, 0, 16},
        {13, 9, 0, 16},           {12, 8, 0, 17},
    };
    size_t i;
    for (i = 0; i < sizeof calls / sizeof calls[0]; i++) {
        struct bench b;
        lay_out(&b, any, calls[i].record_len, 0);
        compare(&b, box_read(b.record + AT, calls[i].record_len, calls[i].rank, b.reply + AT, calls[i].reply_len), calls[i].answer, __LINE__);
    }
}

static void refused_writes(void) {
    static const struct {
        size_t record_len;
        uint32_t rank, revision, answer;
    } calls[] = {
        {0, 0xF0000000u, 9, 16}, {11, 0xF0000000u, 9, 16}, {13, 0xF0000000u, 9, 16}, {24, 0xF0000000u, 9, 16},
        {0, 0, 9, 16},           {11, 0, 9, 16},           {13, 0, 9, 16},           {0, 0xF0000000u, 0, 16},
        {11, 0xF0000000u, 0, 16}, {13, 0xF0000000u, 0, 16}, {24, 0xF0000000u, 0, 16}, {0, 0, 0, 16},
        {8, 0, 0, 16},           {11, 0, 0, 16},           {13, 0, 0, 16},           {24, 0, 0, 16},
        {12, 0, 9, 17},          {12, 0, 1, 17},           {12, 0, 0xFFFFFFFFu, 17}, {12, 0, 0, 17}, /* 17: rank 0, with any revision */
    };
    static const uint8_t records[][12] = {{0, 0, 0, 0, 0, 0, 0, 0, 0, 0, 0, 0}, {0, 0, 0, 0, 0, 0, 0, 0, 0, 0, 0, 7},
                                          {0, 0, 0, 16, 0, 0, 0, 16, 0, 0, 0, 0}, {0, 0, 0, 16, 0, 0, 0, 16, 0, 0, 0, 7}};
    size_t i;
    for (i = 0; i < sizeof calls / sizeof calls[0]; i++) {
        struct bench b;
        lay_out(&b, any, calls[i].record_len, 0);
        compare(&b, box_write(b.record + AT, calls[i].record_len, calls[i].rank, calls[i].revision), calls[i].answer, __LINE__);
    }
    /* rank 0 is below every record's ranks or equal to them, but refused before they are looked at */
    for (i = 0; i < sizeof records / sizeof records[0]; i++) {
        write_gives(records[i], 0, 0, 17, records[i], __LINE__);
        write_gives(records[i], 0, 9, 17, records[i], __LINE__);
    }
}

/* ---- Calls against Figure 3, with the early answer of wish 2: pseudo-random ones, and every one on small numbers */

#define CALLS 100000

/* What came of the calls: each has to come often. */
enum {
    RAISED, NOT_RAISED, BELOW_BOTH, BELOW_READ_ONLY, BELOW_WRITE_ONLY, TAKEN, BELOW_READ_RANK, BELOW_WRITE_RANK, LENGTH, ZERO, /* one each */
    AT_READ_RANK, AT_WRITE_RANK, REVISION_0_TAKEN, REVISION_0_NOT_TAKEN, REVISION_0_ANSWERED, NOTHING_ANSWERED, VALUE_OF_NOTHING_ANSWERED,
    KINDS
};
static unsigned long count[KINDS];

/* Figure 3's x with its rmw-read and rmw-write, as document 01 and wish 2 of document 02 read them. */
struct ranked { uint32_t read, write, value; };

static uint32_t figure_3_read(struct ranked *x, uint32_t r) {
    if (x->read > r || x->write > r) {
        count[x->write <= r ? BELOW_READ_ONLY : x->read <= r ? BELOW_WRITE_ONLY : BELOW_BOTH]++;
        return 100;
    }
    count[x->read < r ? RAISED : NOT_RAISED]++;
    if (x->write != 0 && x->value == 0) count[REVISION_0_ANSWERED]++;
    if (x->write == 0) count[x->value == 0 ? NOTHING_ANSWERED : VALUE_OF_NOTHING_ANSWERED]++;
    x->read = r;
    return 0;
}

static uint32_t figure_3_write(struct ranked *x, uint32_t r, uint32_t v) {
    if (x->read == r) count[AT_READ_RANK]++;
    if (x->write == r && x->read <= r) count[AT_WRITE_RANK]++;
    if (x->read <= r && x->write < r) {
        x->write = r;
        x->value = v;
        count[TAKEN]++;
        if (v == 0) count[REVISION_0_TAKEN]++;
        return 0;
    }
    if (v == 0) count[REVISION_0_NOT_TAKEN]++;
    count[x->read <= r ? BELOW_WRITE_RANK : BELOW_READ_RANK]++;
    return 100;
}

/* The wanted record, reply and answer of a call on the bench; a reply length of 8 for a write, which has none. */
static uint32_t wanted_of(struct bench *b, size_t shift, int write, size_t record_len, size_t reply_len, uint32_t rank, uint32_t revision) {
    uint8_t *s = b->record_wanted + AT + shift, *p = b->reply_wanted + AT + shift;
    struct ranked x;
    uint32_t answer;
    if (record_len != 12 || reply_len != 8) { count[LENGTH]++; return 16; }
    if (rank == 0) { count[ZERO]++; return 17; } /* wish 7: it does not look at the revision */
    x.read = get(s);
    x.write = get(s + 4);
    x.value = get(s + 8);
    if (write) answer = figure_3_write(&x, rank, revision);
    else answer = figure_3_read(&x, rank);
    put(s, x.read);
    put(s + 4, x.write);
    put(s + 8, x.value);
    if (!write) { put(p, answer ? 0 : x.write); put(p + 4, answer ? 0 : x.value); }
    return answer;
}

/* A rank: small, of any size, next to one of the record's own, or 0. */
static uint32_t some_rank(const uint8_t *record) {
    switch (number() % 16) {
    case 0: return 0;
    case 1: case 2: case 3: return number();
    case 4: case 5: case 6: return get(record) - 1 + number() % 3;
    case 7: case 8: case 9: return get(record + 4) - 1 + number() % 3;
    default: return number() % 64;
    }
}

/* A record: that of the last call, small ranks, among them write rank 0, or any bytes; value 0 too. */
static void some_record(uint8_t *record) {
    int i, k = (int)(number() % 8);
    if (k < 5) return;
    for (i = 0; i < 24; i++) record[i] = (uint8_t)number();
    if (k < 7) {
        put(record, number() % 64);
        put(record + 4, number() % 4 ? number() % 64 : 0);
    }
    if (number() % 2) put(record + 8, 0);
}

static size_t some_length(size_t right) {
    return number() % 16 ? right : number() % 25;
}

/* One call, compared. A record of 12 bytes is left as the call left it. */
static void call(uint8_t *record, size_t shift, int write, size_t record_len, size_t reply_len, uint32_t rank, uint32_t revision, int line) {
    struct bench b;
    uint32_t wanted, answer;
    lay_out(&b, record, record_len, shift);
    wanted = wanted_of(&b, shift, write, record_len, reply_len, rank, revision);
    if (write) answer = box_write(b.record + AT + shift, record_len, rank, revision);
    else answer = box_read(b.record + AT + shift, record_len, rank, b.reply + AT + shift, reply_len);
    compare(&b, answer, wanted, line);
    if (record_len == 12) memcpy(record, b.record + AT + shift, 12);
}

static void random_calls(void) {
    uint8_t record[24];
    unsigned long calls = 0;
    long i;
    int k;
    memset(record, 0, sizeof record);
    for (i = 0; i < CALLS; i++) {
        int write = (int)(number() % 2);
        size_t shift = number() % 8, record_len, reply_len;
        uint32_t rank, revision;
        some_record(record);
        rank = some_rank(record);
        revision = number() % 4 ? number() : 0;
        record_len = some_length(12);
        reply_len = write ? 8 : some_length(8);
        call(record, shift, write, record_len, reply_len, rank, revision, __LINE__);
    }
    for (k = 0; k < KINDS; k++) CHECK(count[k] >= CALLS / 100);
    for (k = 0; k <= ZERO; k++) calls += count[k];
    CHECK(calls == CALLS);
}

/* Every record of ranks up to 3 and value 0 or 7, with every rank up to 4: read, and written with revision 0 and with 9. */
static void small_calls(void) {
    static const struct {
        int write;
        uint32_t revision;
    } asked[] = {{0, 0}, {1, 0}, {1, 9}};
    uint32_t read, write, value, rank;
    size_t i;
    for (read = 0; read <= 3; read++)
        for (write = 0; write <= 3; write++)
            for (value = 0; value <= 7; value += 7)
                for (rank = 0; rank <= 4; rank++)
                    for (i = 0; i < sizeof asked / sizeof asked[0]; i++) {
                        uint8_t record[12];
                        put(record, read);
                        put(record + 4, write);
                        put(record + 8, value);
                        call(record, 0, asked[i].write, 12, 8, rank, asked[i].revision, __LINE__);
                    }
}

int main(void) {
    header();
    layout();
    examples();
    revision_0();
    refused_reads();
    refused_writes();
    random_calls();
    small_calls();
    printf("%lu\n", checks);
    return 0;
}
