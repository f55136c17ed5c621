/* Calls frame_read, frame_write and box_serve as box firmware does, and compares answer, numbers stored and memory with wish 3 of
 * document 02, in which wish 7 makes 0 a revision, and with "The box routine" of document 01 as wish 2 changes it. Prints the number of
 * checks made, or the first that fails, with exit status 1. Valid C99 and C++11. */
#include "box_firmware.h"

#include "check.h"

#include <stdint.h>
#include <stdio.h>
#include <stdlib.h>
#include <string.h>

#define COUNT_OF(table) (sizeof(table) / sizeof(table)[0])

/* ---- Wish 3, and the box routine, written from the documents */

struct message {
    uint32_t kind, first, second; /* a field that the kind does not have is 0 */
};

/* What comes of a frame that is read, and of a request that is served. */
enum {
    KIND_1, KIND_2, KIND_3, KIND_4, KIND_5, KIND_6,                          /* accepted */
    LENGTH_MISSING, LENGTH_PAST_INPUT, LENGTH_UNDER_2, LENGTH_NOT_THE_KINDS, /* 19 */
    OTHER_VERSION,                                                           /* 20 */
    UNKNOWN_KIND, READ_RANK_0, WRITE_RANK_0,                                 /* 21 */
    NO_REQUEST,                                                              /* 21; this and those below come in serving only */
    RECORD_LENGTH,                                                           /* 16 */
    SHORT_FOR_3, SHORT_FOR_4, SHORT_FOR_5, SHORT_FOR_6,                      /* 18, by the kind of the answer */
    ANSWERED, OUTRANKED, TAKEN, NOT_TAKEN,                                   /* served */
    OUTCOMES
};

static int known(uint32_t kind) { return 1 <= kind && kind <= 6; }

/* "1 read request (rank), 2 write request (rank, revision), 3 read answer (write rank, value); without fields 4 outranked, 5 taken, 6 not
 * taken" */
static size_t fields(uint32_t kind) { return kind == 1 ? 1 : kind == 2 || kind == 3 ? 2 : 0; }

/* "a 2-byte length of the rest, version byte 1, a kind byte and 4-byte fields" */
static size_t size_of(uint32_t kind) { return 2 + 1 + 1 + 4 * fields(kind); }

/* The frame of a message, rank 0 in requests too, of which frames to be refused are made. Gives its size. */
static size_t put_frame(uint8_t *p, struct message m) {
    size_t size = size_of(m.kind);
    p[0] = (uint8_t)((size - 2) / 256);
    p[1] = (uint8_t)((size - 2) % 256);
    p[2] = 1;
    p[3] = (uint8_t)m.kind;
    if (fields(m.kind) >= 1) put(p + 4, m.first);
    if (fields(m.kind) >= 2) put(p + 8, m.second);
    return size;
}

struct reading {
    uint32_t answer;
    struct message m;
    size_t rest, rest_len;
    int outcome;
};

static struct reading document_reads(const uint8_t *p, size_t len) {
    struct reading r;
    size_t length;
    memset(&r, 0, sizeof r);
    r.answer = 19;
    r.outcome = LENGTH_MISSING;
    if (len < 2) return r;
    length = (size_t)p[0] * 256 + p[1];
    r.outcome = LENGTH_PAST_INPUT;
    if (2 + length > len) return r;
    r.outcome = LENGTH_UNDER_2;
    if (length < 2) return r;
    r.outcome = LENGTH_NOT_THE_KINDS;
    if (known(p[3]) && 2 + length != size_of(p[3])) return r;
    r.answer = 20;
    r.outcome = OTHER_VERSION;
    if (p[2] != 1) return r;
    r.answer = 21;
    r.outcome = UNKNOWN_KIND;
    if (!known(p[3])) return r;
    r.outcome = p[3] == 1 ? READ_RANK_0 : WRITE_RANK_0;
    if (p[3] <= 2 && get(p + 4) == 0) return r; /* wish 7: 21 does not look at the revision */
    r.answer = 0;
    r.outcome = KIND_1 + p[3] - 1;
    r.m.kind = p[3];
    if (fields(p[3]) >= 1) r.m.first = get(p + 4);
    if (fields(p[3]) >= 2) r.m.second = get(p + 8);
    r.rest = 2 + length;
    r.rest_len = len - 2 - length;
    return r;
}

/* "The writer gives 21, then 18." */
static uint32_t document_writes(uint8_t *buffer, size_t buffer_len, struct message m, size_t *size) {
    *size = 0;
    if (!known(m.kind)) return 21;
    if (m.kind <= 2 && m.first == 0) return 21;
    if (buffer_len < size_of(m.kind)) return 18;
    *size = put_frame(buffer, m);
    return 0;
}

static uint32_t document_serves(uint8_t *record, size_t record_len, const uint8_t *input, size_t input_len, uint8_t *buffer,
                                size_t buffer_len, size_t *size, int *outcome) {
    struct reading request = document_reads(input, input_len);
    struct message m = {0, 0, 0};
    uint32_t read_rank, write_rank, value, answer, rank = request.m.first;
    *size = 0;
    *outcome = request.outcome;
    if (request.answer != 0) return request.answer;
    *outcome = NO_REQUEST;
    if (request.m.kind > 2) return 21;
    *outcome = RECORD_LENGTH;
    if (record_len != 12) return 16;
    read_rank = get(record);
    write_rank = get(record + 4);
    value = get(record + 8);
    if (request.m.kind == 1 && (read_rank > rank || write_rank > rank)) {
        m.kind = 4;
    } else if (request.m.kind == 1) {
        m.kind = 3;
        m.first = write_rank;
        m.second = value;
        read_rank = rank;
    } else if (read_rank <= rank && write_rank < rank) {
        m.kind = 5;
        write_rank = rank;
        value = request.m.second;
    } else {
        m.kind = 6;
    }
    answer = document_writes(buffer, buffer_len, m, size);
    *outcome = (answer == 0 ? ANSWERED : SHORT_FOR_3) + (int)m.kind - 3;
    if (answer != 0) return answer;
    put(record, read_rank);
    put(record + 4, write_rank);
    put(record + 8, value);
    return 0;
}

/* ---- What is lent, amid guard bytes, and what is to be there after the call */

#define ROOM 96
#define AT 24 /* where what is lent begins in its room, or up to 7 bytes behind */

struct room {
    uint8_t now[ROOM], wanted[ROOM];
};

static struct room record, input, buffer;
static uint8_t guards[256 + ROOM];

/* Guard bytes differ from place to place, so that a byte moved is seen too; the first of them is given. */
static void lay_out(struct room *room, uint8_t guard, size_t shift, const uint8_t *bytes, size_t len) {
    memcpy(room->now, guards + guard, ROOM);
    memcpy(room->now + AT + shift, bytes, len);
    memcpy(room->wanted, room->now, ROOM);
}

static void lay_input(const uint8_t *bytes, size_t len, size_t shift) { lay_out(&input, 0x90, shift, bytes, len); }
static void lay_record(const uint8_t *bytes, size_t len, size_t shift) { lay_out(&record, 0xC0, shift, bytes, len); }
static void lay_buffer(void) { lay_out(&buffer, 0x40, 0, guards, 0); }

static void compare(const struct room *room, int line, const char *what) { check(memcmp(room->now, room->wanted, ROOM) == 0, line, what); }

/* ---- One call, compared with the documents */

/* Each number that a call stores is this one before it, and other numbers stand around it, which have to stay. */
#define BEFORE 0xE7D6C5B4u

static struct reading read_at(const uint8_t *p, size_t len, int line) {
    uint32_t numbers[7] = {1, BEFORE, 2, BEFORE, 3, BEFORE, 4}, numbers_wanted[7] = {1, 0, 2, 0, 3, 0, 4}, answer;
    size_t sizes[5] = {5, BEFORE, 6, BEFORE, 7}, sizes_wanted[5] = {5, 0, 6, 0, 7};
    struct reading r = document_reads(p, len);
    numbers_wanted[1] = r.m.kind;
    numbers_wanted[3] = r.m.first;
    numbers_wanted[5] = r.m.second;
    sizes_wanted[1] = r.rest;
    sizes_wanted[3] = r.rest_len;
    answer = frame_read(p, len, &numbers[1], &numbers[3], &numbers[5], &sizes[1], &sizes[3]);
    check(answer == r.answer, line, "the reader's answer is the one wanted");
    check(memcmp(numbers, numbers_wanted, sizeof numbers) == 0, line, "kind and fields stored are those wanted");
    check(memcmp(sizes, sizes_wanted, sizeof sizes) == 0, line, "the part behind is the one wanted");
    return r;
}

/* Reads the len bytes that are laid out as input. */
static struct reading read_input(size_t shift, size_t len, int line) {
    struct reading r = read_at(input.now + AT + shift, len, line);
    compare(&input, line, "the reader left the input as it was");
    return r;
}

/* Lays out bytes, of which the first len are the input, and reads. */
static struct reading read_bytes(const uint8_t *bytes, size_t all, size_t len, int line) {
    lay_input(bytes, all, 0);
    return read_input(0, len, line);
}

/* Writes to a buffer of that many bytes; the frame is left in the room. Gives the answer. */
static uint32_t write_message(struct message m, size_t buffer_len, size_t shift, int line) {
    size_t sizes[3] = {5, BEFORE, 6}, sizes_wanted[3] = {5, 0, 6};
    uint32_t answer, wanted;
    lay_buffer();
    wanted = document_writes(buffer.wanted + AT + shift, buffer_len, m, &sizes_wanted[1]);
    answer = frame_write(buffer.now + AT + shift, buffer_len, m.kind, m.first, m.second, &sizes[1]);
    check(answer == wanted, line, "the writer's answer is the one wanted");
    check(memcmp(sizes, sizes_wanted, sizeof sizes) == 0, line, "the size of the frame is the one wanted");
    compare(&buffer, line, "the writer left buffer and guard bytes as wanted");
    return answer;
}

/* The box calls on a copy of the record, and the frame of the answer, which has to agree with them. */
static void same_as_box_calls(uint8_t *copy, const uint8_t *request, const uint8_t *record_after, const uint8_t *frame, int line) {
    uint8_t reply[8];
    if (request[3] == 1) {
        uint32_t answer = box_read(copy, 12, get(request + 4), reply, 8);
        check(answer == 0 || answer == 100, line, "box_read serves it too");
        check(frame[3] == (answer == 0 ? 3 : 4), line, "the frame is that of box_read's answer");
        check(answer == 100 || memcmp(frame + 4, reply, 8) == 0, line, "the frame has the numbers of box_read's reply");
    } else {
        uint32_t answer = box_write(copy, 12, get(request + 4), get(request + 8));
        check(answer == 0 || answer == 100, line, "box_write serves it too");
        check(frame[3] == (answer == 0 ? 5 : 6), line, "the frame is that of box_write's answer");
    }
    check(memcmp(copy, record_after, 12) == 0, line, "the record is that which the box calls leave");
}

/* Serves the input laid out on the record laid out. Gives the answer, and what came of it. */
static uint32_t serve(size_t record_shift, size_t record_len, size_t input_shift, size_t input_len, size_t buffer_len, int *outcome, int line) {
    size_t sizes[3] = {5, BEFORE, 6}, sizes_wanted[3] = {5, 0, 6};
    const uint8_t *request = input.now + AT + input_shift;
    uint8_t copy[12];
    uint32_t answer, wanted;
    memcpy(copy, record.now + AT + record_shift, 12);
    lay_buffer();
    wanted = document_serves(record.wanted + AT + record_shift, record_len, request, input_len, buffer.wanted + AT, buffer_len,
                             &sizes_wanted[1], outcome);
    answer = box_serve(record.now + AT + record_shift, record_len, request, input_len, buffer.now + AT, buffer_len, &sizes[1]);
    check(answer == wanted, line, "the answer of serving is the one wanted");
    check(memcmp(sizes, sizes_wanted, sizeof sizes) == 0, line, "the size of the answer's frame is the one wanted");
    compare(&record, line, "serving left record and guard bytes as wanted");
    compare(&input, line, "serving left the input as it was");
    compare(&buffer, line, "serving left buffer and guard bytes as wanted");
    if (answer == 0) same_as_box_calls(copy, request, record.now + AT + record_shift, buffer.now + AT, line);
    return answer;
}

static void some_bytes(uint8_t *p, size_t words) {
    size_t i;
    for (i = 0; i < words; i++) put(p + 4 * i, number());
}

/* ---- The header's numbers */

static void header(void) {
    CHECK(FRAME_MOST_BYTES == 12);
    CHECK(FRAME_READ_REQUEST == 1);
    CHECK(FRAME_WRITE_REQUEST == 2);
    CHECK(FRAME_READ_ANSWER == 3);
    CHECK(FRAME_OUTRANKED == 4);
    CHECK(FRAME_TAKEN == 5);
    CHECK(FRAME_NOT_TAKEN == 6);
    CHECK(FRAME_DONE == 0);
    CHECK(FRAME_REFUSED_BUFFER == 18);
    CHECK(FRAME_REFUSED_LENGTH == 19);
    CHECK(FRAME_REFUSED_VERSION == 20);
    CHECK(FRAME_REFUSED_MESSAGE == 21);
    CHECK(BOX_DONE == 0);
    CHECK(BOX_REFUSED_LENGTH == 16);
}

/* ---- The layout, byte for byte */

static const struct {
    struct message m;
    size_t size;
    uint8_t frame[12];
} frames[] = {
    {{1, 0xF1E2D3C4u, 0}, 8, {0x00, 0x06, 0x01, 0x01, 0xF1, 0xE2, 0xD3, 0xC4, 0, 0, 0, 0}},
    {{2, 0xF1E2D3C4u, 0xB5A69788u}, 12, {0x00, 0x0A, 0x01, 0x02, 0xF1, 0xE2, 0xD3, 0xC4, 0xB5, 0xA6, 0x97, 0x88}},
    {{2, 0xF1E2D3C4u, 0}, 12, {0x00, 0x0A, 0x01, 0x02, 0xF1, 0xE2, 0xD3, 0xC4, 0, 0, 0, 0}},
    {{3, 0x1A2B3C4Du, 0x5E6F7081u}, 12, {0x00, 0x0A, 0x01, 0x03, 0x1A, 0x2B, 0x3C, 0x4D, 0x5E, 0x6F, 0x70, 0x81}},
    {{3, 0x1A2B3C4Du, 0}, 12, {0x00, 0x0A, 0x01, 0x03, 0x1A, 0x2B, 0x3C, 0x4D, 0, 0, 0, 0}},
    {{4, 0, 0}, 4, {0x00, 0x02, 0x01, 0x04, 0, 0, 0, 0, 0, 0, 0, 0}},
    {{5, 0, 0}, 4, {0x00, 0x02, 0x01, 0x05, 0, 0, 0, 0, 0, 0, 0, 0}},
    {{6, 0, 0}, 4, {0x00, 0x02, 0x01, 0x06, 0, 0, 0, 0, 0, 0, 0, 0}},
};

static void layout(void) {
    size_t i;
    for (i = 0; i < COUNT_OF(frames); i++) {
        struct message m = frames[i].m;
        uint8_t bytes[12];
        uint32_t kind = BEFORE, first = BEFORE, second = BEFORE;
        size_t size = BEFORE, rest = BEFORE, rest_len = BEFORE;
        memset(bytes, 0, sizeof bytes);
        CHECK(frame_write(bytes, frames[i].size, m.kind, m.first, m.second, &size) == 0);
        CHECK(size == frames[i].size);
        CHECK(memcmp(bytes, frames[i].frame, 12) == 0);
        CHECK(frame_read(frames[i].frame, frames[i].size, &kind, &first, &second, &rest, &rest_len) == 0);
        CHECK(kind == m.kind && first == m.first && second == m.second);
        CHECK(rest == frames[i].size && rest_len == 0);
    }
}

/* ---- The reader on small inputs, every one of them */

/* Behind an input stand the bytes of which it was cut, so that a reader that looks past its end is seen. */
static void small_inputs(void) {
    static const uint8_t kinds[] = {0, 1, 2, 3, 4, 5, 6, 7, 255};
    static const size_t behind[] = {0, 1, 3}; /* and one byte short */
    size_t length, k, version, zeros, i;
    for (length = 0; length <= 12; length++)
        for (k = 0; k < COUNT_OF(kinds); k++)
            for (version = 0; version <= 2; version++)
                for (zeros = 0; zeros < 4; zeros++) { /* which of the fields are 0 */
                    uint8_t bytes[20] = {0, 0, 0, 0, 21, 32, 43, 54, 65, 76, 87, 98, 109, 120, 131, 142, 153, 164, 175, 186};
                    bytes[1] = (uint8_t)length;
                    bytes[2] = (uint8_t)version;
                    bytes[3] = kinds[k];
                    if (zeros & 1) put(bytes + 4, 0);
                    if (zeros & 2) put(bytes + 8, 0);
                    CHECK(read_bytes(bytes, sizeof bytes, 2 + length - 1, __LINE__).answer == 19);
                    for (i = 0; i < COUNT_OF(behind); i++) read_bytes(bytes, sizeof bytes, 2 + length + behind[i], __LINE__);
                }
}

/* Each byte of each frame of `frames` set to each of the 256 numbers. */
static void single_bytes(void) {
    size_t i, place;
    unsigned x;
    for (i = 0; i < COUNT_OF(frames); i++)
        for (place = 0; place < frames[i].size; place++)
            for (x = 0; x < 256; x++) {
                uint8_t bytes[16];
                memset(bytes, 0x77, sizeof bytes);
                memcpy(bytes, frames[i].frame, frames[i].size);
                bytes[place] = (uint8_t)x;
                read_bytes(bytes, sizeof bytes, frames[i].size, __LINE__);
            }
}

/* Zero but for one byte, or all zero: which bytes a request's rank is compared with 0 by. Its revision is not looked at, and a read answer
 * may hold zeros. */
static void zeros(void) {
    uint32_t kind;
    size_t i, j;
    for (kind = 1; kind <= 3; kind++)
        for (i = 0; i <= 4; i++)
            for (j = 0; j <= 4; j++) {
                struct message m = {0, 0, 0};
                uint8_t bytes[12];
                uint32_t wanted = kind <= 2 && i == 4 ? 21 : 0;
                m.kind = kind;
                m.first = i == 4 ? 0 : (uint32_t)1 << 8 * i;
                m.second = j == 4 ? 0 : (uint32_t)1 << 8 * j;
                CHECK(read_bytes(bytes, put_frame(bytes, m), size_of(kind), __LINE__).answer == wanted);
                CHECK(write_message(m, 40, 0, __LINE__) == wanted);
            }
}

/* The answer to each of these is written down, and the order with it: 19, then 20, then 21. */
static void refused_inputs(void) {
    static const struct {
        uint32_t answer;
        size_t len;
        uint8_t bytes[16];
    } inputs[] = {
        /* "19 for a length missing" */
        {19, 0, {0, 2, 1, 5}}, {19, 1, {0, 2, 1, 5}}, {19, 1, {255, 255, 2, 7}},
        /* "past the input", also with another version, an unknown kind, rank 0 */
        {19, 2, {0, 2, 1, 5}}, {19, 3, {0, 2, 1, 5}}, {19, 7, {0, 6, 1, 1, 0, 0, 0, 9}}, {19, 7, {0, 6, 2, 1, 0, 0, 0, 9}},
        {19, 7, {0, 6, 1, 7, 0, 0, 0, 9}}, {19, 7, {0, 6, 1, 1, 0, 0, 0, 0}}, {19, 11, {0, 10, 1, 2, 0, 0, 0, 9, 0, 0, 0, 9}},
        {19, 11, {0, 10, 1, 3, 0, 0, 0, 9, 0, 0, 0, 9}}, {19, 12, {255, 255, 1, 2, 0, 0, 0, 9, 0, 0, 0, 9}},
        {19, 12, {255, 255, 2, 7, 0, 0, 0, 9, 0, 0, 0, 9}}, {19, 12, {10, 0, 1, 2, 0, 0, 0, 9, 0, 0, 0, 9}}, {19, 4, {2, 0, 1, 5}},
        {19, 8, {0, 10, 1, 2, 0, 0, 0, 9, 0, 0, 0, 0}}, {19, 11, {0, 10, 1, 2, 0, 0, 0, 9, 0, 0, 0, 0}},
        /* "a frame too short for a kind", what stands behind it being no part of it */
        {19, 2, {0, 0}}, {19, 3, {0, 1, 1, 5}}, {19, 4, {0, 0, 1, 5}}, {19, 4, {0, 1, 1, 5}}, {19, 4, {0, 1, 2, 5}},
        {19, 4, {0, 1, 1, 7}}, {19, 4, {0, 0, 2, 7}}, {19, 8, {0, 1, 1, 1, 0, 0, 0, 0}},
        /* "not the kind's", also with another version, rank 0, revision 0 */
        {19, 4, {0, 2, 1, 1}}, {19, 8, {0, 2, 1, 1, 0, 0, 0, 9}}, {19, 8, {0, 5, 1, 1, 0, 0, 0, 9}},
        {19, 9, {0, 7, 1, 1, 0, 0, 0, 9, 0}}, {19, 10, {0, 8, 1, 1, 0, 0, 0, 9, 0, 0}},
        {19, 12, {0, 10, 1, 1, 0, 0, 0, 9, 0, 0, 0, 9}}, {19, 8, {0, 6, 1, 2, 0, 0, 0, 9}},
        {19, 12, {0, 6, 1, 2, 0, 0, 0, 9, 0, 0, 0, 9}}, {19, 8, {0, 6, 1, 3, 0, 0, 0, 9}},
        {19, 14, {0, 12, 1, 2, 0, 0, 0, 9, 0, 0, 0, 9, 0, 0}}, {19, 14, {0, 12, 1, 3, 0, 0, 0, 9, 0, 0, 0, 9, 0, 0}},
        {19, 8, {0, 6, 1, 4, 0, 0, 0, 9}}, {19, 5, {0, 3, 1, 5, 0}}, {19, 6, {0, 4, 1, 6, 0, 0}}, {19, 8, {0, 2, 2, 1, 0, 0, 0, 9}},
        {19, 5, {0, 3, 2, 5, 0}}, {19, 12, {0, 10, 1, 1, 0, 0, 0, 0, 0, 0, 0, 0}}, {19, 8, {0, 6, 2, 2, 0, 0, 0, 0}},
        {19, 14, {0, 12, 0, 2, 0, 0, 0, 9, 0, 0, 0, 0, 0, 0}}, {19, 13, {0, 11, 1, 2, 0, 0, 0, 9, 0, 0, 0, 0, 0}},
        {19, 12, {0, 6, 1, 2, 0, 0, 0, 9, 0, 0, 0, 0}},
        /* "then 20 for another version", also with an unknown kind of any length, rank 0, revision 0 */
        {20, 4, {0, 2, 0, 5}}, {20, 4, {0, 2, 2, 5}}, {20, 4, {0, 2, 255, 5}}, {20, 6, {0, 2, 2, 6, 1, 1}},
        {20, 8, {0, 6, 2, 1, 0, 0, 0, 9}}, {20, 8, {0, 6, 2, 1, 0, 0, 0, 0}}, {20, 12, {0, 10, 2, 2, 0, 0, 0, 9, 0, 0, 0, 9}},
        {20, 12, {0, 10, 2, 2, 0, 0, 0, 0, 0, 0, 0, 9}}, {20, 12, {0, 10, 0, 2, 0, 0, 0, 9, 0, 0, 0, 0}},
        {20, 12, {0, 10, 0, 3, 0, 0, 0, 9, 0, 0, 0, 9}}, {20, 4, {0, 2, 2, 7}}, {20, 4, {0, 2, 0, 0}}, {20, 5, {0, 3, 2, 7, 0}},
        {20, 13, {0, 11, 129, 255, 0, 0, 0, 0, 0, 0, 0, 0, 0}},
        /* "then 21 for an unknown kind, where any length of 2 or more within the input is right" */
        {21, 4, {0, 2, 1, 0}}, {21, 4, {0, 2, 1, 7}}, {21, 4, {0, 2, 1, 255}}, {21, 8, {0, 2, 1, 7, 0, 0, 0, 9}},
        {21, 5, {0, 3, 1, 0, 9}}, {21, 5, {0, 3, 1, 7, 9}}, {21, 6, {0, 3, 1, 7, 9, 9}}, {21, 5, {0, 3, 1, 129, 9}},
        {21, 8, {0, 6, 1, 7, 0, 0, 0, 9}}, {21, 12, {0, 10, 1, 0, 0, 0, 0, 9, 0, 0, 0, 9}},
        {21, 13, {0, 11, 1, 8, 0, 0, 0, 9, 0, 0, 0, 9, 9}}, {21, 16, {0, 14, 1, 9, 0, 0, 0, 9, 0, 0, 0, 9, 0, 0, 0, 9}},
        /* a rank of 0 in a request, with any revision */
        {21, 8, {0, 6, 1, 1, 0, 0, 0, 0}}, {21, 9, {0, 6, 1, 1, 0, 0, 0, 0, 9}}, {21, 12, {0, 10, 1, 2, 0, 0, 0, 0, 0, 0, 0, 9}},
        {21, 12, {0, 10, 1, 2, 0, 0, 0, 0, 255, 255, 255, 255}}, {21, 12, {0, 10, 1, 2, 0, 0, 0, 0, 0, 0, 0, 0}},
        {21, 14, {0, 10, 1, 2, 0, 0, 0, 0, 0, 0, 0, 0, 9, 9}},
        /* not refused: revision 0 */
        {0, 12, {0, 10, 1, 2, 0, 0, 0, 9, 0, 0, 0, 0}}, {0, 14, {0, 10, 1, 2, 0, 0, 0, 9, 0, 0, 0, 0, 9, 9}},
        {0, 12, {0, 10, 1, 2, 0, 0, 0, 1, 0, 0, 0, 0}}, {0, 16, {0, 10, 1, 2, 255, 255, 255, 255, 0, 0, 0, 0, 0, 0, 0, 0}},
        /* nor zeros in a read answer, or behind a frame */
        {0, 12, {0, 10, 1, 3, 0, 0, 0, 0, 0, 0, 0, 0}}, {0, 12, {0, 10, 1, 3, 0, 0, 0, 9, 0, 0, 0, 0}},
        {0, 12, {0, 10, 1, 3, 0, 0, 0, 0, 0, 0, 0, 9}}, {0, 12, {0, 6, 1, 1, 0, 0, 0, 9, 0, 0, 0, 0}},
        {0, 8, {0, 2, 1, 4, 0, 0, 0, 0}}, {0, 4, {0, 2, 1, 5}}, {0, 5, {0, 2, 1, 6, 2}},
    };
    size_t i;
    for (i = 0; i < COUNT_OF(inputs); i++) CHECK(read_bytes(inputs[i].bytes, 16, inputs[i].len, __LINE__).answer == inputs[i].answer);
}

/* ---- The writer */

static const uint32_t unknown_kinds[] = {0, 7, 8, 255, 256, 257, 258, 261, 65537, 65538, 0x01000001u, 0x80000002u, 0xFFFFFFFFu};

static void writer(void) {
    static const uint32_t other[] = {0, 1, 0x01020304u, 0xFFFFFFFFu};
    static const size_t lengths[] = {0, 1, 3, 4, 5, 7, 8, 9, 11, 12, 13, 40};
    size_t i, j, k;
    for (i = 0; i < COUNT_OF(frames); i++) {
        struct message m = frames[i].m;
        size_t size = frames[i].size;
        for (j = 0; j <= 40; j++) {
            CHECK(write_message(m, j, 0, __LINE__) == (j < size ? 18u : 0u));
            CHECK(j < size || memcmp(buffer.now + AT, frames[i].frame, size) == 0);
        }
        /* fields that the kind does not have are not looked at */
        for (j = 0; j < COUNT_OF(other); j++)
            for (k = 0; k < COUNT_OF(other); k++) {
                if (fields(m.kind) == 0) m.first = other[j];
                if (fields(m.kind) <= 1) m.second = other[k];
                CHECK(write_message(m, size - 1, 0, __LINE__) == 18);
                CHECK(write_message(m, size, 0, __LINE__) == 0);
                CHECK(memcmp(buffer.now + AT, frames[i].frame, size) == 0);
            }
    }
    /* 21 stands before 18; revision 0 is not 21 */
    for (i = 0; i < COUNT_OF(lengths); i++) {
        static const struct message rank_0[] = {{1, 0, 0}, {1, 0, 9}, {2, 0, 9}, {2, 0, 0xFFFFFFFFu}, {2, 0, 0}};
        static const struct message revision_0[] = {{2, 1, 0}, {2, 9, 0}, {2, 0xFFFFFFFFu, 0}};
        for (j = 0; j < COUNT_OF(unknown_kinds); j++)
            for (k = 0; k < COUNT_OF(other); k++) {
                struct message m = {0, 0, 0};
                m.kind = unknown_kinds[j];
                m.first = other[k];
                m.second = other[3 - k];
                CHECK(write_message(m, lengths[i], 0, __LINE__) == 21);
            }
        for (j = 0; j < COUNT_OF(rank_0); j++) CHECK(write_message(rank_0[j], lengths[i], 0, __LINE__) == 21);
        for (j = 0; j < COUNT_OF(revision_0); j++)
            CHECK(write_message(revision_0[j], lengths[i], 0, __LINE__) == (lengths[i] < 12 ? 18u : 0u));
    }
}

/* ---- "two messages never share a frame" */

static void pairs(void) {
    static const uint32_t values[] = {1, 2, 16, 17, 255, 256, 0x01020304u, 0x04030201u, 0x00060101u, 0x00020105u, 0x80000000u, 0xFFFFFFFFu, 0};
    static struct { uint8_t frame[12]; size_t size; } all[400];
    uint32_t kind;
    size_t n = 0, i, j;
    for (kind = 1; kind <= 6; kind++)
        for (i = 0; i < (fields(kind) >= 1 ? COUNT_OF(values) : 1); i++)
            for (j = 0; j < (fields(kind) >= 2 ? COUNT_OF(values) : 1); j++) {
                if (kind <= 2 && values[i] == 0) continue;
                CHECK(n < COUNT_OF(all));
                CHECK(frame_write(all[n].frame, 12, kind, values[i], values[j], &all[n].size) == 0);
                CHECK(4 <= all[n].size && all[n].size <= FRAME_MOST_BYTES);
                n++;
            }
    CHECK(n == 12 + 12 * 13 + 13 * 13 + 3);
    for (i = 0; i < n; i++)
        for (j = 0; j < i; j++) /* neither begins the other, nor are they the same */
            CHECK(memcmp(all[i].frame, all[j].frame, all[i].size < all[j].size ? all[i].size : all[j].size) != 0);
}

/* ---- Written and read back */

static uint32_t some_value(void) {
    switch (number() % 8) {
    case 0: return 0;
    case 1: case 2: return number() % 64;
    case 3: return 0xFFFFFFFFu - number() % 4;
    case 4: return (uint32_t)1 << number() % 32;
    default: return number();
    }
}

/* A message that has a frame. */
static struct message some_message(void) {
    struct message m = {0, 0, 0};
    m.kind = 1 + number() % 6;
    if (fields(m.kind) >= 1) do m.first = some_value(); while (m.kind <= 2 && m.first == 0);
    if (fields(m.kind) >= 2) m.second = some_value();
    return m;
}

static int same(struct message a, struct message b) { return a.kind == b.kind && a.first == b.first && a.second == b.second; }

static void read_back(void) {
    int i;
    for (i = 0; i < 20000; i++) {
        struct message m = some_message(), lent = m;
        struct reading r;
        uint8_t bytes[40], again[12];
        size_t size = size_of(m.kind), behind = number() % 21, shift = number() % 8, written = 0;
        /* any numbers in the fields that the kind does not have */
        if (fields(m.kind) == 0) lent.first = number();
        if (fields(m.kind) <= 1) lent.second = number();
        CHECK(write_message(lent, number() % 21, shift, __LINE__) != 21);
        CHECK(write_message(lent, size + behind, shift, __LINE__) == 0);
        some_bytes(bytes, 10);
        memcpy(bytes, buffer.now + AT + shift, size);
        lay_input(bytes, sizeof bytes, shift);
        r = read_input(shift, size + behind, __LINE__);
        CHECK(r.answer == 0 && same(r.m, m));
        CHECK(r.rest == size && r.rest_len == behind);
        CHECK(frame_write(again, 12, r.m.kind, r.m.first, r.m.second, &written) == 0);
        CHECK(written == size && memcmp(again, bytes, size) == 0);
    }
}

/* ---- A stream: frames end to end, each read from the part behind the one before */

#define LONG_STREAM 12000 /* more than 65,535 bytes */

static void stream(size_t messages) {
    static struct message sent[LONG_STREAM];
    static uint8_t bytes[12 * LONG_STREAM], copy[12 * LONG_STREAM];
    const uint8_t *p = bytes;
    size_t len = 0, i;
    for (i = 0; i < messages; i++) {
        size_t size = 0;
        sent[i] = some_message();
        CHECK(frame_write(bytes + len, sizeof bytes - len, sent[i].kind, sent[i].first, sent[i].second, &size) == 0);
        len += size;
    }
    memcpy(copy, bytes, len);
    CHECK(messages < LONG_STREAM || len > 65535);
    for (i = 0; i < messages; i++) {
        struct message m;
        size_t rest, rest_len;
        CHECK(len > 0);
        CHECK(frame_read(p, len, &m.kind, &m.first, &m.second, &rest, &rest_len) == 0);
        CHECK(same(m, sent[i]));
        CHECK(rest <= len && rest_len == len - rest);
        p += rest;
        len = rest_len;
    }
    CHECK(len == 0);
    CHECK(read_at(p, len, __LINE__).answer == 19); /* a length missing */
    CHECK(memcmp(bytes, copy, (size_t)(p - bytes)) == 0);
}

static void streams(void) {
    size_t i;
    for (i = 0; i <= 100; i++) stream(i);
    stream(LONG_STREAM);
}

/* ---- Lengths of more than a byte, and of more than two */

#define LONG_ROOM 140000

static uint8_t long_bytes[LONG_ROOM], long_copy[LONG_ROOM];

static void long_inputs(void) {
    static const size_t lengths[] = {255, 256, 258, 262, 266, 512, 0x0600, 0x0A00, 32767, 32768, 65534, 65535};
    static const uint8_t kinds[] = {0, 1, 2, 3, 4, 5, 6, 7, 255};
    static const size_t behind[] = {0, 1, 65536, 65540};
    size_t i, j, k, version;
    memset(long_bytes, 0x77, LONG_ROOM);
    for (i = 0; i < COUNT_OF(lengths); i++)
        for (j = 0; j < COUNT_OF(kinds); j++)
            for (version = 1; version <= 2; version++) {
                size_t size = 2 + lengths[i];
                uint32_t wanted = known(kinds[j]) ? 19 : version == 2 ? 20 : 21;
                long_bytes[0] = (uint8_t)(lengths[i] / 256);
                long_bytes[1] = (uint8_t)(lengths[i] % 256);
                long_bytes[2] = (uint8_t)version;
                long_bytes[3] = kinds[j];
                CHECK(read_at(long_bytes, 4, __LINE__).answer == 19);
                CHECK(read_at(long_bytes, 12, __LINE__).answer == 19);
                CHECK(read_at(long_bytes, size - 1, __LINE__).answer == 19);
                for (k = 0; k < COUNT_OF(behind); k++) CHECK(read_at(long_bytes, size + behind[k], __LINE__).answer == wanted);
            }
    for (i = 0; i < COUNT_OF(frames); i++) {
        memcpy(long_bytes, frames[i].frame, frames[i].size);
        memcpy(long_copy, long_bytes, LONG_ROOM);
        for (k = 0; k < COUNT_OF(behind); k++) {
            struct reading r = read_at(long_bytes, frames[i].size + behind[k], __LINE__);
            CHECK(r.answer == 0 && same(r.m, frames[i].m) && r.rest_len == behind[k]);
        }
        CHECK(memcmp(long_bytes, long_copy, LONG_ROOM) == 0);
    }
}

static const size_t long_lengths[] = {255, 256, 256 + 4, 256 + 12, 65535, 65536, 65536 + 4, 65536 + 12, 131072, 131072 + 12};

/* A long room of equal bytes, and its copy, which a call is to leave or to change in the same way. */
static void lay_long(void) {
    memset(long_bytes, 0x55, LONG_ROOM);
    memset(long_copy, 0x55, LONG_ROOM);
}

static void long_buffers(void) {
    size_t i, j, size;
    for (i = 0; i < COUNT_OF(long_lengths); i++)
        for (j = 0; j < COUNT_OF(frames); j++) {
            lay_long();
            memcpy(long_copy, frames[j].frame, frames[j].size);
            CHECK(frame_write(long_bytes, long_lengths[i], frames[j].m.kind, frames[j].m.first, frames[j].m.second, &size) == 0);
            CHECK(size == frames[j].size);
            CHECK(memcmp(long_bytes, long_copy, LONG_ROOM) == 0);
        }
}

/* The read of a new box with rank 16, where the buffer, the input or the record is long. */
static void long_services(void) {
    static const uint8_t new_box[12] = {0, 0, 0, 0, 0, 0, 0, 0, 0, 0, 0, 0}, read_box[12] = {0, 0, 0, 16, 0, 0, 0, 0, 0, 0, 0, 0};
    static const uint8_t request[8] = {0, 6, 1, 1, 0, 0, 0, 16}, answer[12] = {0, 10, 1, 3, 0, 0, 0, 0, 0, 0, 0, 0};
    uint8_t box[12], frame[12];
    size_t i, size;
    for (i = 0; i < COUNT_OF(long_lengths); i++) {
        memcpy(box, new_box, 12);
        lay_long();
        memcpy(long_copy, answer, 12);
        CHECK(box_serve(box, 12, request, 8, long_bytes, long_lengths[i], &size) == 0);
        CHECK(size == 12 && memcmp(box, read_box, 12) == 0 && memcmp(long_bytes, long_copy, LONG_ROOM) == 0);

        memcpy(box, new_box, 12);
        lay_long();
        memcpy(long_bytes, request, 8);
        memcpy(long_copy, request, 8);
        CHECK(box_serve(box, 12, long_bytes, long_lengths[i], frame, 12, &size) == 0);
        CHECK(size == 12 && memcmp(box, read_box, 12) == 0 && memcmp(frame, answer, 12) == 0 && memcmp(long_bytes, long_copy, LONG_ROOM) == 0);

        lay_long();
        memcpy(long_bytes, new_box, 12);
        memcpy(long_copy, new_box, 12);
        CHECK(box_serve(long_bytes, long_lengths[i], request, 8, frame, 12, &size) == 16);
        CHECK(size == 0 && memcmp(frame, answer, 12) == 0 && memcmp(long_bytes, long_copy, LONG_ROOM) == 0);
    }
}

/* ---- Serving: examples C to F of document 01 as frames, and what follows on each */

static void examples(void) {
    static const struct {
        uint8_t before[12];
        size_t request_size;
        uint8_t request[12];
        uint8_t after[12];
        size_t answer_size;
        uint8_t answer[12];
    } served[] = {
        /* C: box (read 16, write 0, value 0), write 16 of 7: taken, (16, 16, 7) */
        {{0, 0, 0, 16, 0, 0, 0, 0, 0, 0, 0, 0}, 12, {0, 10, 1, 2, 0, 0, 0, 16, 0, 0, 0, 7},
         {0, 0, 0, 16, 0, 0, 0, 16, 0, 0, 0, 7}, 4, {0, 2, 1, 5}},
        /* D: box (17, 0, 0), write 16: not taken, unchanged; with the rank of its own read it is taken */
        {{0, 0, 0, 17, 0, 0, 0, 0, 0, 0, 0, 0}, 12, {0, 10, 1, 2, 0, 0, 0, 16, 0, 0, 0, 7},
         {0, 0, 0, 17, 0, 0, 0, 0, 0, 0, 0, 0}, 4, {0, 2, 1, 6}},
        {{0, 0, 0, 17, 0, 0, 0, 0, 0, 0, 0, 0}, 12, {0, 10, 1, 2, 0, 0, 0, 17, 0, 0, 0, 7},
         {0, 0, 0, 17, 0, 0, 0, 17, 0, 0, 0, 7}, 4, {0, 2, 1, 5}},
        /* E: box (16, 16, 7), write 16 of 9: not taken; with the next rank it is taken, and the read rank stays */
        {{0, 0, 0, 16, 0, 0, 0, 16, 0, 0, 0, 7}, 12, {0, 10, 1, 2, 0, 0, 0, 16, 0, 0, 0, 9},
         {0, 0, 0, 16, 0, 0, 0, 16, 0, 0, 0, 7}, 4, {0, 2, 1, 6}},
        {{0, 0, 0, 16, 0, 0, 0, 16, 0, 0, 0, 7}, 12, {0, 10, 1, 2, 0, 0, 0, 17, 0, 0, 0, 9},
         {0, 0, 0, 16, 0, 0, 0, 17, 0, 0, 0, 9}, 4, {0, 2, 1, 5}},
        /* F: box (33, 16, 7), read 18: outranked, unchanged (wish 2); so is 32; 33 and 34 are answered (16, 7) */
        {{0, 0, 0, 33, 0, 0, 0, 16, 0, 0, 0, 7}, 8, {0, 6, 1, 1, 0, 0, 0, 18},
         {0, 0, 0, 33, 0, 0, 0, 16, 0, 0, 0, 7}, 4, {0, 2, 1, 4}},
        {{0, 0, 0, 33, 0, 0, 0, 16, 0, 0, 0, 7}, 8, {0, 6, 1, 1, 0, 0, 0, 32},
         {0, 0, 0, 33, 0, 0, 0, 16, 0, 0, 0, 7}, 4, {0, 2, 1, 4}},
        {{0, 0, 0, 33, 0, 0, 0, 16, 0, 0, 0, 7}, 8, {0, 6, 1, 1, 0, 0, 0, 33},
         {0, 0, 0, 33, 0, 0, 0, 16, 0, 0, 0, 7}, 12, {0, 10, 1, 3, 0, 0, 0, 16, 0, 0, 0, 7}},
        {{0, 0, 0, 33, 0, 0, 0, 16, 0, 0, 0, 7}, 8, {0, 6, 1, 1, 0, 0, 0, 34},
         {0, 0, 0, 34, 0, 0, 0, 16, 0, 0, 0, 7}, 12, {0, 10, 1, 3, 0, 0, 0, 16, 0, 0, 0, 7}},
        /* outranked by the write rank alone, as no run of calls leaves it */
        {{0, 0, 0, 16, 0, 0, 0, 33, 0, 0, 0, 7}, 8, {0, 6, 1, 1, 0, 0, 0, 18},
         {0, 0, 0, 16, 0, 0, 0, 33, 0, 0, 0, 7}, 4, {0, 2, 1, 4}},
        /* a new box's answer holds zeros */
        {{0, 0, 0, 0, 0, 0, 0, 0, 0, 0, 0, 0}, 8, {0, 6, 1, 1, 0, 0, 0, 16},
         {0, 0, 0, 16, 0, 0, 0, 0, 0, 0, 0, 0}, 12, {0, 10, 1, 3, 0, 0, 0, 0, 0, 0, 0, 0}},
        /* wish 7, revision 0: taken by a box that holds nothing, by one that holds 7, and by one that holds revision 0 */
        {{0, 0, 0, 0, 0, 0, 0, 0, 0, 0, 0, 0}, 12, {0, 10, 1, 2, 0, 0, 0, 16, 0, 0, 0, 0},
         {0, 0, 0, 0, 0, 0, 0, 16, 0, 0, 0, 0}, 4, {0, 2, 1, 5}},
        {{0, 0, 0, 16, 0, 0, 0, 0, 0, 0, 0, 0}, 12, {0, 10, 1, 2, 0, 0, 0, 16, 0, 0, 0, 0},
         {0, 0, 0, 16, 0, 0, 0, 16, 0, 0, 0, 0}, 4, {0, 2, 1, 5}},
        {{0, 0, 0, 16, 0, 0, 0, 16, 0, 0, 0, 7}, 12, {0, 10, 1, 2, 0, 0, 0, 17, 0, 0, 0, 0},
         {0, 0, 0, 16, 0, 0, 0, 17, 0, 0, 0, 0}, 4, {0, 2, 1, 5}},
        {{0, 0, 0, 16, 0, 0, 0, 16, 0, 0, 0, 0}, 12, {0, 10, 1, 2, 0, 0, 0, 17, 0, 0, 0, 0},
         {0, 0, 0, 16, 0, 0, 0, 17, 0, 0, 0, 0}, 4, {0, 2, 1, 5}},
        /* not taken, by the read rank, by the write rank, by a write rank equal to the rank */
        {{0, 0, 0, 17, 0, 0, 0, 0, 0, 0, 0, 0}, 12, {0, 10, 1, 2, 0, 0, 0, 16, 0, 0, 0, 0},
         {0, 0, 0, 17, 0, 0, 0, 0, 0, 0, 0, 0}, 4, {0, 2, 1, 6}},
        {{0, 0, 0, 15, 0, 0, 0, 33, 0, 0, 0, 7}, 12, {0, 10, 1, 2, 0, 0, 0, 16, 0, 0, 0, 0},
         {0, 0, 0, 15, 0, 0, 0, 33, 0, 0, 0, 7}, 4, {0, 2, 1, 6}},
        {{0, 0, 0, 16, 0, 0, 0, 16, 0, 0, 0, 7}, 12, {0, 10, 1, 2, 0, 0, 0, 16, 0, 0, 0, 0},
         {0, 0, 0, 16, 0, 0, 0, 16, 0, 0, 0, 7}, 4, {0, 2, 1, 6}},
        /* over revision 0 a write of the same rank is not taken, and one of a higher rank is */
        {{0, 0, 0, 16, 0, 0, 0, 16, 0, 0, 0, 0}, 12, {0, 10, 1, 2, 0, 0, 0, 16, 0, 0, 0, 9},
         {0, 0, 0, 16, 0, 0, 0, 16, 0, 0, 0, 0}, 4, {0, 2, 1, 6}},
        {{0, 0, 0, 16, 0, 0, 0, 16, 0, 0, 0, 0}, 12, {0, 10, 1, 2, 0, 0, 0, 17, 0, 0, 0, 9},
         {0, 0, 0, 16, 0, 0, 0, 17, 0, 0, 0, 9}, 4, {0, 2, 1, 5}},
        /* a box that holds revision 0 answers its write rank; one with write rank 0 holds nothing, and its value is answered as it stands */
        {{0, 0, 0, 16, 0, 0, 0, 16, 0, 0, 0, 0}, 8, {0, 6, 1, 1, 0, 0, 0, 17},
         {0, 0, 0, 17, 0, 0, 0, 16, 0, 0, 0, 0}, 12, {0, 10, 1, 3, 0, 0, 0, 16, 0, 0, 0, 0}},
        {{0, 0, 0, 16, 0, 0, 0, 16, 0, 0, 0, 0}, 8, {0, 6, 1, 1, 0, 0, 0, 15},
         {0, 0, 0, 16, 0, 0, 0, 16, 0, 0, 0, 0}, 4, {0, 2, 1, 4}},
        {{0, 0, 0, 0, 0, 0, 0, 0, 9, 10, 11, 12}, 8, {0, 6, 1, 1, 0, 0, 0, 16},
         {0, 0, 0, 16, 0, 0, 0, 0, 9, 10, 11, 12}, 12, {0, 10, 1, 3, 0, 0, 0, 0, 9, 10, 11, 12}},
        {{0, 0, 0, 16, 0, 0, 0, 0, 9, 10, 11, 12}, 12, {0, 10, 1, 2, 0, 0, 0, 16, 0, 0, 0, 0},
         {0, 0, 0, 16, 0, 0, 0, 16, 0, 0, 0, 0}, 4, {0, 2, 1, 5}},
        /* numbers whose bytes all differ */
        {{1, 2, 3, 4, 5, 6, 7, 8, 9, 10, 11, 12}, 12, {0, 10, 1, 2, 21, 22, 23, 24, 0, 0, 0, 0},
         {1, 2, 3, 4, 21, 22, 23, 24, 0, 0, 0, 0}, 4, {0, 2, 1, 5}},
        {{1, 2, 3, 4, 5, 6, 7, 8, 9, 10, 11, 12}, 8, {0, 6, 1, 1, 21, 22, 23, 24},
         {21, 22, 23, 24, 5, 6, 7, 8, 9, 10, 11, 12}, 12, {0, 10, 1, 3, 5, 6, 7, 8, 9, 10, 11, 12}},
        {{1, 2, 3, 4, 5, 6, 7, 8, 9, 10, 11, 12}, 12, {0, 10, 1, 2, 21, 22, 23, 24, 31, 32, 33, 34},
         {1, 2, 3, 4, 21, 22, 23, 24, 31, 32, 33, 34}, 4, {0, 2, 1, 5}},
    };
    static const size_t behind[] = {0, 1, 3, 12, 20};
    size_t i, j;
    int outcome;
    for (i = 0; i < COUNT_OF(served); i++)
        for (j = 0; j < COUNT_OF(behind); j++) {
            uint8_t bytes[32];
            some_bytes(bytes, 8); /* what stands behind the request is not looked at */
            memcpy(bytes, served[i].request, served[i].request_size);
            lay_input(bytes, sizeof bytes, 0);
            lay_record(served[i].before, 12, 0);
            CHECK(serve(0, 12, 0, served[i].request_size + behind[j], served[i].answer_size, &outcome, __LINE__) == 0);
            CHECK(memcmp(record.now + AT, served[i].after, 12) == 0);
            CHECK(memcmp(buffer.now + AT, served[i].answer, served[i].answer_size) == 0);
        }
}

/* Every refusal leaves record and buffer as they were; 19, 20, 21 stand before 16, and 16 before 18. */
static void refused_services(void) {
    static const struct {
        uint32_t answer;    /* of the frame, whatever record and buffer are */
        size_t answer_size; /* where that is 0 */
        size_t len;
        uint8_t bytes[14];
    } requests[] = {
        {19, 0, 0, {0, 6, 1, 1, 0, 0, 0, 40}}, {19, 0, 1, {0, 6, 1, 1, 0, 0, 0, 40}}, {19, 0, 7, {0, 6, 1, 1, 0, 0, 0, 40}},
        {19, 0, 8, {0, 10, 1, 2, 0, 0, 0, 40, 0, 0, 0, 9}}, {19, 0, 11, {0, 10, 1, 2, 0, 0, 0, 40, 0, 0, 0, 9}},
        {19, 0, 4, {0, 0, 1, 1}}, {19, 0, 8, {0, 1, 1, 1, 0, 0, 0, 40}}, {19, 0, 8, {0, 2, 1, 1, 0, 0, 0, 40}},
        {19, 0, 12, {0, 10, 1, 1, 0, 0, 0, 40, 0, 0, 0, 9}}, {19, 0, 12, {0, 6, 1, 2, 0, 0, 0, 40, 0, 0, 0, 9}},
        {19, 0, 9, {0, 7, 2, 1, 0, 0, 0, 40, 9}}, {19, 0, 9, {0, 7, 1, 1, 0, 0, 0, 0, 9}}, {19, 0, 8, {0, 6, 1, 3, 0, 0, 0, 40}},
        {19, 0, 8, {0, 6, 1, 5, 0, 0, 0, 40}}, {19, 0, 3, {0, 2, 1, 5}}, {19, 0, 8, {0, 8, 2, 7, 0, 0, 0, 40}},
        {20, 0, 8, {0, 6, 0, 1, 0, 0, 0, 40}}, {20, 0, 8, {0, 6, 2, 1, 0, 0, 0, 40}},
        {20, 0, 12, {0, 10, 2, 2, 0, 0, 0, 40, 0, 0, 0, 9}}, {20, 0, 8, {0, 6, 2, 1, 0, 0, 0, 0}},
        {20, 0, 12, {0, 10, 2, 2, 0, 0, 0, 40, 0, 0, 0, 0}}, {20, 0, 4, {0, 2, 2, 7}}, {20, 0, 4, {0, 2, 2, 4}},
        {20, 0, 12, {0, 10, 2, 2, 0, 0, 0, 0, 0, 0, 0, 0}}, {19, 0, 11, {0, 10, 1, 2, 0, 0, 0, 40, 0, 0, 0, 0}},
        {20, 0, 12, {0, 10, 2, 3, 0, 0, 0, 40, 0, 0, 0, 9}}, {21, 0, 4, {0, 2, 1, 0}}, {21, 0, 4, {0, 2, 1, 7}},
        {21, 0, 5, {0, 3, 1, 7, 9}}, {21, 0, 8, {0, 6, 1, 255, 0, 0, 0, 40}}, {21, 0, 8, {0, 6, 1, 1, 0, 0, 0, 0}},
        {21, 0, 12, {0, 10, 1, 2, 0, 0, 0, 0, 0, 0, 0, 9}}, {21, 0, 12, {0, 10, 1, 2, 0, 0, 0, 0, 0, 0, 0, 0}},
        {21, 0, 13, {0, 10, 1, 2, 0, 0, 0, 0, 0, 0, 0, 0, 9}},
        /* a whole frame, but no request */
        {21, 0, 12, {0, 10, 1, 3, 0, 0, 0, 40, 0, 0, 0, 9}}, {21, 0, 12, {0, 10, 1, 3, 0, 0, 0, 0, 0, 0, 0, 0}},
        {21, 0, 4, {0, 2, 1, 4}}, {21, 0, 4, {0, 2, 1, 5}}, {21, 0, 4, {0, 2, 1, 6}},
        {21, 0, 12, {0, 2, 1, 4, 0, 6, 1, 1, 0, 0, 0, 40}},
        /* requests, served on the record (33, 16, 7): answered, outranked, taken, not taken, and each with a byte behind */
        {0, 12, 8, {0, 6, 1, 1, 0, 0, 0, 40}}, {0, 12, 9, {0, 6, 1, 1, 0, 0, 0, 40, 9}}, {0, 12, 8, {0, 6, 1, 1, 0, 0, 0, 33}},
        {0, 4, 8, {0, 6, 1, 1, 0, 0, 0, 18}}, {0, 4, 9, {0, 6, 1, 1, 0, 0, 0, 18, 9}},
        {0, 4, 12, {0, 10, 1, 2, 0, 0, 0, 40, 0, 0, 0, 9}}, {0, 4, 13, {0, 10, 1, 2, 0, 0, 0, 40, 0, 0, 0, 9, 9}},
        {0, 4, 12, {0, 10, 1, 2, 0, 0, 0, 18, 0, 0, 0, 9}}, {0, 4, 13, {0, 10, 1, 2, 0, 0, 0, 18, 0, 0, 0, 9, 9}},
        /* revision 0: taken, not taken */
        {0, 4, 12, {0, 10, 1, 2, 0, 0, 0, 40, 0, 0, 0, 0}}, {0, 4, 13, {0, 10, 1, 2, 0, 0, 0, 40, 0, 0, 0, 0, 9}},
        {0, 4, 12, {0, 10, 1, 2, 0, 0, 0, 18, 0, 0, 0, 0}}, {0, 4, 13, {0, 10, 1, 2, 0, 0, 0, 18, 0, 0, 0, 0, 9}},
    };
    static const uint8_t box[24] = {0, 0, 0, 33, 0, 0, 0, 16, 0, 0, 0, 7, 61, 62, 63, 64, 65, 66, 67, 68, 69, 70, 71, 72};
    static const size_t record_lengths[] = {0, 8, 11, 12, 13, 24};
    static const size_t buffer_lengths[] = {0, 1, 3, 4, 5, 8, 11, 12, 13, 40};
    size_t i, j, k;
    int outcome;
    for (i = 0; i < COUNT_OF(requests); i++)
        for (j = 0; j < COUNT_OF(record_lengths); j++)
            for (k = 0; k < COUNT_OF(buffer_lengths); k++) {
                uint32_t wanted = requests[i].answer;
                if (wanted == 0 && record_lengths[j] != 12) wanted = 16;
                else if (wanted == 0 && buffer_lengths[k] < requests[i].answer_size) wanted = 18;
                lay_input(requests[i].bytes, sizeof requests[i].bytes, 0);
                lay_record(box, sizeof box, 0);
                CHECK(serve(0, record_lengths[j], 0, requests[i].len, buffer_lengths[k], &outcome, __LINE__) == wanted);
                CHECK(wanted == 0 || memcmp(record.now + AT, box, sizeof box) == 0);
                CHECK(wanted == 0 || memcmp(buffer.now, guards + 0x40, ROOM) == 0);
            }
}

/* Every record of ranks up to 3 and value 0 or 7, with every rank up to 4: read, and written with revision 0 and with 9. The buffer has no
 * room, room for an answer without fields, and for every answer. */
static void small_services(void) {
    static const struct message asked[] = {{1, 0, 0}, {2, 0, 0}, {2, 0, 9}};
    static const size_t buffer_lengths[] = {3, 4, 12};
    uint32_t read, write, value, rank;
    size_t i, j;
    int outcome;
    for (read = 0; read <= 3; read++)
        for (write = 0; write <= 3; write++)
            for (value = 0; value <= 7; value += 7)
                for (rank = 0; rank <= 4; rank++)
                    for (i = 0; i < COUNT_OF(asked); i++)
                        for (j = 0; j < COUNT_OF(buffer_lengths); j++) {
                            struct message m = asked[i];
                            uint8_t box[12], bytes[12];
                            m.first = rank;
                            put(box, read);
                            put(box + 4, write);
                            put(box + 8, value);
                            lay_record(box, 12, 0);
                            lay_input(bytes, put_frame(bytes, m), 0);
                            serve(0, 12, 0, size_of(m.kind), buffer_lengths[j], &outcome, __LINE__);
                        }
}

/* ---- Pseudo-random inputs, read, written again, and served */

#define INPUTS 1000000

/* A rank: small, of any size, next to one of the record's own, or 0. */
static uint32_t some_rank(const uint8_t *box) {
    switch (number() % 16) {
    case 0: return 0;
    case 1: case 2: case 3: return number();
    case 4: case 5: case 6: return get(box) - 1 + number() % 3;
    case 7: case 8: case 9: return get(box + 4) - 1 + number() % 3;
    default: return number() % 64;
    }
}

/* A frame of a message, more often of a request, rank 0 and revision 0 in it too. Gives its size. */
static size_t some_frame(uint8_t *p, const uint8_t *box) {
    static const uint8_t kinds[16] = {1, 1, 1, 1, 1, 2, 2, 2, 2, 2, 2, 3, 3, 4, 5, 6};
    struct message m;
    m.kind = kinds[number() % 16];
    m.first = some_rank(box);
    m.second = number() % 4 ? number() : 0;
    return put_frame(p, m);
}

#define MOST_INPUT 40

/* An input is the first bytes of these; those behind it are what a cut took, or any. */
static uint8_t bytes_made[MOST_INPUT + 8];

/* A frame of that size is changed, and its input's length is given. */
static size_t change(size_t size, size_t len, const uint8_t *box) {
    size_t within = number() % 2 ? size : 4, place = number() % within, some = 1 + number() % 4;
    uint8_t put_in[4];
    switch (number() % 8) {
    case 0: /* a byte changed */
        bytes_made[place] = (uint8_t)number();
        return len;
    case 1: /* a bit flipped */
        bytes_made[place] = (uint8_t)(bytes_made[place] ^ 1u << number() % 8);
        return len;
    case 2: /* cut short */
        return number() % size;
    case 3: /* bytes put in */
        memmove(bytes_made + place + some, bytes_made + place, len - place);
        put(put_in, number());
        memcpy(bytes_made + place, put_in, some);
        return len + some;
    case 4: /* bytes taken out */
        if (some > len - place) some = len - place;
        memmove(bytes_made + place, bytes_made + place + some, len - place - some);
        return len - some;
    case 5: /* the length changed */
        if (number() % 8 == 0) bytes_made[0] = (uint8_t)number();
        bytes_made[1] = (uint8_t)(number() % 14);
        return len;
    case 6: /* two frames joined */
        return size + some_frame(bytes_made + size, box);
    default: /* another version or kind, by one */
        bytes_made[2 + number() % 2] ^= 1;
        return len;
    }
}

/* Makes an input and gives its length. */
static size_t some_input(const uint8_t *box) {
    uint32_t how = number() % 16;
    size_t size;
    some_bytes(bytes_made, sizeof bytes_made / 4);
    if (how == 0) return number() % (MOST_INPUT + 1); /* any bytes */
    if (how <= 2) {                                   /* any bytes, with small numbers in front */
        bytes_made[0] = 0;
        bytes_made[1] = (uint8_t)(number() % 14);
        bytes_made[2] = (uint8_t)(number() % 4 ? 1 : number() % 3);
        bytes_made[3] = (uint8_t)(number() % 9);
        return number() % 17;
    }
    size = some_frame(bytes_made, box);
    return how <= 7 ? size + number() % 9 : change(size, size + (number() % 2 ? 0 : number() % 9), box);
}

/* A record: that of the last call, small ranks, among them write rank 0, or any bytes; value 0 too. */
static void some_record(uint8_t *box) {
    uint32_t k = number() % 8;
    if (k < 5) return;
    some_bytes(box, 6);
    if (k < 7) {
        put(box, number() % 64);
        put(box + 4, number() % 4 ? number() % 64 : 0);
    }
    if (number() % 2) put(box + 8, 0);
}

/* Wish 7, of a request that is served: each has to come often. */
enum { REVISION_0_TAKEN, REVISION_0_NOT_TAKEN, REVISION_0_ANSWERED, NOTHING_ANSWERED, VALUE_OF_NOTHING_ANSWERED, WISH_7 };

static void note_wish_7(unsigned long *wish_7, int outcome, uint32_t revision, uint32_t write_rank, uint32_t value) {
    if (outcome == TAKEN && revision == 0) wish_7[REVISION_0_TAKEN]++;
    if (outcome == NOT_TAKEN && revision == 0) wish_7[REVISION_0_NOT_TAKEN]++;
    if (outcome == ANSWERED && write_rank != 0 && value == 0) wish_7[REVISION_0_ANSWERED]++;
    if (outcome == ANSWERED && write_rank == 0) wish_7[value == 0 ? NOTHING_ANSWERED : VALUE_OF_NOTHING_ANSWERED]++;
}

static void random_inputs(void) {
    static const size_t buffer_lengths[8] = {0, 3, 4, 11, 12, 12, 13, 40};
    static unsigned long count[OUTCOMES], wish_7[WISH_7];
    uint8_t box[24];
    unsigned long inputs_read = 0, messages_served = 0;
    long i;
    int k;
    memset(box, 0, sizeof box);
    for (i = 0; i < INPUTS; i++) {
        struct reading r;
        size_t len, record_len, buffer_len, shift = number() % 8;
        int outcome;
        some_record(box);
        len = some_input(box);
        record_len = number() % 16 ? 12 : number() % 25;
        buffer_len = number() % 2 ? buffer_lengths[number() % 8] : number() % 17;
        lay_input(bytes_made, sizeof bytes_made, shift);
        r = read_input(shift, len, __LINE__);
        count[r.outcome]++;
        if (r.answer == 0) {
            check(write_message(r.m, r.rest, 7 - shift, __LINE__) == 0, __LINE__, "what is accepted can be written");
            check(memcmp(buffer.now + AT + 7 - shift, bytes_made, r.rest) == 0, __LINE__, "what is accepted, written again, is the same bytes");
        }
        lay_record(box, sizeof box, 7 - shift);
        serve(7 - shift, record_len, shift, len, buffer_len, &outcome, __LINE__);
        if (r.answer != 0) check(outcome == r.outcome, __LINE__, "a refused frame is refused in serving");
        else count[outcome]++;
        memcpy(box, record.now + AT + 7 - shift, sizeof box);
        note_wish_7(wish_7, outcome, r.m.second, get(box + 4), get(box + 8)); /* a read leaves write rank and value */
    }
    for (k = 0; k < WISH_7; k++) CHECK(wish_7[k] >= INPUTS / 500);
    for (k = 0; k < OUTCOMES; k++) {
        CHECK(count[k] >= INPUTS / 250);
        if (k < NO_REQUEST) inputs_read += count[k];
        else messages_served += count[k];
    }
    CHECK(inputs_read == INPUTS);
    CHECK(messages_served == count[KIND_1] + count[KIND_2] + count[KIND_3] + count[KIND_4] + count[KIND_5] + count[KIND_6]);
}

int main(void) {
    size_t i;
    for (i = 0; i < sizeof guards; i++) guards[i] = (uint8_t)i;
    header();
    layout();
    small_inputs();
    single_bytes();
    zeros();
    refused_inputs();
    writer();
    pairs();
    read_back();
    streams();
    long_inputs();
    long_buffers();
    long_services();
    examples();
    refused_services();
    small_services();
    random_inputs();
    printf("%lu\n", checks);
    return 0;
}
