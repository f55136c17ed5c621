/* Wish 8 of document 02: boxes "lose power and return with their records". Takes records through runs of calls, box_read and box_write or
 * box_serve. At some calls the 12 bytes are copied away, all else is overwritten, and the run goes on from the copy: answers and bytes are
 * those of the run without. So the bytes are all that a box keeps. Prints the number of checks made, or the first that fails, with exit
 * status 1. Valid C99 and C++11. */
#include "box_firmware.h"

#include "check.h"

#include <stdint.h>
#include <stdio.h>
#include <stdlib.h>
#include <string.h>

#define COUNT_OF(table) (sizeof(table) / sizeof(table)[0])

struct request {
    uint32_t kind, rank, revision; /* kind 1 reads, kind 2 writes */
};

/* What a call gives: its answer, and the reply or the answer's frame. */
struct answer {
    uint32_t number;
    size_t size;
    uint8_t bytes[12];
};

typedef struct answer (*asking)(uint8_t *record, struct request q);

static struct answer by_calls(uint8_t *record, struct request q) {
    struct answer a = {0, 0, {0}};
    if (q.kind == 1) a.number = box_read(record, 12, q.rank, a.bytes, 8);
    else a.number = box_write(record, 12, q.rank, q.revision);
    return a;
}

static struct answer by_frames(uint8_t *record, struct request q) {
    struct answer a = {0, 0, {0}};
    uint8_t frame[12] = {0, 0, 1, 0};
    frame[1] = q.kind == 1 ? 6 : 10;
    frame[3] = (uint8_t)q.kind;
    put(frame + 4, q.rank);
    put(frame + 8, q.revision);
    a.number = box_serve(record, 12, frame, (size_t)frame[1] + 2, a.bytes, 12, &a.size);
    return a;
}

static int same(const struct answer *a, const struct answer *b) {
    return a->number == b->number && a->size == b->size && memcmp(a->bytes, b->bytes, 12) == 0;
}

static uint32_t some_rank(void) { return number() % 16 ? number() % 64 * 0x01010101u : 0; } /* bytes other than 0 in all places */

static struct request some_request(void) {
    struct request q;
    q.kind = 1 + number() % 2;
    q.rank = some_rank();
    q.revision = number() % 4 ? number() : 0;
    return q;
}

/* ---- The box that comes back */

static uint8_t rooms[3][16]; /* its memory: the record begins at another place of another room each time */
static size_t room;
static FILE *disk;

static uint8_t *record(void) { return rooms[room] + room; }

static void come_back(asking ask, int on_disk) {
    static const struct request lowest[] = {{1, 1, 0}, {2, 1, 9}};
    uint8_t kept[12], other[12] = {0};
    if (on_disk) CHECK(fseek(disk, 0, SEEK_SET) == 0 && fwrite(record(), 1, 12, disk) == 12 && fflush(disk) == 0);
    else memcpy(kept, record(), 12);
    memset(rooms, 0xA5, sizeof rooms);
    ask(other, lowest[number() % 2]); /* did a call leave anything else behind, it would be another record's now */
    room = (room + 1) % COUNT_OF(rooms);
    if (on_disk) CHECK(fseek(disk, 0, SEEK_SET) == 0 && fread(record(), 1, 12, disk) == 12);
    else memcpy(record(), kept, 12);
}

/* ---- A run with and without */

#define LONGEST 32

/* What came of the first request behind a return, by kind: done, not, refused. */
static unsigned long count[2][3];

/* Bit i of `returns` says that the box comes back before request i. */
static void run(asking ask, const uint8_t *start, const struct request *q, size_t requests, uint32_t returns, int on_disk, int line) {
    static struct answer answers[LONGEST];
    static uint8_t records[LONGEST][12];
    uint8_t stays[12];
    size_t i;
    memcpy(stays, start, 12);
    for (i = 0; i < requests; i++) {
        answers[i] = ask(stays, q[i]);
        memcpy(records[i], stays, 12);
    }
    memcpy(record(), start, 12);
    for (i = 0; i < requests; i++) {
        struct answer a;
        if (returns >> i & 1) come_back(ask, on_disk);
        a = ask(record(), q[i]);
        check(same(&a, &answers[i]), line, "the answer is the one without a return");
        check(memcmp(record(), records[i], 12) == 0, line, "the record is the one without a return");
        if (returns >> i & 1 && ask == by_calls) count[q[i].kind - 1][a.number == 0 ? 0 : a.number == 100 ? 1 : 2]++;
    }
}

/* From every record of ranks up to 2 and value 0 or 7 every run of three requests with ranks up to 3, revision 0 or 9, and every choice of
 * returns. */
static void small_runs(void) {
    struct request asked[12], q[3];
    uint32_t rank, read, write, value, returns;
    size_t n = 0, i, j, k;
    for (rank = 0; rank <= 3; rank++) {
        struct request of_rank[] = {{1, 0, 0}, {2, 0, 0}, {2, 0, 9}};
        for (i = 0; i < COUNT_OF(of_rank); i++) {
            asked[n] = of_rank[i];
            asked[n++].rank = rank;
        }
    }
    for (read = 0; read <= 2; read++)
        for (write = 0; write <= 2; write++)
            for (value = 0; value <= 7; value += 7)
                for (i = 0; i < n; i++)
                    for (j = 0; j < n; j++)
                        for (k = 0; k < n; k++)
                            for (returns = 1; returns < 8; returns++) {
                                uint8_t start[12];
                                put(start, read);
                                put(start + 4, write);
                                put(start + 8, value);
                                q[0] = asked[i];
                                q[1] = asked[j];
                                q[2] = asked[k];
                                run(by_calls, start, q, 3, returns, 0, __LINE__);
                                run(by_frames, start, q, 3, returns, 0, __LINE__);
                            }
}

/* ---- Pseudo-random runs */

#define RUNS 4000

static void some_record(uint8_t *p) {
    put(p, some_rank() / 4);
    put(p + 4, some_rank() / 4);
    put(p + 8, number() % 4 ? number() : 0);
}

static void random_runs(void) {
    long i;
    size_t j;
    for (i = 0; i < RUNS; i++) {
        struct request q[LONGEST];
        uint8_t start[12];
        uint32_t returns = number() & number();
        some_record(start);
        for (j = 0; j < LONGEST; j++) q[j] = some_request();
        run(by_calls, start, q, LONGEST, returns, i % 2 == 0, __LINE__);
        run(by_frames, start, q, LONGEST, returns, i % 2 == 0, __LINE__);
    }
}

/* A copy from before the last change is another record: the next request shows it, though not each does. */
static void older_copies(void) {
    unsigned long changed = 0, shown = 0;
    long i;
    for (i = 0; i < RUNS; i++) {
        struct request next = some_request();
        struct answer a, b;
        uint8_t now[12], older[12];
        some_record(now);
        memcpy(older, now, 12);
        by_calls(now, some_request());
        if (memcmp(now, older, 12) == 0) continue;
        changed++;
        a = by_calls(now, next);
        b = by_calls(older, next);
        if (!same(&a, &b) || memcmp(now, older, 12) != 0) shown++;
    }
    CHECK(changed >= RUNS / 4 && shown >= changed / 2);
}

int main(void) {
    size_t i, j;
    disk = tmpfile();
    CHECK(disk != NULL);
    small_runs();
    random_runs();
    for (i = 0; i < 2; i++)
        for (j = 0; j < 3; j++) CHECK(count[i][j] >= RUNS);
    older_copies();
    fclose(disk);
    printf("%lu\n", checks);
    return 0;
}
