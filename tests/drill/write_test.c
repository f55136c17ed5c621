/* Document 01's example of a drill file, the same drill in version 2 with its station in the canvas department, and records of the kinds
 * 6, 8 and 9, written from C and from C++ as the header says. Prints nothing; any failure ends it with another exit status than 0. */
#include "drill_writer.h"

#include <string.h>

static const uint8_t file[50] = {0x00, 0x30, 0x01, 0x01, 0x01, 0x04, 0x6C, 0x75, 0x66, 0x66, 0x01, 0x00, 0x00, 0x01, 0x00, 0x00, 0x00,
                                 0x07, 0x02, 0,    0,    0,    0,    0,    0,    0,    0x04, 0,    0,    0,    0,    0,    0,    0,
                                 0x03, 0,    0,    0,    0,    0,    0,    0,    0x05, 0,    0,    0,    0,    0,    0,    0};
/* of version 2, what stands before the records */
static const uint8_t front[11] = {0x00, 0x31, 0x02, 0x01, 0x01, 0x04, 0x6C, 0x75, 0x66, 0x66, 0x01};

int main(void) {
    static const uint8_t departments[17] = {1, 0, 1, 2};
    const uint8_t *label = file + 6, *records = file + 10;
    uint8_t buffer[DRILL_MOST_BYTES], before[DRILL_MOST_BYTES];
    size_t size = 1;
    memset(before, 0xEE, sizeof before);
    memcpy(buffer, before, sizeof buffer);

    /* refused: the buffer is as it was, the size 0 */
    if (drill_write(buffer, 49, 1, 1, 1, label, 4, departments, 0, records, 40, &size) != DRILL_REFUSED_BUFFER) return 1;
    if (size != 0 || memcmp(buffer, before, sizeof buffer) != 0) return 2;
    if (drill_write(buffer, 0, 3, 10, 1, label, 33, departments, 4, records, 41, &size) != DRILL_REFUSED_VERSION || size != 0) return 3;
    if (drill_write(buffer, 0, 2, 10, 1, label, 33, departments, 4, records, 41, &size) != DRILL_REFUSED_SIZES || size != 0) return 4;
    if (drill_write(buffer, 0, 2, 9, 16, label, 0, departments, 4, records, 41, &size) != DRILL_REFUSED_LABEL || size != 0) return 5;
    if (drill_write(buffer, 0, 1, 9, 3, label, 4, departments, 1, records, 41, &size) != DRILL_REFUSED_DEPARTMENTS || size != 0) return 6;
    if (drill_write(buffer, 0, 2, 9, 3, label, 4, departments, 2, records, 41, &size) != DRILL_REFUSED_DEPARTMENTS || size != 0) return 7;
    if (drill_write(buffer, 0, 2, 9, 16, label, 4, departments, 17, records, 41, &size) != DRILL_REFUSED_DEPARTMENTS || size != 0) return 8;
    if (drill_write(buffer, 0, 2, 9, 4, label, 4, departments, 4, records, 41, &size) != DRILL_REFUSED_DEPARTMENTS || size != 0) return 9;
    if (drill_write(buffer, 0, 2, 9, 3, label, 4, departments, 3, records, 39, &size) != DRILL_REFUSED_RECORDS || size != 0) return 10;
    if (drill_write(buffer, 50, 2, 1, 1, label, 4, departments, 1, records, 40, &size) != DRILL_REFUSED_BUFFER || size != 0) return 11;
    if (memcmp(buffer, before, sizeof buffer) != 0) return 12;

    /* written: the file, and behind it what was there */
    if (drill_write(buffer, 50, 1, 1, 1, label, 4, departments, 0, records, 40, &size) != DRILL_WRITTEN || size != 50) return 13;
    if (memcmp(buffer, file, 50) != 0 || memcmp(buffer + 50, before + 50, sizeof buffer - 50) != 0) return 14;
    memcpy(buffer, before, sizeof buffer);
    if (drill_write(buffer, sizeof buffer, 1, 1, 1, label, 4, departments, 0, records, 40, &size) != DRILL_WRITTEN || size != 50) return 15;
    if (memcmp(buffer, file, 50) != 0 || memcmp(buffer + 50, before + 50, sizeof buffer - 50) != 0) return 16;
    memcpy(buffer, before, sizeof buffer);
    if (drill_write(buffer, 51, 2, 1, 1, label, 4, departments, 1, records, 40, &size) != DRILL_WRITTEN || size != 51) return 17;
    if (memcmp(buffer, front, 11) != 0 || memcmp(buffer + 11, records, 40) != 0) return 18;
    if (memcmp(buffer + 51, before + 51, sizeof buffer - 51) != 0) return 19;

    /* a record of kind 6, the first, one between and the last: turned back whatever the buffer, behind 22 and 5 */
    memcpy(buffer, before, sizeof buffer);
    for (size_t nth = 0; nth < 5; nth++) {
        uint8_t stops[40];
        memcpy(stops, records, 40);
        stops[8 * nth] = 6;
        for (size_t room = 0; room <= 60; room++) {
            if (drill_write(buffer, room, 1, 1, 1, label, 4, departments, 0, stops, 40, &size) != DRILL_REFUSED_KIND || size != 0) return 20;
            if (drill_write(buffer, room, 2, 1, 1, label, 4, departments, 1, stops, 40, &size) != DRILL_REFUSED_KIND || size != 0) return 21;
        }
        if (drill_write(buffer, 60, 1, 1, 1, label, 4, departments, 1, stops, 40, &size) != DRILL_REFUSED_DEPARTMENTS || size != 0) return 22;
        if (drill_write(buffer, 60, 1, 1, 1, label, 4, departments, 0, stops, 39, &size) != DRILL_REFUSED_RECORDS || size != 0) return 23;
    }
    if (memcmp(buffer, before, sizeof buffer) != 0) return 24;

    /* kinds 8 and 9, and the byte 6 in other places of a record: written as they are */
    for (size_t at = 0; at < 16; at++) {
        uint8_t back[16] = {8, 0, 0, 0, 0, 0, 0, 0, 9, 0, 0, 0, 0, 0, 0, 0};
        if (at % 8 != 0) back[at] = 6;
        memcpy(buffer, before, sizeof buffer);
        if (drill_write(buffer, 26, 1, 1, 1, label, 4, departments, 0, back, 16, &size) != DRILL_WRITTEN || size != 26) return 25;
        if (memcmp(buffer + 10, back, 16) != 0 || memcmp(buffer + 26, before + 26, sizeof buffer - 26) != 0) return 26;
        if (drill_write(buffer, 25, 1, 1, 1, label, 4, departments, 0, back, 16, &size) != DRILL_REFUSED_BUFFER || size != 0) return 27;
    }
    return 0;
}
