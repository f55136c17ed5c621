/* The writer of drill files, for a planning desk in C or C++.
 *
 * A drill file: two bytes L, the number of bytes behind them, the higher first; the version, 1 or 2; n, the number of boxes; m, the
 * number of stations; the length of the label, one byte; the label; in version 2 the departments, one byte for each station, 0 for sails
 * and 1 for canvas; then the records, 8 bytes each. Version 1 has no department bytes: all its stations are of sails.
 *
 * The call checks its arguments itself, in the order of the answers below. Of a record it looks at the kind alone, whether that is 6. What
 * it cannot check is the caller's:
 *   - no pointer is NULL, also where its length is 0, and each has as many bytes behind it as its length says;
 *   - buffer, label, departments, records and size do not overlap.
 * It keeps no state of its own, allocates nothing and calls nothing else.
 */
#ifndef DRILL_WRITER_H
#define DRILL_WRITER_H

#include <stddef.h>
#include <stdint.h>

#ifdef __cplusplus
extern "C" {
#endif

/* As many bytes as a drill file may have. */
#define DRILL_MOST_BYTES 32822u

/* The answers. */
#define DRILL_WRITTEN 0u              /* the file stands at the start of the buffer */
#define DRILL_REFUSED_VERSION 2u      /* the version is not 1 or 2 */
#define DRILL_REFUSED_SIZES 3u        /* n is not 1 to 9, or m is not 1 to 16 */
#define DRILL_REFUSED_LABEL 4u        /* the label has not 1 to 32 bytes, or one of them is not 33 to 126 */
#define DRILL_REFUSED_DEPARTMENTS 22u /* in version 1 there are department bytes; in version 2 they are not m, or one is not 0 or 1 */
#define DRILL_REFUSED_RECORDS 5u      /* the records are not a multiple of 8 bytes, or are more than 4,096 */
#define DRILL_REFUSED_KIND 7u         /* the kind of a record is 6: a box is put away by kind 8 */
#define DRILL_REFUSED_BUFFER 18u      /* the buffer is shorter than the file */

/* Writes the file of version, n, m, label, departments and records to the start of the buffer and stores its size, 6 + label_len +
 * departments_len + records_len. The bytes behind the file stay as they were. Where the answer is not 0 the whole buffer stays as it was,
 * and the size stored is 0. A buffer of exactly the file's size is enough. */
uint32_t drill_write(uint8_t *buffer, size_t buffer_len, uint8_t version, uint8_t n, uint8_t m, const uint8_t *label, size_t label_len,
                     const uint8_t *departments, size_t departments_len, const uint8_t *records, size_t records_len, size_t *size);

#ifdef __cplusplus
}
#endif

#endif
