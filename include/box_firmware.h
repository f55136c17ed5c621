/* The ranked register of one storage box, and the frames between stations and boxes, for box firmware in C or C++.
 *
 * The record, which the box keeps: BOX_RECORD_BYTES bytes, three 32-bit numbers, each big-endian (highest byte first).
 *
 *     bytes 0 to 3     read rank
 *     bytes 4 to 7     write rank
 *     bytes 8 to 11    value: the revision that the box holds
 *
 * The record of a new box is all zero bytes. Any contents are accepted. A box holds nothing exactly while its write rank is 0, whatever
 * the value is. With any other write rank it holds the value, also where that is 0.
 *
 * The reply, which a read fills: BOX_REPLY_BYTES bytes, two 32-bit numbers, each big-endian; all 0 where the read is outranked.
 *
 *     bytes 0 to 3     write rank
 *     bytes 4 to 7     value
 *
 * A station goes by the write rank of an answer, not by the value: write rank 0 says that the box holds nothing.
 *
 * A rank is round * 16 + station number, and is passed as a number, not as bytes; so is a revision. A rank may not be 0. A revision is
 * any 32-bit number: 0 means "do not cut", and is written, kept and answered as every other is.
 *
 * A frame, which carries one message; its numbers are big-endian.
 *
 *     bytes 0 and 1    the length: the number of bytes of the frame behind these two
 *     byte 2           the version, 1
 *     byte 3           the kind of the message, one of the FRAME_ kinds below
 *     from byte 4 on   the fields of that kind, 4 bytes each
 *
 * The calls check their arguments themselves, in the order that each states below, and a call that is refused leaves every byte of
 * record, reply and buffer as it was. What no call can check is the caller's:
 *   - no pointer is NULL, also where its length is 0, and each has as many bytes behind it as its length says;
 *   - what one call is handed does not overlap;
 *   - one call at a time runs on a record.
 * The calls keep no state of their own, allocate nothing and call nothing else.
 */
#ifndef BOX_FIRMWARE_H
#define BOX_FIRMWARE_H

#include <stddef.h>
#include <stdint.h>

#ifdef __cplusplus
extern "C" {
#endif

/* ---- The box routine */

#define BOX_RECORD_BYTES 12u
#define BOX_REPLY_BYTES 8u

/* The answers. */
#define BOX_DONE 0u            /* read: the reply is filled; write: taken; serve: the answer's frame is in the buffer */
#define BOX_OUTRANKED 100u     /* read: a higher rank was served; the record is as it was, and the reply is zeroed */
#define BOX_NOT_TAKEN 100u     /* write: not taken, and the record is as it was */
#define BOX_REFUSED_LENGTH 16u /* the record is not 12 bytes, or the reply is not 8 */
#define BOX_REFUSED_ZERO 17u   /* the rank is 0 */

/* Read with a rank. If read rank <= rank and write rank <= rank, the read rank becomes the rank, write rank and value stay, and the
 * reply gets write rank and value. Otherwise the read is outranked: the record stays as it is, and all 8 bytes of the reply become 0.
 * Answers 16, then 17, then 0 (done) or 100 (outranked). */
uint32_t box_read(uint8_t *record, size_t record_len, uint32_t rank, uint8_t *reply, size_t reply_len);

/* Write a revision, any, with a rank. If read rank <= rank and write rank < rank, the write is taken: the write rank becomes the rank,
 * the value the revision, and the read rank stays. Otherwise the record stays as it is. Answers 16, then 17, then 0 (taken) or 100
 * (not taken). */
uint32_t box_write(uint8_t *record, size_t record_len, uint32_t rank, uint32_t revision);

/* ---- Frames */

/* The longest frame of a message. */
#define FRAME_MOST_BYTES 12u

/* The kinds, with their fields in order. */
#define FRAME_READ_REQUEST 1u  /* rank */
#define FRAME_WRITE_REQUEST 2u /* rank, revision */
#define FRAME_READ_ANSWER 3u   /* write rank, value */
#define FRAME_OUTRANKED 4u
#define FRAME_TAKEN 5u
#define FRAME_NOT_TAKEN 6u

/* The answers. */
#define FRAME_DONE 0u
#define FRAME_REFUSED_BUFFER 18u  /* the buffer is shorter than the frame */
#define FRAME_REFUSED_LENGTH 19u  /* the length is missing, passes the input, is under 2, or is not that of the kind */
#define FRAME_REFUSED_VERSION 20u /* the version is not 1 */
#define FRAME_REFUSED_MESSAGE 21u /* the kind is none of the six, or the rank of a request is 0 */

/* Reads the frame at the start of the input: stores the kind, its first and its second field, a field that the kind does not have as
 * 0, and the part of the input behind the frame: the rest_len bytes from input + rest on. Answers 19, then 20, then 21, then 0. Where
 * the answer is not 0 all five numbers stored are 0, so that the part behind is empty. A whole frame of an unknown kind is 21 whatever
 * its length is, from 2 on. */
uint32_t frame_read(const uint8_t *input, size_t input_len, uint32_t *kind, uint32_t *first, uint32_t *second, size_t *rest,
                    size_t *rest_len);

/* Writes the frame of a message to the start of the buffer and stores its size. A field that the kind does not have is not looked at.
 * The bytes behind the frame stay as they were. Answers 21, then 18, then 0. Where the answer is not 0 the whole buffer stays as it
 * was, and the size stored is 0. A buffer of exactly the frame's size is enough, and one of FRAME_MOST_BYTES for every message. */
uint32_t frame_write(uint8_t *buffer, size_t buffer_len, uint32_t kind, uint32_t first, uint32_t second, size_t *size);

/* ---- Serving: what a box does with a request */

/* Reads the request frame at the start of the input, runs the box routine on the record, writes the frame of the answer to the start
 * of the buffer and stores its size: a read is answered by FRAME_READ_ANSWER or FRAME_OUTRANKED, a write by FRAME_TAKEN or
 * FRAME_NOT_TAKEN. The bytes behind the answer stay as they were; what stands behind the request is not looked at. Answers 19, 20 or
 * 21 as frame_read does, 21 also where the message is no request; then 16 where the record is not 12 bytes; then 18 where the buffer
 * is shorter than the answer; then 0. Where the answer is not 0 record and buffer stay as they were, and the size stored is 0. */
uint32_t box_serve(uint8_t *record, size_t record_len, const uint8_t *input, size_t input_len, uint8_t *buffer, size_t buffer_len,
                   size_t *size);

#ifdef __cplusplus
}
#endif

#endif
