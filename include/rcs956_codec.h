/*
 * Frames and CRCs of the RC-S956 reader engine, for C.
 *
 * The functions stand in libcodec_c.a, which `tools/archive codec_c` proves and writes to target/staticlib/, for x86-64 Linux.
 * Their contracts are those of crates/codec_c/src/lib.rt, in terms of crates/codec_c/specs/Answers.antt.
 *
 * Answers. A function that can refuse answers 0, or the number of the refusal: document 01's, as named below. A refusal writes
 * nothing: neither to the buffer nor to the places that the other arguments point to.
 *
 * Memory. No function keeps a pointer, allocates, or has a state: any number of threads may call at a time. The caller sees to it
 * that, for the time of a call,
 * - no pointer is null, also where the length beside it is 0, and a pointer to a size_t is aligned for it;
 * - as many bytes as a length says may be read, or written where the pointer is not to const;
 * - what may be written overlaps no other argument, and nobody else writes to what is lent.
 */
#ifndef RCS956_CODEC_H
#define RCS956_CODEC_H

#include <stdbool.h>
#include <stddef.h>
#include <stdint.h>

#ifdef __cplusplus
extern "C" {
#endif

/* Refusals. */
#define RCS956_SHORT_BUFFER 2 /* the result does not fit the buffer */
#define RCS956_OVER_LONG 3    /* the payload is longer than the setting can carry */
#define RCS956_BAD_ARGUMENT 4 /* the setting is above 5 */

/* Settings: the length form, then the error form. The payload is at most 255 bytes for Normal, else 65,535. */
#define RCS956_NORMAL_ERROR_FRAME 0
#define RCS956_NORMAL_STATUS_BYTE 1
#define RCS956_LITTLE_ENDIAN_ERROR_FRAME 2
#define RCS956_LITTLE_ENDIAN_STATUS_BYTE 3
#define RCS956_BIG_ENDIAN_ERROR_FRAME 4 /* the RC-S956's own */
#define RCS956_BIG_ENDIAN_STATUS_BYTE 5

/* Kinds of packets. */
#define RCS956_NO_FRAME 0
#define RCS956_ACK 1
#define RCS956_ERROR 2
#define RCS956_DATA 3

/* The byte that brings the sum of the bytes to a multiple of 256; of no bytes 0. */
uint8_t rcs956_checksum(const uint8_t *bytes, size_t len);

/*
 * Writes the frame that carries the payload to the buffer's start, and its length to *count. The buffer's other bytes stay as
 * they are. A frame is up to 10 bytes longer than its payload.
 * Refuses, in this order: 4 where there is no such setting, 3 where the payload is over-long, 2 where the buffer is too short.
 */
uint8_t rcs956_frame_build(uint8_t setting, const uint8_t *payload, size_t payload_len, uint8_t *buffer, size_t buffer_len,
                           size_t *count);

/*
 * Says what the packet starts with; bytes behind the frame are allowed. Writes four numbers:
 * - *kind: no frame, Ack, Error or Data, by the numbers above;
 * - *start, *len: where in the packet the payload of a data frame starts, and its length; 0 and 0 for the other kinds;
 * - *frame: the frame's length; for Error the whole packet's, for no frame 0.
 * Refuses 4 where there is no such setting. A packet that is no frame is no refusal: the answer is 0.
 */
uint8_t rcs956_frame_parse(uint8_t setting, const uint8_t *packet, size_t packet_len, uint8_t *kind, size_t *start, size_t *len,
                           size_t *frame);

/*
 * The same of a board that pads the start: up to 16 zeros before the start bytes are stepped over. The numbers are those of
 * rcs956_frame_parse, and one more:
 * - *start: where in the packet as it came;
 * - *frame: extra zeros are not counted, for Error neither;
 * - *zeros: how many were stepped over, 0 to 16. 17 and more are no extra zeros: such a packet is no frame, and has 0.
 */
uint8_t rcs956_frame_parse_padded(uint8_t setting, const uint8_t *packet, size_t packet_len, uint8_t *kind, size_t *start, size_t *len,
                                  size_t *frame, size_t *zeros);

/* Whether the last two bytes are the CRC_A of those before them, low byte first. Under two bytes: no. */
bool rcs956_crc_a_check(const uint8_t *bytes, size_t len);

/* The same of CRC_B. */
bool rcs956_crc_b_check(const uint8_t *bytes, size_t len);

/*
 * Writes the bytes and their CRC_B, low byte first, to the start of out, and their number, len + 2, to *count. The other bytes
 * of out stay as they are. Refuses 2 where out is too short.
 */
uint8_t rcs956_crc_b_append(const uint8_t *bytes, size_t len, uint8_t *out, size_t out_len, size_t *count);

#ifdef __cplusplus
}
#endif

#endif
