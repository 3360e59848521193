/*
 * A chip with a field of cards, for C and C++: document 02's N10. It is the other end of the wire, for hosts that are tried without a chip.
 *
 * The functions stand in libchip_c.a, which `tools/archive chip_c` proves and writes to target/staticlib/, for x86-64 Linux. Their
 * contracts are those of crates/chip_c/src/lib.rt. hosts/c/with_chip.c runs a reader at this chip.
 *
 * A host writes bytes; rcs956_chip_step takes them. For the frame of a command the chip sends two packets, ACK (RCS956_CHIP_ACK) and its
 * response, of which `packet` is the length and which stands at the buffer's start. For other bytes, a bare ACK among them, it sends nothing,
 * and `packet` is 0. The chip answers the commands of opening, discovery and transceive; to any other it sends the manual's error frame.
 *
 * The field has at most four cards. rcs956_chip_add_card adds one with its list data: what stands in the response of InListPassiveTarget behind the number
 * of targets and the target number, of a DEP partner in that of InJumpForDEP behind status and target number. A Type B card has besides
 * its answer to WUPB (05 00 08), ATQB; of the other kinds that is not looked at. rcs956_chip_add_reply states a reply of the card added last, at most eight: to
 * these bytes that reply. Bytes without a stated reply get status 01. A card stays found until the next search or reset.
 *
 * Refusals, of which the first that applies is told; a refusal changes nothing:
 * - of a step: 2, a buffer under 1,024 bytes; 1, a chip with a field out of range;
 * - of a card: 1; 4, a fifth card, a kind that there is not, a bitrate that is not of the kind (A: 106A, 212F, 424F, 106B; B: 106B; F: 212F, 424F; DEP:
 *   106A, 212F, 424F), list data too short for the discovery (A 4, B 11, F 18 bytes), byte 10 of Type B's that masked with 09 is not 01; 3, list data over 1,010
 *   bytes or an ATQB over 1,011;
 * - of a reply: 1; 4, no card, a second reply to the same bytes, a Type 2 card's reply over 2 bytes that does not end in its CRC_A; 3, a reply over
 *   1,011 bytes, bytes sent over 512, a ninth reply.
 *
 * The chip. It is plain memory, made by rcs956_chip_fresh and kept by the caller; it may be moved or copied between calls, needs no end, and is handed
 * to each call by one thread at a time. Zeroed memory is a fresh chip. Any other bytes are allowed as well: a chip out of range gets refusal 1, and any other is
 * served. The fields of `state` may be read; the others are the chip's own.
 *
 * Memory. No function keeps a pointer or allocates. The caller sees to it that, for the time of a call, no pointer is null, also where the length
 * beside it is 0 (RCS956_CHIP_NO_BYTES); as many bytes as a length says may be read, or written where the pointer is not to const; chip and buffer overlap neither each
 * other nor another argument, and nobody else writes to what is lent. A chip has 59,035 bytes, and rcs956_chip_fresh hands it over by value.
 */
#ifndef RCS956_CHIP_H
#define RCS956_CHIP_H

#include <stddef.h>
#include <stdint.h>

#ifdef __cplusplus
extern "C" {
#endif

/* The bytes that a buffer needs, and the packet that the chip sends before a response. */
#define RCS956_CHIP_BUFFER_SIZE 1024
#define RCS956_CHIP_ACK_SIZE 6
#define RCS956_CHIP_ACK ((const uint8_t *)"\x00\x00\xFF\x00\xFF\x00")

/* Two arguments: a pointer, and the length 0. */
#define RCS956_CHIP_NO_BYTES (const uint8_t *)"", 0

/* Kinds. */
#define RCS956_CHIP_A 0
#define RCS956_CHIP_B 1
#define RCS956_CHIP_F 2
#define RCS956_CHIP_DEP 3

/* Bitrates. */
#define RCS956_CHIP_106A 0
#define RCS956_CHIP_212F 1
#define RCS956_CHIP_424F 2
#define RCS956_CHIP_106B 3

/* Refusals. */
#define RCS956_CHIP_OUT_OF_RANGE 1
#define RCS956_CHIP_SHORT_BUFFER 2
#define RCS956_CHIP_OVER_LONG 3
#define RCS956_CHIP_BAD_ARGUMENT 4

/* How many cards the field has, the place of the card found counted from 1 (0: none), and whether the RF field is on (0 or 1). */
typedef struct rcs956_chip_state {
    uint8_t count, found, on;
} rcs956_chip_state;

/* The cards, and for each card the bytes sent and the replies to them. */
typedef struct rcs956_chip {
    uint8_t cards[4060], sent[18504], replies[36468];
    rcs956_chip_state state;
} rcs956_chip;

/* `refusal` is 0 where there is none; `packet` is the length of the packet behind ACK, 0 where the chip sends nothing. */
typedef struct rcs956_chip_outcome {
    uint8_t refusal;
    size_t packet;
} rcs956_chip_outcome;

/* The layout that the archive has. An array of -1 elements is an error. */
typedef char rcs956_chip_has_59035_bytes[sizeof(rcs956_chip) == 59035 ? 1 : -1];
typedef char rcs956_chip_state_is_at_59032[offsetof(rcs956_chip, state) == 59032 ? 1 : -1];
typedef char rcs956_chip_outcome_has_16_bytes[sizeof(rcs956_chip_outcome) == 16 ? 1 : -1];

/* An empty field, and the chip as at its start. */
rcs956_chip rcs956_chip_fresh(void);

/* A card more in the field. */
rcs956_chip_outcome rcs956_chip_add_card(rcs956_chip *chip, uint8_t kind, uint8_t bitrate, const uint8_t *listed, size_t listed_len, const uint8_t *atqb,
                                         size_t atqb_len);

/* A reply more of the card added last. */
rcs956_chip_outcome rcs956_chip_add_reply(rcs956_chip *chip, const uint8_t *bytes, size_t len, const uint8_t *reply, size_t reply_len);

/* The bytes that the host wrote. */
rcs956_chip_outcome rcs956_chip_step(rcs956_chip *chip, const uint8_t *written, size_t len, uint8_t *buffer, size_t size);

#ifdef __cplusplus
}
#endif

#endif
