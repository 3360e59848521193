/*
 * The list of present cards, for C and C++: document 02's N9.
 *
 * The functions stand in libpresence_c.a, which `tools/archive presence_c` proves and writes to target/staticlib/, for x86-64 Linux. Their
 * contracts are those of crates/presence_c/src/lib.rt.
 *
 * A round of discovery hands in its number and the cards found. Who was seen in the last accepted round or the one before it is present. A card
 * is its kind and identifier; of several records of a card the latest counts, of two in one round the later. The list, the arrivals and the
 * departures stand in order of kind, then of identifier bytes, a prefix first.
 *
 * Refusals, of which the first that applies is told; a refused round changes nothing:
 * - 3, an identifier over 16 bytes;
 * - 1, a list with a field out of range, or cards out of order;
 * - 4, a kind or bitrate that there is not, or records whose bytes are no multiple of 20;
 * - 27, a number that is not above that of the last accepted round; the first round may have any number;
 * - 28, more than 64 cards in the list after the round.
 *
 * The list. Each gate has one, made by presence_empty and kept by the caller for its life; it is handed to each round, by one thread at a time.
 * It is plain memory: it may be moved or copied between rounds, and needs no end. Zeroed memory is an empty list. Any other bytes are allowed as
 * well: a list out of range or order gets refusal 1. Its first `count` cards are present. All fields may be read.
 *
 * Memory. No function keeps a pointer or allocates. The caller sees to it that, for the time of a round, no pointer is null, also where the
 * length beside it is 0, and the list's is aligned; as many bytes as the length says may be read; the list does not overlap the records, and
 * nobody else writes to either.
 */
#ifndef PRESENCE_H
#define PRESENCE_H

#include <stddef.h>
#include <stdint.h>

#ifdef __cplusplus
extern "C" {
#endif

/* How many cards a list has at most, and how many bytes an identifier. */
#define PRESENCE_CARDS 64
#define PRESENCE_IDENTIFIER 16

/* Kinds, in their order. */
#define PRESENCE_A 0
#define PRESENCE_TYPE1 1
#define PRESENCE_B 2
#define PRESENCE_F 3
#define PRESENCE_DEP 4

/* Bitrates. */
#define PRESENCE_106A 0
#define PRESENCE_212F 1
#define PRESENCE_424F 2
#define PRESENCE_106B 3
#define PRESENCE_212B 4
#define PRESENCE_424B 5
#define PRESENCE_848B 6

/* Refusals. */
#define PRESENCE_OUT_OF_RANGE 1
#define PRESENCE_OVER_LONG 3
#define PRESENCE_BAD_ARGUMENT 4
#define PRESENCE_STALE_ROUND 27
#define PRESENCE_LIST_FULL 28

/* A card, as a record of a round and in the list. `length` says how many bytes the identifier has; one over 16 is told by any length above that,
 * and its bytes are not looked at. The bytes behind an identifier are 0 in the list, and any in a record. `missed` is 1 for a card that was not
 * seen in the last accepted round, and is not looked at in a record. */
typedef struct presence_card {
    uint8_t kind, identifier[PRESENCE_IDENTIFIER], length, bitrate, missed;
} presence_card;

/* `begun` is 0 before the first accepted round, and then 1; `number` is the last accepted round's. */
typedef struct presence_state {
    uint32_t number;
    uint8_t begun, count;
} presence_state;

/* The cards present, and those that the last accepted round had come and leave. */
typedef struct presence_list {
    presence_card cards[PRESENCE_CARDS], arrived[PRESENCE_CARDS], departed[PRESENCE_CARDS];
    presence_state state;
} presence_list;

/* `refusal` is 0 where the round was accepted; how many cards stand in the list's `arrived` and `departed` then. */
typedef struct presence_outcome {
    uint8_t refusal;
    size_t arrived, departed;
} presence_outcome;

/* An empty list. */
presence_list presence_empty(void);

/* A round with its number and its records, of 20 bytes each: `bytes` is 20 times as many as they are. */
presence_outcome presence_round(presence_list *list, uint32_t number, const presence_card *records, size_t bytes);

#ifdef __cplusplus
}
#endif

#endif
