/*
 * The RC-S956 reader engine, for C and C++.
 *
 * The functions stand in libsession_c.a, which `tools/archive session_c` proves and writes to target/staticlib/, for x86-64 Linux. Their
 * contracts are those of crates/session_c/src/lib.rt. hosts/c has hosts that run them.
 *
 * Orders and events. The engine does no transport itself. A call gives an outcome. Where that is an order, the host carries it out
 * and returns what came of it by rcs956_event, which gives the next outcome, and so on until the call ends:
 *
 *     outcome            the host                                        events that fit
 *     RCS956_WRITE       writes the first `len` bytes of the buffer      OK, BAD
 *     RCS956_READ        reads one packet, waiting up to `time` ms       PACKET, TIME, FAIL, LATE
 *     RCS956_DRAIN       reads one packet, waiting up to 50 ms           PACKET, TIME, FAIL, LATE
 *     RCS956_PAUSE       sleeps `time` microseconds                      SLEPT
 *     RCS956_DONE        has the answer, the buffer's first `len` bytes  the call has ended
 *     RCS956_DONE_TYPE1  the same, of a Type 1 tag                       the call has ended
 *     RCS956_NONE        has none: no card, no command                   the call has ended
 *     RCS956_REFUSED     has `refusal`, `status` with 15 and 20          the call has ended
 *     RCS956_LIST_REFUSED the same of a list, and `finished`             the call has ended
 *     RCS956_UID_AND_ATS the answer as with DONE, and `uid` and `ats`    the call has ended
 *     RCS956_REFUSED_AT_ONCE has `refusal`                               as before: nothing has changed
 *
 * Deadlines. Behind a command's frame the first read has its own time. The second and later ones share one: the command's clock,
 * which starts at the second. Drains that follow each other share their 50 ms. Where a shared time is over before a read, the
 * event is LATE; a read that waits for what is left of it and gets nothing is TIME. The opening's reads, behind a written ACK,
 * have their own time each. LATE fits shared times alone. An ACK has 6 bytes and a command's frame has more.
 *
 * Refusals. The kind, not the number, says whether a call or an event was refused at once. RCS956_REFUSED_AT_ONCE changes nothing:
 * neither session nor buffer. An order that was due is still due, so the event can be given anew. RCS956_REFUSED and
 * RCS956_LIST_REFUSED end the call and leave the buffer as it was. The numbers 1 to 6 are of refusals at once alone.
 *
 * The buffer needs 1,024 bytes, and a packet has at most 1,024. The buffer's other bytes stay as they are. It may be used for other
 * things, and be another one, from call to call and from event to event, once its bytes are written or read.
 *
 * The session. Each reader has one, made by rcs956_fresh and kept by the host for the reader's life; it is handed to each call and
 * event of that reader, by one thread at a time. Any number of sessions may be in use side by side. A session is plain memory: it
 * may be moved or copied between calls, and needs no end. Zeroed memory is a fresh session. Any other bytes are allowed as well: a
 * session with a field out of range gets refusal 1, and any other is served. The fields `books` and `frames` may be read; the others
 * are the engine's own.
 *
 * Memory. No function keeps a pointer or allocates, and none has a state but the session. The caller sees to it that, for the time
 * of a call,
 * - no pointer is null, also where the length beside it is 0 (RCS956_NO_BYTES), and the session's is aligned;
 * - as many bytes as a length says may be read, or written where the pointer is not to const;
 * - session and buffer overlap neither each other nor another argument, and nobody else writes to what is lent.
 */
#ifndef RCS956_H
#define RCS956_H

#include <stdbool.h>
#include <stddef.h>
#include <stdint.h>

#ifdef __cplusplus
extern "C" {
#endif

/* The bytes that a buffer needs, and the most that a packet has. */
#define RCS956_BUFFER_SIZE 1024

/* The callers of a session, numbered from 0: each has a frame count of its own. */
#define RCS956_CALLERS 8

/* Two arguments: a pointer, and the length 0. */
#define RCS956_NO_BYTES (const uint8_t *)"", 0

/* Kinds of outcomes: four orders, three ends, a call's refusal, a list's, the answer with two lengths, and the refusal at once. */
#define RCS956_WRITE 0
#define RCS956_READ 1
#define RCS956_DRAIN 2
#define RCS956_PAUSE 3
#define RCS956_DONE 4
#define RCS956_DONE_TYPE1 5
#define RCS956_NONE 6
#define RCS956_REFUSED 7
#define RCS956_LIST_REFUSED 8
#define RCS956_UID_AND_ATS 9
#define RCS956_REFUSED_AT_ONCE 10

/* Events. */
#define RCS956_EVENT_OK 0     /* the bytes are written */
#define RCS956_EVENT_BAD 1    /* the write failed */
#define RCS956_EVENT_PACKET 2 /* a packet came, perhaps an empty one */
#define RCS956_EVENT_TIME 3   /* nothing came in time */
#define RCS956_EVENT_FAIL 4   /* the read failed */
#define RCS956_EVENT_LATE 5   /* the deadline passed before the read */
#define RCS956_EVENT_SLEPT 6  /* the pause is over */

/* Refusals. */
#define RCS956_OUT_OF_TURN 1     /* event unfit for the order, call during a call, no opening, session field out of range */
#define RCS956_SHORT_BUFFER 2    /* the buffer has under 1,024 bytes */
#define RCS956_OVER_LONG 3       /* a packet over 1,024 bytes, or command data over 512 */
#define RCS956_BAD_ARGUMENT 4    /* an argument that the call does not take, or no such call */
#define RCS956_BITRATE 5         /* malformed, or not supported by the call */
#define RCS956_NOT_SENDABLE 6    /* a command that Type 1 does not have here */
#define RCS956_TRANSPORT 7       /* write or read failed */
#define RCS956_TIME_OUT 8        /* no packet in time */
#define RCS956_FALSE_START 9     /* the first packet does not start as a frame */
#define RCS956_BROKEN_FRAME 10   /* no frame */
#define RCS956_LENGTH 11         /* the frame is shorter than the packet */
#define RCS956_FRAME_KIND 12     /* Error where Data is due */
#define RCS956_IDENTIFIER 13     /* not from the chip */
#define RCS956_CODE 14           /* the response to another command */
#define RCS956_STATUS 15         /* a status other than 0: `status` */
#define RCS956_SHORT_RESPONSE 16 /* under the call's need */
#define RCS956_NO_CARD 17        /* Type F only */
#define RCS956_CRC_A 18          /* Type 2 only */
#define RCS956_RATE 19           /* target status with a rate that there is not */
#define RCS956_CARD_STATUS 20    /* FeliCa blocks: the card's status flags, `status` and `status2` */
#define RCS956_OTHER_CARD 21     /* FeliCa blocks: a reply of another code or from another card */
#define RCS956_UID_LAYOUT 22     /* Type A with UID and ATS told apart: list data that is not laid out as the manual has it */

/* Calls. */
#define RCS956_CALL_OPEN 0
#define RCS956_CALL_VERSION 1
#define RCS956_CALL_RESET_MODE 2
#define RCS956_CALL_SET_PARAMETERS 3
#define RCS956_CALL_RF_CONFIGURATION 4
#define RCS956_CALL_READ_REGISTER 5
#define RCS956_CALL_WRITE_REGISTER 6
#define RCS956_CALL_READ_SINGLE_REGISTER 7
#define RCS956_CALL_WRITE_SINGLE_REGISTER 8
#define RCS956_CALL_IN_LIST_PASSIVE_TARGET 9
#define RCS956_CALL_IN_DATA_EXCHANGE 10
#define RCS956_CALL_IN_COMMUNICATE_THRU 11
#define RCS956_CALL_IN_JUMP_FOR_DEP 12
#define RCS956_CALL_TG_INIT_TARGET 13
#define RCS956_CALL_TG_SET_GENERAL_BYTES 14
#define RCS956_CALL_TG_GET_INITIATOR_COMMAND 15
#define RCS956_CALL_TG_RESPONSE_TO_INITIATOR 16
#define RCS956_CALL_TG_GET_TARGET_STATUS 17
#define RCS956_CALL_RF_FIELD_OFF 18
#define RCS956_CALL_DETECT_TYPE_A 19
#define RCS956_CALL_DETECT_TYPE_B 20
#define RCS956_CALL_DETECT_TYPE_F 21
#define RCS956_CALL_DETECT_DEP 22
#define RCS956_CALL_TRANSCEIVE 23
#define RCS956_CALL_POLL_TYPE_F 24
#define RCS956_CALL_DETECT_TYPE_A_SPLIT 25
#define RCS956_CALL_READ_WITHOUT_ENCRYPTION 26
#define RCS956_CALL_WRITE_WITHOUT_ENCRYPTION 27

/* Modes of an opening, for the session until the next one that is accepted. */
#define RCS956_MODE_OFF 0    /* a packet starts with 00 00 FF */
#define RCS956_MODE_PADDED 1 /* up to 16 more zeros may stand before that */

/* The exchange of one command. */
typedef struct rcs956_exchange_state {
    uint8_t phase, code;
    uint32_t clock;
} rcs956_exchange_state;

/* The running call; kind 0 is none. */
typedef struct rcs956_call_state {
    uint8_t kind, stage, cursor, phase;
} rcs956_call_state;

/* The numbers of the running call. */
typedef struct rcs956_core {
    size_t command, found; /* the bytes in use of the session's two arrays */
    rcs956_exchange_state exchange;
    rcs956_call_state call;
} rcs956_core;

/* The reader's books, but for the counts. An opening that is accepted begins them anew: its mode, its caller, and else 0. */
typedef struct rcs956_books {
    uint8_t opened; /* 1 where the reader is open, else 0, also while an opening runs; any other value is out of range */
    uint8_t mode;   /* of the last opening that was accepted; above 1 is out of range */
    uint8_t caller; /* of the last call that was accepted; above 7 is out of range */
} rcs956_books;

/* One reader's session. */
typedef struct rcs956_session {
    uint8_t command[512]; /* the command to send later */
    uint8_t found[1024];  /* a response that the answer is made of */
    uint32_t frames[RCS956_CALLERS]; /* of each caller the command frames that its calls ordered since the last opening began, the
                                        opening's own included, each stopping at 4,294,967,295 */
    rcs956_books books;
    rcs956_core core;
} rcs956_session;

/* What comes out of a call or an event. What does not apply is 0. */
typedef struct rcs956_outcome {
    uint8_t kind;
    uint8_t refusal;  /* of a refusal its number, 1 to 22 */
    uint8_t status;   /* of refusal 15 the status byte, of 20 the first status flag */
    uint8_t status2;  /* of refusal 20 the second status flag */
    uint8_t finished; /* of a list's refusal how many of its codes were finished */
    uint8_t uid, ats; /* of RCS956_UID_AND_ATS the lengths of the UID, from byte 3 of the answer on, and of the ATS behind it */
    uint32_t time;    /* of a read its ms, of a pause its microseconds */
    size_t len;       /* of a write order and of an answer the bytes at the buffer's start */
} rcs956_outcome;

/* A call's arguments that are numbers. What a call does not use counts for nothing; each has a caller, 0 to 7. */
typedef struct rcs956_numbers {
    uint32_t ms;
    uint16_t word;
    uint8_t x, y;
    uint8_t caller;
} rcs956_numbers;

/* The layout that the archive has. An array of -1 elements is an error. */
typedef char rcs956_session_has_1608_bytes[sizeof(rcs956_session) == 1608 ? 1 : -1];
typedef char rcs956_session_frames_is_at_1536[offsetof(rcs956_session, frames) == 1536 ? 1 : -1];
typedef char rcs956_session_books_is_at_1568[offsetof(rcs956_session, books) == 1568 ? 1 : -1];
typedef char rcs956_session_core_is_at_1576[offsetof(rcs956_session, core) == 1576 ? 1 : -1];
typedef char rcs956_core_exchange_is_at_16[offsetof(rcs956_core, exchange) == 16 ? 1 : -1];
typedef char rcs956_core_call_is_at_24[offsetof(rcs956_core, call) == 24 ? 1 : -1];
typedef char rcs956_books_mode_is_at_1[offsetof(rcs956_books, mode) == 1 ? 1 : -1];
typedef char rcs956_books_caller_is_at_2[offsetof(rcs956_books, caller) == 2 ? 1 : -1];
typedef char rcs956_call_has_4_bytes[sizeof(rcs956_call_state) == 4 ? 1 : -1];
typedef char rcs956_outcome_has_24_bytes[sizeof(rcs956_outcome) == 24 ? 1 : -1];
typedef char rcs956_outcome_uid_is_at_5[offsetof(rcs956_outcome, uid) == 5 ? 1 : -1];
typedef char rcs956_outcome_ats_is_at_6[offsetof(rcs956_outcome, ats) == 6 ? 1 : -1];
typedef char rcs956_outcome_time_is_at_8[offsetof(rcs956_outcome, time) == 8 ? 1 : -1];
typedef char rcs956_numbers_has_12_bytes[sizeof(rcs956_numbers) == 12 ? 1 : -1];

/* A session in which no call runs, of a reader that is not open. */
rcs956_session rcs956_fresh(void);

/*
 * Returns what came of the order. The packet's bytes count with RCS956_EVENT_PACKET alone.
 * Refuses at once, in this order: 1 where the session is out of range, the event does not fit or has no such number, 2 where the
 * buffer is short, 3 where the packet is over-long. Other refusals end the call.
 */
rcs956_outcome rcs956_event(rcs956_session *session, uint8_t number, const uint8_t *packet, size_t packet_len, uint8_t *buffer,
                            size_t buffer_len);

/*
 * Makes a call by its number; the functions below name the arguments of each.
 * Refuses at once, in this order: 1 where a call runs, the reader is not open (but for an opening) or the session is out of range,
 * 2 where the buffer is short, then 4, 5, 6 and 3. A number that has no call is 4.
 */
rcs956_outcome rcs956_call(rcs956_session *session, uint8_t number, rcs956_numbers numbers, const uint8_t *first, size_t first_len,
                           const uint8_t *second, size_t second_len, const uint8_t *third, size_t third_len, const uint8_t *fourth,
                           size_t fourth_len, uint8_t *buffer, size_t buffer_len);

/*
 * The calls, by their names in the Rust (chipset.rs, device.rs, discovery.rs). They hand their arguments on and copy nothing. Each names
 * its caller, 0 to 7; one above is refused with 4. `ms` is the command's clock. A bitrate is a text such as 106A or 212F, with no byte
 * 0 behind it. An answer that is not named is empty.
 */

static inline rcs956_numbers rcs956_numbers_of(uint8_t caller, uint32_t ms, uint16_t word, uint8_t x, uint8_t y)
{
    rcs956_numbers numbers = {ms, word, x, y, caller};
    return numbers;
}

/*
 * The opening: `Chipset::new`, then `Device::new`; on an open reader it starts anew. One that fails leaves the reader unopened.
 * Answer: the three version bytes, then the chip's name as text, such as RCS956v1.30. The padded mode is off.
 */
static inline rcs956_outcome rcs956_open(rcs956_session *session, uint8_t caller, uint8_t *buffer, size_t buffer_len)
{
    return rcs956_call(session, RCS956_CALL_OPEN, rcs956_numbers_of(caller, 0, 0, RCS956_MODE_OFF, 0), RCS956_NO_BYTES,
                       RCS956_NO_BYTES, RCS956_NO_BYTES, RCS956_NO_BYTES, buffer, buffer_len);
}

/*
 * The same for a board that pads the start: in this session the engine steps over up to 16 zeros before the start of a packet. A
 * packet has at most 1,024 bytes with them.
 */
static inline rcs956_outcome rcs956_open_padded(rcs956_session *session, uint8_t caller, uint8_t *buffer, size_t buffer_len)
{
    return rcs956_call(session, RCS956_CALL_OPEN, rcs956_numbers_of(caller, 0, 0, RCS956_MODE_PADDED, 0), RCS956_NO_BYTES,
                       RCS956_NO_BYTES, RCS956_NO_BYTES, RCS956_NO_BYTES, buffer, buffer_len);
}

/* `get_firmware_version`. Answer: three bytes. */
static inline rcs956_outcome rcs956_version(rcs956_session *session, uint8_t caller, uint8_t *buffer, size_t buffer_len)
{
    return rcs956_call(session, RCS956_CALL_VERSION, rcs956_numbers_of(caller, 0, 0, 0, 0), RCS956_NO_BYTES, RCS956_NO_BYTES,
                       RCS956_NO_BYTES, RCS956_NO_BYTES, buffer, buffer_len);
}

/* Resets the chip to mode 0. */
static inline rcs956_outcome rcs956_reset_mode(rcs956_session *session, uint8_t caller, uint8_t *buffer, size_t buffer_len)
{
    return rcs956_call(session, RCS956_CALL_RESET_MODE, rcs956_numbers_of(caller, 0, 0, 0, 0), RCS956_NO_BYTES, RCS956_NO_BYTES,
                       RCS956_NO_BYTES, RCS956_NO_BYTES, buffer, buffer_len);
}

static inline rcs956_outcome rcs956_set_parameters(rcs956_session *session, uint8_t caller, uint8_t flags, uint8_t *buffer,
                                                   size_t buffer_len)
{
    return rcs956_call(session, RCS956_CALL_SET_PARAMETERS, rcs956_numbers_of(caller, 0, 0, flags, 0), RCS956_NO_BYTES,
                       RCS956_NO_BYTES, RCS956_NO_BYTES, RCS956_NO_BYTES, buffer, buffer_len);
}

/* At most 511 bytes. */
static inline rcs956_outcome rcs956_rf_configuration(rcs956_session *session, uint8_t caller, uint8_t item, const uint8_t *data,
                                                     size_t data_len, uint8_t *buffer, size_t buffer_len)
{
    return rcs956_call(session, RCS956_CALL_RF_CONFIGURATION, rcs956_numbers_of(caller, 0, 0, item, 0), data, data_len,
                       RCS956_NO_BYTES, RCS956_NO_BYTES, RCS956_NO_BYTES, buffer, buffer_len);
}

/* Two bytes for each address, high byte first; at most 64 addresses. Answer: the values. */
static inline rcs956_outcome rcs956_read_register(rcs956_session *session, uint8_t caller, const uint8_t *addresses,
                                                  size_t addresses_len, uint8_t *buffer, size_t buffer_len)
{
    return rcs956_call(session, RCS956_CALL_READ_REGISTER, rcs956_numbers_of(caller, 0, 0, 0, 0), addresses, addresses_len,
                       RCS956_NO_BYTES, RCS956_NO_BYTES, RCS956_NO_BYTES, buffer, buffer_len);
}

/* Three bytes for each register: its address, high byte first, and the value; at most 64 registers. */
static inline rcs956_outcome rcs956_write_register(rcs956_session *session, uint8_t caller, const uint8_t *registers,
                                                   size_t registers_len, uint8_t *buffer, size_t buffer_len)
{
    return rcs956_call(session, RCS956_CALL_WRITE_REGISTER, rcs956_numbers_of(caller, 0, 0, 0, 0), registers, registers_len,
                       RCS956_NO_BYTES, RCS956_NO_BYTES, RCS956_NO_BYTES, buffer, buffer_len);
}

/* Answer: one byte. */
static inline rcs956_outcome rcs956_read_single_register(rcs956_session *session, uint8_t caller, uint16_t address, uint8_t *buffer,
                                                         size_t buffer_len)
{
    return rcs956_call(session, RCS956_CALL_READ_SINGLE_REGISTER, rcs956_numbers_of(caller, 0, address, 0, 0), RCS956_NO_BYTES,
                       RCS956_NO_BYTES, RCS956_NO_BYTES, RCS956_NO_BYTES, buffer, buffer_len);
}

static inline rcs956_outcome rcs956_write_single_register(rcs956_session *session, uint8_t caller, uint16_t address, uint8_t value,
                                                          uint8_t *buffer, size_t buffer_len)
{
    return rcs956_call(session, RCS956_CALL_WRITE_SINGLE_REGISTER, rcs956_numbers_of(caller, 0, address, value, 0), RCS956_NO_BYTES,
                       RCS956_NO_BYTES, RCS956_NO_BYTES, RCS956_NO_BYTES, buffer, buffer_len);
}

/* `bitrate` is the chip's code; at most 510 bytes. Answer: the target's data, or none. */
static inline rcs956_outcome rcs956_in_list_passive_target(rcs956_session *session, uint8_t caller, uint8_t max_tg, uint8_t bitrate,
                                                           const uint8_t *initiator, size_t initiator_len, uint8_t *buffer,
                                                           size_t buffer_len)
{
    return rcs956_call(session, RCS956_CALL_IN_LIST_PASSIVE_TARGET, rcs956_numbers_of(caller, 0, 0, max_tg, bitrate), initiator,
                       initiator_len, RCS956_NO_BYTES, RCS956_NO_BYTES, RCS956_NO_BYTES, buffer, buffer_len);
}

/* At most 511 bytes. Answer: the bytes, then 01 if more follow, else 00. */
static inline rcs956_outcome rcs956_in_data_exchange(rcs956_session *session, uint8_t caller, const uint8_t *data, size_t data_len,
                                                     uint32_t ms, uint8_t *buffer, size_t buffer_len)
{
    return rcs956_call(session, RCS956_CALL_IN_DATA_EXCHANGE, rcs956_numbers_of(caller, ms, 0, 0, 0), data, data_len,
                       RCS956_NO_BYTES, RCS956_NO_BYTES, RCS956_NO_BYTES, buffer, buffer_len);
}

/* At most 512 bytes. Answer: the bytes. */
static inline rcs956_outcome rcs956_in_communicate_thru(rcs956_session *session, uint8_t caller, const uint8_t *data,
                                                        size_t data_len, uint32_t ms, uint8_t *buffer, size_t buffer_len)
{
    return rcs956_call(session, RCS956_CALL_IN_COMMUNICATE_THRU, rcs956_numbers_of(caller, ms, 0, 0, 0), data, data_len,
                       RCS956_NO_BYTES, RCS956_NO_BYTES, RCS956_NO_BYTES, buffer, buffer_len);
}

/* A part of no bytes is left out; at most 509 bytes in all. Answer: what follows status and target number. */
static inline rcs956_outcome rcs956_in_jump_for_dep(rcs956_session *session, uint8_t caller, bool active, uint8_t br,
                                                    const uint8_t *passive, size_t passive_len, const uint8_t *nfcid3,
                                                    size_t nfcid3_len, const uint8_t *gi, size_t gi_len, uint8_t *buffer,
                                                    size_t buffer_len)
{
    return rcs956_call(session, RCS956_CALL_IN_JUMP_FOR_DEP, rcs956_numbers_of(caller, 0, 0, active ? 1 : 0, br), passive,
                       passive_len, nfcid3, nfcid3_len, gi, gi_len, RCS956_NO_BYTES, buffer, buffer_len);
}

/* Mode 0 or 2, parameters of 6, 18 and 10 bytes, at most 477 general bytes. Answer: the response. */
static inline rcs956_outcome rcs956_tg_init_target(rcs956_session *session, uint8_t caller, uint8_t mode, const uint8_t *mifare,
                                                   size_t mifare_len, const uint8_t *felica, size_t felica_len,
                                                   const uint8_t *nfcid3t, size_t nfcid3t_len, const uint8_t *gt, size_t gt_len,
                                                   uint32_t ms, uint8_t *buffer, size_t buffer_len)
{
    return rcs956_call(session, RCS956_CALL_TG_INIT_TARGET, rcs956_numbers_of(caller, ms, 0, mode, 0), mifare, mifare_len, felica,
                       felica_len, nfcid3t, nfcid3t_len, gt, gt_len, buffer, buffer_len);
}

/* At most 512 bytes. */
static inline rcs956_outcome rcs956_tg_set_general_bytes(rcs956_session *session, uint8_t caller, const uint8_t *data,
                                                         size_t data_len, uint8_t *buffer, size_t buffer_len)
{
    return rcs956_call(session, RCS956_CALL_TG_SET_GENERAL_BYTES, rcs956_numbers_of(caller, 0, 0, 0, 0), data, data_len,
                       RCS956_NO_BYTES, RCS956_NO_BYTES, RCS956_NO_BYTES, buffer, buffer_len);
}

/* Answer: the initiator's bytes, or none. */
static inline rcs956_outcome rcs956_tg_get_initiator_command(rcs956_session *session, uint8_t caller, uint32_t ms, uint8_t *buffer,
                                                             size_t buffer_len)
{
    return rcs956_call(session, RCS956_CALL_TG_GET_INITIATOR_COMMAND, rcs956_numbers_of(caller, ms, 0, 0, 0), RCS956_NO_BYTES,
                       RCS956_NO_BYTES, RCS956_NO_BYTES, RCS956_NO_BYTES, buffer, buffer_len);
}

/* At most 512 bytes. */
static inline rcs956_outcome rcs956_tg_response_to_initiator(rcs956_session *session, uint8_t caller, const uint8_t *data,
                                                             size_t data_len, uint8_t *buffer, size_t buffer_len)
{
    return rcs956_call(session, RCS956_CALL_TG_RESPONSE_TO_INITIATOR, rcs956_numbers_of(caller, 0, 0, 0, 0), data, data_len,
                       RCS956_NO_BYTES, RCS956_NO_BYTES, RCS956_NO_BYTES, buffer, buffer_len);
}

/* Answer: the state, then send and receive rate in kbps, two bytes each, high byte first. */
static inline rcs956_outcome rcs956_tg_get_target_status(rcs956_session *session, uint8_t caller, uint8_t *buffer,
                                                         size_t buffer_len)
{
    return rcs956_call(session, RCS956_CALL_TG_GET_TARGET_STATUS, rcs956_numbers_of(caller, 0, 0, 0, 0), RCS956_NO_BYTES,
                       RCS956_NO_BYTES, RCS956_NO_BYTES, RCS956_NO_BYTES, buffer, buffer_len);
}

static inline rcs956_outcome rcs956_rf_field_off(rcs956_session *session, uint8_t caller, uint8_t *buffer, size_t buffer_len)
{
    return rcs956_call(session, RCS956_CALL_RF_FIELD_OFF, rcs956_numbers_of(caller, 0, 0, 0, 0), RCS956_NO_BYTES, RCS956_NO_BYTES,
                       RCS956_NO_BYTES, RCS956_NO_BYTES, buffer, buffer_len);
}

/*
 * Type A; the UID may have no bytes. Answer: SENS_RES (2), SEL_RES (1) and the UID, or none; of a Type 1 tag, RCS956_DONE_TYPE1,
 * SENS_RES (2) and RID_RES.
 */
static inline rcs956_outcome rcs956_detect_type_a(rcs956_session *session, uint8_t caller, const uint8_t *bitrate,
                                                  size_t bitrate_len, const uint8_t *uid, size_t uid_len, uint8_t *buffer,
                                                  size_t buffer_len)
{
    return rcs956_call(session, RCS956_CALL_DETECT_TYPE_A, rcs956_numbers_of(caller, 0, 0, 0, 0), bitrate, bitrate_len, uid,
                       uid_len, RCS956_NO_BYTES, RCS956_NO_BYTES, buffer, buffer_len);
}

/*
 * Type A in the mode in which UID and ATS are told apart. Answer: the same bytes with RCS956_UID_AND_ATS, and the lengths of the UID (4, 7
 * or 10) and of the ATS behind it (0 where there is none); of a Type 1 tag as without the mode. List data of at least 4 bytes that is
 * no such target's gives RCS956_UID_LAYOUT.
 */
static inline rcs956_outcome rcs956_detect_type_a_split(rcs956_session *session, uint8_t caller, const uint8_t *bitrate,
                                                        size_t bitrate_len, const uint8_t *uid, size_t uid_len, uint8_t *buffer,
                                                        size_t buffer_len)
{
    return rcs956_call(session, RCS956_CALL_DETECT_TYPE_A_SPLIT, rcs956_numbers_of(caller, 0, 0, 0, 0), bitrate, bitrate_len, uid,
                       uid_len, RCS956_NO_BYTES, RCS956_NO_BYTES, buffer, buffer_len);
}

/* Type B; the first byte of SENSB_REQ is the AFI, 0 where there is none. Answer: SENSB_RES, or none. */
static inline rcs956_outcome rcs956_detect_type_b(rcs956_session *session, uint8_t caller, const uint8_t *bitrate,
                                                  size_t bitrate_len, const uint8_t *sensb_req, size_t sensb_req_len,
                                                  uint8_t *buffer, size_t buffer_len)
{
    return rcs956_call(session, RCS956_CALL_DETECT_TYPE_B, rcs956_numbers_of(caller, 0, 0, 0, 0), bitrate, bitrate_len, sensb_req,
                       sensb_req_len, RCS956_NO_BYTES, RCS956_NO_BYTES, buffer, buffer_len);
}

/* Type F. Answer: IDm (8), PMm (8), and what the card adds. No card is refusal 17. */
static inline rcs956_outcome rcs956_detect_type_f(rcs956_session *session, uint8_t caller, const uint8_t *bitrate,
                                                  size_t bitrate_len, uint16_t system_code, uint8_t request_code,
                                                  uint8_t time_slots, uint8_t *buffer, size_t buffer_len)
{
    return rcs956_call(session, RCS956_CALL_DETECT_TYPE_F, rcs956_numbers_of(caller, 0, system_code, request_code, time_slots),
                       bitrate, bitrate_len, RCS956_NO_BYTES, RCS956_NO_BYTES, RCS956_NO_BYTES, buffer, buffer_len);
}

/*
 * Type F for each of 1 to 16 system codes, two bytes each, high byte first, with request code 01 and time slots 00. Answer: for each
 * code 01, IDm (8) and PMm (8), or 00 where no card was met. A refusal of a code's poll but 17 ends the list: RCS956_LIST_REFUSED.
 */
static inline rcs956_outcome rcs956_poll_type_f(rcs956_session *session, uint8_t caller, const uint8_t *bitrate, size_t bitrate_len,
                                                const uint8_t *codes, size_t codes_len, uint8_t *buffer, size_t buffer_len)
{
    return rcs956_call(session, RCS956_CALL_POLL_TYPE_F, rcs956_numbers_of(caller, 0, 0, 0, 0), bitrate, bitrate_len, codes,
                       codes_len, RCS956_NO_BYTES, RCS956_NO_BYTES, buffer, buffer_len);
}

/*
 * Read Without Encryption of JIS X 6319-4: 1 to 4 blocks of one service, a number for each, from the card of this IDm (8 bytes). Without
 * `ms_given` the card has 1,000 ms. Answer: 16 bytes a block, in the order of the numbers. 20 where the card's first status flag is not 0.
 */
static inline rcs956_outcome rcs956_read_without_encryption(rcs956_session *session, uint8_t caller, const uint8_t *idm, size_t idm_len,
                                                            uint16_t service, const uint8_t *blocks, size_t blocks_len, bool ms_given,
                                                            uint16_t ms, uint8_t *buffer, size_t buffer_len)
{
    return rcs956_call(session, RCS956_CALL_READ_WITHOUT_ENCRYPTION, rcs956_numbers_of(caller, ms, service, 0, ms_given), idm, idm_len,
                       blocks, blocks_len, RCS956_NO_BYTES, RCS956_NO_BYTES, buffer, buffer_len);
}

/* Write Without Encryption: the same with 16 bytes of data for each block. */
static inline rcs956_outcome rcs956_write_without_encryption(rcs956_session *session, uint8_t caller, const uint8_t *idm, size_t idm_len,
                                                             uint16_t service, const uint8_t *blocks, size_t blocks_len,
                                                             const uint8_t *data, size_t data_len, bool ms_given, uint16_t ms,
                                                             uint8_t *buffer, size_t buffer_len)
{
    return rcs956_call(session, RCS956_CALL_WRITE_WITHOUT_ENCRYPTION, rcs956_numbers_of(caller, ms, service, 0, ms_given), idm, idm_len,
                       blocks, blocks_len, data, data_len, RCS956_NO_BYTES, buffer, buffer_len);
}

/* A DEP partner; ATR_REQ has 16 to 64 bytes. Answer: ATR_RES, or none. */
static inline rcs956_outcome rcs956_detect_dep(rcs956_session *session, uint8_t caller, const uint8_t *bitrate, size_t bitrate_len,
                                               const uint8_t *atr_req, size_t atr_req_len, uint8_t *buffer, size_t buffer_len)
{
    return rcs956_call(session, RCS956_CALL_DETECT_DEP, rcs956_numbers_of(caller, 0, 0, 0, 0), bitrate, bitrate_len, atr_req,
                       atr_req_len, RCS956_NO_BYTES, RCS956_NO_BYTES, buffer, buffer_len);
}

/*
 * Exchanges bytes with a card that was found. SEL_RES of no bytes is absent; `rid_res` says whether the card had a RID_RES. The
 * clock is `ms` where `has_ms` is true, else 1,000, and 100 more. Answer: the bytes.
 */
static inline rcs956_outcome rcs956_transceive(rcs956_session *session, uint8_t caller, const uint8_t *bitrate, size_t bitrate_len,
                                               const uint8_t *sel_res, size_t sel_res_len, bool rid_res, const uint8_t *data,
                                               size_t data_len, bool has_ms, uint16_t ms, uint8_t *buffer, size_t buffer_len)
{
    return rcs956_call(session, RCS956_CALL_TRANSCEIVE, rcs956_numbers_of(caller, 0, ms, rid_res ? 1 : 0, has_ms ? 1 : 0), bitrate,
                       bitrate_len, sel_res, sel_res_len, data, data_len, RCS956_NO_BYTES, buffer, buffer_len);
}

#ifdef __cplusplus
}
#endif

#endif
