/*
 * A host in C without hardware: reader and chip in one program, each of its own proved archive. What the engine writes goes to the chip, and what the chip
 * sends is read. On a board another `struct transport` stands here, and the calls stay as they are.
 */
#include "rcs956_chip.h"
#include "reader.h"

#include <stdio.h>
#include <string.h>

/* The wire: the chip, and the packets of its last answer that are not read yet. Each call here reads both before it writes again. */
struct wire {
    rcs956_chip chip;
    uint8_t response[RCS956_CHIP_BUFFER_SIZE];
    size_t len; /* of the response, 0 once it is read */
    bool ack;   /* the ACK before it is not read yet */
};

static uint8_t wire_write(void *self, const uint8_t *bytes, size_t len)
{
    struct wire *wire = self;
    rcs956_chip_outcome sent = rcs956_chip_step(&wire->chip, bytes, len, wire->response, sizeof wire->response);
    if (sent.refusal != 0)
        return RCS956_EVENT_BAD;
    if (sent.packet > 0) {
        wire->ack = true;
        wire->len = sent.packet;
    }
    return RCS956_EVENT_OK;
}

/* This chip is never late: what is there is read at once, and where nothing is there nothing will come. */
static uint8_t wire_drain(void *self, bool shared, uint8_t *packet, size_t *len)
{
    struct wire *wire = self;
    (void)shared;
    if (wire->ack) {
        *len = RCS956_CHIP_ACK_SIZE;
        memcpy(packet, RCS956_CHIP_ACK, *len);
        wire->ack = false;
        return RCS956_EVENT_PACKET;
    }
    if (wire->len == 0)
        return RCS956_EVENT_TIME;
    *len = wire->len;
    memcpy(packet, wire->response, *len);
    wire->len = 0;
    return RCS956_EVENT_PACKET;
}

static uint8_t wire_read(void *self, uint32_t ms, bool shared, uint8_t *packet, size_t *len)
{
    (void)ms;
    return wire_drain(self, shared, packet, len);
}

static void wire_sleep(void *self, uint32_t us)
{
    (void)self, (void)us;
}

/* Two arguments: the bytes of a string constant, and how many they are. */
#define BYTES(s) (const uint8_t *)(s), sizeof(s) - 1

/* SENS_RES, SEL_RES, UID with its length; READ of page 4, and its 16 bytes with their CRC_A. */
#define TAG "\x00\x44\x00\x07\x04\xA1\xB2\xC3\xD4\xE5\xF6"
#define READ_PAGE_4 "\x30\x04"
#define PAGE_4 "\x03\x10\xD1\x01\x0C\x55\x01\x65\x78\x61\x6D\x70\x6C\x65\x2E\x63\x3E\x0D"

/* ATQB, and what ATTRIB got. */
#define ATQB "\x50\x11\x22\x33\x44\x00\x00\x00\x00\x00\x81\x81"
#define BADGE ATQB "\x01\x00"

/* SENSF_RES: its length, 01, IDm and PMm; block 00 of service 000B, and the balance in it, 1,234. */
#define IDM "\x10\x11\x12\x13\x14\x15\x16\x17"
#define FELICA "\x12\x01" IDM "\x20\x21\x22\x23\x24\x25\x26\x27"
#define READ_BALANCE "\x10\x06" IDM "\x01\x0B\x00\x01\x80\x00"
#define BALANCE "\x1D\x07" IDM "\x00\x00\x01\xD2\x04\x00\x00\x00\x00\x00\x00\x00\x00\x00\x00\x00\x00\x00\x00"

/* ATR_REQ and what stands in ATR_RES behind D5 01; a DEP_REQ with two bytes of LLCP, and DEP_RES. */
#define ATR_REQ "\xD4\x00\x01\x02\x03\x04\x05\x06\x07\x08\x09\x0A\x00\x00\x00\x00"
#define PARTNER "\x0A\x09\x08\x07\x06\x05\x04\x03\x02\x01\x00\x00\x00\x09\x00"
#define DEP_REQ "\x06\xD4\x06\x00\x00\x00"
#define DEP_RES "\x06\xD5\x07\x00\x00\x00"

/* A card of each kind, three of them with a stated reply. Answers 0, or a refusal's number. */
static int fill_field(rcs956_chip *chip)
{
    int refused = 0;
    *chip = rcs956_chip_fresh();
    refused |= rcs956_chip_add_card(chip, RCS956_CHIP_A, RCS956_CHIP_106A, BYTES(TAG), RCS956_CHIP_NO_BYTES).refusal;
    refused |= rcs956_chip_add_reply(chip, BYTES(READ_PAGE_4), BYTES(PAGE_4)).refusal;
    refused |= rcs956_chip_add_card(chip, RCS956_CHIP_B, RCS956_CHIP_106B, BYTES(BADGE), BYTES(ATQB)).refusal;
    refused |= rcs956_chip_add_card(chip, RCS956_CHIP_F, RCS956_CHIP_212F, BYTES(FELICA), RCS956_CHIP_NO_BYTES).refusal;
    refused |= rcs956_chip_add_reply(chip, BYTES(READ_BALANCE), BYTES(BALANCE)).refusal;
    refused |= rcs956_chip_add_card(chip, RCS956_CHIP_DEP, RCS956_CHIP_106A, BYTES(PARTNER), RCS956_CHIP_NO_BYTES).refusal;
    refused |= rcs956_chip_add_reply(chip, BYTES(DEP_REQ), BYTES(DEP_RES)).refusal;
    return refused;
}

/* The one application that uses this reader, and the reader's buffer as two arguments. */
#define CALLER 0
#define BUFFER reader.buffer, sizeof reader.buffer

int main(void)
{
    static struct wire wire;
    static struct reader reader;
    struct transport transport = {&wire, wire_write, wire_read, wire_drain, wire_sleep};
    rcs956_session *session = &reader.session;
    if (fill_field(&wire.chip) != 0)
        return 1;
    reader.session = rcs956_fresh();
    run_call(&reader, rcs956_open(session, CALLER, BUFFER), &transport);

    /* Type A. The answer is SENS_RES, SEL_RES and the UID: SEL_RES tells transceive that it is a Type 2 tag. */
    run_call(&reader, rcs956_detect_type_a(session, CALLER, BYTES("106A"), RCS956_NO_BYTES, BUFFER), &transport);
    uint8_t sel_res = reader.buffer[2];
    run_call(&reader, rcs956_transceive(session, CALLER, BYTES("106A"), &sel_res, 1, false, BYTES(READ_PAGE_4), false, 0, BUFFER), &transport);

    run_call(&reader, rcs956_detect_type_b(session, CALLER, BYTES("106B"), RCS956_NO_BYTES, BUFFER), &transport);

    /* Type F: none at 424F, one at 212F. The answer begins with the IDm; then its balance, low byte first. */
    run_call(&reader, rcs956_detect_type_f(session, CALLER, BYTES("424F"), 0xFFFF, 0, 0, BUFFER), &transport);
    run_call(&reader, rcs956_detect_type_f(session, CALLER, BYTES("212F"), 0xFFFF, 0, 0, BUFFER), &transport);
    uint8_t idm[8];
    memcpy(idm, reader.buffer, sizeof idm);
    rcs956_outcome end = run_call(&reader, rcs956_read_without_encryption(session, CALLER, idm, sizeof idm, 0x000B, BYTES("\x00"), false, 0, BUFFER), &transport);
    if (end.kind == RCS956_DONE)
        fprintf(stderr, "balance %d\n", reader.buffer[0] + 256 * reader.buffer[1]);

    run_call(&reader, rcs956_detect_dep(session, CALLER, BYTES("106A"), BYTES(ATR_REQ), BUFFER), &transport);
    run_call(&reader, rcs956_transceive(session, CALLER, BYTES("106A"), RCS956_NO_BYTES, false, BYTES(DEP_REQ), false, 0, BUFFER), &transport);
    return 0;
}
