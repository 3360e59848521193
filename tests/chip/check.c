/* The C functions of the chip: layout, a few commands, that a refusal changes no byte, and any memory as a chip. */
#include <assert.h>
#include <stdio.h>
#include <stdlib.h>
#include <string.h>

#include "rcs956_chip.h"

static rcs956_chip chip, before;
static uint8_t buffer[RCS956_CHIP_BUFFER_SIZE];
static const uint8_t bytes[1012] = {1, 2, 3, 4, 5, 6, 7, 8, 9, 10, 0x81};

/* A frame of D4, the code and the data, at most 250 bytes. */
static size_t frame(uint8_t *f, uint8_t code, const uint8_t *data, size_t n) {
    uint8_t sum = (uint8_t)(0xD4 + code);
    memcpy(f, "\x00\x00\xFF", 3);
    f[3] = (uint8_t)(n + 2), f[4] = (uint8_t)(0x100 - f[3]), f[5] = 0xD4, f[6] = code;
    for (size_t i = 0; i < n; i++) f[7 + i] = data[i], sum = (uint8_t)(sum + data[i]);
    f[7 + n] = (uint8_t)(0x100 - sum), f[8 + n] = 0;
    return n + 9;
}

/* The length of the packet that a command gets. */
static size_t command(uint8_t code, const void *data, size_t n) {
    uint8_t f[300];
    rcs956_chip_outcome o = rcs956_chip_step(&chip, f, frame(f, code, data, n), buffer, sizeof buffer);
    assert(o.refusal == 0 && o.packet > 0 && memcmp(buffer, "\x00\x00\xFF", 3) == 0);
    return o.packet;
}

static void unchanged(rcs956_chip_outcome o, uint8_t refusal) {
    assert(o.refusal == refusal && o.packet == 0 && memcmp(&before, &chip, sizeof chip) == 0);
}

static void refusals(void) {
    chip = rcs956_chip_fresh();
    memset(&before, 0, sizeof before);
    assert(memcmp(&before, &chip, sizeof chip) == 0);
    unchanged(rcs956_chip_add_reply(&chip, bytes, 1, bytes, 1), RCS956_CHIP_BAD_ARGUMENT);
    unchanged(rcs956_chip_add_card(&chip, RCS956_CHIP_A, RCS956_CHIP_106A, bytes, 3, bytes, 0), RCS956_CHIP_BAD_ARGUMENT);
    unchanged(rcs956_chip_add_card(&chip, 4, RCS956_CHIP_106A, bytes, 20, bytes, 0), RCS956_CHIP_BAD_ARGUMENT);
    unchanged(rcs956_chip_add_card(&chip, RCS956_CHIP_F, RCS956_CHIP_106A, bytes, 20, bytes, 0), RCS956_CHIP_BAD_ARGUMENT);
    unchanged(rcs956_chip_add_card(&chip, RCS956_CHIP_A, 6, bytes, 20, bytes, 0), RCS956_CHIP_BAD_ARGUMENT);
    unchanged(rcs956_chip_add_card(&chip, RCS956_CHIP_A, 0, bytes, 1011, bytes, 0), RCS956_CHIP_OVER_LONG);
    unchanged(rcs956_chip_add_card(&chip, RCS956_CHIP_B, RCS956_CHIP_106B, bytes, 11, bytes, 1012), RCS956_CHIP_OVER_LONG);
    unchanged(rcs956_chip_add_card(&chip, RCS956_CHIP_B, RCS956_CHIP_106B, bytes + 1, 11, bytes, 1012), RCS956_CHIP_BAD_ARGUMENT);
    unchanged(rcs956_chip_step(&chip, bytes, 5, buffer, 1023), RCS956_CHIP_SHORT_BUFFER);
    unchanged(rcs956_chip_step(&chip, bytes, 5, buffer, 1024), 0);
    unchanged(rcs956_chip_step(&chip, RCS956_CHIP_ACK, RCS956_CHIP_ACK_SIZE, buffer, 1024), 0);
    chip.state.count = 5, before.state.count = 5;
    unchanged(rcs956_chip_step(&chip, bytes, 5, buffer, 1023), RCS956_CHIP_SHORT_BUFFER);
    unchanged(rcs956_chip_step(&chip, bytes, 5, buffer, 1024), RCS956_CHIP_OUT_OF_RANGE);
    unchanged(rcs956_chip_add_card(&chip, RCS956_CHIP_A, 9, bytes, 3, bytes, 0), RCS956_CHIP_OUT_OF_RANGE);
    unchanged(rcs956_chip_add_reply(&chip, bytes, 513, bytes, 1), RCS956_CHIP_OUT_OF_RANGE);
}

static void answers(void) {
    chip = rcs956_chip_fresh();
    assert(rcs956_chip_add_card(&chip, RCS956_CHIP_B, RCS956_CHIP_106B, bytes, 11, bytes + 2, 1000).refusal == 0);
    assert(rcs956_chip_add_reply(&chip, bytes, 512, bytes, 1011).refusal == 0 && chip.state.count == 1);
    before = chip;
    unchanged(rcs956_chip_add_reply(&chip, (const uint8_t *)"\5\0\10", 3, bytes, 1), RCS956_CHIP_BAD_ARGUMENT);
    unchanged(rcs956_chip_add_reply(&chip, bytes, 513, bytes, 1), RCS956_CHIP_OVER_LONG);
    assert(command(0x02, "", 0) == 13 && memcmp(buffer + 5, "\xD5\x03\x33\x01\x30\x07", 6) == 0);
    assert(command(0x4A, "\1\3\0", 3) == 7 + 15 && memcmp(buffer + 5, "\xD5\x4B\1\1", 4) == 0 && memcmp(buffer + 9, bytes, 11) == 0);
    assert(chip.state.found == 1 && chip.state.on == 1);
    assert(command(0x42, "\5\0\10", 3) == 10 + 1003 && memcmp(buffer + 8, "\xD5\x43\0", 3) == 0 && memcmp(buffer + 11, bytes + 2, 1000) == 0);
    assert(command(0x42, "\5\0\11", 3) == 10 && memcmp(buffer + 5, "\xD5\x43\1", 3) == 0);
    assert(command(0x99, "", 0) == 8 && buffer[5] == 0x7F);
}

/* Memory of any bytes, and chips with a byte changed: served, or 1 and unchanged. */
static void memory(int times) {
    int ones = 0, served = 0;
    uint8_t f[300];
    for (int t = 0; t < times; t++) {
        chip = rcs956_chip_fresh();
        if (t % 8 == 0) {
            for (size_t i = 0; i < sizeof chip; i++) ((uint8_t *)&chip)[i] = (uint8_t)rand();
        } else {
            rcs956_chip_add_card(&chip, RCS956_CHIP_A, RCS956_CHIP_106A, bytes, 20, bytes, 0);
            rcs956_chip_add_reply(&chip, bytes, 2, bytes, 2);
            for (int k = rand() % 3; k >= 0; k--) ((uint8_t *)&chip)[rand() % 2 ? 59032 + rand() % 3 : rand() % 2 ? rand() % 6 : rand() % 59032] = (uint8_t)(rand() % (rand() % 2 ? 4 : 256));
        }
        before = chip;
        size_t n = frame(f, (uint8_t)("\x4A\x42\x56\x40\x06"[rand() % 5]), (const uint8_t *)"\1\0\1\2\3", (size_t)(rand() % 6));
        rcs956_chip_outcome o = rcs956_chip_step(&chip, f, n, buffer, sizeof buffer);
        if (o.refusal) {
            unchanged(o, RCS956_CHIP_OUT_OF_RANGE);
            ones++;
        } else {
            assert(o.packet >= 8 && o.packet <= sizeof buffer && memcmp(&before, &chip, offsetof(rcs956_chip, state)) == 0);
            served++;
        }
    }
    assert(ones > 0 && served > 0);
    printf("%d chips of any bytes: %d served, %d out of range\n", times, served, ones);
}

int main(void) {
    assert(sizeof(rcs956_chip) == 59035 && offsetof(rcs956_chip, state) == 59032 && sizeof(rcs956_chip_outcome) == 16);
    refusals();
    answers();
    memory(20000);
    puts("chip: as expected");
    return 0;
}
