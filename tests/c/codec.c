/* Calls each function of rcs956_codec.h on vectors of document 01, the PN532 user manual and ISO/IEC 14443-3. */
#include "rcs956_codec.h"

#include <stdio.h>
#include <string.h>

static int wrong;

static void expect(bool right, const char *what)
{
    if (!right) {
        printf("wrong: %s\n", what);
        wrong = 1;
    }
}

/* The payload's frame is as given, in a buffer just long enough; in one that is a byte shorter it is refused. */
static void builds(uint8_t setting, const uint8_t *payload, size_t len, const uint8_t *frame, size_t frame_len, const char *what)
{
    uint8_t buffer[32], before[32];
    size_t count = 77;
    memset(buffer, 0xEE, sizeof buffer);
    memset(before, 0xEE, sizeof before);
    expect(rcs956_frame_build(setting, payload, len, buffer, frame_len - 1, &count) == RCS956_SHORT_BUFFER, what);
    expect(count == 77 && memcmp(buffer, before, sizeof buffer) == 0, what);
    expect(rcs956_frame_build(setting, payload, len, buffer, frame_len, &count) == 0 && count == frame_len, what);
    expect(memcmp(buffer, frame, frame_len) == 0, what);
    expect(memcmp(buffer + frame_len, before, sizeof buffer - frame_len) == 0, what);
}

static void parses(uint8_t setting, const uint8_t *packet, size_t packet_len, uint8_t kind, size_t start, size_t len, size_t frame,
                   const char *what)
{
    uint8_t k = 77;
    size_t s = 77, l = 77, f = 77;
    expect(rcs956_frame_parse(setting, packet, packet_len, &k, &s, &l, &f) == 0, what);
    expect(k == kind && s == start && l == len && f == frame, what);
}

/* As `parses`, of the packet behind so many zeros; above 16 there is no frame. */
static void parses_padded(uint8_t setting, const uint8_t *packet, size_t packet_len, uint8_t kind, size_t start, size_t len,
                          size_t frame, const char *what)
{
    static const size_t counts[] = {0, 1, 16, 17, 18};
    for (size_t i = 0; i < sizeof counts / sizeof counts[0]; i++) {
        uint8_t padded[64] = {0}, k = 77;
        size_t n = counts[i], s = 77, l = 77, f = 77, z = 77;
        bool none = n > 16 || kind == RCS956_NO_FRAME;
        memcpy(padded + n, packet, packet_len);
        expect(rcs956_frame_parse_padded(setting, padded, n + packet_len, &k, &s, &l, &f, &z) == 0, what);
        expect(z == (n > 16 ? 0 : n), what);
        expect(none ? k == RCS956_NO_FRAME && s == 0 && l == 0 && f == 0 : k == kind && l == len && f == frame, what);
        expect(none || s == (kind == RCS956_DATA ? start + n : 0), what);
    }
}

static void appends(const uint8_t *bytes, size_t len, uint8_t low, uint8_t high, const char *what)
{
    uint8_t out[16];
    size_t count = 77;
    memset(out, 0xEE, sizeof out);
    expect(rcs956_crc_b_append(bytes, len, out, len + 1, &count) == RCS956_SHORT_BUFFER && count == 77 && out[0] == 0xEE, what);
    expect(rcs956_crc_b_append(bytes, len, out, sizeof out, &count) == 0 && count == len + 2, what);
    expect(memcmp(out, bytes, len) == 0 && out[len] == low && out[len + 1] == high && out[len + 2] == 0xEE, what);
    expect(rcs956_crc_b_check(out, len + 2), what);
    out[0] ^= 1;
    expect(!rcs956_crc_b_check(out, len + 2), what);
}

static void frames(void)
{
    static const uint8_t version[] = {0xD4, 0x02};
    static const uint8_t version_frame[] = {0x00, 0x00, 0xFF, 0x02, 0xFE, 0xD4, 0x02, 0x2A, 0x00};
    static const uint8_t answer[] = {0x00, 0x00, 0xFF, 0x06, 0xFA, 0xD5, 0x03, 0x32, 0x01, 0x06, 0x07, 0xE8, 0x00, 0x55};
    static const uint8_t empty_frame[] = {0x00, 0x00, 0xFF, 0x00, 0x00, 0x00, 0x00};
    static const uint8_t empty_little[] = {0x00, 0x00, 0xFF, 0xFF, 0xFF, 0x00, 0x00, 0x00, 0x00, 0x00};
    static const uint8_t ack[] = {0x00, 0x00, 0xFF, 0x00, 0xFF, 0x00, 0x00};
    static const uint8_t error[] = {0x00, 0x00, 0xFF, 0xFF, 0xFF, 0x00};
    static const uint8_t status[] = {0x00, 0x00, 0xFF, 0x01, 0xFF, 0x7F, 0x81, 0x00};

    builds(RCS956_NORMAL_ERROR_FRAME, version, 2, version_frame, 9, "Normal, D4 02");
    builds(RCS956_BIG_ENDIAN_ERROR_FRAME, version, 2, version_frame, 9, "big-endian, D4 02");
    builds(RCS956_NORMAL_ERROR_FRAME, version, 0, empty_frame, 7, "Normal, empty");
    builds(RCS956_LITTLE_ENDIAN_ERROR_FRAME, version, 0, empty_little, 10, "little-endian, empty");

    parses(RCS956_BIG_ENDIAN_ERROR_FRAME, answer, sizeof answer, RCS956_DATA, 5, 6, 13, "an answer and a byte more");
    parses(RCS956_BIG_ENDIAN_ERROR_FRAME, ack, 6, RCS956_ACK, 0, 0, 6, "ACK");
    parses(RCS956_BIG_ENDIAN_ERROR_FRAME, ack, 7, RCS956_NO_FRAME, 0, 0, 0, "ACK and one 00 more");
    parses(RCS956_BIG_ENDIAN_ERROR_FRAME, error, 6, RCS956_ERROR, 0, 0, 6, "the error frame");
    parses(RCS956_BIG_ENDIAN_ERROR_FRAME, status, 8, RCS956_DATA, 5, 1, 8, "7F under ErrorFrame");
    parses(RCS956_BIG_ENDIAN_STATUS_BYTE, status, 8, RCS956_ERROR, 0, 0, 8, "7F under StatusByte");
    parses(RCS956_LITTLE_ENDIAN_ERROR_FRAME, empty_little, 10, RCS956_DATA, 8, 0, 10, "little-endian, empty");
    parses(RCS956_NORMAL_ERROR_FRAME, answer, 0, RCS956_NO_FRAME, 0, 0, 0, "no bytes");

    parses_padded(RCS956_BIG_ENDIAN_ERROR_FRAME, answer, sizeof answer, RCS956_DATA, 5, 6, 13, "padded answer and a byte more");
    parses_padded(RCS956_BIG_ENDIAN_ERROR_FRAME, ack, 6, RCS956_ACK, 0, 0, 6, "padded ACK");
    parses_padded(RCS956_BIG_ENDIAN_ERROR_FRAME, ack, 7, RCS956_NO_FRAME, 0, 0, 0, "padded ACK and one 00 more");
    parses_padded(RCS956_BIG_ENDIAN_ERROR_FRAME, error, 6, RCS956_ERROR, 0, 0, 6, "padded error frame");
    parses_padded(RCS956_BIG_ENDIAN_STATUS_BYTE, status, 8, RCS956_ERROR, 0, 0, 8, "padded 7F under StatusByte");
    parses_padded(RCS956_LITTLE_ENDIAN_ERROR_FRAME, empty_little, 10, RCS956_DATA, 8, 0, 10, "padded little-endian, empty");
}

/* The longest normal frame and the shortest extended one; each parses back. */
static void long_frames(void)
{
    static const uint8_t normal[] = {0x00, 0x00, 0xFF, 0xFF, 0x01};
    static const uint8_t extended[] = {0x00, 0x00, 0xFF, 0xFF, 0xFF, 0x01, 0x00, 0xFF};
    static uint8_t payload[256], buffer[300];
    size_t count;
    memset(payload, 0x2A, sizeof payload);
    expect(rcs956_frame_build(RCS956_BIG_ENDIAN_ERROR_FRAME, payload, 255, buffer, sizeof buffer, &count) == 0, "255 bytes");
    expect(count == 262 && memcmp(buffer, normal, sizeof normal) == 0, "255 bytes");
    parses(RCS956_BIG_ENDIAN_ERROR_FRAME, buffer, count, RCS956_DATA, 5, 255, 262, "255 bytes");
    expect(rcs956_frame_build(RCS956_BIG_ENDIAN_ERROR_FRAME, payload, 256, buffer, sizeof buffer, &count) == 0, "256 bytes");
    expect(count == 266 && memcmp(buffer, extended, sizeof extended) == 0, "256 bytes");
    parses(RCS956_BIG_ENDIAN_ERROR_FRAME, buffer, count, RCS956_DATA, 8, 256, 266, "256 bytes");
    expect(rcs956_frame_build(RCS956_NORMAL_ERROR_FRAME, payload, 256, buffer, 0, &count) == RCS956_OVER_LONG, "3 before 2");
}

static void no_setting(void)
{
    static const uint8_t packet[] = {0x00, 0x00, 0xFF, 0x00, 0xFF, 0x00};
    uint8_t buffer[8] = {0}, kind = 77;
    size_t count = 77, start = 77, len = 77, frame = 77, zeros = 77;
    expect(rcs956_frame_build(6, packet, 0, buffer, sizeof buffer, &count) == RCS956_BAD_ARGUMENT, "setting 6");
    expect(count == 77 && buffer[2] == 0, "setting 6");
    expect(rcs956_frame_parse(255, packet, sizeof packet, &kind, &start, &len, &frame) == RCS956_BAD_ARGUMENT, "setting 255");
    expect(kind == 77 && start == 77 && len == 77 && frame == 77, "setting 255");
    expect(rcs956_frame_parse_padded(6, packet, sizeof packet, &kind, &start, &len, &frame, &zeros) == RCS956_BAD_ARGUMENT,
           "setting 6, padded");
    expect(kind == 77 && start == 77 && len == 77 && frame == 77 && zeros == 77, "setting 6, padded");
}

static void checksums(void)
{
    static const uint8_t version[] = {0xD4, 0x02};
    static const uint8_t a1[] = {0x00, 0x00, 0xA0, 0x1E}, a2[] = {0x12, 0x34, 0x26, 0xCF};
    static const uint8_t b1[] = {0x00, 0x00, 0x00}, b2[] = {0x0F, 0xAA, 0xFF}, b3[] = {0x0A, 0x12, 0x34, 0x56};
    expect(rcs956_checksum(version, 0) == 0x00, "checksum of no bytes");
    expect(rcs956_checksum(version, 2) == 0x2A, "checksum of D4 02");
    expect(rcs956_crc_a_check(a1, 4), "CRC_A of 00 00");
    expect(rcs956_crc_a_check(a2, 4), "CRC_A of 12 34");
    expect(!rcs956_crc_a_check(a1, 3) && !rcs956_crc_a_check(a1, 1) && !rcs956_crc_a_check(a1, 0), "CRC_A of a part");
    expect(!rcs956_crc_b_check(a1, 4) && !rcs956_crc_b_check(a1, 1), "CRC_B of another");
    appends(b1, 3, 0xCC, 0xC6, "CRC_B of 00 00 00");
    appends(b2, 3, 0xFC, 0xD1, "CRC_B of 0F AA FF");
    appends(b3, 4, 0x2C, 0xF6, "CRC_B of 0A 12 34 56");
}

int main(void)
{
    frames();
    long_frames();
    no_setting();
    checksums();
    if (!wrong)
        puts("all as expected");
    return wrong;
}
