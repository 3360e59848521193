/*
 * Whether each call of include/rcs956.h hands its arguments on to the right places: rcs956_call is replaced by one that keeps them.
 * An argument of bytes is told by its address, so that a copy would be found. Compiles as C and as C++.
 */
#include "rcs956.h"

#include <stdio.h>
#include <string.h>

/* Arguments of 1 to 4 bytes, the session and the buffer. */
static uint8_t a[1], b[2], c[3], d[4], buffer[RCS956_BUFFER_SIZE];
static rcs956_session session;

/* What rcs956_call got. */
struct got {
    unsigned long number, ms, word, x, y, caller, lens[4];
    const uint8_t *bytes[4];
};
static struct got got;
static int calls, wrong;

rcs956_outcome rcs956_call(rcs956_session *s, uint8_t number, rcs956_numbers n, const uint8_t *first, size_t first_len,
                           const uint8_t *second, size_t second_len, const uint8_t *third, size_t third_len, const uint8_t *fourth,
                           size_t fourth_len, uint8_t *buf, size_t buf_len)
{
    struct got now = {number, n.ms, n.word, n.x, n.y, n.caller, {first_len, second_len, third_len, fourth_len},
                      {first, second, third, fourth}};
    rcs956_outcome none = {RCS956_NONE, 0, 0, 0, 0, 0, 0, 0, 0};
    got = now;
    if (s != &session || buf != buffer || buf_len != sizeof buffer)
        printf("wrong: session or buffer of call %d\n", number), wrong = 1;
    return none;
}

/* The caller of each call. */
#define CALLER 7

/* Compares with what is due. `count` arguments of bytes are a, b, c, d in this order. */
static void expect(rcs956_outcome outcome, unsigned long ms, unsigned long word, unsigned long x, unsigned long y, size_t count)
{
    const uint8_t *bytes[4] = {a, b, c, d};
    int right = outcome.kind == RCS956_NONE && got.number == (unsigned long)calls && got.ms == ms && got.word == word &&
                got.x == x && got.y == y && got.caller == CALLER;
    for (size_t k = 0; k < 4; k++)
        right = right && (k < count ? got.bytes[k] == bytes[k] && got.lens[k] == k + 1 : got.bytes[k] != NULL && got.lens[k] == 0);
    if (!right)
        printf("wrong: call %d\n", calls), wrong = 1;
    calls++;
}

#define END buffer, sizeof buffer

int main(void)
{
    rcs956_session *s = &session;
    expect(rcs956_open_padded(s, CALLER, END), 0, 0, 1, 0, 0);
    calls = 0; /* the same call in its other mode */
    expect(rcs956_open(s, CALLER, END), 0, 0, 0, 0, 0);
    expect(rcs956_version(s, CALLER, END), 0, 0, 0, 0, 0);
    expect(rcs956_reset_mode(s, CALLER, END), 0, 0, 0, 0, 0);
    expect(rcs956_set_parameters(s, CALLER, 5, END), 0, 0, 5, 0, 0);
    expect(rcs956_rf_configuration(s, CALLER, 5, a, 1, END), 0, 0, 5, 0, 1);
    expect(rcs956_read_register(s, CALLER, a, 1, END), 0, 0, 0, 0, 1);
    expect(rcs956_write_register(s, CALLER, a, 1, END), 0, 0, 0, 0, 1);
    expect(rcs956_read_single_register(s, CALLER, 60000, END), 0, 60000, 0, 0, 0);
    expect(rcs956_write_single_register(s, CALLER, 60000, 5, END), 0, 60000, 5, 0, 0);
    expect(rcs956_in_list_passive_target(s, CALLER, 5, 6, a, 1, END), 0, 0, 5, 6, 1);
    expect(rcs956_in_data_exchange(s, CALLER, a, 1, 4294967295, END), 4294967295, 0, 0, 0, 1);
    expect(rcs956_in_communicate_thru(s, CALLER, a, 1, 4294967295, END), 4294967295, 0, 0, 0, 1);
    expect(rcs956_in_jump_for_dep(s, CALLER, true, 6, a, 1, b, 2, c, 3, END), 0, 0, 1, 6, 3);
    expect(rcs956_tg_init_target(s, CALLER, 2, a, 1, b, 2, c, 3, d, 4, 4294967295, END), 4294967295, 0, 2, 0, 4);
    expect(rcs956_tg_set_general_bytes(s, CALLER, a, 1, END), 0, 0, 0, 0, 1);
    expect(rcs956_tg_get_initiator_command(s, CALLER, 4294967295, END), 4294967295, 0, 0, 0, 0);
    expect(rcs956_tg_response_to_initiator(s, CALLER, a, 1, END), 0, 0, 0, 0, 1);
    expect(rcs956_tg_get_target_status(s, CALLER, END), 0, 0, 0, 0, 0);
    expect(rcs956_rf_field_off(s, CALLER, END), 0, 0, 0, 0, 0);
    expect(rcs956_detect_type_a(s, CALLER, a, 1, b, 2, END), 0, 0, 0, 0, 2);
    expect(rcs956_detect_type_b(s, CALLER, a, 1, b, 2, END), 0, 0, 0, 0, 2);
    expect(rcs956_detect_type_f(s, CALLER, a, 1, 60000, 5, 6, END), 0, 60000, 5, 6, 1);
    expect(rcs956_detect_dep(s, CALLER, a, 1, b, 2, END), 0, 0, 0, 0, 2);
    expect(rcs956_transceive(s, CALLER, a, 1, b, 2, true, c, 3, true, 60000, END), 0, 60000, 1, 1, 3);
    expect(rcs956_poll_type_f(s, CALLER, a, 1, b, 2, END), 0, 0, 0, 0, 2);
    expect(rcs956_detect_type_a_split(s, CALLER, a, 1, b, 2, END), 0, 0, 0, 0, 2);
    expect(rcs956_read_without_encryption(s, CALLER, a, 1, 60000, b, 2, true, 65535, END), 65535, 60000, 0, 1, 2);
    expect(rcs956_write_without_encryption(s, CALLER, a, 1, 60000, b, 2, c, 3, true, 65535, END), 65535, 60000, 0, 1, 3);
    printf("header: %d calls, %s\n", calls, wrong ? "some wrong" : "all right");
    return wrong;
}
