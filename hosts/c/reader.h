/*
 * A reader as a host runs it: its session, and the loop that carries out a call's orders over a transport. Each outcome is printed as a bench line.
 *
 * Another transport is another `struct transport`; run_call stays as it is. host.c has one that takes its events from a script, with_chip.c one
 * with a chip at its other end.
 */
#ifndef READER_H
#define READER_H

#include "rcs956.h"

/*
 * What a host brings along; write, read and drain answer the event. A read waits up to `ms` for a packet of at most
 * RCS956_BUFFER_SIZE bytes, a drain up to 50. With `shared` it waits for what is left of the time that began with the last read or
 * drain without it; RCS956_EVENT_LATE where nothing is left.
 */
struct transport {
    void *self;
    uint8_t (*write)(void *self, const uint8_t *bytes, size_t len);
    uint8_t (*read)(void *self, uint32_t ms, bool shared, uint8_t *packet, size_t *len);
    uint8_t (*drain)(void *self, bool shared, uint8_t *packet, size_t *len);
    void (*sleep)(void *self, uint32_t us);
};

/* One reader: its session and the buffer for orders and answers. */
struct reader {
    rcs956_session session;
    uint8_t buffer[RCS956_BUFFER_SIZE];
};

/* Carries out a call's orders, from its first outcome to its end, which it answers. */
rcs956_outcome run_call(struct reader *reader, rcs956_outcome outcome, const struct transport *t);

#endif
