/* The loop of a reader, and the bench lines that it prints. */
#include "reader.h"

#include <stdio.h>

static void print_bytes(const char *word, const uint8_t *bytes, size_t len, const char *mark)
{
    printf(len > 0 ? "%s " : "%s", word);
    for (size_t k = 0; k < len; k++)
        printf("%02X", bytes[k]);
    puts(mark);
}

/* Prints an outcome as its bench line. */
static void print_line(rcs956_outcome outcome, const uint8_t *buffer)
{
    char lengths[24];
    switch (outcome.kind) {
    case RCS956_WRITE: print_bytes("write", buffer, outcome.len, ""); break;
    case RCS956_READ: printf("read %lu\n", (unsigned long)outcome.time); break;
    case RCS956_DRAIN: puts("drain"); break;
    case RCS956_PAUSE: printf("pause %lu\n", (unsigned long)outcome.time); break;
    case RCS956_DONE: print_bytes("done", buffer, outcome.len, ""); break;
    case RCS956_DONE_TYPE1: print_bytes("done", buffer, outcome.len, " type1"); break;
    case RCS956_UID_AND_ATS:
        snprintf(lengths, sizeof lengths, " uid %d ats %d", outcome.uid, outcome.ats);
        print_bytes("done", buffer, outcome.len, lengths);
        break;
    case RCS956_NONE: puts("none"); break;
    default:
        printf("refused %d", outcome.refusal);
        if (outcome.refusal == RCS956_STATUS)
            printf(" %02X", outcome.status);
        if (outcome.refusal == RCS956_CARD_STATUS)
            printf(" %02X%02X", outcome.status, outcome.status2);
        if (outcome.kind == RCS956_LIST_REFUSED)
            printf(" finished %d", outcome.finished);
        putchar('\n');
    }
}

rcs956_outcome run_call(struct reader *reader, rcs956_outcome outcome, const struct transport *t)
{
    uint8_t packet[RCS956_BUFFER_SIZE];
    unsigned reads = 0, drains = 0; /* since the last write */
    bool framed = false;            /* the last write was a command's frame, not an ACK */
    for (;;) {
        uint8_t event;
        size_t len = 0;
        print_line(outcome, reader->buffer);
        switch (outcome.kind) {
        case RCS956_WRITE:
            framed = outcome.len > 6;
            reads = drains = 0;
            event = t->write(t->self, reader->buffer, outcome.len);
            break;
        case RCS956_READ:
            event = t->read(t->self, outcome.time, framed && reads >= 2, packet, &len);
            reads += reads < 2;
            break;
        case RCS956_DRAIN:
            event = t->drain(t->self, drains >= 1, packet, &len);
            drains = 1;
            break;
        case RCS956_PAUSE:
            t->sleep(t->self, outcome.time);
            event = RCS956_EVENT_SLEPT;
            break;
        default:
            return outcome;
        }
        outcome = rcs956_event(&reader->session, event, packet, len, reader->buffer, sizeof reader->buffer);
    }
}
