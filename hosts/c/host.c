/*
 * A host in C over a script: `host SCRIPT`. Its transport takes the events from a file of bench lines; the script is that of the program
 * `session`, and so is what is printed.
 */
#include "reader.h"

#include <stdio.h>
#include <stdlib.h>
#include <string.h>

/* The scripted transport: a file of bench lines. A line that does not fit ends the program. */
struct script {
    FILE *file;
    char line[4096];
};

static void script_stop(const char *due, const char *line)
{
    fflush(stdout);
    fprintf(stderr, "script: %s is due, and there is: %s\n", due, line);
    exit(2);
}

/* The next line, without its line feed. */
static const char *script_next(struct script *script, const char *due)
{
    if (fgets(script->line, sizeof script->line, script->file) == NULL)
        script_stop(due, "nothing");
    script->line[strcspn(script->line, "\n")] = 0;
    return script->line;
}

static void script_take(struct script *script, const char *due)
{
    if (strcmp(script_next(script, due), due) != 0)
        script_stop(due, script->line);
}

static uint8_t script_write(void *self, const uint8_t *bytes, size_t len)
{
    const char *line = script_next(self, "ok or bad");
    (void)bytes, (void)len;
    if (strcmp(line, "ok") == 0)
        return RCS956_EVENT_OK;
    if (strcmp(line, "bad") != 0)
        script_stop("ok or bad", line);
    return RCS956_EVENT_BAD;
}

/* The bytes of pairs of hex digits. */
static size_t script_bytes(const char *line, const char *hex, uint8_t *packet)
{
    size_t n = strspn(hex, "0123456789ABCDEFabcdef") / 2;
    if (hex[2 * n] != 0 || n > RCS956_BUFFER_SIZE)
        script_stop("pkt with hex", line);
    for (size_t k = 0; k < n; k++) {
        char pair[3] = {hex[2 * k], hex[2 * k + 1], 0};
        packet[k] = (uint8_t)strtoul(pair, NULL, 16);
    }
    return n;
}

static uint8_t script_drain(void *self, bool shared, uint8_t *packet, size_t *len)
{
    const char *line = script_next(self, "pkt, time, fail or late");
    if (strncmp(line, "pkt ", 4) == 0) {
        *len = strcmp(line + 4, "-") == 0 ? 0 : script_bytes(line, line + 4, packet);
        return RCS956_EVENT_PACKET;
    }
    if (strcmp(line, "time") == 0)
        return RCS956_EVENT_TIME;
    if (strcmp(line, "fail") == 0)
        return RCS956_EVENT_FAIL;
    if (strcmp(line, "late") != 0 || !shared)
        script_stop("pkt, time, fail or late", line);
    return RCS956_EVENT_LATE;
}

static uint8_t script_read(void *self, uint32_t ms, bool shared, uint8_t *packet, size_t *len)
{
    (void)ms;
    return script_drain(self, shared, packet, len);
}

static void script_sleep(void *self, uint32_t us)
{
    (void)us;
    script_take(self, "slept");
}

/* The one application that uses this reader. */
#define CALLER 0

/* An opening, in the mode that its line names. */
static rcs956_outcome script_open(struct script *script, struct reader *reader)
{
    const char *line = script_next(script, "open or open padded");
    if (strcmp(line, "open padded") == 0)
        return rcs956_open_padded(&reader->session, CALLER, reader->buffer, sizeof reader->buffer);
    if (strcmp(line, "open") != 0)
        script_stop("open or open padded", line);
    return rcs956_open(&reader->session, CALLER, reader->buffer, sizeof reader->buffer);
}

int main(int count, char **words)
{
    struct script script;
    struct transport transport = {&script, script_write, script_read, script_drain, script_sleep};
    struct reader reader;
    rcs956_session *session = &reader.session;
    uint8_t *buffer = reader.buffer;
    size_t size = sizeof reader.buffer;
    if (count != 2 || (script.file = fopen(words[1], "r")) == NULL) {
        fprintf(stderr, "usage: host SCRIPT\n");
        return 2;
    }
    reader.session = rcs956_fresh();

    /* A write that fails leaves the reader unopened. */
    run_call(&reader, script_open(&script, &reader), &transport);
    script_take(&script, "version");
    run_call(&reader, rcs956_version(session, CALLER, buffer, size), &transport);

    /* A whole opening, and a search for a card of Type F, which is found at the second try. */
    run_call(&reader, script_open(&script, &reader), &transport);
    for (int k = 0; k < 2; k++) {
        script_take(&script, "detect_type_f 212F FFFF 00 00");
        run_call(&reader, rcs956_detect_type_f(session, CALLER, (const uint8_t *)"212F", 4, 0xFFFF, 0, 0, buffer, size),
                 &transport);
    }

    /* Its balance: block 00 of service 000B, the first two bytes, low byte first. The IDm stands at the start of what was found. */
    uint8_t idm[8];
    memcpy(idm, buffer, sizeof idm);
    script_take(&script, "read_without_encryption 1011121314151617 000B none 00");
    rcs956_outcome end = run_call(&reader, rcs956_read_without_encryption(session, CALLER, idm, sizeof idm, 0x000B,
                                                                          (const uint8_t *)"\x00", 1, false, 0, buffer, size), &transport);
    if (end.kind == RCS956_DONE)
        fprintf(stderr, "balance %d\n", buffer[0] + 256 * buffer[1]);
    return fclose(script.file) == 0 ? 0 : 1;
}
