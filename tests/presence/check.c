/* The C functions of the list: layout, a few rounds, that a refused round changes no byte, and any memory as a list.
 * check: runs these. check cost M N TIMES: rounds of N records into a list of M, for a count of instructions. */
#include <assert.h>
#include <stdio.h>
#include <stdlib.h>
#include <string.h>

#include "presence.h"

#define MANY 1000

/* The bytes of a list but for those behind its last field. */
#define FIELDS (offsetof(presence_list, state) + 6)

static presence_card card(uint8_t kind, const char *identifier, uint8_t length, uint8_t bitrate) {
    presence_card c;
    memset(&c, 0xA5, sizeof c);
    memcpy(c.identifier, identifier, length > 16 ? 16 : length);
    c.kind = kind, c.length = length, c.bitrate = bitrate;
    return c;
}

/* A round that must be refused so, with every byte of the list as it was. */
static void refused(presence_list *list, uint32_t number, const presence_card *records, size_t bytes, uint8_t refusal) {
    static presence_list before;
    memcpy(&before, list, sizeof before);
    presence_outcome o = presence_round(list, number, records, bytes);
    assert(o.refusal == refusal && o.arrived == 0 && o.departed == 0);
    assert(memcmp(&before, list, FIELDS) == 0);
}

static void rounds(void) {
    presence_list list = presence_empty(), zeros;
    memset(&zeros, 0, sizeof zeros);
    assert(memcmp(&list, &zeros, FIELDS) == 0);
    presence_card found[2] = {card(PRESENCE_F, "\1\2\3", 3, PRESENCE_212F), card(PRESENCE_A, "\4", 1, PRESENCE_106A)};
    presence_outcome o = presence_round(&list, 0, found, sizeof found);
    assert(o.refusal == 0 && o.arrived == 2 && o.departed == 0 && list.state.count == 2 && list.state.begun == 1);
    assert(list.cards[0].kind == PRESENCE_A && list.cards[1].kind == PRESENCE_F && list.cards[1].identifier[3] == 0);
    refused(&list, 0, found, sizeof found, PRESENCE_STALE_ROUND);
    o = presence_round(&list, 7, found + 1, sizeof *found);
    assert(o.refusal == 0 && o.arrived == 0 && o.departed == 0 && list.state.count == 2 && list.cards[1].missed == 1);
    refused(&list, 8, found, sizeof found - 1, PRESENCE_BAD_ARGUMENT);
    refused(&list, 8, found, 1, PRESENCE_BAD_ARGUMENT);
    found[0].kind = 5;
    refused(&list, 8, found, sizeof found, PRESENCE_BAD_ARGUMENT);
    found[1].length = 17;
    refused(&list, 0, found, sizeof found, PRESENCE_OVER_LONG);
    o = presence_round(&list, 8, found, 0);
    assert(o.refusal == 0 && o.departed == 1 && list.departed[0].kind == PRESENCE_F && list.state.count == 1);
    list.state.count = 65;
    refused(&list, 9, found, 0, PRESENCE_OUT_OF_RANGE);
    refused(&list, 9, found, sizeof found, PRESENCE_OVER_LONG);
    list.state.count = 1, list.state.begun = 2;
    refused(&list, 9, found, 0, PRESENCE_OUT_OF_RANGE);
    list.state.begun = 1, list.cards[0].missed = 2;
    refused(&list, 9, found, 0, PRESENCE_OUT_OF_RANGE);
    list.cards[0].missed = 0, list.state.count = 2, list.cards[1] = list.cards[0];
    refused(&list, 9, found, 0, PRESENCE_OUT_OF_RANGE);
}

static void full(void) {
    presence_list list = presence_empty();
    presence_card found[65];
    for (int i = 0; i < 65; i++) found[i] = card(PRESENCE_B, "", 0, PRESENCE_106B), found[i].length = 1, found[i].identifier[0] = (uint8_t)(200 - i);
    refused(&list, 1, found, sizeof found, PRESENCE_LIST_FULL);
    presence_outcome o = presence_round(&list, 1, found, sizeof found - sizeof *found);
    assert(o.refusal == 0 && o.arrived == 64 && list.cards[63].identifier[0] == 200);
    refused(&list, 2, found, sizeof found, PRESENCE_LIST_FULL);
    refused(&list, 2, found + 64, sizeof *found, PRESENCE_LIST_FULL);
}

/* Memory of any bytes, and lists with a byte changed: served, or 1 and unchanged. */
static void memory(int times) {
    presence_list list, before;
    presence_card found[3] = {card(PRESENCE_A, "\1", 1, 0), card(PRESENCE_A, "\1\2", 2, 0), card(PRESENCE_DEP, "", 0, 6)};
    int ones = 0, served = 0;
    for (int t = 0; t < times; t++) {
        if (t % 4 == 0) {
            for (size_t i = 0; i < sizeof list; i++) ((uint8_t *)&list)[i] = (uint8_t)rand();
        } else {
            list = presence_empty();
            presence_round(&list, 1, found, sizeof found);
            presence_round(&list, 2, found, sizeof *found);
            for (int k = rand() % 3; k >= 0; k--) ((uint8_t *)&list)[rand() % 3 ? rand() % 64 : 3840 + rand() % 6] = (uint8_t)(rand() % (rand() % 2 ? 3 : 256));
        }
        memcpy(&before, &list, sizeof list);
        presence_outcome o = presence_round(&list, 0xFFFFFFFF, found, sizeof found);
        if (o.refusal == 0) served++;
        else {
            assert(o.refusal == PRESENCE_OUT_OF_RANGE || o.refusal == PRESENCE_STALE_ROUND || o.refusal == PRESENCE_LIST_FULL);
            assert(memcmp(&before, &list, FIELDS) == 0);
            ones += o.refusal == PRESENCE_OUT_OF_RANGE;
        }
    }
    assert(ones > 0 && served > 0);
    printf("%d lists of any bytes: %d served, %d out of range or order\n", times, served, ones);
}

/* A list of m cards and rounds of n records, all of them new where there is room, the same cards again and again behind that. */
static void cost(int m, int n, int times) {
    static presence_card found[MANY];
    presence_list list = presence_empty(), start;
    for (int i = 0; i < MANY; i++) found[i] = card(PRESENCE_A, "\0\0\0\0\0\0\0", 8, 0), found[i].identifier[7] = (uint8_t)((i * 37) % 64 + 1);
    presence_round(&list, 1, found, (size_t)m * sizeof *found);
    start = list;
    for (int t = 0; t < times; t++) {
        list = start;
        presence_outcome o = presence_round(&list, 2, found, (size_t)n * sizeof *found);
        assert(o.refusal == 0);
    }
}

int main(int argc, char **argv) {
    assert(sizeof(presence_card) == 20 && sizeof(presence_list) == 3848 && offsetof(presence_list, state) == 3840 && sizeof(presence_outcome) == 24);
    if (argc == 5 && strcmp(argv[1], "cost") == 0) {
        cost(atoi(argv[2]), atoi(argv[3]), atoi(argv[4]));
        return 0;
    }
    rounds();
    full();
    memory(100000);
    puts("presence: as expected");
    return 0;
}
