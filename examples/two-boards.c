/*
 * Two boards over five cells in a row: part 1 owns the first three, part 2 the other two. They make two rounds of the mean with weights 2 1, first
 * from depths alone and then from a field with gaps, and print the field that they collect after each. examples/README.md has the command that builds
 * it.
 */
#include "../include/jemlayos.h"

#include <stdio.h>
#include <stdlib.h>

enum { PARTS = 2, CELLS = 5, STATE_ROOM = 512, MESSAGE_ROOM = 64 };

/* d, the counts of dimensions 0 to 3, R; the heads; the records: an element and the next record. Words, high byte first. */
static const uint8_t mesh[] = {
    0, 1, 0, 6, 0, 5, 0, 0, 0, 0, 0, 10,                                                                        /* head */
    0, 0, 0, 0, 0, 0, 0, 0, 0, 0, 0, 0, 0, 1, 0, 3, 0, 5, 0, 7, 0, 9,                                           /* heads */
    0, 1, 0, 2, 0, 2, 0, 0, 0, 2, 0, 4, 0, 3, 0, 0, 0, 3, 0, 6, 0, 4, 0, 0, 0, 4, 0, 8, 0, 5, 0, 0, 0, 5, 0, 10, 0, 6, 0, 0,
};
static const uint8_t owners[CELLS] = {1, 1, 1, 2, 2};
static const uint8_t stencil[] = {1, 0, 1};
static const uint8_t weights[] = {0, 2, 0, 1};
static const uint8_t depths[4 * CELLS] = {0, 0, 0, 100, 0, 0, 0, 200, 0, 0, 1, 44, 0, 0, 1, 144, 0, 0, 1, 244};
static const uint8_t holes[4 * CELLS] = {0, 0, 0, 100, 0x80, 0, 0, 0, 0, 0, 1, 44, 0x80, 0, 0, 0, 0x80, 0, 0, 0};

/* The count of an accepted answer; a refusal ends the program. */
static uint32_t accepted(const char *call, uint64_t answer)
{
    if (jem_refusal(answer) != JEM_ACCEPTED) {
        fprintf(stderr, "%s: refused %u\n", call, (unsigned)jem_refusal(answer));
        exit(1);
    }
    return jem_count(answer);
}

/* The depth of a cell, or JEM_GAP. */
static int32_t value_at(const uint8_t *field, size_t cell)
{
    const uint8_t *b = field + 4 * cell;
    return (int32_t)((uint32_t)b[0] << 24 | (uint32_t)b[1] << 16 | (uint32_t)b[2] << 8 | b[3]);
}

/* The field after a round: each board puts in the values that it owns. */
static void print_round(uint8_t states[PARTS][STATE_ROOM], uint32_t round)
{
    uint8_t field[4 * CELLS] = {0};
    for (size_t i = 0; i < PARTS; i++)
        accepted("collect", jem_collect(states[i], STATE_ROOM, round, field, sizeof field));
    printf("round %u:", (unsigned)round);
    for (size_t cell = 0; cell < CELLS; cell++) {
        int32_t value = value_at(field, cell);
        if (value == JEM_GAP)
            printf(" gap");
        else
            printf(" %ld", (long)value);
    }
    printf("\n");
}

static void run(const uint8_t start_field[4 * CELLS])
{
    uint8_t states[PARTS][STATE_ROOM];
    for (uint32_t i = 0; i < PARTS; i++)
        accepted("start", jem_start(mesh, sizeof mesh, PARTS, owners, sizeof owners, i + 1, stencil, sizeof stencil, 1, weights,
                                    sizeof weights, start_field, 4 * CELLS, states[i], STATE_ROOM));
    print_round(states, 0);
    for (uint32_t round = 1; round <= 2; round++) {
        for (uint32_t i = 0; i < PARTS; i++) {
            uint8_t message[MESSAGE_ROOM];
            uint32_t other = 1 - i;
            uint32_t length = accepted("write", jem_write(states[i], STATE_ROOM, other + 1, message, sizeof message));
            accepted("take", jem_take(states[other], STATE_ROOM, message, length));
        }
        for (size_t i = 0; i < PARTS; i++)
            accepted("advance", jem_advance(states[i], STATE_ROOM));
        print_round(states, round);
    }
}

int main(void)
{
    run(depths);
    run(holes);
    return 0;
}
