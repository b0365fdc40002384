/*
 * Measures how deep into the stack each call goes, and fails where that is more than the header says. A call runs in a thread whose stack was
 * painted before; what is no longer painted after it was used. Build it with -pthread, and with -Wl,-z,now so that
 * no name is looked up on that stack.
 */
#define _GNU_SOURCE
#include "../include/jemlayos.h"

#include <pthread.h>
#include <stdio.h>
#include <stdlib.h>
#include <string.h>

enum { STACK = 1 << 20, PAINT = 0xa5, MOST_CELLS = 880, MOST_PARTS = 16, ROOM = 1 << 16 };

/* One split of a row of cells or of a star, and what is made of it. The stencil walks n / 2 cells far. */
static uint8_t mesh[2 * (6 + 2 * MOST_CELLS + 1 + 4 * MOST_CELLS)], owners[MOST_CELLS], stencil[9], weights[10];
static uint8_t field[4 * MOST_CELLS], out[ROOM], states[MOST_PARTS][ROOM], message[ROOM];
static size_t mesh_len, cells, steps, message_len;
static uint32_t parts;

static void put_word(uint8_t *at, size_t v)
{
    at[0] = (uint8_t)(v >> 8);
    at[1] = (uint8_t)v;
}

/*
 * Cell c has the points c and c + 1 of a row, or the first point of all and c + 1 of a star; record 2c + 1 is the first of its chain. A row is walked
 * by its rows of near cells, a star step by step.
 */
static void make_cells(int star, size_t count, size_t n, uint32_t p)
{
    size_t points = count + 1, elements = points + count;
    cells = count, steps = n, parts = p;
    memset(mesh, 0, sizeof mesh);
    put_word(mesh, 1);
    put_word(mesh + 2, points);
    put_word(mesh + 4, count);
    put_word(mesh + 10, 2 * count);
    for (size_t c = 0; c < count; c++) {
        uint8_t *record = mesh + 2 * (6 + elements) + 8 * c;
        put_word(mesh + 2 * (6 + points + c), 2 * c + 1);
        put_word(record, star ? 1 : c + 1);
        put_word(record + 2, 2 * c + 2);
        put_word(record + 4, c + 2);
        owners[c] = (uint8_t)(1 + c * p / count);
    }
    mesh_len = 2 * (6 + elements + 4 * count);
    for (size_t k = 0; k <= n; k++)
        stencil[k] = k % 2 == 0;
    for (size_t k = 0; k <= n / 2; k++)
        put_word(weights + 2 * k, 1);
}

#define SPLIT mesh, mesh_len, parts, owners, cells, 1, stencil, steps + 1
#define RULE 1, weights, 2 * (steps / 2 + 1), field, 4 * cells

static uint64_t nothing(void) { return 0; }
static uint64_t check_mesh(void) { return jem_check_mesh(mesh, mesh_len); }
static uint64_t interior(void) { return jem_interior(SPLIT, out, ROOM); }
static uint64_t halo(void) { return jem_halo(SPLIT, out, ROOM); }
static uint64_t locals(void) { return jem_locals(SPLIT, out, ROOM); }
static uint64_t imports(void) { return jem_imports(SPLIT, parts, out, ROOM); }
static uint64_t exports(void) { return jem_exports(SPLIT, parts, out, ROOM); }
static uint64_t private_range(void) { return jem_private(SPLIT, 0, out, ROOM); }
static uint64_t exposed(void) { return jem_exposed(SPLIT, 0, out, ROOM); }
static uint64_t shared(void) { return jem_shared(SPLIT, 0, out, ROOM); }
static uint64_t copied(void) { return jem_copied(SPLIT, 0, out, ROOM); }
static uint64_t undivided(void) { return jem_round(mesh, mesh_len, stencil, steps + 1, RULE, out, ROOM); }
static uint64_t state_size(void) { return jem_state_size(SPLIT); }
static uint64_t start(void) { return jem_start(SPLIT, RULE, states[0], ROOM); }
static uint64_t write_message(void) { return jem_write(states[0], ROOM, 2, out, ROOM); }
static uint64_t take(void) { return jem_take(states[0], ROOM, message, message_len); }
static uint64_t points(void) { return jem_points(states[0], ROOM, out, ROOM); }
static uint64_t advance(void) { return jem_advance(states[0], ROOM); }
static uint64_t collect(void) { return jem_collect(states[0], ROOM, 1, field, sizeof field); }

/* No word of a mesh is above 12,000, so all of it is searched. Nothing is refused. */
static uint64_t place(void)
{
    uint32_t count;
    return jem_place(mesh, mesh_len, 65535, &count) == 0 && count == mesh_len / 2 ? JEM_ACCEPTED : UINT64_MAX;
}

/* The calls in an order in which each is accepted; those on a state need two parts at least. */
static const struct {
    const char *name;
    uint64_t (*call)(void);
    size_t most;
    int exchange;
} calls[] = {
    {"jem_check_mesh", check_mesh, JEM_STACK_CHECK, 0},
    {"jem_interior", interior, JEM_STACK, 0},
    {"jem_halo", halo, JEM_STACK, 0},
    {"jem_locals", locals, JEM_STACK, 0},
    {"jem_imports", imports, JEM_STACK, 0},
    {"jem_exports", exports, JEM_STACK, 0},
    {"jem_private", private_range, JEM_STACK, 0},
    {"jem_exposed", exposed, JEM_STACK, 0},
    {"jem_shared", shared, JEM_STACK, 0},
    {"jem_copied", copied, JEM_STACK, 0},
    {"jem_round", undivided, JEM_STACK_ROUND, 0},
    {"jem_state_size", state_size, JEM_STACK, 0},
    {"jem_start", start, JEM_STACK, 0},
    {"jem_write", write_message, JEM_STACK_STATE, 1},
    {"jem_take", take, JEM_STACK_STATE, 1},
    {"jem_points", points, JEM_STACK_STATE, 1},
    {"jem_advance", advance, JEM_STACK_STATE, 1},
    {"jem_collect", collect, JEM_STACK_STATE, 1},
    {"jem_place", place, JEM_STACK_STATE, 0},
};
enum { CALLS = sizeof calls / sizeof calls[0] };

static uint64_t answer;

static void *run(void *call)
{
    answer = (*(uint64_t(**)(void))call)();
    return NULL;
}

static void fail(const char *what)
{
    fprintf(stderr, "stack: %s\n", what);
    exit(1);
}

/* The bytes of a thread's stack that a call used. */
static size_t depth(uint64_t (*call)(void))
{
    uint8_t *stack = NULL;
    pthread_attr_t attr;
    pthread_t thread;
    size_t untouched = 0;
    if (posix_memalign((void **)&stack, 4096, STACK) || pthread_attr_init(&attr))
        fail("no memory");
    memset(stack, PAINT, STACK);
    if (pthread_attr_setstack(&attr, stack, STACK) || pthread_create(&thread, &attr, run, &call) || pthread_join(thread, NULL))
        fail("no thread");
    while (untouched < STACK && stack[untouched] == PAINT)
        untouched++;
    pthread_attr_destroy(&attr);
    free(stack);
    return STACK - untouched;
}

int main(void)
{
    static const struct {
        int star;
        size_t cells, steps;
        uint32_t parts;
    } splits[] = {
        {0, 5, 2, 2}, {0, 5, 8, 2}, {0, 300, 8, 1}, {0, 300, 8, 16}, {0, MOST_CELLS, 8, 1}, {0, MOST_CELLS, 8, 2}, {0, MOST_CELLS, 8, 16},
        {1, 80, 8, 1}, {1, 80, 8, 2},
    };
    size_t deepest[CALLS] = {0};
    int made[CALLS] = {0}, failed = 0;
    for (size_t s = 0; s < sizeof splits / sizeof splits[0]; s++) {
        make_cells(splits[s].star, splits[s].cells, splits[s].steps, splits[s].parts);
        /* what part 2 sends to part 1 in round 0; part 1 has no other neighbour, as long as a star has two parts */
        if (parts > 1) {
            if (jem_refusal(jem_start(mesh, mesh_len, parts, owners, cells, 2, stencil, steps + 1, RULE, states[1], ROOM)))
                fail("part 2 was not started");
            message_len = jem_count(jem_write(states[1], ROOM, 1, message, ROOM));
        }
        for (size_t c = 0; c < CALLS; c++) {
            size_t used, own = depth(nothing);
            if (calls[c].exchange && parts == 1)
                continue;
            used = depth(calls[c].call);
            made[c] = 1;
            if (jem_refusal(answer) != JEM_ACCEPTED)
                fail(calls[c].name);
            used = used > own ? used - own : 0;
            if (used > deepest[c])
                deepest[c] = used;
        }
    }
    for (size_t c = 0; c < CALLS; c++) {
        printf("%-14s %6zu bytes of stack, at most %6zu\n", calls[c].name, deepest[c], calls[c].most);
        /* only jem_place keeps all that it needs in registers */
        if (!made[c] || deepest[c] > calls[c].most || (deepest[c] == 0 && calls[c].call != place)) {
            fprintf(stderr, "stack: %s uses another depth than the header says\n", calls[c].name);
            failed = 1;
        }
    }
    return failed;
}
