/*
 * The mesh-smoothing engine: it checks a mesh, splits it into parts, computes the undivided round,
 * and runs the parts with their messages and the values at their points. Link with libjemlayos.a.
 * docs/LAYOUTS.md has every byte layout, docs/GLOSSARY.md every term.
 *
 * Each buffer is a pointer and a length in bytes. The pointer must not be NULL, even if the length
 * is 0, and the buffer must have that many bytes. Words have two bytes and values four, high byte
 * first. A value is a depth in centimetres, positive down, from -1,200,000 to 1,200,000, or a gap
 * (JEM_GAP). Test every value that you read: a gap is not a depth, and you cannot calculate with it.
 * Numbers (P, a part, a rule's kind, a receiver, a round) may be anything: a wrong one is refused.
 *
 * Every function answers 64 bits: the refusal's number in the high half, which is 0 if the call was
 * accepted, and a count in the low half, which is 0 if it was refused. Take it apart with
 * jem_refusal and jem_count. Only jem_place, which refuses nothing, answers a plain number.
 *
 * A refused call changes no byte. An accepted call changes no byte past what it needs, so a buffer
 * that it writes to may be longer. A buffer that a call changes must not overlap another buffer of
 * that call, and nobody else may write to a buffer during the call. The library keeps no state of
 * its own: calls on different buffers may run at the same time in different threads.
 *
 * The library is machine code for x86-64 Linux.
 */
#ifndef JEMLAYOS_H
#define JEMLAYOS_H

#include <stddef.h>
#include <stdint.h>

#ifdef __cplusplus
extern "C" {
#endif

/*
 * A gap: a cell, or a point, without a depth. In bytes it is 80 00 00 00 (hexadecimal), which is
 * this number in two's complement, high byte first. Nothing else is a gap: 80 00 00 01 and every
 * other number out of range is refused.
 */
#define JEM_GAP INT32_MIN

/*
 * The stack that calls need at most, in bytes, as measured and rounded up. .ci/stack.c measures it
 * in every test run. Calls use no heap. A thread with less stack than this ends with a fault: no
 * call tests how much there is.
 */
#define JEM_STACK 118784       /* any call: the lists, jem_state_size, jem_start come near it */
#define JEM_STACK_ROUND 118784 /* jem_round, which needs most */
#define JEM_STACK_CHECK 40960  /* jem_check_mesh */
#define JEM_STACK_STATE 10240  /* jem_write, jem_take, jem_advance, jem_collect, jem_points, jem_place */

/*
 * Refusals. A call tries them in this order: 1-15, 20-24, 29, 25-28, and JEM_OUTPUT last of all. A
 * bad value is one that is neither a depth in range nor a gap.
 */
enum jem_refusal_number {
    JEM_ACCEPTED = 0,
    /* From the input. */
    JEM_MESH_HEAD = 1,      /* mesh under 12 bytes, or d not 1 to 3 */
    JEM_COUNTS = 2,         /* a count above d not zero; a count up to d zero; N over 2,000; R over 12,000 */
    JEM_MESH_LENGTH = 3,    /* mesh length not exactly 2 * (6 + N + 2R) */
    JEM_RECORD = 4,         /* head or next above R, a point with a head, or a record met twice */
    JEM_CHAIN_ELEMENT = 5,  /* a chain's element 0, above N, not of lower dimension, or twice in it */
    JEM_CLOSURE = 6,        /* g in f's chain, f in e's, g not in e's */
    JEM_UNCOVERED = 7,      /* a lower element in no cell's chain */
    JEM_PART_MAP = 8,       /* P, the part wanted, an owner or the map's length wrong */
    JEM_EMPTY_PART = 9,     /* a part owning no cell */
    JEM_STENCIL = 10,       /* not a stencil */
    JEM_RULE = 11,          /* unknown rule, or weights wrong in number or range */
    JEM_HELD = 12,          /* held cells over all parts above 4,096 */
    JEM_REACH = 13,         /* sizes of all cells' reaches together above 8,000 */
    JEM_FIELD = 14,         /* field length wrong, or a bad value */
    JEM_MESSAGE = 15,       /* message under 8 bytes, length not 8 + 4 * count, or a bad value */
    JEM_OUTPUT = 16,        /* an output buffer too short */
    /* From the state. */
    JEM_STATE = 20,         /* not a part state, or a bad value in it */
    JEM_SENDER = 21,        /* to is not this part, it imports nothing from the sender, or count is not that list's */
    JEM_MESSAGE_ROUND = 22, /* the message's round is not the state's */
    JEM_ALREADY_TAKEN = 23, /* already taken this round */
    JEM_NOT_TAKEN = 24,     /* advance or points with an import not taken */
    JEM_NOT_WRITTEN = 25,   /* advance with an export not written */
    JEM_LAST_ROUND = 26,    /* advance at round 60,000 */
    JEM_RECEIVER = 27,      /* write to a number that is not a part importing from here */
    JEM_OTHER_ROUND = 28,   /* collect for another round than the state's */
    JEM_POINT_REACH = 29    /* points: a cell incident to a point of an owned cell is outside that cell's reach */
};

/* The refusal's number in an answer, JEM_ACCEPTED if the call was accepted. */
static inline uint32_t jem_refusal(uint64_t answer) { return (uint32_t)(answer >> 32); }

/* The count in an answer. */
static inline uint32_t jem_count(uint64_t answer) { return (uint32_t)answer; }

/*
 * Whether the bytes are a mesh. Can refuse with 1-7. On success the count is the number of cells.
 */
uint64_t jem_check_mesh(const uint8_t *mesh, size_t mesh_len);

/* ---- Lists of a part ----
 * Each writes global numbers as words to out. Can refuse with 1-10, 12, 13, 16; a number for the
 * other part that is not a part of the map is refused with 8, too. On success the count is the
 * number of words.
 */

/* The owned cells with only owned cells in their reach, rising: the core of the part. */
uint64_t jem_interior(const uint8_t *mesh, size_t mesh_len, uint32_t parts, const uint8_t *owners, size_t owners_len,
                      uint32_t part, const uint8_t *stencil, size_t stencil_len, uint8_t *out, size_t out_len);

/* The other owned cells, rising: the border of the part. They are not ghost cells. */
uint64_t jem_halo(const uint8_t *mesh, size_t mesh_len, uint32_t parts, const uint8_t *owners, size_t owners_len,
                  uint32_t part, const uint8_t *stencil, size_t stencil_len, uint8_t *out, size_t out_len);

/* All held cells by local number: interior, halo, then imports by owner and number. */
uint64_t jem_locals(const uint8_t *mesh, size_t mesh_len, uint32_t parts, const uint8_t *owners, size_t owners_len,
                    uint32_t part, const uint8_t *stencil, size_t stencil_len, uint8_t *out, size_t out_len);

/* The held cells that the other part owns, rising: ghost cells. */
uint64_t jem_imports(const uint8_t *mesh, size_t mesh_len, uint32_t parts, const uint8_t *owners, size_t owners_len,
                     uint32_t part, const uint8_t *stencil, size_t stencil_len, uint32_t other, uint8_t *out,
                     size_t out_len);

/* The owned cells that the other part holds, rising: what it imports from here. */
uint64_t jem_exports(const uint8_t *mesh, size_t mesh_len, uint32_t parts, const uint8_t *owners, size_t owners_len,
                     uint32_t part, const uint8_t *stencil, size_t stencil_len, uint32_t other, uint8_t *out,
                     size_t out_len);

/*
 * The next four give the held elements of a dimension below the cells', rising, by range. A
 * dimension that has none gives count 0.
 */

/* Held elements that touch this part alone and that no other part holds. */
uint64_t jem_private(const uint8_t *mesh, size_t mesh_len, uint32_t parts, const uint8_t *owners, size_t owners_len,
                     uint32_t part, const uint8_t *stencil, size_t stencil_len, uint32_t dim, uint8_t *out,
                     size_t out_len);

/* Held elements that touch this part alone and that another part holds. */
uint64_t jem_exposed(const uint8_t *mesh, size_t mesh_len, uint32_t parts, const uint8_t *owners, size_t owners_len,
                     uint32_t part, const uint8_t *stencil, size_t stencil_len, uint32_t dim, uint8_t *out,
                     size_t out_len);

/* Held elements that touch this part and another. */
uint64_t jem_shared(const uint8_t *mesh, size_t mesh_len, uint32_t parts, const uint8_t *owners, size_t owners_len,
                    uint32_t part, const uint8_t *stencil, size_t stencil_len, uint32_t dim, uint8_t *out,
                    size_t out_len);

/* Held elements that do not touch this part. */
uint64_t jem_copied(const uint8_t *mesh, size_t mesh_len, uint32_t parts, const uint8_t *owners, size_t owners_len,
                    uint32_t part, const uint8_t *stencil, size_t stencil_len, uint32_t dim, uint8_t *out,
                    size_t out_len);

/*
 * The place of a cell in a rising list, counted from 1, or 0 if the cell is not in it. All lists
 * above rise, except that of jem_locals. The search ends at the first number not below the cell's,
 * and *read is set to how many numbers were read: all up to that one, or the whole list if there is
 * none. In a list that does not rise, 0 says nothing about the numbers after that one.
 *
 * Pass the list alone, 2 * its count of bytes: words after it can match. Half a word at the end is
 * ignored, and the cell may be any number: nothing is refused. read must not be NULL and not point
 * into the list. What it held before does not matter. It is never set to more than 2^32 - 1, which
 * takes a list of 8 GiB.
 *
 * The cell at place p of the list that jem_imports gives part i for the other part j has its value
 * at byte 8 + 4 * (p - 1) of every message from j to i.
 */
uint64_t jem_place(const uint8_t *list, size_t list_len, uint32_t cell, uint32_t *read);

/* ---- The undivided round ---- */

/*
 * Writes to out the field that the rule makes of the given one, at every cell of the mesh. The kind
 * is 0 hold, 1 mean, 2 shoalest; weights are words, for mean only. A mean is rounded to the greatest
 * whole number not above the quotient, so it is never deeper than the quotient itself: 7 over 4
 * gives 1, and -7 over 4 gives -2. Hold keeps a gap. Mean and shoalest leave gaps out, a mean also
 * out of its divisor; so they fill a gap if they read a depth. With only gaps in the reach, or only
 * depths of weight 0 left, the new value is a gap. Can refuse with 1-7, 10, 11, 13, 14, 16. On
 * success the count is the number of values.
 */
uint64_t jem_round(const uint8_t *mesh, size_t mesh_len, const uint8_t *stencil, size_t stencil_len, uint32_t kind,
                   const uint8_t *weights, size_t weights_len, const uint8_t *field, size_t field_len, uint8_t *out,
                   size_t out_len);

/* ---- A part and its messages ---- */

/*
 * The length of the state that jem_start makes, with its points. Can refuse with 1-10, 12, 13. On
 * success the count is that length in bytes.
 */
uint64_t jem_state_size(const uint8_t *mesh, size_t mesh_len, uint32_t parts, const uint8_t *owners, size_t owners_len,
                        uint32_t part, const uint8_t *stencil, size_t stencil_len);

/*
 * Writes the part's state at round 0 to state, from the starting field, which may have gaps. Can
 * refuse with 1-14, 16. On success the count is its length in bytes.
 */
uint64_t jem_start(const uint8_t *mesh, size_t mesh_len, uint32_t parts, const uint8_t *owners, size_t owners_len,
                   uint32_t part, const uint8_t *stencil, size_t stencil_len, uint32_t kind, const uint8_t *weights,
                   size_t weights_len, const uint8_t *field, size_t field_len, uint8_t *state, size_t state_len);

/*
 * Writes to out the message of this round to a part that imports from here. It may be repeated.
 * Gaps are passed on as they are. Can refuse with 20, 27, 16. On success the count is its length in
 * bytes.
 */
uint64_t jem_write(uint8_t *state, size_t state_len, uint32_t to, uint8_t *out, size_t out_len);

/*
 * Accepts one message of this round; its values may be gaps. Can refuse with 15, 20-23. The count
 * is 0.
 */
uint64_t jem_take(uint8_t *state, size_t state_len, const uint8_t *message, size_t message_len);

/*
 * Makes a round of the owned cells, once every import is taken and every export written. It treats
 * gaps as jem_round does. Can refuse with 20, 24-26. The count is 0.
 */
uint64_t jem_advance(uint8_t *state, size_t state_len);

/*
 * Writes the owned values, depths and gaps, into a field of the whole mesh, if the state is at this
 * round. It changes no other byte of the field. Can refuse with 20, 28, 16. On success the count is
 * the number of values written.
 */
uint64_t jem_collect(const uint8_t *state, size_t state_len, uint32_t round, uint8_t *field, size_t field_len);

/*
 * Writes each point that touches the owned cells to out, in rising number, six bytes a point: its
 * number, a word, and then its value. That is the plain mean of the depths of all cells incident to
 * it at the state's round, rounded as in jem_round. Gaps are left out, of the divisor too; a point
 * with only gaps is a gap. Parts that share a point give the same value there at the same round.
 * Every import has to be taken before (24); exports need not be written. Whether 29 holds depends
 * only on the mesh, the part map and the stencil, never on the round. Can refuse with 20, 24, 29,
 * 16. On success the count is the number of points. Room for 6 * the mesh's count of points is
 * always enough. The state is only read.
 */
uint64_t jem_points(const uint8_t *state, size_t state_len, uint8_t *out, size_t out_len);

#ifdef __cplusplus
}
#endif

#endif
