/*
 * Shelfquail: integer wavelets on subdivision surfaces and curves, for programs in C.
 *
 * Every function checks all that it is handed, returns what came of it, and keeps nothing: all memory belongs to the
 * caller. What each returns and writes is proved for every input (crates/capi). A call that is not done (any status
 * other than SHELFQUAIL_DONE) changes nothing.
 *
 * What a caller owes:
 *   - a pointer with a length leads to so many elements, and is not NULL and is aligned even where the length is 0;
 *   - memory that is written (points, marks, values, slots, answers) overlaps nothing else that is handed in;
 *   - a bool is 0 or 1;
 *   - no call from a signal handler, or from the forked child of a process with threads.
 *
 * Memory that is needed on the way comes from malloc and is freed before the function returns.
 *
 * Link with crates/capi/out/libcapi.a and the kit's liblibc_c.a, in this order.
 */
#ifndef SHELFQUAIL_H
#define SHELFQUAIL_H

#include <stdbool.h>
#include <stddef.h>
#include <stdint.h>

#ifdef __cplusplus
extern "C" {
#endif

/* A point, or a move of one: three numbers in units of 1/256 mm, added modulo 2^32. */
typedef struct {
    int32_t x, y, z;
} shelfquail_point;

/* 32 flags, added by exclusive or. */
typedef struct {
    uint32_t flags;
} shelfquail_marks;

/*
 * A point with marks. It also carries the amounts and values of calls, slots and answers of every kind: a run over points
 * does not look at the marks and sets them to 0, a run over marks does not look at the point and sets it to 0.
 */
typedef struct {
    shelfquail_point point;
    shelfquail_marks marks;
} shelfquail_value;

/* What came of a call of the library. */
enum {
    SHELFQUAIL_DONE = 0,           /* value: what the function answers */
    SHELFQUAIL_REFUSED = 1,        /* row: the row of the table of refusals (docs/REFUSALS.md); value: the row's value */
    SHELFQUAIL_NO_MEMORY = 2,      /* malloc gave none; row and value are 0 */
    SHELFQUAIL_UNKNOWN_SCHEME = 3, /* value: the code that was handed in */
    SHELFQUAIL_UNKNOWN_CALL = 4    /* value: the index of the first call whose code is none */
};

typedef struct {
    size_t status;
    size_t row; /* 0 unless refused */
    size_t value;
} shelfquail_outcome;

/* What is said of the bytes of a base: its counts where it is accepted, else 0. */
typedef struct {
    shelfquail_outcome outcome;
    size_t vertices, edges, faces;
} shelfquail_judgement;

/* The schemes for points, and for points beside marks. Marks have one scheme, and no code for it. */
enum {
    SHELFQUAIL_LINEAR = 1,
    SHELFQUAIL_CUBIC = 2 /* needs a uniform hierarchy */
};

/* The calls that a run is made of (docs/FORM.md). */
enum {
    SHELFQUAIL_ANALYSE = 1,
    SHELFQUAIL_SYNTHESISE = 2,
    SHELFQUAIL_MOVE = 3,      /* place and amount */
    SHELFQUAIL_TAKE_BACK = 4,
    SHELFQUAIL_READ = 5       /* place */
};

/*
 * A call. `points` and `slots` say how many of the points and of the slots it is lent: the first so many, or all where
 * there are less. A call that is lent other lengths than those opened is refused by row 18.
 */
typedef struct {
    size_t code;
    size_t place;
    shelfquail_value amount;
    size_t points;
    size_t slots;
} shelfquail_call;

enum {
    SHELFQUAIL_DEPTH = 1,         /* number: the depth reached */
    SHELFQUAIL_COUNT = 2,         /* number: how many moves survive */
    SHELFQUAIL_VALUE = 3,         /* value: what stands at the place */
    SHELFQUAIL_CALL_REFUSED = 4   /* row, and number: the row's value */
};

typedef struct {
    size_t code;
    size_t row;
    size_t number;
    shelfquail_value value;
} shelfquail_answer;

/* A move, as the move list keeps it. */
typedef struct {
    size_t place;
    size_t depth;
    shelfquail_value amount;
} shelfquail_slot;

/* Judges the bytes of a base (docs/FORMATS.md): its counts, or the one refusal that applies (rows 1 to 11). */
shelfquail_judgement shelfquail_judge(const uint8_t *bytes, size_t bytes_length);

/* Answers how many 32-bit numbers the plan of a base takes. Refused by rows 1 to 13. */
shelfquail_outcome shelfquail_plan_needs(const uint8_t *bytes, size_t bytes_length, size_t levels);

/* Answers how many places a base has on so many levels: as many points have to be handed in. Refused by rows 1 to 13. */
shelfquail_outcome shelfquail_base_places(const uint8_t *bytes, size_t bytes_length, size_t levels);

/* The same of a curve of so many points, closed or open. Refused by rows 16 and 12. */
shelfquail_outcome shelfquail_curve_places(bool closed, size_t points, size_t levels);

/*
 * A whole run in one call: a form is opened on the points at a depth, and as many of the calls are made on it, in order,
 * as there is room for answers. Answers how many that were.
 *
 * In this order: a scheme code that is none is told; what the base or curve is refused for (rows 1 to 13; 16, 12); a call
 * code that is none; what the opening is refused for (rows 17 to 19). Then every call gets its answer, refusals too, and
 * - answers hold one for each call that was made; those beyond stay;
 * - points hold the values of the plain history (docs/FORM.md);
 * - slots hold the moves that were made, each in the slot that it was made in; others stay, but for the parts of their
 *   amounts that the kind has not, which are 0.
 */
shelfquail_outcome shelfquail_points_on_base(
    const uint8_t *bytes, size_t bytes_length, size_t levels, size_t scheme,
    shelfquail_point *points, size_t points_length, shelfquail_slot *slots, size_t slots_length, size_t depth,
    const shelfquail_call *calls, size_t calls_length, shelfquail_answer *answers, size_t answers_length);

shelfquail_outcome shelfquail_marks_on_base(
    const uint8_t *bytes, size_t bytes_length, size_t levels,
    shelfquail_marks *marks, size_t marks_length, shelfquail_slot *slots, size_t slots_length, size_t depth,
    const shelfquail_call *calls, size_t calls_length, shelfquail_answer *answers, size_t answers_length);

shelfquail_outcome shelfquail_pairs_on_base(
    const uint8_t *bytes, size_t bytes_length, size_t levels, size_t scheme,
    shelfquail_value *values, size_t values_length, shelfquail_slot *slots, size_t slots_length, size_t depth,
    const shelfquail_call *calls, size_t calls_length, shelfquail_answer *answers, size_t answers_length);

/* The same on a curve of so many points, closed or open. */
shelfquail_outcome shelfquail_points_on_curve(
    bool closed, size_t count, size_t levels, size_t scheme,
    shelfquail_point *points, size_t points_length, shelfquail_slot *slots, size_t slots_length, size_t depth,
    const shelfquail_call *calls, size_t calls_length, shelfquail_answer *answers, size_t answers_length);

shelfquail_outcome shelfquail_marks_on_curve(
    bool closed, size_t count, size_t levels,
    shelfquail_marks *marks, size_t marks_length, shelfquail_slot *slots, size_t slots_length, size_t depth,
    const shelfquail_call *calls, size_t calls_length, shelfquail_answer *answers, size_t answers_length);

shelfquail_outcome shelfquail_pairs_on_curve(
    bool closed, size_t count, size_t levels, size_t scheme,
    shelfquail_value *values, size_t values_length, shelfquail_slot *slots, size_t slots_length, size_t depth,
    const shelfquail_call *calls, size_t calls_length, shelfquail_answer *answers, size_t answers_length);

#ifdef __cplusplus
}
#endif

#endif
