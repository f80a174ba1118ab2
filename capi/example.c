/* The worked example of docs/FORM.md: one quadrilateral, one level, the linear scheme. */
#include "shelfquail.h"
#include <stdio.h>

static const uint8_t quadrilateral[] = {
    1, 0, 1, 0, 1, 0, 1, 0,             /* four corners of dimension 0 */
    4, 0, 0, 1, 0, 2, 0, 3, 0,          /* the face */
    2, 0, 0, 1, 0, 2, 1, 0, 2, 0,       /* its four sides are curves */
    2, 2, 0, 3, 0, 2, 3, 0, 0, 0,
    0,
};

static void show_outcome(const char *what, shelfquail_outcome o) {
    if (o.status == SHELFQUAIL_DONE)
        printf("%s: %zu\n", what, o.value);
    else if (o.status == SHELFQUAIL_REFUSED)
        printf("%s: refused, row %zu, %zu\n", what, o.row, o.value);
    else
        printf("%s: status %zu, %zu\n", what, o.status, o.value);
}

static void show_answer(shelfquail_answer a) {
    switch (a.code) {
    case SHELFQUAIL_DEPTH: printf("  depth %zu\n", a.number); break;
    case SHELFQUAIL_COUNT: printf("  count %zu\n", a.number); break;
    case SHELFQUAIL_VALUE: printf("  value %d\n", a.value.point.x); break;
    default: printf("  refused, row %zu, %zu\n", a.row, a.number); break;
    }
}

static void show_points(const shelfquail_point *points, size_t length) {
    printf("  points");
    for (size_t i = 0; i < length; i++) printf(" %d", points[i].x);
    printf("\n");
}

int main(void) {
    shelfquail_judgement j = shelfquail_judge(quadrilateral, sizeof quadrilateral);
    printf("judged: status %zu, %zu vertices, %zu edges, %zu faces\n", j.outcome.status, j.vertices, j.edges, j.faces);
    j = shelfquail_judge(quadrilateral, sizeof quadrilateral - 6);
    printf("judged: status %zu, row %zu, %zu\n", j.outcome.status, j.outcome.row, j.outcome.value);
    show_outcome("the plan needs", shelfquail_plan_needs(quadrilateral, sizeof quadrilateral, 1));
    show_outcome("places", shelfquail_base_places(quadrilateral, sizeof quadrilateral, 1));
    show_outcome("places of a closed curve of 3, two levels", shelfquail_curve_places(true, 3, 2));

    const int32_t stored[9] = {0, 10, 20, 30, 6, 15, 25, 14, 16};
    shelfquail_point points[9];
    for (size_t i = 0; i < 9; i++) points[i] = (shelfquail_point){stored[i], 0, 0};
    shelfquail_slot slots[1] = {{0}};
    shelfquail_call calls[7] = {
        {SHELFQUAIL_ANALYSE, 0, {{0, 0, 0}, {0}}, 9, 1},
        {SHELFQUAIL_MOVE, 0, {{4, 0, 0}, {0}}, 9, 1},
        {SHELFQUAIL_SYNTHESISE, 0, {{0, 0, 0}, {0}}, 9, 1},
        {SHELFQUAIL_MOVE, 5, {{1, 0, 0}, {0}}, 9, 1},
        {SHELFQUAIL_READ, 8, {{0, 0, 0}, {0}}, 9, 1},
        {SHELFQUAIL_TAKE_BACK, 0, {{0, 0, 0}, {0}}, 9, 1},
        {SHELFQUAIL_TAKE_BACK, 0, {{0, 0, 0}, {0}}, 9, 1},
    };
    shelfquail_answer answers[7] = {{0}};

    for (size_t made = 3; made <= 7; made += 4) {
        for (size_t i = 0; i < 9; i++) points[i] = (shelfquail_point){stored[i], 0, 0};
        show_outcome("calls made", shelfquail_points_on_base(quadrilateral, sizeof quadrilateral, 1, SHELFQUAIL_LINEAR,
            points, 9, slots, 1, 1, calls, made, answers, 7));
        for (size_t i = 0; i < made; i++) show_answer(answers[i]);
        show_points(points, 9);
    }

    show_outcome("by the cubic scheme", shelfquail_points_on_base(quadrilateral, sizeof quadrilateral, 1, SHELFQUAIL_CUBIC,
        points, 9, slots, 1, 1, calls, 7, answers, 7));
    show_outcome("by scheme 9", shelfquail_points_on_base(quadrilateral, sizeof quadrilateral, 1, 9,
        points, 9, slots, 1, 1, calls, 7, answers, 7));
    calls[2].code = 77;
    show_outcome("with a call of code 77", shelfquail_points_on_base(quadrilateral, sizeof quadrilateral, 1,
        SHELFQUAIL_LINEAR, points, 9, slots, 1, 1, calls, 7, answers, 7));

    shelfquail_marks marks[3] = {{5}, {4}, {6}};
    shelfquail_call down = {SHELFQUAIL_ANALYSE, 0, {{0, 0, 0}, {0}}, 3, 0};
    show_outcome("marks, calls made",
        shelfquail_marks_on_curve(false, 2, 1, marks, 3, slots, 0, 1, &down, 1, answers, 1));
    printf("  marks %u %u %u\n", marks[0].flags, marks[1].flags, marks[2].flags);
    return 0;
}
