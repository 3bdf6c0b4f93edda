/* Builds a small panel, its tree, checks the tree, and probes the panel along several rays.
 *
 *   cc -std=c99 -I include examples/panel.c target/staticlib/libexports.a -o target/panel && target/panel
 *
 * The panel is 300 x 200 x 18 mm, with a pocket 60 x 60 mm wide and 10 mm deep: x 100 to 160, y 60 to 120, its
 * floor at z = 8. What it prints is examples/panel.expected. That file was written by hand, from the reasons
 * at each probe below, not from a run.
 */
#include <stdio.h>

#include "probe_rays.h"

#define TRIANGLES 28
#define VERTICES 16
#define MOST_NODES (2 * TRIANGLES)

static const double vertices[PROBE_VERTICES_LENGTH(VERTICES)] = {
    0,   0,  0,  300, 0,  0,  300, 200, 0,  0,   200, 0,  /* 0 to 3: the bottom */
    0,   0,  18, 300, 0,  18, 300, 200, 18, 0,   200, 18, /* 4 to 7: the top */
    100, 60, 18, 160, 60, 18, 160, 120, 18, 100, 120, 18, /* 8 to 11: the pocket's rim */
    100, 60, 8,  160, 60, 8,  160, 120, 8,  100, 120, 8,  /* 12 to 15: the pocket's floor */
};

static const uint32_t triangles[PROBE_TRIANGLES_LENGTH(TRIANGLES)] = {
    0,  2,  1,  0,  3,  2,                                                              /* 0, 1: bottom */
    0,  1,  5,  0,  5,  4,  1,  2,  6,  1,  6,  5,                                      /* 2 to 5: front, right */
    2,  3,  7,  2,  7,  6,  3,  0,  4,  3,  4,  7,                                      /* 6 to 9: back, left */
    4,  5,  9,  4,  9,  8,  5,  6,  10, 5,  10, 9,                                      /* 10 to 13: top */
    6,  7,  11, 6,  11, 10, 7,  4,  8,  7,  8,  11,                                     /* 14 to 17: top */
    8,  9,  13, 8,  13, 12, 9,  10, 14, 9,  14, 13,                                     /* 18 to 21: pocket walls */
    10, 11, 15, 10, 15, 14, 11, 8,  12, 11, 12, 15,                                     /* 22 to 25: pocket walls */
    12, 13, 14, 12, 14, 15,                                                             /* 26, 27: pocket floor */
};

/* The buffers of the tree. Nothing is allocated. */
static double node_boxes[PROBE_NODE_BOXES_LENGTH(TRIANGLES)];
static double triangle_boxes[PROBE_TRIANGLE_BOXES_LENGTH(TRIANGLES)];
static uint32_t node_words[PROBE_NODE_WORDS_LENGTH(TRIANGLES)];
static uint32_t order[PROBE_ORDER_LENGTH(TRIANGLES)];
static size_t nodes;

/* Work buffers: their contents before a call do not matter. */
static uint32_t work[PROBE_WORK_LENGTH(TRIANGLES)];
static uint32_t marks[PROBE_MARKS_LENGTH(TRIANGLES)];
static uint32_t list[PROBE_LIST_LENGTH(TRIANGLES)];
static uint32_t stack[PROBE_STACK_LENGTH(MOST_NODES)];

#define LENGTH(area) (sizeof(area) / sizeof((area)[0]))

static uint32_t build(void)
{
    return probe_build(vertices, LENGTH(vertices), triangles, LENGTH(triangles), node_boxes, LENGTH(node_boxes),
                       triangle_boxes, LENGTH(triangle_boxes), node_words, LENGTH(node_words), order, LENGTH(order),
                       work, LENGTH(work), &nodes, 1);
}

static uint32_t check(void)
{
    return probe_tree_check(vertices, LENGTH(vertices), triangles, LENGTH(triangles), nodes, node_boxes,
                            LENGTH(node_boxes), triangle_boxes, LENGTH(triangle_boxes), node_words,
                            LENGTH(node_words), order, LENGTH(order), marks, LENGTH(marks));
}

/* Casts a ray at the panel and prints what it met. A zero is added to a number so that -0 prints as 0. */
static void probe(const char *what, double x, double y, double z, double dx, double dy, double dz, double max)
{
    double hit[PROBE_HIT_LENGTH] = {0, 0, 0, 0};
    uint32_t index = 0;
    uint32_t answer = probe_ray_mesh(x, y, z, dx, dy, dz, max, vertices, LENGTH(vertices), triangles,
                                     LENGTH(triangles), vertices, LENGTH(vertices), nodes, node_boxes,
                                     LENGTH(node_boxes), triangle_boxes, LENGTH(triangle_boxes), node_words,
                                     LENGTH(node_words), order, LENGTH(order), list, LENGTH(list), stack,
                                     LENGTH(stack), hit, LENGTH(hit), &index, 1);
    if (answer == PROBE_HIT)
        printf("%s: hit at %.3f mm, normal (%.3f, %.3f, %.3f), triangle %u\n", what, hit[3], hit[0] + 0.0,
               hit[1] + 0.0, hit[2] + 0.0, (unsigned)index);
    else if (answer == PROBE_NONE)
        printf("%s: none\n", what);
    else
        printf("%s: refused %u\n", what, (unsigned)answer);
}

/* The triangles whose boxes touch the box from (110, 70, 7) to (150, 110, 9). */
static void ask_floor(void)
{
    size_t found = 0;
    size_t i;
    uint32_t answer = probe_query(110, 70, 7, 150, 110, 9, TRIANGLES, nodes, node_boxes, LENGTH(node_boxes),
                                  triangle_boxes, LENGTH(triangle_boxes), node_words, LENGTH(node_words), order,
                                  LENGTH(order), list, LENGTH(list), stack, LENGTH(stack), &found, 1);
    if (answer != PROBE_DONE) {
        printf("query: refused %u\n", (unsigned)answer);
        return;
    }
    printf("query: %u triangles:", (unsigned)found);
    for (i = 0; i < found; i++)
        printf(" %u", (unsigned)list[i]);
    printf("\n");
}

static const char *yes_or_no(uint32_t answer)
{
    return answer == PROBE_YES ? "yes" : answer == PROBE_NO ? "no" : "refused";
}

int main(void)
{
    uint32_t built;
    if (probe_version() != PROBE_VERSION) {
        fprintf(stderr, "panel: the header is not the library's\n");
        return 1;
    }
    built = build();
    if (built != PROBE_DONE) {
        fprintf(stderr, "panel: the build refused with %u\n", (unsigned)built);
        return 1;
    }
    /* Halves of 28 are 14 and 7; 7 is cut into leaves of 3 and 4. So there are 8 leaves, and 7 branches. */
    printf("%u triangles, %u nodes\n", TRIANGLES, (unsigned)nodes);
    printf("check: %s\n", yes_or_no(check()));

    /* From z = 118 down to the top, z = 18. Triangle 16, (0,200) (0,0) (100,60), runs from y = 18 to 158 at x = 30. */
    probe("top", 30, 100, 118, 0, 0, -1, 200);
    /* Down to the pocket's floor, z = 8. Its triangles meet in the line y = x - 40, and (130, 80) lies below: 26. */
    probe("pocket", 130, 80, 118, 0, 0, -1, 200);
    /* Within the pocket from x = 130 to its wall, x = 160. At y = 100 its triangles meet at z = 11.33: above, 20. */
    probe("pocket wall", 130, 100, 12, 1, 0, 0, 200);
    /* From z = -20 up to the bottom. Its triangles meet in the line y = 2x/3, and (200, 50) lies below: 0. */
    probe("bottom", 200, 50, -20, 0, 0, 1, 200);
    /* A direction of (3, 0, -4)/5 loses 4 in height with each 5: from z = 38 the top is 25 away,
     * 15 further in x: (35, 90), triangle 16 again. */
    probe("aslant", 20, 90, 38, 0.6, 0, -0.8, 200);
    /* The panel ends at x = 300. */
    probe("beside", 310, 100, 118, 0, 0, -1, 200);
    /* The top is 100 away. */
    probe("too short", 30, 100, 118, 0, 0, -1, 99);
    /* The direction's length is 2. */
    probe("not a unit", 30, 100, 118, 0, 0, -2, 200);
    /* Only the pocket's floor has boxes there: the walls' are at x = 100 and 160 and at y = 60 and 120. */
    ask_floor();

    /* Why a tree that somebody else built is checked: the root's box is made to end at z = 10 in place of 18. A ray
     * that ends at z = 13 does not touch it, and the cast answers none where the top is 100 away. */
    probe("top again", 30, 100, 118, 0, 0, -1, 105);
    node_boxes[5] = 10;
    probe("through a wrong tree", 30, 100, 118, 0, 0, -1, 105);
    printf("check: %s\n", yes_or_no(check()));
    return 0;
}
