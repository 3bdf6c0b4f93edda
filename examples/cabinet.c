/* A cabinet of five panels, probed under a limit.
 *
 * All in millimetres: two sides of 18 by 560 by 720, one at x = 0 and one at x = 582, and between them a bottom, a
 * shelf and a top of 564 by 560 by 18, at z = 0, 350 and 702. The sides are one mesh and the other three another: a part
 * names the ranges of its mesh and tree in the buffers that all parts share, and has its own origin.
 *
 * cc -std=c99 -I include examples/cabinet.c target/staticlib/libexports.a
 */
#include <stdio.h>
#include "probe_rays.h"

/* a box has 8 corners and 12 triangles; there are two of them */
#define CORNERS 8
#define FACETS 12
#define BOXES 2
#define PARTS 5

static double vertices[BOXES * CORNERS * 3];
static uint32_t triangles[BOXES * FACETS * 3];
static double node_boxes[BOXES * FACETS * 12];
static double triangle_boxes[BOXES * FACETS * 6];
static uint32_t node_words[BOXES * FACETS * 6];
static uint32_t order[BOXES * FACETS];
static uint32_t list[FACETS];
static uint32_t stack[2 * FACETS + 1];

/* the corners of a side, counted by x + 2y + 4z, in the order of its rim */
static const uint32_t sides[6][4] = {
    {0, 2, 3, 1}, {4, 5, 7, 6}, {0, 1, 5, 4}, {2, 6, 7, 3}, {0, 4, 6, 2}, {1, 3, 7, 5}
};

static probe_span span(size_t box, size_t length)
{
    probe_span range;
    range.start = box * length;
    range.length = length;
    return range;
}

/* Writes a box from the origin to x, y, z as mesh number `box`, builds its tree, and gives it as a part there. */
static probe_part panel(size_t box, double x, double y, double z)
{
    static const probe_part none = {{0, 0, 0}, 0, {0, 0}, {0, 0}, {0, 0}, {0, 0}, {0, 0}, {0, 0}};
    probe_part part = none;
    double *corner = vertices + box * CORNERS * 3;
    uint32_t *facet = triangles + box * FACETS * 3;
    uint32_t work[FACETS] = {0};
    size_t nodes[1] = {0};
    size_t k;
    for (k = 0; k < CORNERS; k++) {
        corner[3 * k] = k & 1 ? x : 0;
        corner[3 * k + 1] = k & 2 ? y : 0;
        corner[3 * k + 2] = k & 4 ? z : 0;
    }
    for (k = 0; k < 6; k++) {
        const uint32_t *rim = sides[k];
        facet[6 * k] = rim[0];
        facet[6 * k + 1] = rim[1];
        facet[6 * k + 2] = rim[2];
        facet[6 * k + 3] = rim[0];
        facet[6 * k + 4] = rim[2];
        facet[6 * k + 5] = rim[3];
    }
    part.vertices = span(box, CORNERS * 3);
    part.triangles = span(box, FACETS * 3);
    part.node_boxes = span(box, PROBE_NODE_BOXES_LENGTH(FACETS));
    part.triangle_boxes = span(box, PROBE_TRIANGLE_BOXES_LENGTH(FACETS));
    part.node_words = span(box, PROBE_NODE_WORDS_LENGTH(FACETS));
    part.order = span(box, PROBE_ORDER_LENGTH(FACETS));
    if (probe_build(corner, CORNERS * 3, facet, FACETS * 3, node_boxes + part.node_boxes.start,
                    part.node_boxes.length, triangle_boxes + part.triangle_boxes.start, part.triangle_boxes.length,
                    node_words + part.node_words.start, part.node_words.length, order + part.order.start,
                    part.order.length, work, FACETS, nodes, PROBE_COUNT_LENGTH)
        != PROBE_DONE)
        printf("the build refused\n");
    part.nodes = nodes[0];
    return part;
}

static probe_part at(probe_part part, double x, double y, double z)
{
    part.origin.x = x;
    part.origin.y = y;
    part.origin.z = z;
    return part;
}

static const char *const names[PARTS] = {"left side", "right side", "bottom", "shelf", "top"};

static void probe(const probe_part *parts, const double from[3], const double toward[3], double near_distance, size_t limit)
{
    double hit[PROBE_HIT_LENGTH] = {0};
    uint32_t index[PROBE_INDEX_LENGTH] = {0};
    size_t part[PROBE_COUNT_LENGTH] = {0};
    size_t spent[PROBE_COUNT_LENGTH] = {0};
    uint32_t answer = probe_ray_cabinet(
        from[0], from[1], from[2], toward[0], toward[1], toward[2], 2000, near_distance, parts, PARTS, vertices,
        sizeof vertices / sizeof *vertices, triangles, sizeof triangles / sizeof *triangles, node_boxes,
        sizeof node_boxes / sizeof *node_boxes, triangle_boxes, sizeof triangle_boxes / sizeof *triangle_boxes,
        node_words, sizeof node_words / sizeof *node_words, order, sizeof order / sizeof *order, limit, list, FACETS,
        stack, 2 * FACETS + 1, hit, PROBE_HIT_LENGTH, index, PROBE_INDEX_LENGTH, part, PROBE_COUNT_LENGTH, spent,
        PROBE_COUNT_LENGTH);
    printf("from (%g, %g, %g) along (%g, %g, %g): ", from[0], from[1], from[2], toward[0], toward[1], toward[2]);
    if (answer == PROBE_HIT)
        /* a normal that was turned towards the ray may have zeros with a sign: + 0 takes it off */
        printf("%s at %g, normal (%g, %g, %g)\n", names[part[0]], hit[3], hit[0] + 0, hit[1] + 0, hit[2] + 0);
    else if (answer == PROBE_NONE)
        printf("none\n");
    else
        printf("refused %u after %u nodes\n", (unsigned)answer, (unsigned)spent[0]);
}

int main(void)
{
    static const double down[3] = {0, 0, -1};
    static const double left[3] = {-1, 0, 0};
    static const double right[3] = {1, 0, 0};
    static const double above[3] = {300, 280, 1000};
    static const double within[3] = {300, 280, 600};
    static const double beside[3] = {700, 280, 600};
    const size_t all = (size_t)-1;
    probe_part parts[PARTS];
    probe_part upright = panel(0, 18, 560, 720);
    probe_part flat = panel(1, 564, 560, 18);
    parts[0] = at(upright, 0, 0, 0);
    parts[1] = at(upright, 582, 0, 0);
    parts[2] = at(flat, 18, 0, 0);
    parts[3] = at(flat, 18, 0, 350);
    parts[4] = at(flat, 18, 0, 702);

    /* the top's upper side lies at 720, 280 below; it is the last part of the list, and the nearest */
    probe(parts, above, down, 0, all);
    /* not within the first 290, so the top's lower side, at 702; its normal faces the ray */
    probe(parts, above, down, 290, all);
    /* the shelf's upper side lies at 368 */
    probe(parts, within, down, 0, all);
    /* the inner sides at x = 18 and x = 582 */
    probe(parts, within, left, 0, all);
    probe(parts, within, right, 0, all);
    /* the right side's outer side lies at x = 600 */
    probe(parts, beside, left, 0, all);
    probe(parts, beside, right, 0, all);
    /* every part costs its first node at least, so that four do not do for five parts, though the top would be hit */
    probe(parts, above, down, 0, 4);
    return 0;
}
