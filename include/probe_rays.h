/* Ray casts at a plane, a triangle, a triangle mesh with its bounding box tree, a height grid and a distance grid.
 *
 * For C99 or later, and C++. probe_rays.hpp is a wrapper for C++17.
 * The library is libprobe_rays.a or libprobe_rays.so, for Linux on x86-64: `tools/build library` proves it and writes
 * target/staticlib/libexports.a, and `tools/install` installs it under these names.
 * tests/declarations.sh compares this header with the proved source and with the Rust crate.
 *
 * HOW TO CALL
 *
 * A slice is two parameters: a pointer and, under the same name with _length, the number of elements.
 *   - The pointer is valid for that many elements, aligned for them, and not null. This also holds for a length of
 *     zero: pass any aligned pointer that is not null, such as the address of a variable of the element's type.
 *     Nothing is read or written through it then.
 *   - A slice that a call writes (no const) shares no element with another slice of the same call.
 *     Slices that are only read may be the same slice.
 *   - All elements are initialised, also in a buffer that is only written: use calloc or a static array.
 * The caller must ensure this: a C compiler does not check it, and the library cannot. Every other argument may have any
 * value.
 *
 * No call allocates memory, takes a lock, keeps anything between calls, or reads anything but what it is given.
 * Every call terminates.
 * The calls are thread-safe: any number of threads may call at the same time, as long as no slice that one call writes
 * is used by another.
 * The processor's floating-point mode must be the one that a program starts with: rounding to nearest, subnormal
 * numbers kept. Do not link with -ffast-math or -Ofast: they turn subnormal numbers off.
 *
 * Lengths, coordinates and distances have whatever unit the caller uses. All geometry is in the shape's own frame.
 *
 * WHAT A CALL RETURNS
 *
 * A refusal is a number below 256:
 *
 *   no.  name               when
 *   1    invalid input      a ray's origin or maximum is not finite; its maximum is below 0; its direction is not finite,
 *                           or has a length more than 1e-12 from 1; its near distance is not finite, below 0 or above
 *                           the maximum; a query's box has a corner that is not finite, or a minimum above its maximum; a
 *                           drill's radius is not finite, or below 0
 *   2    bad shape          a count, length, spacing, normal, plane distance or grid origin is outside the limits below;
 *                           the bytes are not one well-formed record
 *   3    no room            a buffer is shorter than stated; a listing has more hits than places (the late 3)
 *   4    wrong pose         the pose does not have as many vertices as the mesh
 *   5    out of bounds      an index or a box does not fit; a tree is broken where the traversal meets it; a tree to merge
 *                           does not pass the check
 *   6    overflow           a computed number is not finite
 *   7    no normal          the cross product of the hit triangle's edges is zero or not finite
 *   8    not convergent     the traversal of a distance grid ends without an answer, or the gradient at its hit is zero
 *   9    bad range          a range of a visited cell is out of order or not finite
 *   10   limit reached      the next node of a cabinet's traversals would exceed the limit
 *   11   not representable  a float of a record is NaN, or no f32 is exactly that number
 *   12   out of range       of an exact cast and of a drill: the origin or a corner of a triangle of the mesh is not a number
 *                           from -8,192 to 8,192, or near or the maximum is above 32,768; a drill's radius is above 128
 *
 * Later versions may add refusals from 13 on; all stay below 256.
 *
 * Any other return value is one of the codes PROBE_HIT, PROBE_NONE, PROBE_YES, PROBE_NO, PROBE_DONE, PROBE_CLEAR and
 * PROBE_POSSIBLE, which no refusal has. PROBE_NONE is a miss.
 *
 * A call tests 1, 2, 3 and 4 in this order, then the others as the cast meets them. It tests 12 for the ray directly
 * after 1, 12 for a drill's radius after both, and the late 3 last. 12 for a corner comes after 5 in an exact cast and a
 * drill without a tree; through a tree it comes as the traversal meets it. The result slices hit, index, nodes (of
 * probe_build and probe_merge), found, cell, part, spent, written, codes, hits and indices are buffers like the others: one
 * that is too short is refused with 3, after 1 and 2. A call of many rays or drills tests 2, 3 and 4 once, before 1 of its
 * first ray.
 *
 * WHAT IS WRITTEN
 *
 * After a refusal every result buffer is unchanged, with these exceptions:
 *
 *   call                after                      what is written
 *   probe_build         5, 6                       zeros: every place of node_boxes, triangle_boxes, node_words and order
 *   probe_query         5                          zeros: every place of list
 *   probe_ray_mesh_all  5, 6, 7 and the late 3     zeros: every place of indices and numbers
 *   probe_ray_mesh_     5, 12 for a corner and     the same
 *     exact_all         the late 3
 *   probe_ray_cabinet   5, 6, 7 and 10             the number of nodes spent, in spent[0]
 *
 * Otherwise the result slices are written only with PROBE_HIT, PROBE_DONE and PROBE_POSSIBLE, and spent with PROBE_NONE
 * too. Their places past those stated are unchanged.
 * If a call of many rays or drills refuses one of them, the call itself does not refuse: its number is in codes, and its
 * places of hits and indices are unchanged.
 * The work buffers are: the list and the stack of a mesh cast, of a drill, of a call of many rays or drills, of a listing
 * and of a cabinet; the query's stack; the build's work; and the marks of the check and of the merge. They need not be
 * cleared before a call. They are unchanged after 1, 2, 4, 12 for the ray or the radius, and every 3 except the late one.
 * After any other return value their contents are unspecified.
 *
 * LIMITS
 *
 *   mesh           up to 65,536 vertices and 65,536 triangles
 *   height grid    2 to 1,024 rows and columns; spacings finite and above 0; exactly rows * columns heights
 *   distance grid  2 to 256 nodes along each side; spacings finite and above 0; a finite origin; exactly as many values
 *                  as the product of the sides
 *   plane          a normal whose length is within 1e-12 of 1; a finite distance
 *
 * Other values are not scanned: a coordinate, height or value may be infinite or NaN.
 *
 * ZERO
 *
 * Zeros keep their sign, to the bit. A normal that is negated negates its zeros too, so a component may be -0. A surface
 * at the origin may be hit at distance -0, which is a hit and no miss. Comparisons, ties and boxes treat 0 and -0 as
 * equal.
 */
#ifndef PROBE_RAYS_H
#define PROBE_RAYS_H

#include <stddef.h>
#include <stdint.h>

#ifdef __cplusplus
extern "C" {
#endif

/* The version of these calls. It changes when one of them changes. */
#define PROBE_VERSION 3u

/* What a call returns if it does not refuse. */
#define PROBE_HIT 256u  /* a hit: hit is written, and for a mesh index too; of a drill: a triangle is touched */
#define PROBE_NONE 257u /* a miss: no hit from near to the maximum, as the cast reads them, by the cast's definition;
                           of a drill: it is clear */
#define PROBE_YES 258u  /* the tree fits the mesh; the mesh's corners are numbers */
#define PROBE_NO 259u   /* the tree does not fit; they are not numbers */
#define PROBE_DONE 260u /* the results are written: a tree, a list, a record */
#define PROBE_CLEAR 261u /* no grid within the ranges has a triangle whose box touches the box of the ray's segment */
#define PROBE_POSSIBLE 262u /* some grid within the ranges has one: cell is written. No cast need be a hit */

/* The refusals. */
#define PROBE_REFUSED_INVALID_INPUT 1u
#define PROBE_REFUSED_BAD_SHAPE 2u
#define PROBE_REFUSED_NO_ROOM 3u
#define PROBE_REFUSED_WRONG_POSE 4u
#define PROBE_REFUSED_OUT_OF_BOUNDS 5u
#define PROBE_REFUSED_OVERFLOW 6u
#define PROBE_REFUSED_NO_NORMAL 7u
#define PROBE_REFUSED_NOT_CONVERGENT 8u
#define PROBE_REFUSED_BAD_RANGE 9u
#define PROBE_REFUSED_LIMIT_REACHED 10u
#define PROBE_REFUSED_NOT_REPRESENTABLE 11u
#define PROBE_REFUSED_OUT_OF_RANGE 12u

/* Whether a return value is a refusal. */
#define PROBE_IS_REFUSAL(answer) ((answer) < 256u)

/* The limits of a mesh. */
#define PROBE_MAX_VERTICES 65536u
#define PROBE_MAX_TRIANGLES 65536u

/* The caller provides the buffers for a mesh of n triangles and its tree. A longer buffer is admitted.
 *
 *   buffer          element   length          contents
 *   vertices        double    3 a vertex      x, y, z
 *   triangles       uint32_t  3n              three vertex indices a triangle, from 0
 *   node_boxes      double    12n             six numbers a node: minimum x, y, z, then maximum x, y, z
 *   triangle_boxes  double    6n              six numbers a triangle, in the same order
 *   node_words      uint32_t  6n              three words a node: 0, start, count (a leaf: places of order),
 *                                             or 1, left, right (a branch: two nodes)
 *   order           uint32_t  n               triangle indices; a leaf names a range of its places
 *   work            uint32_t  n               the build's work buffer
 *   list            uint32_t  n               the query's result; a work buffer of the mesh cast and the drill
 *   stack           uint32_t  node count + 1  a work buffer of the query, the mesh cast and the drill
 *   marks           uint32_t  3n              the check's work buffer
 *   hit             double    4               normal x, y, z, then the distance
 *   index           uint32_t  1               the index of the triangle hit or touched
 *   nodes, found    size_t    1               the build's node count; how many triangles the query listed
 *   rays            double    8 a ray         origin x, y, z, direction x, y, z, the maximum, the near distance
 *   drills          double    9 a drill       a ray's eight numbers in the same order, then the radius
 *   codes, indices  uint32_t  1 a ray, drill  what the single call returns; the index of the triangle hit or touched
 *   hits            double    4 a ray         normal x, y, z, then the distance
 *   part, spent     size_t    1               the part hit, from 0; the number of nodes spent on a cabinet
 *   written         size_t    1               the number of bytes of a converted record
 *
 * Node 0 is the root. A node count is at most 2n (more is refused with 2), so a stack of 2n + 1 suffices for every tree.
 */
#define PROBE_VERTICES_LENGTH(vertices) ((size_t)3 * (vertices))
#define PROBE_TRIANGLES_LENGTH(n) ((size_t)3 * (n))
#define PROBE_NODE_BOXES_LENGTH(n) ((size_t)12 * (n))
#define PROBE_TRIANGLE_BOXES_LENGTH(n) ((size_t)6 * (n))
#define PROBE_NODE_WORDS_LENGTH(n) ((size_t)6 * (n))
#define PROBE_ORDER_LENGTH(n) ((size_t)(n))
#define PROBE_WORK_LENGTH(n) ((size_t)(n))
#define PROBE_LIST_LENGTH(n) ((size_t)(n))
#define PROBE_STACK_LENGTH(nodes) ((size_t)(nodes) + 1)
#define PROBE_MARKS_LENGTH(n) ((size_t)3 * (n))
#define PROBE_HIT_LENGTH 4
#define PROBE_INDEX_LENGTH 1
#define PROBE_COUNT_LENGTH 1
#define PROBE_RAYS_LENGTH(rays) ((size_t)8 * (rays))
#define PROBE_DRILLS_LENGTH(drills) ((size_t)9 * (drills))
#define PROBE_HITS_LENGTH(rays) ((size_t)4 * (rays))

/* No record of version 2 or 3 has more bytes, its four length bytes included. */
#define PROBE_MAX_RECORD 8196u

/* The version of the linked library. It is PROBE_VERSION if this header belongs to that library. */
uint32_t probe_version(void);

/* Casts a ray at the plane of all points whose dot product with the normal is the distance.
 *
 * Returns PROBE_HIT or PROBE_NONE, or refuses with 1, 2, 3 or 6. The normal written faces the ray. A plane parallel to
 * the ray is a miss. A distance equal to the maximum is a hit.
 */
uint32_t probe_ray_plane(
    double origin_x,
    double origin_y,
    double origin_z,
    double direction_x,
    double direction_y,
    double direction_z,
    double max_distance,
    double normal_x,
    double normal_y,
    double normal_z,
    double distance,
    double *hit,
    size_t hit_length
);

/* Casts a ray at the triangle with corners a, b and c, from either side.
 *
 * Returns PROBE_HIT or PROBE_NONE, or refuses with 1, 3, 6 or 7. The normal written faces the ray. A triangle that is
 * degenerate for the ray (parallel to it, or too small) is a miss. A distance equal to the maximum is a hit. Corners far
 * apart may give a distance that is not a number: the call then refuses with 6.
 */
uint32_t probe_ray_triangle(
    double origin_x,
    double origin_y,
    double origin_z,
    double direction_x,
    double direction_y,
    double direction_z,
    double max_distance,
    double a_x,
    double a_y,
    double a_z,
    double b_x,
    double b_y,
    double b_z,
    double c_x,
    double c_y,
    double c_z,
    double *hit,
    size_t hit_length
);

/* Casts a ray at a height grid. The height of row r and column c is heights[r * columns + c], at x = c * spacing_x and
 * y = r * spacing_y. Each cell is two triangles. Only the cells under the bounding box of the ray's segment are tested.
 *
 * Returns PROBE_HIT or PROBE_NONE, or refuses with 1, 2, 3, 5, 6 or 7. The hit is the nearest, and its normal faces the
 * ray.
 */
uint32_t probe_ray_height_field(
    double origin_x,
    double origin_y,
    double origin_z,
    double direction_x,
    double direction_y,
    double direction_z,
    double max_distance,
    size_t rows,
    size_t columns,
    double spacing_x,
    double spacing_y,
    const double *heights,
    size_t heights_length,
    double *hit,
    size_t hit_length
);

/* Casts a ray at a height grid for which only a low and a high are known at each node: lows[r * columns + c] and
 * highs[r * columns + c] are those of row r and column c.
 *
 * Returns PROBE_CLEAR if no grid within the ranges has a triangle whose box touches the box of the ray's segment. The
 * height cast is then a miss on every such grid.
 * Returns PROBE_POSSIBLE if some grid within the ranges has one. The first such cell, in row order, is then in cell[0], as
 * row * (columns - 1) + column. The height cast need not be a hit on any of these grids: with 2 rows and 2 columns,
 * spacings of 1, all lows and highs 0, from (-1.5, 0.5, 1) along (r, 0, -r), r = sqrt(0.5), maximum 3.5, the call returns
 * PROBE_POSSIBLE, and the height cast at heights of 0 is a miss.
 * Refuses with 1, 2, 3 (cell has no place), 6 or 9.
 *
 * Only the cells that the height cast would test count: ranges elsewhere are not read, and a grid within the ranges may
 * have any heights there. near_distance is tested (1) and has no other effect.
 */
uint32_t probe_ray_height_ranges(
    double origin_x,
    double origin_y,
    double origin_z,
    double direction_x,
    double direction_y,
    double direction_z,
    double max_distance,
    double near_distance,
    size_t rows,
    size_t columns,
    double spacing_x,
    double spacing_y,
    const double *lows,
    size_t lows_length,
    const double *highs,
    size_t highs_length,
    uint32_t *cell,
    size_t cell_length
);

/* Casts a ray at the zero surface of a distance grid. The value of node (i, j, k), at grid + (i, j, k) * spacing, is
 * values[(k * side_y + j) * side_x + i].
 *
 * Returns PROBE_HIT or PROBE_NONE, or refuses with 1, 2, 3, 5, 6 or 8. The normal is the direction of the gradient: it
 * points to where the values grow, and is not turned towards the ray. The steps of the traversal are rounded, so a hit
 * may lie one float past the maximum. No hit lies below near.
 */
uint32_t probe_ray_level_set(
    double origin_x,
    double origin_y,
    double origin_z,
    double direction_x,
    double direction_y,
    double direction_z,
    double max_distance,
    uint32_t side_x,
    uint32_t side_y,
    uint32_t side_z,
    double grid_x,
    double grid_y,
    double grid_z,
    double spacing_x,
    double spacing_y,
    double spacing_z,
    const double *values,
    size_t values_length,
    double *hit,
    size_t hit_length
);

/* Casts a ray at a mesh through its tree. `vertices` and `triangles` are the mesh. `pose` holds the vertices to cast at:
 * pass `vertices` again, or the same number of moved vertices. The tree's boxes are those of the mesh's own vertices, and
 * only triangles whose box there touches the box of the ray's segment are tested. `nodes` is the tree's node count.
 *
 * Returns PROBE_HIT or PROBE_NONE, or refuses with 1 to 7. The hit is the nearest; of equally near hits, the one with the
 * lowest triangle index.
 *
 * At the mesh's own vertices, through a tree for which probe_tree_check returns PROBE_YES, no triangle whose box touches
 * is missed. Any other tree may be passed too: the call terminates and stays within the buffers that it is given. But it
 * may miss a surface that such a tree does not enclose, and nothing distinguishes this miss from a correct one.
 */
uint32_t probe_ray_mesh(
    double origin_x,
    double origin_y,
    double origin_z,
    double direction_x,
    double direction_y,
    double direction_z,
    double max_distance,
    const double *vertices,
    size_t vertices_length,
    const uint32_t *triangles,
    size_t triangles_length,
    const double *pose,
    size_t pose_length,
    size_t nodes,
    const double *node_boxes,
    size_t node_boxes_length,
    const double *triangle_boxes,
    size_t triangle_boxes_length,
    const uint32_t *node_words,
    size_t node_words_length,
    const uint32_t *order,
    size_t order_length,
    uint32_t *list,
    size_t list_length,
    uint32_t *stack,
    size_t stack_length,
    double *hit,
    size_t hit_length,
    uint32_t *index,
    size_t index_length
);

/* The casts above for a ray with a near distance. near_distance follows the maximum. It must be finite and from 0 to the
 * maximum; otherwise the call refuses with 1.
 *
 * A surface nearer than near_distance is treated like one behind the origin: it is not hit, and a triangle there needs no
 * normal. A surface at exactly this distance is hit. Distances are still measured from the origin, and a mesh's
 * candidates are those of the whole segment, from the origin on. The hit in a distance grid is the first past the near
 * distance. The calls without `_near` are these with a near distance of 0.
 */
uint32_t probe_ray_plane_near(
    double origin_x,
    double origin_y,
    double origin_z,
    double direction_x,
    double direction_y,
    double direction_z,
    double max_distance,
    double near_distance,
    double normal_x,
    double normal_y,
    double normal_z,
    double distance,
    double *hit,
    size_t hit_length
);

uint32_t probe_ray_triangle_near(
    double origin_x,
    double origin_y,
    double origin_z,
    double direction_x,
    double direction_y,
    double direction_z,
    double max_distance,
    double near_distance,
    double a_x,
    double a_y,
    double a_z,
    double b_x,
    double b_y,
    double b_z,
    double c_x,
    double c_y,
    double c_z,
    double *hit,
    size_t hit_length
);

uint32_t probe_ray_height_field_near(
    double origin_x,
    double origin_y,
    double origin_z,
    double direction_x,
    double direction_y,
    double direction_z,
    double max_distance,
    double near_distance,
    size_t rows,
    size_t columns,
    double spacing_x,
    double spacing_y,
    const double *heights,
    size_t heights_length,
    double *hit,
    size_t hit_length
);

uint32_t probe_ray_level_set_near(
    double origin_x,
    double origin_y,
    double origin_z,
    double direction_x,
    double direction_y,
    double direction_z,
    double max_distance,
    double near_distance,
    uint32_t side_x,
    uint32_t side_y,
    uint32_t side_z,
    double grid_x,
    double grid_y,
    double grid_z,
    double spacing_x,
    double spacing_y,
    double spacing_z,
    const double *values,
    size_t values_length,
    double *hit,
    size_t hit_length
);

uint32_t probe_ray_mesh_near(
    double origin_x,
    double origin_y,
    double origin_z,
    double direction_x,
    double direction_y,
    double direction_z,
    double max_distance,
    double near_distance,
    const double *vertices,
    size_t vertices_length,
    const uint32_t *triangles,
    size_t triangles_length,
    const double *pose,
    size_t pose_length,
    size_t nodes,
    const double *node_boxes,
    size_t node_boxes_length,
    const double *triangle_boxes,
    size_t triangle_boxes_length,
    const uint32_t *node_words,
    size_t node_words_length,
    const uint32_t *order,
    size_t order_length,
    uint32_t *list,
    size_t list_length,
    uint32_t *stack,
    size_t stack_length,
    double *hit,
    size_t hit_length,
    uint32_t *index,
    size_t index_length
);

/* The casts at a plane and at a triangle of a ray with a near distance, with the numbers in slices. A ray has eight, in
 * the order of the calls above (origin, direction, maximum, near); a plane has four (normal, distance); a triangle has
 * nine (corners a, b and c). Use these calls for numbers that are in memory, such as an array of rays: only addresses
 * are passed. Numbers that were computed just before are passed faster one by one.
 *
 * A ray of another length than 8, or one that is not admitted, is refused with 1. Then a plane of another length than 4,
 * or a triangle of another length than 9, is refused with 2. Otherwise the return value, the refusals and what is
 * written are those of probe_ray_plane_near and probe_ray_triangle_near for the same numbers.
 */
uint32_t probe_ray_plane_slices(
    const double *ray,
    size_t ray_length,
    const double *plane,
    size_t plane_length,
    double *hit,
    size_t hit_length
);

uint32_t probe_ray_triangle_slices(
    const double *ray,
    size_t ray_length,
    const double *triangle,
    size_t triangle_length,
    double *hit,
    size_t hit_length
);

/* Casts a ray at a mesh without a tree: for parts of few triangles, such as a drawer front of a dozen. It takes no
 * buffers but the mesh and the result slices. It visits every triangle by its index, and skips those whose box does not
 * touch the box of the ray's segment. Surfaces nearer than near_distance are passed over. near_distance must be finite
 * and from 0 to max_distance; otherwise the call refuses with 1.
 *
 * Returns PROBE_HIT or PROBE_NONE, or refuses with 1, 2, 3, 5, 6 or 7, as probe_ray_mesh_near does at the mesh's own
 * vertices through any tree for which probe_tree_check returns PROBE_YES: the two are proved to agree. A mesh without
 * triangles is a miss.
 *
 * The call tests 1, then 2, then 3 (hit, index), then whether the segment's end is finite (6). Then, before any triangle
 * is cast at, it tests whether every triangle of the mesh has a valid box (5); a triangle with an index past the vertices
 * has none.
 */
uint32_t probe_ray_mesh_plain(
    double origin_x,
    double origin_y,
    double origin_z,
    double direction_x,
    double direction_y,
    double direction_z,
    double max_distance,
    double near_distance,
    const double *vertices,
    size_t vertices_length,
    const uint32_t *triangles,
    size_t triangles_length,
    double *hit,
    size_t hit_length,
    uint32_t *index,
    size_t index_length
);

/* The exact cast at a mesh, without a tree. It decides in integers, so a miss is certain, for any mesh within 8,192 mm
 * and any direction. The unit here is the millimetre.
 *
 * Every number is read on a grid first. The corners, the origin, near_distance and max_distance are each rounded to the
 * nearest multiple of 2^-15 mm, and each component of the direction to the nearest multiple of 2^-30, ties to the even
 * multiple. Everything below is about the numbers as read. The segment is the points origin + s * direction for s from
 * near_distance to max_distance, both included; s is a point's depth. A triangle is the closed convex hull of its three
 * corners; it counts if these are not collinear.
 *
 * Where the call does not refuse, it returns PROBE_NONE exactly if no point of the segment lies in a triangle of the mesh
 * that counts. Otherwise it returns the hit at the least depth over all triangles. The distance is the double nearest to
 * this depth. The index is the lowest of the triangles whose depths round to this distance. The normal is the cross
 * product of the triangle's edges, normalised, and faces the ray. Edges and corners of a triangle are hit, and triangles
 * coplanar with the ray count.
 *
 * The grid shows in two ways. A surface at 1.0000305 is hit with a maximum of 1.00002, and with a near_distance of
 * 1.00004: all three are read as 1 + 2^-15. So a hit's distance may lie above max_distance or below near_distance, by at
 * most 2^-16. And the grid may flatten a thin triangle that has area as drawn, which then does not count: at a sliver that
 * is 14 nm wide the call is a miss where probe_ray_mesh_plain may hit.
 *
 * Returns PROBE_HIT or PROBE_NONE, or refuses with 1, 12, 2, 3 (hit, index), 5 or 12, tested in this order. The first 12
 * is for the ray: its origin is not within 8,192, or near or the maximum is above 32,768. 5 is as in probe_ray_mesh_plain.
 * The second 12 is for the mesh: a corner of any of its triangles is not a number from -8,192 to 8,192. There is no 6
 * and no 7.
 */
uint32_t probe_ray_mesh_exact_plain(
    double origin_x,
    double origin_y,
    double origin_z,
    double direction_x,
    double direction_y,
    double direction_z,
    double max_distance,
    double near_distance,
    const double *vertices,
    size_t vertices_length,
    const uint32_t *triangles,
    size_t triangles_length,
    double *hit,
    size_t hit_length,
    uint32_t *index,
    size_t index_length
);

/* The exact cast through a tree. The arguments are those of probe_ray_mesh_near without the list. The traversal enters a
 * node only where the line can meet its box before the nearest hit so far.
 *
 * At the mesh's own vertices, through a tree for which probe_tree_check returns PROBE_YES, and for a mesh for which
 * probe_mesh_has_numbers returns PROBE_YES, the call returns what probe_ray_mesh_exact_plain returns: the two are proved
 * to agree, and a miss is certain there. At other vertices, or through any other tree, the call terminates too, and a hit
 * is a true hit of its triangle at `pose`, but a surface may be missed.
 *
 * Returns PROBE_HIT or PROBE_NONE, or refuses with 1, 12 (for the ray), 2, 3 or 4, tested in this order, and then with 5
 * if the tree is broken where the traversal meets it. Otherwise, of the triangles that it meets and that have an index
 * past the vertices (5) or a corner that is not a number from -8,192 to 8,192 (12), the lowest-indexed refuses. The stack
 * is unchanged after 1, 12 for the ray, 2, 3 and 4; its contents are unspecified after any other return value.
 */
uint32_t probe_ray_mesh_exact(
    double origin_x,
    double origin_y,
    double origin_z,
    double direction_x,
    double direction_y,
    double direction_z,
    double max_distance,
    double near_distance,
    const double *vertices,
    size_t vertices_length,
    const uint32_t *triangles,
    size_t triangles_length,
    const double *pose,
    size_t pose_length,
    size_t nodes,
    const double *node_boxes,
    size_t node_boxes_length,
    const double *triangle_boxes,
    size_t triangle_boxes_length,
    const uint32_t *node_words,
    size_t node_words_length,
    const uint32_t *order,
    size_t order_length,
    uint32_t *stack,
    size_t stack_length,
    double *hit,
    size_t hit_length,
    uint32_t *index,
    size_t index_length
);

/* Casts many rays at a mesh through its tree. Each ray is answered as by probe_ray_mesh_near, at its own places of the
 * result slices. `rays` has eight numbers a ray: origin x, y, z, direction x, y, z, the maximum and the near distance.
 * `codes` has one place a ray, `hits` four and `indices` one; longer buffers are admitted. The other arguments are those
 * of probe_ray_mesh_near.
 *
 * Returns PROBE_DONE, or refuses the whole call with 2 (a limit of the mesh, or a length of `rays` that is no multiple of
 * eight), then 3, then 4. These are tested once, before the first ray, and nothing is written then. With no rays the call
 * returns PROBE_DONE.
 *
 * With PROBE_DONE, codes[i] is what the single call returns for ray i: PROBE_HIT, PROBE_NONE, or the ray's own refusal,
 * 1, 5, 6 or 7. A refused ray does not stop the others. If codes[i] is PROBE_HIT, hits[4 * i] to hits[4 * i + 3] are the
 * normal and the distance, and indices[i] is the triangle. Otherwise these places are unchanged, and so are all places
 * past the last ray's. Each ray's places are proved to hold what the single call leaves there, so all that is said of
 * probe_ray_mesh and probe_ray_mesh_near holds here too.
 *
 * It is for languages in which a call costs more than a cast, such as Python. From C it saves little: nearly all of a
 * cast's time is the traversal. Threads that each cast a share of the rays save more.
 */
uint32_t probe_ray_mesh_many(
    const double *rays,
    size_t rays_length,
    const double *vertices,
    size_t vertices_length,
    const uint32_t *triangles,
    size_t triangles_length,
    const double *pose,
    size_t pose_length,
    size_t nodes,
    const double *node_boxes,
    size_t node_boxes_length,
    const double *triangle_boxes,
    size_t triangle_boxes_length,
    const uint32_t *node_words,
    size_t node_words_length,
    const uint32_t *order,
    size_t order_length,
    uint32_t *list,
    size_t list_length,
    uint32_t *stack,
    size_t stack_length,
    uint32_t *codes,
    size_t codes_length,
    double *hits,
    size_t hits_length,
    uint32_t *indices,
    size_t indices_length
);

/* The exact cast of many rays through a tree, in the same way: each ray is answered as by probe_ray_mesh_exact. There is
 * no list. A ray's own refusals are 1, 12 and 5. At the mesh's own vertices, through a tree for which probe_tree_check
 * returns PROBE_YES, and for a mesh for which probe_mesh_has_numbers returns PROBE_YES, a PROBE_NONE in codes is certain.
 */
uint32_t probe_ray_mesh_exact_many(
    const double *rays,
    size_t rays_length,
    const double *vertices,
    size_t vertices_length,
    const uint32_t *triangles,
    size_t triangles_length,
    const double *pose,
    size_t pose_length,
    size_t nodes,
    const double *node_boxes,
    size_t node_boxes_length,
    const double *triangle_boxes,
    size_t triangle_boxes_length,
    const uint32_t *node_words,
    size_t node_words_length,
    const uint32_t *order,
    size_t order_length,
    uint32_t *stack,
    size_t stack_length,
    uint32_t *codes,
    size_t codes_length,
    double *hits,
    size_t hits_length,
    uint32_t *indices,
    size_t indices_length
);

/* THE DRILL
 *
 * A cast asks about a line. A drill has a thickness: does this drill of 8 mm, 12 deep, touch anything? The drill of a ray
 * and a radius is the closed, flat-ended cylinder about the ray's segment: the points whose foot on the axis is from
 * near_distance to max_distance, and whose distance to the axis is at most the radius. The unit is the millimetre.
 *
 * The call without a tree. It decides in integers, on the grid of the exact cast: coordinates, near and the maximum are
 * rounded to multiples of 2^-15 mm (to the nearest, ties to even), each component of the direction to the nearest multiple
 * of 2^-30, and the radius up to the next multiple of 2^-15 mm, so that a clear drill is never a thinner one than asked.
 *
 *   PROBE_NONE  The drill is clear: no point of any triangle of the mesh, with area or without, lies in it.
 *   PROBE_HIT   The drill touches the mesh. index[0] is the lowest index of a triangle that has a point in it.
 *
 * A touch counts: of a face by the flat end, of an edge or a corner by the rim, and of a triangle that lies inside the
 * drill. A radius of 0 asks about the segment itself.
 *
 * What this says of the part as drawn, that is, of the floats of ray, radius and mesh, none of them rounded. Let d be
 * 2^-13 mm (0.00012207 mm). If the drill is clear, no point of the mesh as drawn has its foot on the axis as drawn from
 * near_distance + d to max_distance - d and a distance to that axis of at most radius - d. If it is touched, the triangle
 * in index[0] has, as drawn, a point whose foot is from near_distance - d to max_distance + d and whose distance is at
 * most radius + d. Both are proved, for every mesh and drill that is not refused.
 *
 * Returns PROBE_NONE or PROBE_HIT, or refuses, tested in this order, with
 *   1   the ray is not valid, as in every cast; the radius is NaN, infinite or below 0
 *   12  the origin is not within 8,192, or near or the maximum is above 32,768; the radius is above 128
 *   2   as in probe_ray_mesh_plain
 *   3   index has no place
 *   5   an index is past the vertices, or a triangle has no valid box
 *   12  a corner of any triangle of the mesh is not a number from -8,192 to 8,192
 */
uint32_t probe_drill_plain(
    double origin_x,
    double origin_y,
    double origin_z,
    double direction_x,
    double direction_y,
    double direction_z,
    double max_distance,
    double near_distance,
    double radius,
    const double *vertices,
    size_t vertices_length,
    const uint32_t *triangles,
    size_t triangles_length,
    uint32_t *index,
    size_t index_length
);

/* The drill through a tree, at the mesh's own vertices: there is no pose. The list and the stack are work buffers.
 *
 * Through a tree for which probe_tree_check returns PROBE_YES, and for a mesh for which probe_mesh_has_numbers returns
 * PROBE_YES, the call returns what probe_drill_plain returns: the two are proved to agree, so all that is said there holds
 * here. Through any other tree the call terminates too, and the triangle in index[0] has a point in the drill, but
 * PROBE_NONE is not certain.
 *
 * Returns PROBE_NONE or PROBE_HIT, or refuses with 1, 12 (for the ray or the radius), 2 (also for a node count above 2n) or
 * 3, tested in this order, and then with 5 (also if the tree is broken where the traversal meets it) or 12 (for a corner).
 * The list and the stack are unchanged after 1, 12 for the ray or the radius, 2 and 3; their contents are unspecified after
 * any other return value.
 */
uint32_t probe_drill(
    double origin_x,
    double origin_y,
    double origin_z,
    double direction_x,
    double direction_y,
    double direction_z,
    double max_distance,
    double near_distance,
    double radius,
    const double *vertices,
    size_t vertices_length,
    const uint32_t *triangles,
    size_t triangles_length,
    size_t nodes,
    const double *node_boxes,
    size_t node_boxes_length,
    const double *triangle_boxes,
    size_t triangle_boxes_length,
    const uint32_t *node_words,
    size_t node_words_length,
    const uint32_t *order,
    size_t order_length,
    uint32_t *list,
    size_t list_length,
    uint32_t *stack,
    size_t stack_length,
    uint32_t *index,
    size_t index_length
);

/* Many drills at one mesh, through its tree: each drill is answered as by probe_drill, at its own places of the result
 * slices. `drills` has nine numbers a drill: origin x, y, z, direction x, y, z, the maximum, the near distance and the
 * radius. `codes` and `indices` have one place a drill; longer buffers are admitted.
 *
 * Returns PROBE_DONE, or refuses the whole call with 2 (a limit of the mesh, or a length of `drills` that is no multiple of
 * nine), then 3. These are tested once, before the first drill, and nothing is written then. With no drills the call
 * returns PROBE_DONE.
 *
 * With PROBE_DONE, codes[i] is what the single call returns for drill i: PROBE_NONE, PROBE_HIT, or its own refusal, 1, 12
 * or 5. A refused drill does not stop the others. If codes[i] is PROBE_HIT, indices[i] is the triangle. Otherwise this
 * place is unchanged, and so are all places past the last drill's. Each drill's places are proved to hold what the single
 * call leaves there, so all that is said of probe_drill holds here too.
 */
uint32_t probe_drill_many(
    const double *drills,
    size_t drills_length,
    const double *vertices,
    size_t vertices_length,
    const uint32_t *triangles,
    size_t triangles_length,
    size_t nodes,
    const double *node_boxes,
    size_t node_boxes_length,
    const double *triangle_boxes,
    size_t triangle_boxes_length,
    const uint32_t *node_words,
    size_t node_words_length,
    const uint32_t *order,
    size_t order_length,
    uint32_t *list,
    size_t list_length,
    uint32_t *stack,
    size_t stack_length,
    uint32_t *codes,
    size_t codes_length,
    uint32_t *indices,
    size_t indices_length
);

/* Lists every triangle of a mesh that a ray hits by the rounded cast (probe_ray_triangle_near), of those that the tree
 * lists for the box of the ray's segment, and writes their number to found[0]. The arguments are those of
 * probe_ray_mesh_near: a hit nearer than near_distance does not count. It must be finite and from 0 to the maximum;
 * otherwise the call refuses with 1.
 *
 * The hits are written to the first places of `indices`, one each, and of `numbers`, four each: distance, normal x, y, z.
 * There are places for as many hits as the lesser of indices_length and numbers_length / 4, rounded down. The hits are
 * sorted by depth: ascending distance, then ascending index, with 0 and -0 as equal depths. The places past them are
 * unchanged.
 *
 * Returns PROBE_DONE, or refuses with 1 to 7. After 1, 2, 4, and after 3 for found, a buffer of the tree, the list or the
 * stack, `indices` and `numbers` are unchanged. Then come 6 (the segment's end), 5 (the tree), the triangles' refusals,
 * that of the lowest index first, and last 3, exactly if there are more hits than places. After these every place of
 * `indices` and `numbers` is zero, also those past the last whole place.
 *
 * Where probe_ray_mesh_near refuses past 4, this call refuses with the same number. Otherwise, unless it refuses with the
 * late 3, the hit of probe_ray_mesh_near is the first in the list, and the list is empty exactly if that call returns
 * PROBE_NONE. At the mesh's own vertices, through a tree for which probe_tree_check returns PROBE_YES, each triangle that
 * is hit and whose box touches the box of the ray's segment is listed once, and no other is. A tree that does not pass may
 * name a triangle more than once: it is then listed as often.
 */
uint32_t probe_ray_mesh_all(
    double origin_x,
    double origin_y,
    double origin_z,
    double direction_x,
    double direction_y,
    double direction_z,
    double max_distance,
    double near_distance,
    const double *vertices,
    size_t vertices_length,
    const uint32_t *triangles,
    size_t triangles_length,
    const double *pose,
    size_t pose_length,
    size_t nodes,
    const double *node_boxes,
    size_t node_boxes_length,
    const double *triangle_boxes,
    size_t triangle_boxes_length,
    const uint32_t *node_words,
    size_t node_words_length,
    const uint32_t *order,
    size_t order_length,
    uint32_t *list,
    size_t list_length,
    uint32_t *stack,
    size_t stack_length,
    uint32_t *indices,
    size_t indices_length,
    double *numbers,
    size_t numbers_length,
    size_t *found,
    size_t found_length
);

/* Lists every triangle of a mesh that the exact cast meets, through a tree, and writes their number to found[0]: each
 * triangle that has area on the grid and in which a point of the segment lies, as probe_ray_mesh_exact_plain states, with
 * its normal and the double nearest to its own least depth. A point on a shared edge lies in both triangles, and both are
 * listed. The arguments, the places of the hits and their order are those of probe_ray_mesh_all. The traversal enters a
 * node only where the line can meet its box.
 *
 * At the mesh's own vertices, through a tree for which probe_tree_check returns PROBE_YES, and for a mesh for which
 * probe_mesh_has_numbers returns PROBE_YES, the list has each triangle of the mesh that is met, once, and no other; the
 * hit of probe_ray_mesh_exact is the first, and the list is empty exactly if probe_ray_mesh_exact returns PROBE_NONE. At
 * other vertices, or through any other tree, the call terminates too, and each hit is a true hit of its triangle at
 * `pose`, but a surface may be missed. A tree that does not pass may name a triangle more than once: it is then listed as
 * often.
 *
 * Returns PROBE_DONE, or refuses with 1, 12 (for the ray), 2, 3 (found, a buffer of the tree, the list or the stack) or 4,
 * tested in this order, after which `indices` and `numbers` are unchanged; then with 5 (the tree is broken where the
 * traversal meets it, or an index is past the vertices) or 12 (a corner is not a number from -8,192 to 8,192), that of the
 * lowest index first, and last with 3, exactly if there are more hits than places. After these every place of `indices`
 * and `numbers` is zero.
 */
uint32_t probe_ray_mesh_exact_all(
    double origin_x,
    double origin_y,
    double origin_z,
    double direction_x,
    double direction_y,
    double direction_z,
    double max_distance,
    double near_distance,
    const double *vertices,
    size_t vertices_length,
    const uint32_t *triangles,
    size_t triangles_length,
    const double *pose,
    size_t pose_length,
    size_t nodes,
    const double *node_boxes,
    size_t node_boxes_length,
    const double *triangle_boxes,
    size_t triangle_boxes_length,
    const uint32_t *node_words,
    size_t node_words_length,
    const uint32_t *order,
    size_t order_length,
    uint32_t *list,
    size_t list_length,
    uint32_t *stack,
    size_t stack_length,
    uint32_t *indices,
    size_t indices_length,
    double *numbers,
    size_t numbers_length,
    size_t *found,
    size_t found_length
);

/* Builds the tree of a mesh into node_boxes, triangle_boxes, node_words and order, and writes its node count to
 * nodes[0]. Places past the tree are unchanged. Every tree that is written passes probe_tree_check.
 *
 * Returns PROBE_DONE, or refuses with 2, 3, 5 (no triangle, an index past the vertices, or a triangle whose box is not
 * finite) or 6. After 5 and 6 the four buffers are zeros.
 */
uint32_t probe_build(
    const double *vertices,
    size_t vertices_length,
    const uint32_t *triangles,
    size_t triangles_length,
    double *node_boxes,
    size_t node_boxes_length,
    double *triangle_boxes,
    size_t triangle_boxes_length,
    uint32_t *node_words,
    size_t node_words_length,
    uint32_t *order,
    size_t order_length,
    uint32_t *work,
    size_t work_length,
    size_t *nodes,
    size_t nodes_length
);

/* Lists the triangles that the tree has for a given box, in ascending order, and writes their number to found[0]. Places
 * of list past them are unchanged. `triangles` is the number n of triangles, `nodes` the tree's node count.
 *
 * Through a tree for which probe_tree_check returns PROBE_YES with the mesh, and with the mesh's n, the list has each
 * triangle of the mesh whose box touches the given box, once, and no other; the call does not refuse with 5. Another tree
 * may lack some of them, or have one more than once.
 *
 * Returns PROBE_DONE, or refuses with 1, 2, 3 or 5 (the tree is broken where the traversal meets it). After 5 the list is
 * zeros.
 */
uint32_t probe_query(
    double min_x,
    double min_y,
    double min_z,
    double max_x,
    double max_y,
    double max_z,
    size_t triangles,
    size_t nodes,
    const double *node_boxes,
    size_t node_boxes_length,
    const double *triangle_boxes,
    size_t triangle_boxes_length,
    const uint32_t *node_words,
    size_t node_words_length,
    const uint32_t *order,
    size_t order_length,
    uint32_t *list,
    size_t list_length,
    uint32_t *stack,
    size_t stack_length,
    size_t *found,
    size_t found_length
);

/* Merges two boards, each a mesh with its tree, into one. The vertices are the first board's, then the second's. So are
 * the triangles, with the second's vertex indices moved up. The tree has a new root over both trees, then the first's
 * nodes and the second's; triangle boxes and order likewise. If one board has no triangles there is no new root, and the
 * other's tree is the result. The node count is written to nodes[0]. Places past the result never change. Both boards
 * may be the same slices.
 *
 * For n triangles in both boards together, the result buffers are as long as for a mesh of n triangles and as many
 * vertices as both have. marks has 3n places and is a work buffer.
 *
 * Returns PROBE_DONE, or refuses with 2 (a length that is no multiple of three, or more than 65,536 vertices or triangles
 * in both together), 3, or 5 (a tree that does not pass probe_tree_check, its node count included), in this order.
 * Nothing but marks is written then, and marks only with 5.
 *
 * Two things are proved. The result passes probe_tree_check. With buffers long enough, probe_ray_mesh_near at the result,
 * at the result's own vertices, returns the nearer of the hits that it returns at the two boards, each at its own vertices
 * and through its own tree, the first board's if they are equally near; and if one refuses, the first board's refusal,
 * else the second's. The second board's triangles have the first's number of triangles added to their indices.
 */
uint32_t probe_merge(
    const double *first_vertices,
    size_t first_vertices_length,
    const uint32_t *first_triangles,
    size_t first_triangles_length,
    size_t first_nodes,
    const double *first_node_boxes,
    size_t first_node_boxes_length,
    const double *first_triangle_boxes,
    size_t first_triangle_boxes_length,
    const uint32_t *first_node_words,
    size_t first_node_words_length,
    const uint32_t *first_order,
    size_t first_order_length,
    const double *second_vertices,
    size_t second_vertices_length,
    const uint32_t *second_triangles,
    size_t second_triangles_length,
    size_t second_nodes,
    const double *second_node_boxes,
    size_t second_node_boxes_length,
    const double *second_triangle_boxes,
    size_t second_triangle_boxes_length,
    const uint32_t *second_node_words,
    size_t second_node_words_length,
    const uint32_t *second_order,
    size_t second_order_length,
    double *vertices,
    size_t vertices_length,
    uint32_t *triangles,
    size_t triangles_length,
    double *node_boxes,
    size_t node_boxes_length,
    double *triangle_boxes,
    size_t triangle_boxes_length,
    uint32_t *node_words,
    size_t node_words_length,
    uint32_t *order,
    size_t order_length,
    uint32_t *marks,
    size_t marks_length,
    size_t *nodes,
    size_t nodes_length
);

/* Tests whether a tree, from whatever builder, fits a mesh: every node and every triangle occurs in it once, and every box
 * encloses what is below it. Check a tree that somebody else built once; then cast through it as often as you like.
 *
 * Returns PROBE_YES or PROBE_NO, or refuses with 2 or 3. A triangle index past the vertices, or a node count above 2n,
 * gives PROBE_NO.
 */
uint32_t probe_tree_check(
    const double *vertices,
    size_t vertices_length,
    const uint32_t *triangles,
    size_t triangles_length,
    size_t nodes,
    const double *node_boxes,
    size_t node_boxes_length,
    const double *triangle_boxes,
    size_t triangle_boxes_length,
    const uint32_t *node_words,
    size_t node_words_length,
    const uint32_t *order,
    size_t order_length,
    uint32_t *marks,
    size_t marks_length
);

/* Tests whether every corner of every triangle of a mesh is three numbers. Returns PROBE_YES, or PROBE_NO if one is NaN or
 * an index is past the vertices. A NaN can hide in a valid box, where a traversal does not meet it. Ask once for a mesh,
 * like the tree check. With PROBE_YES, and a tree that passes the check, probe_ray_mesh_exact returns at the mesh's own
 * vertices what probe_ray_mesh_exact_plain returns, and probe_drill what probe_drill_plain returns.
 */
uint32_t probe_mesh_has_numbers(
    const double *vertices,
    size_t vertices_length,
    const uint32_t *triangles,
    size_t triangles_length
);

/* A range of a buffer: its first element and its length. */
typedef struct probe_span {
    size_t start;
    size_t length;
} probe_span;

typedef struct probe_vec3 {
    double x;
    double y;
    double z;
} probe_vec3;

/* A part of a cabinet, 128 bytes: its origin, its tree's node count, and the ranges of its mesh and its tree in the six
 * buffers that all parts share. Parts may share ranges. */
typedef struct probe_part {
    probe_vec3 origin;
    size_t nodes;
    probe_span vertices;
    probe_span triangles;
    probe_span node_boxes;
    probe_span triangle_boxes;
    probe_span node_words;
    probe_span order;
} probe_part;

/* Casts a ray at a cabinet: at each part in list order, through its tree, with the ray moved by the part's origin (the
 * difference is rounded once a component). Every node that is taken from a stack costs one of the limit, which all parts
 * share; a node whose box does not touch costs one too. Surfaces nearer than near_distance are passed over.
 *
 * Returns PROBE_HIT or PROBE_NONE, or refuses with 1, 2, 3, 5, 6, 7 or 10:
 *   2   a range leaves its buffer, or the mesh cast would refuse the part's mesh with 2
 *   3   a range is shorter than the table above says for its mesh; the list or the stack is shorter than the largest part
 *       needs; a result slice is too short
 *   6   the moved origin is not finite, or the mesh cast refuses with 6
 *   10  the limit is used up and a node is left to take
 * 1 comes before 2 of any part, 2 before 3 of any part, and then the parts' refusals and 10 as they are met.
 *
 * The hit is the nearest of all parts; of equally near hits, the one of the lowest part, and of its lowest triangle. A
 * refusal of a later part, or 10, takes precedence over a hit.
 *
 * hit, index and part[0] are written with PROBE_HIT. spent[0], the number of nodes spent, is written with PROBE_HIT,
 * PROBE_NONE and the refusals met from the first part on: 5, 6, 7 and 10. It is never above the limit, and equals it with
 * 10. An empty list is a miss with 0 spent. A larger limit never changes a hit or a miss. Through trees for which
 * probe_tree_check returns PROBE_YES the sum of the node counts suffices as a limit, and the answer is then that of
 * casting at each part alone. SIZE_MAX is no limit. */
uint32_t probe_ray_cabinet(
    double origin_x,
    double origin_y,
    double origin_z,
    double direction_x,
    double direction_y,
    double direction_z,
    double max_distance,
    double near_distance,
    const probe_part *parts,
    size_t parts_length,
    const double *vertices,
    size_t vertices_length,
    const uint32_t *triangles,
    size_t triangles_length,
    const double *node_boxes,
    size_t node_boxes_length,
    const double *triangle_boxes,
    size_t triangle_boxes_length,
    const uint32_t *node_words,
    size_t node_words_length,
    const uint32_t *order,
    size_t order_length,
    size_t limit,
    uint32_t *list,
    size_t list_length,
    uint32_t *stack,
    size_t stack_length,
    double *hit,
    size_t hit_length,
    uint32_t *index,
    size_t index_length,
    size_t *part,
    size_t part_length,
    size_t *spent,
    size_t spent_length
);

/* Converts a record of version 2, with floats of eight bytes, to version 3, with floats of four, and back.
 *
 * The bytes are exactly one record as the program `probe` reads it, its four length bytes included. The whole record is
 * written to the start of out, and its number of bytes to the start of written. The places past them are unchanged. An
 * out of PROBE_MAX_RECORD bytes is long enough for every record. The calls do not test whether `probe` would answer the
 * record: its numbers may be any, and the u32 are copied.
 *
 * Returns PROBE_DONE, or refuses with 2 (not one well-formed record of the version, or a record of version 3 whose version
 * 2 would be longer than PROBE_MAX_RECORD), then 3 (out is shorter than the record to be written, or written has no
 * place), then 11 (a float is NaN, or, to version 3, no f32 is exactly that number). Infinities, both zeros and subnormal
 * numbers are representable. Nothing is written after a refusal.
 *
 * A direction must have a length within 1e-12 of 1, which three f32 seldom have: version 3 is for directions along an
 * axis, and 11 says so early.
 *
 * Three things are proved. Converting back gives the same bytes. Converting to version 2 succeeds for every well-formed
 * record without NaN. `probe` prints the same line for both records.
 */
uint32_t probe_record_to_short(
    const uint8_t *bytes,
    size_t bytes_length,
    uint8_t *out,
    size_t out_length,
    size_t *written,
    size_t written_length
);

uint32_t probe_record_to_long(
    const uint8_t *bytes,
    size_t bytes_length,
    uint8_t *out,
    size_t out_length,
    size_t *written,
    size_t written_length
);

#ifdef __cplusplus
}
#endif

#endif
