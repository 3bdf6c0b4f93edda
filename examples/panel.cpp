/* The panel of panel.c through probe_rays.hpp, which owns the buffers and returns a hit, a miss or a refusal.
 *
 *   c++ -std=c++17 $(pkg-config --cflags probe_rays-static) examples/panel.cpp $(pkg-config --libs probe_rays-static)
 *
 * It prints what panel.c prints, but for the end: a Mesh takes no tree that does not pass the check, so nothing can be cast
 * through the wrong one. panel.c has the reasons for each answer.
 */
#include <cstdio>
#include <vector>

#include "probe_rays.hpp"

using namespace probe_rays;

static const std::vector<Vec3> vertices{
    {0, 0, 0},     {300, 0, 0},    {300, 200, 0},   {0, 200, 0},    // the bottom
    {0, 0, 18},    {300, 0, 18},   {300, 200, 18},  {0, 200, 18},   // the top
    {100, 60, 18}, {160, 60, 18},  {160, 120, 18},  {100, 120, 18}, // the pocket's rim
    {100, 60, 8},  {160, 60, 8},   {160, 120, 8},   {100, 120, 8},  // the pocket's floor
};

static const std::vector<Triangle> triangles{
    {0, 2, 1},    {0, 3, 2},    {0, 1, 5},    {0, 5, 4},    {1, 2, 6},    {1, 6, 5},    {2, 3, 7},    // bottom, sides
    {2, 7, 6},    {3, 0, 4},    {3, 4, 7},    {4, 5, 9},    {4, 9, 8},    {5, 6, 10},   {5, 10, 9},   // sides, top
    {6, 7, 11},   {6, 11, 10},  {7, 4, 8},    {7, 8, 11},   {8, 9, 13},   {8, 13, 12},  {9, 10, 14},  // top, walls
    {9, 14, 13},  {10, 11, 15}, {10, 15, 14}, {11, 8, 12},  {11, 12, 15}, {12, 13, 14}, {12, 14, 15}, // walls, floor
};

/* Prints what a ray meets. A zero is added to a number so that -0 prints as 0. */
static void probe(Mesh &panel, const char *what, const Ray &ray)
{
    panel.cast(ray).match(
        [&](const MeshHit &hit) {
            std::printf("%s: hit at %.3f mm, normal (%.3f, %.3f, %.3f), triangle %u\n", what, hit.distance,
                        hit.normal.x + 0.0, hit.normal.y + 0.0, hit.normal.z + 0.0, static_cast<unsigned>(hit.triangle));
        },
        [&] { std::printf("%s: none\n", what); },
        [&](Refusal refusal) { std::printf("%s: refused %u\n", what, static_cast<unsigned>(number(refusal))); });
}

int main()
{
    Mesh panel = Mesh::build(vertices, triangles).value();
    std::printf("%zu triangles, %zu nodes\n", panel.triangle_count(), panel.tree().nodes);
    std::printf("check: %s\n", tree_check(panel.shape(), panel.tree()).value() ? "yes" : "no");

    const Vec3 down{0, 0, -1};
    probe(panel, "top", Ray{{30, 100, 118}, down, 200});
    probe(panel, "pocket", Ray{{130, 80, 118}, down, 200});
    probe(panel, "pocket wall", Ray{{130, 100, 12}, {1, 0, 0}, 200});
    probe(panel, "bottom", Ray{{200, 50, -20}, {0, 0, 1}, 200});
    probe(panel, "aslant", Ray{{20, 90, 38}, {0.6, 0, -0.8}, 200});
    probe(panel, "beside", Ray{{310, 100, 118}, down, 200});
    probe(panel, "too short", Ray{{30, 100, 118}, down, 99});
    probe(panel, "not a unit", Ray{{30, 100, 118}, {0, 0, -2}, 200});

    const std::vector<std::uint32_t> found = panel.query({110, 70, 7}, {150, 110, 9}).value();
    std::printf("query: %zu triangles:", found.size());
    for (const std::uint32_t triangle : found)
        std::printf(" %u", static_cast<unsigned>(triangle));
    std::printf("\n");
    probe(panel, "top again", Ray{{30, 100, 118}, down, 105});

    /* the root's box is made to end at z = 10 in place of 18 */
    Tree wrong = panel.tree();
    wrong.node_boxes[5] = 10;
    std::printf("check: %s\n", tree_check(panel.shape(), wrong).value() ? "yes" : "no");
    try {
        static_cast<void>(Mesh::with_tree(panel.shape(), wrong).value());
    } catch (const TreeDoesNotFit &why) {
        std::printf("%s\n", why.what());
    }
    return 0;
}
