// The C++ header against document 01's marked answers K1 to K13, document 02's requests, boards whose measures tell the
// answer, and fractions computed here. K14 and K15 are of functions that the library does not offer. Directions are (0,0,-1)
// unless given, and T is the triangle (0,0,0), (1,0,0), (0,1,0). It prints how many checks held; the first that fails ends it
// with status 1.
#include <array>
#include <cmath>
#include <cstdint>
#include <cstdio>
#include <cstdlib>
#include <limits>
#include <optional>
#include <string>
#include <thread>
#include <utility>
#include <vector>

#include "probe_rays.hpp"

using namespace probe_rays;

namespace {

int checks = 0;

void check(bool held, const char *what, int line)
{
    if (!held) {
        std::fprintf(stderr, "answers.cpp:%d: %s\n", line, what);
        std::exit(1);
    }
    checks++;
}

#define CHECK(what) check((what), #what, __LINE__)

/* Whether an expression throws just this. */
template <class Error, class Call>
bool throws(Call &&call)
{
    try {
        call();
    } catch (const Error &) {
        return true;
    }
    return false;
}

template <class Call>
bool throws_refusal(Refusal refusal, Call &&call)
{
    try {
        call();
    } catch (const Refused &refused) {
        return refused.refusal() == refusal;
    }
    return false;
}

const double infinite = std::numeric_limits<double>::infinity();
const Vec3 down{0, 0, -1};
const std::vector<Vec3> T{{0, 0, 0}, {1, 0, 0}, {0, 1, 0}};
const Plane ground{{0, 0, 1}, 0};

Ray from(double x, double y, double z, double max) { return Ray{{x, y, z}, down, max}; }

bool is(const Vec3 &v, double x, double y, double z) { return v.x == x && v.y == y && v.z == z; }

/* A hit from above at a distance. */
template <class H>
bool hits_at(const Cast<H> &cast, double distance)
{
    return cast.kind() == Kind::hit && cast.hit().distance == distance && is(cast.hit().normal, 0, 0, 1);
}

/* The same to within a rounding or two: 1e-12 of the distance. */
bool close(double found, double expected) { return std::fabs(found - expected) <= 1e-12 * expected; }

template <class H>
bool hits_near(const Cast<H> &cast, double distance)
{
    return cast.kind() == Kind::hit && close(cast.hit().distance, distance) && is(cast.hit().normal, 0, 0, 1);
}

template <class H>
bool refuses(const Cast<H> &cast, std::uint32_t expected)
{
    return cast.kind() == Kind::refused && cast.is_refused() && number(cast.refusal()) == expected &&
           throws_refusal(static_cast<Refusal>(expected), [&] { static_cast<void>(cast.hit()); }) &&
           throws_refusal(static_cast<Refusal>(expected), [&] { static_cast<void>(cast.hit_or_none()); }) &&
           throws_refusal(static_cast<Refusal>(expected), [&] { static_cast<void>(cast.is_none()); });
}

template <class T, class Why>
bool refuses(const Result<T, Why> &result, std::uint32_t expected)
{
    return result.is_refused() && number(result.refusal()) == expected &&
           throws_refusal(result.refusal(), [&] { static_cast<void>(result.value()); });
}

/* T, as often as asked for. */
Result<Mesh> layers(std::size_t count) { return Mesh::build(T, std::vector<Triangle>(count, Triangle{0, 1, 2})); }

void marked()
{
    CHECK(hits_at(ray_plane(from(0, 0, 2, 2), ground), 2));                           // K1
    CHECK(ray_plane(from(0, 0, 2, 1), ground).is_none());                             // K2
    CHECK(ray_plane(Ray{{0, 0, 2}, {1, 0, 0}, 2}, ground).is_none());                 // K3
    CHECK(hits_at(ray_triangle(from(0.25, 0.25, 1, 1), T[0], T[1], T[2]), 1));        // K4
    CHECK(hits_at(ray_triangle(from(0.5, 0.5, 1, 1), T[0], T[1], T[2]), 1));          // K5
    CHECK(ray_triangle(from(0.75, 0.5, 1, 1), T[0], T[1], T[2]).is_none());           // K6
    // K7 and K8 as document 02 changes them: a normal that is scaled first, and a distance that is not a number refused
    CHECK(hits_at(ray_triangle(from(2.5e159, 0.25, 1, 10), {0, 0, 0}, {1e160, 0, 0}, {0, 1, 0}), 1));
    CHECK(refuses(ray_triangle(from(5e159, 5e159, 1, 10), {0, 0, 0}, {1e160, 1e160, 0}, {0, 1e-7, 0}), 6));
    const Mesh twice = layers(2).value();                                             // K9
    Scratch scratch;
    CHECK(hits_at(twice.cast(from(0.25, 0.25, 1, 1), scratch), 1));
    CHECK(twice.cast(from(0.25, 0.25, 1, 1), scratch).hit().triangle == 0);
    CHECK(refuses(layers(0), 5));                                                     // K10
    CHECK(layers(4).value().tree().nodes == 1 && layers(5).value().tree().nodes == 3); // K11
    const HeightField field{2, 2, {1, 1}, std::vector<double>(4, 0.0)};               // K12
    CHECK(hits_at(ray_height_field(from(0.75, 0.25, 1, 2), field), 1));
    const LevelSet grid{{2, 2, 2}, {0, 0, 0}, {1, 1, 1}, std::vector<double>(8, 0.0)}; // K13
    CHECK(refuses(ray_level_set(from(0.5, 0.5, 2, 5), grid), 8));
    // K1, K2, K4 and K6 by numbers in arrays
    const std::array<double, 4> level{0, 0, 1, 0};
    const std::array<double, 9> corners{T[0].x, T[0].y, T[0].z, T[1].x, T[1].y, T[1].z, T[2].x, T[2].y, T[2].z};
    CHECK(hits_at(ray_plane_slices({0, 0, 2, 0, 0, -1, 2, 0}, level), 2));
    CHECK(ray_plane_slices({0, 0, 2, 0, 0, -1, 1, 0}, level).is_none());
    CHECK(hits_at(ray_triangle_slices({0.25, 0.25, 1, 0, 0, -1, 1, 0}, corners), 1));
    CHECK(ray_triangle_slices({0.75, 0.5, 1, 0, 0, -1, 1, 0}, corners).is_none());
    CHECK(refuses(ray_triangle_slices({0.25, 0.25, 1, 0, 0, -1, 1, 2}, corners), 1));
    // document 01's printed result
    CHECK(hits_at(ray_plane(from(0, 0, 2, 5), ground), 2));
    CHECK(refuses(ray_plane(Ray{{0, 0, 2}, {0, 0, -2}, 5}, ground), 1));
}

/* Document 02's M-106: a surface at just the near distance is hit, a nearer one is passed over. */
void near_distances()
{
    const Ray ray = from(0.25, 0.25, 2, 5);
    const HeightField field{2, 2, {1, 1}, std::vector<double>(4, 0.0)};
    const LevelSet grid{{2, 2, 2}, {0, 0, 0}, {1, 1, 1}, {-0.5, -0.5, -0.5, -0.5, 0.5, 0.5, 0.5, 0.5}};
    const PlainMesh plain(T, {{0, 1, 2}});
    Mesh mesh = layers(1).value();
    CHECK(hits_at(ray_plane(ray.with_near(2), ground), 2) && ray_plane(ray.with_near(2.5), ground).is_none());
    CHECK(hits_at(ray_triangle(ray.with_near(2), T[0], T[1], T[2]), 2));
    CHECK(ray_triangle(ray.with_near(2.5), T[0], T[1], T[2]).is_none());
    CHECK(hits_at(ray_height_field(ray.with_near(2), field), 2) && ray_height_field(ray.with_near(2.5), field).is_none());
    CHECK(std::fabs(ray_level_set(ray.with_near(1.25), grid).hit().distance - 1.5) < 1e-12);
    CHECK(ray_level_set(ray.with_near(1.75), grid).is_none());
    CHECK(hits_at(plain.cast(ray.with_near(2)), 2) && plain.cast(ray.with_near(2.5)).is_none());
    CHECK(hits_at(mesh.cast(ray.with_near(2)), 2) && mesh.cast(ray.with_near(2.5)).is_none());
    CHECK(mesh.cast_all(ray.with_near(2)).value().size() == 1 && mesh.cast_all(ray.with_near(2.5)).value().empty());
    CHECK(refuses(mesh.cast(ray.with_near(5.5)), 1));
}

/* Document 01's table of refusals, each number by what it says. */
void refusals()
{
    Scratch scratch;
    Mesh mesh = layers(1).value();
    const Ray ray = from(0.25, 0.25, 1, 10);
    CHECK(refuses(mesh.cast(from(infinite, 0, 0, 1)), 1));
    CHECK(refuses(mesh.cast_all(from(0, 0, 0, -1)), 1));
    CHECK(refuses(mesh.cast_exact_all(from(0, 0, 0, -1)), 1) && refuses(mesh.cast_exact_all(from(8193, 0, 0, 1)), 12));
    CHECK(refuses(mesh.query({1, 0, 0}, {0, 1, 1}), 1));
    CHECK(refuses(layers(65537), 2) && refuses(PlainMesh(T, std::vector<Triangle>(65537)).cast(ray), 2));
    CHECK(refuses(Mesh::build(Shape({0, 0, 0, 1}, {0, 0, 0})), 2)); // three does not divide four
    Tree tree = mesh.tree();
    tree.order.clear();
    CHECK(refuses(tree_check(mesh.shape(), tree), 3));
    const Result<Mesh, TreeFault> short_tree = Mesh::with_tree(mesh.shape(), tree);
    CHECK(short_tree.is_refused() && short_tree.refusal().refusal == Refusal::no_room);
    CHECK(throws_refusal(Refusal::no_room, [&] { static_cast<void>(short_tree.value()); }));
    CHECK(refuses(mesh.cast_at(ray, std::vector<Vec3>{{0, 0, 0}, {1, 0, 0}}, scratch), 4));
    CHECK(refuses(Mesh::build(T, {{0, 1, 3}}), 5) && refuses(PlainMesh(T, {{0, 1, 3}}).cast(ray), 5));
    CHECK(refuses(Mesh::build({{0, 0, 0}, {infinite, 0, 0}, {0, 1, 0}}, {{0, 1, 2}}), 5));
    // the segment's end is past the largest float
    const double most = std::numeric_limits<double>::max();
    CHECK(refuses(mesh.cast(Ray{{0, 0, most}, {0, 0, 1}, most}), 6));
    // the cross of the edges is infinite, and the determinant is not
    const double x = std::ldexp(1, 610), y = std::ldexp(1, 210), p = std::ldexp(1, -10);
    CHECK(refuses(ray_triangle(Ray{{x / 4, y, p / 4}, {1, 0, 0}, 1}, {0, 0, 0}, {x, 0, p}, {0, x, 0}), 7));
    CHECK(told(Refusal::no_normal) == "refused 7, no normal: the surface that is hit has no unit normal");
    CHECK(told(static_cast<Refusal>(200)) == "refused 200, a refusal that this header does not know");
    CHECK(std::string(Refused(Refusal::overflow).what()).find("refused 6, ") == 0);
}

/* What asks for a thing that is not there. */
void not_there()
{
    const Cast<Hit> none = ray_plane(from(0, 0, 2, 1), ground), hit = ray_plane(from(0, 0, 2, 5), ground);
    CHECK(none.kind() == Kind::none && !none.is_refused() && !none.hit_or_none() && hit.hit_or_none());
    CHECK(throws<NotThere>([&] { static_cast<void>(none.hit()); }));
    CHECK(throws<NotThere>([&] { static_cast<void>(none.refusal()); }));
    CHECK(throws<NotThere>([&] { static_cast<void>(layers(1).refusal()); }));
    const auto which = [](const Cast<Hit> &cast) {
        return cast.match([](const Hit &) { return 'h'; }, [] { return 'n'; }, [](Refusal) { return 'r'; });
    };
    CHECK(which(none) == 'n' && which(hit) == 'h' && which(ray_plane(from(0, 0, 2, -1), ground)) == 'r');
}

/* A tree from elsewhere is taken if it passes the check. */
void trees()
{
    const Mesh mesh = layers(5).value();
    CHECK(tree_check(mesh.shape(), mesh.tree()).value());
    CHECK(Mesh::with_tree(mesh.shape(), mesh.tree()).value().tree().nodes == 3);
    Tree small = mesh.tree();
    small.node_boxes[3] = 0.5; // the root's maximum x
    CHECK(!tree_check(mesh.shape(), small).value());
    const Result<Mesh, TreeFault> taken = Mesh::with_tree(mesh.shape(), small);
    CHECK(taken.is_refused() && !taken.refusal().refusal);
    CHECK(throws<TreeDoesNotFit>([&] { static_cast<void>(taken.value()); }));
}

/* A box from one corner to another, two triangles a side. */
PlainMesh box(const Vec3 &a, const Vec3 &b)
{
    std::vector<Vec3> corners;
    for (int k = 0; k < 8; k++)
        corners.push_back(Vec3{k & 1 ? b.x : a.x, k & 2 ? b.y : a.y, k & 4 ? b.z : a.z});
    const std::vector<std::array<std::uint32_t, 4>> sides{
        {0, 2, 3, 1}, {4, 5, 7, 6}, {0, 1, 5, 4}, {2, 6, 7, 3}, {0, 4, 6, 2}, {1, 3, 7, 5}};
    std::vector<Triangle> triangles;
    for (const auto &side : sides) {
        triangles.push_back({side[0], side[1], side[2]});
        triangles.push_back({side[0], side[2], side[3]});
    }
    return PlainMesh(corners, triangles);
}

/* A board 60 by 40 by 18, and one 22 thick on it: what a ray straight down meets is told by their measures. */
void boards()
{
    const PlainMesh plain = box({0, 0, 0}, {60, 40, 18});
    Mesh lower = plain.build().value(), upper = box({0, 0, 18}, {60, 40, 40}).build().value();
    Mesh glued = lower.glue(upper).value();
    CHECK(glued.vertex_count() == 16 && glued.triangle_count() == 24);
    CHECK(tree_check(glued.shape(), glued.tree()).value());
    Scratch scratch;
    for (int x = 1; x < 60; x += 7)
        for (int y = 2; y < 40; y += 5) {
            const Ray ray = from(x + 0.25, y + 0.125, 100, 200); // on no edge: 2x/3 is no y here
            CHECK(hits_near(plain.cast(ray), 82) && hits_near(lower.cast(ray), 82) && hits_near(glued.cast(ray), 60));
            // down through both: the upper's top and bottom, the lower's top and bottom
            const std::vector<MeshHit> all = glued.cast_all(ray).value();
            CHECK(all.size() == 4 && close(all[0].distance, 60) && close(all[1].distance, 82) && close(all[2].distance, 82));
            CHECK(close(all[3].distance, 100) && (all[1].triangle < 12) != (all[2].triangle < 12) && all[3].triangle < 12);
            // the same by the exact cast; both faces at 82 are of one depth, and the lower index is first
            const std::vector<MeshHit> exact = glued.cast_exact_all(ray).value();
            CHECK(exact.size() == 4 && exact[0].distance == 60 && exact[1].distance == 82 && exact[2].distance == 82);
            CHECK(exact[3].distance == 100 && exact[1].triangle < 12 && exact[2].triangle >= 12);
            const LargeMesh pieces = LargeMesh::build(glued.shape(), 5).value();
            const std::vector<MeshHit> whole = pieces.cast_exact_all(ray, scratch).value();
            const auto same = [](const MeshHit &a, const MeshHit &b) { return a.triangle == b.triangle && a.distance == b.distance; };
            CHECK(std::equal(whole.begin(), whole.end(), exact.begin(), exact.end(), same));
            // moved up by 5
            std::vector<Vec3> moved;
            for (std::size_t v = 0; v < lower.vertex_count(); v++) {
                const double *at = &lower.shape().vertices[3 * v];
                moved.push_back(Vec3{at[0], at[1], at[2] + 5});
            }
            CHECK(hits_near(lower.cast_at(ray, moved, scratch), 77));
        }
    CHECK(lower.cast(from(61, 20, 100, 200)).is_none() && plain.cast(from(61, 20, 100, 200)).is_none());
    // through a corner of the box and beside it
    const std::vector<Result<std::vector<MeshHit>>> lists =
        lower.cast_exact_all_many({from(60, 40, 100, 200), from(61, 20, 100, 200), from(0, 0, 0, -1)});
    CHECK(lists[0].value().size() > 2 && lists[0].value().front().distance == 82 && lists[0].value().back().distance == 100);
    CHECK(lists[1].value().empty() && refuses(lists[2], 1));
    // a box about the bottom: the two triangles of each side but the top
    CHECK((lower.query({-1, -1, -1}, {61, 41, 0.5}).value() == std::vector<std::uint32_t>{0, 1, 4, 5, 6, 7, 8, 9, 10, 11}));
    const Result<Mesh> many = layers(40000).value().glue(layers(40000).value());
    CHECK(refuses(many, 2));
    // threads share a mesh
    std::vector<std::thread> threads;
    std::vector<char> right(4, 0);
    const Mesh &shared = glued;
    for (std::size_t k = 0; k < right.size(); k++)
        threads.emplace_back([&shared, &right, k] {
            Scratch own;
            right[k] = hits_near(shared.cast(from(10.25 + double(k), 20.125, 100, 200), own), 60);
        });
    for (std::thread &thread : threads)
        thread.join();
    CHECK(right == std::vector<char>(4, 1));
}

/* Veneer of 18 to 19 mm: a probe that ends 18.5 over the ground may meet it, one that ends at 20 is clear. */
void ranges()
{
    const HeightRanges veneer{2, 3, {100, 100}, std::vector<double>(6, 18.0), std::vector<double>(6, 19.0)};
    const HeightRanges swapped{2, 3, {100, 100}, veneer.highs, veneer.lows};
    const Clearance possible = ray_height_ranges(from(150, 50, 30, 11.5), veneer);
    CHECK(!possible.is_clear() && possible.possible() && possible.possible()->number == 1);
    CHECK(ray_height_ranges(from(150, 50, 30, 10), veneer).is_clear());
    const Clearance refused = ray_height_ranges(from(150, 50, 30, 10), swapped);
    CHECK(refused.is_refused() && refused.refusal() == Refusal::bad_range);
    CHECK(throws_refusal(Refusal::bad_range, [&] { static_cast<void>(refused.is_clear()); }));
    CHECK(throws_refusal(Refusal::bad_range, [&] { static_cast<void>(refused.possible()); }));
    CHECK(possible.match([] { return -1; }, [](Cell cell) { return int(cell.number); }, [](Refusal) { return -2; }) == 1);
}

/* A square of two triangles, one leaf, placed twice, 10 apart. */
void cabinets()
{
    const Mesh square = Mesh::build({{0, 0, 0}, {1, 0, 0}, {1, 1, 0}, {0, 1, 0}}, {{0, 1, 2}, {0, 2, 3}}).value();
    Cabinet cabinet;
    CHECK(cabinet.cast(from(0.25, 0.5, 12, 20)).answer.is_none());
    CHECK(cabinet.push(square, {0, 0, 0}) == 0 && cabinet.place_again(0, {0, 0, 10}) == 1);
    CHECK(cabinet.size() == 2 && cabinet.nodes() == 2);
    const CabinetCast cast = cabinet.cast(from(0.25, 0.5, 12, 20));
    CHECK(hits_at(cast.answer, 2) && cast.answer.hit().part == 1 && cast.answer.hit().triangle == 1 && cast.spent == 2);
    const CabinetCast passed = cabinet.cast(from(0.25, 0.5, 12, 20).with_near(3), 2);
    CHECK(hits_at(passed.answer, 12) && passed.answer.hit().part == 0);
    const CabinetCast limited = cabinet.cast(from(0.25, 0.5, 12, 20), 1);
    CHECK(refuses(limited.answer, 10) && limited.spent == 1);
    CHECK(throws<std::out_of_range>([&] { cabinet.place_again(2, {0, 0, 0}); }));
}

/* A plane's record of version 2: two bytes and twelve floats, eight bytes each with the highest first; in version 3 four. The
 * bits of 1, 2, 5 and -1 as a double and as a float are IEEE 754's. */
void records()
{
    using Bytes = std::vector<std::uint8_t>;
    // origin (0,0,2), direction (0,0,-1), maximum 5, near 0, normal (0,0,1), distance 0, by their two highest bytes
    const std::vector<std::array<std::uint8_t, 2>> doubles{{0, 0},       {0, 0},       {0x40, 0}, {0, 0}, {0, 0}, {0xbf, 0xf0},
                                                           {0x40, 0x14}, {0, 0},       {0, 0},    {0, 0}, {0x3f, 0xf0}, {0, 0}};
    const std::vector<std::array<std::uint8_t, 2>> floats{{0, 0},       {0, 0},       {0x40, 0}, {0, 0}, {0, 0}, {0xbf, 0x80},
                                                          {0x40, 0xa0}, {0, 0},       {0, 0},    {0, 0}, {0x3f, 0x80}, {0, 0}};
    const auto record = [](std::uint8_t version, std::size_t size, const std::vector<std::array<std::uint8_t, 2>> &numbers) {
        Bytes bytes{0, 0, 0, static_cast<std::uint8_t>(2 + size * numbers.size()), version, 1};
        for (const auto &two : numbers) {
            bytes.insert(bytes.end(), two.begin(), two.end());
            bytes.insert(bytes.end(), size - 2, 0);
        }
        return bytes;
    };
    const Bytes two = record(2, 8, doubles), three = record(3, 4, floats);
    CHECK(two.size() == 102 && three.size() == 54);
    CHECK(record_to_short(two).value() == three && record_to_long(three).value() == two);
    CHECK(refuses(record_to_short(three), 2) && refuses(record_to_long(two), 2) && refuses(record_to_short(Bytes()), 2));
    Bytes fine = two;
    fine[6 + 7] = 1; // the least double above 0 is no float
    CHECK(refuses(record_to_short(fine), 11));
    Bytes nan = three;
    nan[6] = 0x7f, nan[7] = 0xc0;
    CHECK(refuses(record_to_long(nan), 11));
}

/* A point on whole millimetres, and what the first depth in a closed triangle asks of such: all in whole numbers. */
using Whole = std::array<std::int64_t, 3>;

Whole minus(const Whole &p, const Whole &q) { return {p[0] - q[0], p[1] - q[1], p[2] - q[2]}; }

Whole cross(const Whole &p, const Whole &q)
{
    return {p[1] * q[2] - p[2] * q[1], p[2] * q[0] - p[0] * q[2], p[0] * q[1] - p[1] * q[0]};
}

std::int64_t dot(const Whole &p, const Whole &q) { return p[0] * q[0] + p[1] * q[1] + p[2] * q[2]; }

/* A fraction whose divisor is above 0. */
struct Fraction {
    std::int64_t over, under;
};

bool operator<(const Fraction &a, const Fraction &b) { return a.over * b.under < b.over * a.under; }

/* The depths at which a line is on one side or on the other of more and more planes. */
struct Depths {
    Fraction low, high;

    /* keeps those depths d where first + d * slope is not below 0, and says whether any are left */
    bool keep(std::int64_t first, std::int64_t slope)
    {
        if (slope == 0)
            return first >= 0;
        const Fraction at = slope > 0 ? Fraction{-first, slope} : Fraction{first, -slope};
        if (slope > 0 && low < at)
            low = at;
        if (slope < 0 && at < high)
            high = at;
        return !(high < low);
    }
};

/* The first depth up to `most` at which the line is in the closed triangle: on both sides of its plane, within each side. */
std::optional<Fraction> first_depth(const Whole &o, const Whole &d, std::int64_t most, const std::array<Whole, 3> &t)
{
    const Whole n = cross(minus(t[1], t[0]), minus(t[2], t[0]));
    if (n == Whole{0, 0, 0})
        return std::nullopt;
    Depths depths{{0, 1}, {most, 1}};
    const std::int64_t above = dot(n, minus(o, t[0])), rise = dot(n, d);
    bool left = depths.keep(above, rise) && depths.keep(-above, -rise);
    for (std::size_t k = 0; k < 3 && left; k++) {
        const Whole side = minus(t[(k + 1) % 3], t[k]);
        left = depths.keep(dot(n, cross(side, minus(o, t[k]))), dot(n, cross(side, d)));
    }
    return left ? std::optional<Fraction>(depths.low) : std::nullopt;
}

Vec3 floats(const Whole &p) { return Vec3{double(p[0]), double(p[1]), double(p[2])}; }

/* Whether the exact cast answers the first depth of all triangles, divided once, and the first triangle that has it. Three
 * corners each, none shared; it counts hits and nones. */
bool as_in_fractions(const Whole &o, const Whole &d, std::int64_t most, const std::vector<std::array<Whole, 3>> &board, int met[2])
{
    std::vector<Vec3> corners;
    std::vector<Triangle> triangles;
    std::optional<Fraction> least;
    std::uint32_t first = 0;
    for (const auto &t : board) {
        const std::uint32_t at = static_cast<std::uint32_t>(corners.size());
        const std::optional<Fraction> depth = first_depth(o, d, most, t);
        if (depth && (!least || *depth < *least))
            least = depth, first = at / 3;
        triangles.push_back({at, at + 1, at + 2});
        for (const Whole &corner : t)
            corners.push_back(floats(corner));
    }
    const Ray ray{floats(o), floats(d), double(most)};
    const PlainMesh part(corners, triangles);
    const Cast<MeshHit> cast = part.cast_exact(ray), through = part.build().value().cast_exact(ray);
    met[least ? 0 : 1]++;
    if (through.is_none() != cast.is_none() || (!cast.is_none() && through.hit().distance != cast.hit().distance))
        return false;
    if (cast.is_none() || !least)
        return cast.is_none() && !least;
    return cast.hit().triangle == first && cast.hit().distance == double(least->over) / double(least->under);
}

/* The exact cast: where the rounded one passes, along an outline, small boards of chance, off the grid, aslant, and what is out
 * of range. */
void exactly()
{
    // docs/DIFFERENCES.md, 'Found in the Rust', 2
    const PlainMesh square({{0, 0, 0}, {31, 0, 0}, {0, 31, 0}, {31, 31, 0}}, {{0, 1, 2}, {3, 2, 1}});
    CHECK(square.cast(from(1, 30, 1, 2)).is_none() && hits_at(square.cast_exact(from(1, 30, 1, 2)), 1));
    CHECK(square.cast_exact(from(1, 30, 1, 2)).hit().triangle == 0);
    CHECK(hits_at(square.cast_exact(from(1, 30, 1, 1)), 1) && hits_at(square.cast_exact(from(1, 30, 1, 2).with_near(1)), 1));
    CHECK(square.cast_exact(from(1, 30, 2, 1)).is_none() && square.cast_exact(from(1, 30, 1, 3).with_near(2)).is_none());
    CHECK(square.cast_exact(from(32, 0, 1, 2)).is_none());
    Mesh built = square.build().value();
    Scratch scratch;
    CHECK(built.cast(from(1, 30, 1, 2)).is_none() && hits_at(built.cast_exact(from(1, 30, 1, 2)), 1));
    const std::vector<Vec3> lower{{0, 0, -1}, {31, 0, -1}, {0, 31, -1}, {31, 31, -1}};
    CHECK(hits_at(built.cast_exact_at(from(1, 30, 1, 2), lower, scratch), 2));
    CHECK(built.cast_exact_at(from(1, 30, 1, 1), lower, scratch).is_none());
    int met[2] = {0, 0};
    // document 02's M-112, its open side: the crossing lies on the side opposite the first corner, u = 6/91 and v = 85/91
    CHECK(PlainMesh({{0, 0, 0}, {1, 0, 0}, {92, 91, 0}}, {{0, 1, 2}}).cast(from(86, 85, 5, 10)).is_none());
    CHECK(as_in_fractions({86, 85, 5}, {0, 0, -1}, 10, {{{{0, 0, 0}, {1, 0, 0}, {92, 91, 0}}}}, met) && met[0] == 1);
    // down an outline, from 3 before it, and one above it
    CHECK(as_in_fractions({-3, 0, 0}, {1, 0, 0}, 10, {{{{0, 0, 0}, {4, 0, 0}, {0, 4, 0}}}}, met) && met[0] == 2);
    CHECK(as_in_fractions({-3, 0, 1}, {1, 0, 0}, 10, {{{{0, 0, 0}, {4, 0, 0}, {0, 4, 0}}}}, met) && met[1] == 1);
    std::uint64_t state = 88172645463325252u; // xorshift
    const auto below = [&state](std::uint64_t n) {
        state ^= state << 13, state ^= state >> 7, state ^= state << 17;
        return static_cast<std::int64_t>(state % n);
    };
    for (int board = 0; board < 3000; board++) {
        const std::uint64_t size = board % 3 == 0 ? 40 : 6;
        const auto point = [&] { return Whole{below(size), below(size), below(size)}; };
        std::vector<std::array<Whole, 3>> triangles(static_cast<std::size_t>(1 + below(4)));
        for (auto &t : triangles)
            t = {point(), point(), point()};
        Whole origin = point(), direction{0, 0, 0};
        direction[static_cast<std::size_t>(below(3))] = below(2) ? 1 : -1;
        CHECK(as_in_fractions(origin, direction, below(2 * size), triangles, met));
    }
    CHECK(met[0] > 300 && met[1] > 300);
    // off the grid: a quarter of a unit, 2^-15 mm, is read as none; aslant through a corner and beside it
    const double unit = 1.0 / 32768, third = std::sqrt(1.0 / 3.0);
    CHECK(hits_at(square.cast_exact(from(0.5, 30, 1 + unit / 4, 2)), 1) && hits_at(square.cast_exact(from(1, 30, 1, 2.5)), 1));
    CHECK(PlainMesh({{0, 0, 0}, {31, 0, 0.5}, {0, 31, 0}}, {{0, 1, 2}}).cast_exact(from(0, 1, 1, 2)).hit().distance == 1);
    CHECK(square.cast_exact(Ray{{31.5, 31.5, 0.5}, {-third, -third, -third}, 2}).hit().triangle == 1);
    CHECK(square.cast_exact(Ray{{31.5 + 2 * unit, 31.5, 0.5}, {-third, -third, -third}, 2}).is_none());
    // out of range, and what is refused before and after it
    CHECK(refuses(square.cast_exact(from(1, 30, 8192.5, 9)), 12) && refuses(square.cast_exact(from(1, 30, 1, 32768.5)), 12));
    CHECK(refuses(square.cast_exact(from(1, 30, 1, 32769).with_near(0.5)), 12));
    CHECK(refuses(PlainMesh({{0, 0, 0}, {8192.5, 0, 0}, {0, 31, 0}}, {{0, 1, 2}}).cast_exact(from(1, 1, 1, 2)), 12));
    CHECK(hits_at(PlainMesh({{0, 0, 0}, {8192, 0, 0}, {0, 31, 0}}, {{0, 1, 2}}).cast_exact(from(1, 1, 1, 2)), 1));
    CHECK(refuses(square.cast_exact(from(1, 30, 9000, -1)), 1) && refuses(PlainMesh(T, {{0, 1, 3}}).cast_exact(from(0, 0, 1, 2)), 5));
    CHECK(told(Refusal::out_of_range).find("refused 12, out of range") == 0);
    // a NaN far from the ray: its mesh is cast at without the tree
    const double nan = std::numeric_limits<double>::quiet_NaN();
    const PlainMesh holed({{0, 0, 0}, {9, 0, 0}, {0, 9, 0}, {500, nan, 0}, {509, 0, 0}, {500, 9, 0}}, {{0, 1, 2}, {3, 4, 5}});
    CHECK(!mesh_has_numbers(holed.shape()) && mesh_has_numbers(square.shape()));
    CHECK(refuses(holed.cast_exact(from(1, 1, 1, 2)), 12) && refuses(holed.build().value().cast_exact(from(1, 1, 1, 2)), 12));
}

/* A floor of 36 squares, 4 wide, each at a height of its own and in two triangles: in pieces it answers what the whole does. */
void large_meshes()
{
    std::vector<Vec3> vertices;
    std::vector<Triangle> triangles;
    for (std::uint32_t n = 0; n < 36; n++) {
        const double x = n % 6 * 4, y = n / 6 * 4, z = n * 7 % 5;
        for (const Vec3 &corner : {Vec3{x, y, z}, Vec3{x + 4, y, z}, Vec3{x + 4, y + 4, z}, Vec3{x, y + 4, z}})
            vertices.push_back(corner);
        triangles.push_back({4 * n, 4 * n + 1, 4 * n + 2});
        triangles.push_back({4 * n, 4 * n + 2, 4 * n + 3});
    }
    const Shape shape = Shape::of(vertices, triangles);
    Mesh whole = Mesh::build(shape).value();
    for (const std::size_t most : {1, 5, 72}) {
        LargeMesh large = LargeMesh::build(shape, most).value();
        CHECK(large.pieces() >= 72 / most);
        int hits = 0;
        // at every millimetre, so also at sides and corners, and past the floor
        for (int x = -1; x <= 25; x++)
            for (int y = -1; y <= 25; y++) {
                const Ray ray = from(x, y, 9, 20);
                const std::optional<MeshHit> exact = whole.cast_exact(ray).hit_or_none(), found = large.cast(ray).hit_or_none();
                CHECK(exact.has_value() == found.has_value());
                CHECK(!exact || (exact->distance == found->distance && exact->triangle == found->triangle));
                const std::optional<MeshHit> rounded = whole.cast(ray).hit_or_none(), near = large.cast_rounded(ray).hit_or_none();
                CHECK(rounded.has_value() == near.has_value() && (!rounded || rounded->distance == near->distance));
                hits += exact.has_value();
            }
        CHECK(hits == 25 * 25);
    }
    // the first triangle stands at the larger x, so that the pieces have the two in the other order
    LargeMesh board = LargeMesh::build(Shape({0, 0, 0, 8, 0, 0, 8, 4, 0, 0, 4, 0}, {0, 1, 2, 0, 2, 3}), 1).value();
    CHECK(board.pieces() == 2 && hits_at(board.cast(from(4, 2, 3, 5)), 3) && board.cast(from(4, 2, 3, 5)).hit().triangle == 0);
    CHECK(refuses(board.cast(from(4, 2, 3, -1)), 1) && refuses(board.cast_rounded(from(4, 2, 3, -1)), 1));
    CHECK(LargeMesh::build(Shape::of(T, {})).refusal() == Refusal::out_of_bounds);
    CHECK(LargeMesh::build(Shape::of(T, {{0, 1, 3}})).refusal() == Refusal::out_of_bounds);
    CHECK(LargeMesh::build(Shape({0, 0, 0, infinite, 0, 0, 0, 1, 0}, {0, 1, 2})).refusal() == Refusal::out_of_bounds);

    // 250 by 280 triangles, 4 wide and 5 apart, the last one with its first corner at (1245, 1395)
    Shape floor;
    for (std::uint32_t n = 0; n < 70000; n++) {
        const double x = n % 250 * 5, y = n / 250 * 5;
        floor.vertices.insert(floor.vertices.end(), {x, y, 0, x + 4, y, 0, x, y + 4, 0});
        floor.triangles.insert(floor.triangles.end(), {3 * n, 3 * n + 1, 3 * n + 2});
    }
    CHECK(Mesh::build(floor).refusal() == Refusal::bad_shape);
    LargeMesh large = LargeMesh::build(floor).value();
    const Ray last = from(1246, 1396, 6, 10);
    CHECK(large.pieces() > 1 && hits_at(large.cast(last), 6) && large.cast(last).hit().triangle == 69999);
    CHECK(hits_at(large.cast_rounded(last), 6) && large.cast_rounded(last).hit().triangle == 69999);
}

/* Whether two answers are the same, to the bit where they are hits. */
bool same(const Cast<MeshHit> &one, const Cast<MeshHit> &other)
{
    if (one.kind() != other.kind())
        return false;
    if (one.is_refused())
        return one.refusal() == other.refusal();
    if (one.is_none())
        return true;
    const MeshHit a = one.hit(), b = other.hit();
    const auto bits = [](double x, double y) { return x == y && std::signbit(x) == std::signbit(y); };
    return a.triangle == b.triangle && bits(a.distance, b.distance) && bits(a.normal.x, b.normal.x) &&
           bits(a.normal.y, b.normal.y) && bits(a.normal.z, b.normal.z);
}

/* Many rays in one call: a board's hits by its measures, and each answer as the single cast gives it, refusals among them. */
void many_rays()
{
    Mesh board = box({0, 0, 0}, {60, 40, 18}).build().value();
    CHECK(board.cast_many({}).empty() && board.cast_exact_many({}).empty());
    // the upper face, past the board, a maximum below 0, the upper face from below by its lower one, and a side
    const std::vector<Ray> five{
        from(30, 10, 100, 200), from(70, 10, 100, 200), from(30, 10, 100, -1), {{30, 10, -5}, {0, 0, 1}, 50}, {{-2, 20, 9}, {1, 0, 0}, 3}};
    for (const bool exact : {false, true}) {
        const std::vector<Cast<MeshHit>> casts = exact ? board.cast_exact_many(five) : board.cast_many(five);
        CHECK(casts.size() == 5 && hits_at(casts[0], 82) && casts[1].is_none() && refuses(casts[2], 1));
        CHECK(casts[3].hit().distance == 5 && casts[3].hit().normal.z == -1);
        CHECK(casts[4].hit().distance == 2 && casts[4].hit().normal.x == -1);
    }
    // the rays' places are not mixed up, whatever the scratch served before
    Scratch scratch;
    std::size_t hits = 0, refused = 0;
    for (const std::size_t count : {std::size_t{500}, std::size_t{1}, std::size_t{77}}) {
        std::vector<Ray> rays;
        for (std::size_t k = 0; k < count; k++) {
            const double x = static_cast<double>(k % 70), y = static_cast<double>(k % 43);
            const Vec3 way = k % 11 == 3 ? Vec3{0, 0, -2} : down;
            rays.push_back(Ray{{x, y, 30}, way, k % 5 == 1 ? 10.0 : 40.0, static_cast<double>(k % 3)});
        }
        const std::vector<Cast<MeshHit>> casts = board.cast_many(rays, scratch), exact = board.cast_exact_many(rays, scratch);
        CHECK(casts.size() == count && exact.size() == count);
        for (std::size_t k = 0; k < count; k++) {
            CHECK(same(casts[k], board.cast(rays[k])) && same(exact[k], board.cast_exact(rays[k])));
            hits += casts[k].kind() == Kind::hit;
            refused += casts[k].is_refused();
        }
    }
    CHECK(hits > 200 && refused > 40);
    // a mesh with a NaN is cast at without its tree, one ray like many
    const PlainMesh holed({{0, 0, 0}, {31, 0, 0}, {0, 31, 0}, {std::nan(""), 1, 1}}, {{0, 1, 2}, {0, 1, 3}});
    Mesh built = holed.build().value();
    for (const Cast<MeshHit> &cast : built.cast_exact_many({from(1, 1, 1, 2), from(40, 1, 1, 2)}))
        CHECK(refuses(cast, 12));
}

/* Whether a drill is answered so without a tree, through one, among many and in pieces: nothing where it is clear. */
bool drills(const PlainMesh &part, const Drill &drill, std::optional<std::uint32_t> expected)
{
    const auto is_so = [&](const Cast<std::uint32_t> &cast) { return cast.hit_or_none() == expected; };
    Mesh built = part.build().value();
    LargeMesh pieces = LargeMesh::build(part.shape(), 1).value();
    return is_so(part.drill(drill.ray, drill.radius)) && is_so(built.drill(drill.ray, drill.radius)) &&
           is_so(built.drill_many({drill, drill})[1]) && is_so(pieces.drill(drill.ray, drill.radius)) &&
           is_so(pieces.drill_many({drill})[0]);
}

/* The drill: what the measures of small parts say, rims and flat ends exactly touched; and what is refused. */
void drilling()
{
    const std::optional<std::uint32_t> clear;
    const double unit = 1.0 / 32768, nan = std::numeric_limits<double>::quiet_NaN();
    const PlainMesh square({{0, 0, 0}, {4, 0, 0}, {4, 4, 0}, {0, 4, 0}}, {{0, 1, 2}, {0, 2, 3}});
    // beside the corner (4, 0, 0), 3 and 4 off it: the rim touches it exactly; the radius is read upward
    CHECK(drills(square, {from(7, -4, 1, 2), 5}, 0) && drills(square, {from(7, -4, 1, 2), 5 - unit}, clear));
    CHECK(drills(square, {from(7, -4, 1, 2), 5 - 0.75 * unit}, 0));
    // the flat end in the face, and the near end, exactly and a unit off
    CHECK(drills(square, {from(1, 3, 5, 5), 0.25}, 1) && drills(square, {from(1, 3, 5, 5 - unit), 0.25}, clear));
    CHECK(drills(square, {from(1, 3, 5, 10).with_near(5), 0.25}, 1));
    CHECK(drills(square, {from(1, 3, 5, 10).with_near(5 + unit), 0.25}, clear));
    // the lowest of two; a line; the wall along the face
    CHECK(drills(square, {from(2, 2, 5, 10), 0.5}, 0) && drills(square, {from(3, 1, 5, 10), 128}, 0));
    CHECK(drills(square, {from(4, 2, 5, 10), 0}, 0) && drills(square, {from(5, 2, 5, 10), 0}, clear));
    CHECK(drills(square, {{{-2, 2, 0.5}, {1, 0, 0}, 10}, 0.5}, 0) && drills(square, {{{-2, 2, 0.5}, {1, 0, 0}, 10}, 0.499}, clear));
    CHECK(drills(square, {{{-2, 2, 0}, {1, 0, 0}, 2}, 0.5}, 1) && drills(square, {{{-2, 2, 0}, {1, 0, 0}, 1.5}, 0.5}, clear));
    // no area, and inside the drill: the exact cast along the axis is a miss
    const PlainMesh flat({{0, 0, 0}, {4, 0, 0}, {2, 0, 0}}, {{0, 1, 2}}), inside({{1, 0, 0}, {2, 0, 0}, {1, 1, 0}}, {{0, 1, 2}});
    CHECK(drills(flat, {from(2, 1, 5, 10), 1}, 0) && drills(flat, {from(2, 1, 5, 10), 0.999}, clear));
    CHECK(drills(flat, {from(2, 0, 5, 10), 0}, 0) && flat.cast_exact(from(2, 0, 5, 10)).is_none());
    CHECK(drills(inside, {from(0, 0, 5, 10), 5}, 0) && inside.cast_exact(from(0, 0, 5, 10)).is_none());
    // what is refused, and in which order
    Mesh built = square.build().value();
    for (const double wrong : {nan, infinite, -infinite, -1.0})
        CHECK(refuses(built.drill(from(2, 2, 5, 10), wrong), 1) && refuses(square.drill(from(2, 2, 8193, 10), wrong), 1));
    CHECK(refuses(built.drill(from(2, 2, 5, 10), 128.00000001), 12) && refuses(built.drill(from(2, 2, 5, -1), 129), 1));
    CHECK(refuses(built.drill(from(2, 2, 8192.5, 10), 1), 12) && refuses(PlainMesh(T, {{0, 1, 3}}).drill(from(0, 0, 1, 2), 1), 5));
    CHECK(refuses(PlainMesh({{0, 0, 0}, {4, 0, 0}, {0, 4, 0}, {8192.5, 0, 0}}, {{0, 1, 2}, {1, 3, 2}}).drill(from(1, 1, 1, 2), 1), 12));
    CHECK(explained(Refusal::invalid_input, Drill{from(0, 0, 1, 2), -1}) == "refused 1, invalid input: the radius is below 0");
    CHECK((Drill{from(0, 0, 1, 2), 4}.fault() == nullptr) && std::string(Drill{from(0, 0, 1, -2), nan}.fault()) == "the maximum is below 0");
    // many in one call, one of them refused; whatever the scratch served before
    Scratch scratch;
    static_cast<void>(built.cast_many({from(1, 1, 5, 10), from(3, 3, 5, 10)}, scratch));
    const std::vector<Cast<std::uint32_t>> three =
        built.drill_many({{from(7, -4, 1, 2), 5}, {from(2, 2, 5, 10), nan}, {from(1, 3, 5, 5), 0.25}}, scratch);
    CHECK(three.size() == 3 && three[0].hit() == 0 && refuses(three[1], 1) && three[2].hit() == 1 && built.drill_many({}).empty());
    // a mesh with a NaN is asked without its tree
    const PlainMesh holed({{0, 0, 0}, {31, 0, 0}, {0, 31, 0}, {nan, 1, 1}}, {{0, 1, 2}, {0, 1, 3}});
    Mesh with_nan = holed.build().value();
    CHECK(refuses(with_nan.drill(from(1, 1, 1, 2), 1), 12) && refuses(with_nan.drill_many({{from(40, 1, 1, 2), 1}})[0], 12));
}

/* What a refusal of this ray says, where it is thrown. */
std::string thrown(const Cast<Hit> &cast)
{
    try {
        static_cast<void>(cast.hit());
    } catch (const Refused &refused) {
        return refused.what();
    }
    return "";
}

/* The test of refusal 1 that a ray fails, in the words of the Rust crate. */
void faults()
{
    const double nan = std::nan("");
    const Vec3 zero{0, 0, 0}, up{0, 0, 1};
    const std::pair<Ray, const char *> cases[] = {
        {{{nan, 0, 0}, up, 1}, "the origin has a NaN"},
        {{{0, -infinite, 0}, up, 1}, "the origin is infinite"},
        {{zero, {0, nan, 1}, 1}, "the direction has a NaN"},
        {{zero, {infinite, 0, 0}, 1}, "the direction is infinite"},
        {{zero, {0, -0.0, 0}, 1}, "the direction is zero"},
        {{zero, {0, 0, 2}, 1}, "the direction's length is not 1"},
        {{zero, {1e200, 0, 0}, 1}, "the direction's length is not 1"},
        {{zero, up, nan}, "the maximum is NaN"},
        {{zero, up, infinite}, "the maximum is infinite"},
        {{zero, up, -1}, "the maximum is below 0"},
        {{zero, up, -infinite}, "the maximum is below 0"},
        {{zero, up, 1, nan}, "the near distance is NaN"},
        {{zero, up, 1, -0.5}, "the near distance is below 0"},
        {{zero, up, 1, 1.5}, "the near distance is above the maximum"},
        {{zero, up, 1, infinite}, "the near distance is above the maximum"},
    };
    for (const auto &[ray, words] : cases) {
        const std::string said = std::string("refused 1, invalid input: ") + words;
        CHECK(refuses(ray_plane(ray, ground), 1) && ray.fault() == std::string(words));
        CHECK(explained(Refusal::invalid_input, ray) == said && thrown(ray_plane(ray, ground)) == said);
        // another refusal has nothing to do with the ray
        CHECK(explained(Refusal::no_room, ray) == told(Refusal::no_room));
    }
    const Ray admitted{zero, up, 0, -0.0};
    CHECK(admitted.fault() == nullptr && explained(Refusal::invalid_input, admitted) == told(Refusal::invalid_input));
    // lengths about the ends of what is admitted, a few floats apart
    int refused = 0;
    for (const double end : {1 - 1e-12, 1 + 1e-12})
        for (int step = -40; step <= 40; step++) {
            const double length = end + step * 2 * std::numeric_limits<double>::epsilon();
            const Ray ray{zero, {0.36 * length, 0.48 * length, 0.8 * length}, 1};
            CHECK((ray.fault() != nullptr) == ray_plane(ray, ground).is_refused());
            refused += ray.fault() != nullptr;
        }
    CHECK(refused > 40 && refused < 122);
    // the words reach every cast
    Mesh mesh = layers(1).value();
    const Ray still{{0.25, 0.25, 1}, zero, 2};
    Cabinet cabinet;
    CHECK(cabinet.push(mesh, zero) == 0);
    const auto says = [](const char *words, auto &&call) {
        try {
            call();
        } catch (const Refused &why) {
            return why.what() == std::string("refused 1, invalid input: ") + words;
        }
        return false;
    };
    const HeightRanges veneer{2, 2, {1, 1}, std::vector<double>(4, 0.0), std::vector<double>(4, 1.0)};
    CHECK(says("the direction is zero", [&] { static_cast<void>(mesh.cast(still).hit()); }));
    CHECK(says("the direction is zero", [&] { static_cast<void>(mesh.cast_many({still})[0].hit()); }));
    CHECK(says("the direction is zero", [&] { static_cast<void>(mesh.cast_exact_many({still})[0].hit()); }));
    CHECK(says("the direction is zero", [&] { static_cast<void>(mesh.cast_all(still).value()); }));
    CHECK(says("the direction is zero", [&] { static_cast<void>(cabinet.cast(still).answer.hit()); }));
    CHECK(says("the direction is zero", [&] { static_cast<void>(ray_height_ranges(still, veneer).is_clear()); }));
    CHECK(says("the direction is zero", [&] {
        static_cast<void>(ray_triangle_slices({0, 0, 1, 0, 0, 0, 2, 0}, {0, 0, 0, 1, 0, 0, 0, 1, 0}).hit());
    }));
}

} // namespace

int main()
{
    CHECK(version() == PROBE_VERSION);
    const Ray aslant = Ray::toward({0, 0, 0}, {0, 3, 4}, 10);
    CHECK(is(aslant.direction, 0, 0.6, 0.8) && is(aslant.at(5), 0, 3, 4) && aslant.near_distance == 0);
    CHECK(refuses(ray_plane(Ray::toward({0, 0, 1}, {0, 0, 0}, 10), ground), 1));
    CHECK(throws<std::out_of_range>([] { Cabinet().place_again(0, {0, 0, 0}); }));
    marked();
    near_distances();
    refusals();
    not_there();
    trees();
    boards();
    ranges();
    cabinets();
    records();
    exactly();
    many_rays();
    drilling();
    faults();
    large_meshes();
    std::printf("%d checks\n", checks);
    return 0;
}
