/* Ray casts for C++17, over the calls of probe_rays.h. Header only.
 *
 * The calls are proved. The code here is not proved: it owns the buffers, gives them their lengths, and turns return values into
 * types. It is tested (tests/install.sh). probe_rays.h says what each call requires and returns, and numbers the refusals.
 *
 * A CAST RETURNS A HIT, A MISS ('NONE') OR A REFUSAL. A refusal is not a miss: nothing is known of the surface then. So a Cast has
 * no conversion to bool, and nothing that merely separates 'a hit' from 'anything else'. Either name all three cases:
 *
 *   mesh.cast(ray).match(
 *       [](const probe_rays::MeshHit &hit) { ... },
 *       []() { ... },                                       // none
 *       [](probe_rays::Refusal refusal) { ... });
 *
 * or let a refusal be thrown as probe_rays::Refused:
 *
 *   if (std::optional<probe_rays::MeshHit> hit = mesh.cast(ray).hit_or_none()) ...
 *
 * Without exceptions (-fno-exceptions) the program calls std::abort where an exception would be thrown.
 *
 * A const member function keeps nothing between calls: threads may share the object if each has its own Scratch.
 */
#ifndef PROBE_RAYS_HPP
#define PROBE_RAYS_HPP

#if __cplusplus < 201703L
#error "probe_rays.hpp asks for C++17: compile with -std=c++17 or later, or include probe_rays.h"
#endif

#include <algorithm>
#include <array>
#include <cmath>
#include <cstddef>
#include <cstdint>
#include <cstdlib>
#include <cstring>
#include <fstream>
#include <iterator>
#include <limits>
#include <locale>
#include <numeric>
#include <optional>
#include <sstream>
#include <stdexcept>
#include <string>
#include <string_view>
#include <type_traits>
#include <unordered_map>
#include <utility>
#include <variant>
#include <vector>

#include "probe_rays.h"

namespace probe_rays {

/* The version of the linked library. It is PROBE_VERSION if this header belongs to that library. */
inline std::uint32_t version() noexcept { return probe_version(); }

/* No limit on a cabinet's nodes. */
inline constexpr std::size_t no_limit = SIZE_MAX;

/* ---- refusals ---- */

/* Why a call refused. A newer library may return numbers that have no name here. */
enum class Refusal : std::uint32_t {
    invalid_input = PROBE_REFUSED_INVALID_INPUT,
    bad_shape = PROBE_REFUSED_BAD_SHAPE,
    no_room = PROBE_REFUSED_NO_ROOM,
    wrong_pose = PROBE_REFUSED_WRONG_POSE,
    out_of_bounds = PROBE_REFUSED_OUT_OF_BOUNDS,
    overflow = PROBE_REFUSED_OVERFLOW,
    no_normal = PROBE_REFUSED_NO_NORMAL,
    not_convergent = PROBE_REFUSED_NOT_CONVERGENT,
    bad_range = PROBE_REFUSED_BAD_RANGE,
    limit_reached = PROBE_REFUSED_LIMIT_REACHED,
/* for calls that not every release has */
#ifdef PROBE_REFUSED_NOT_REPRESENTABLE
    not_representable = PROBE_REFUSED_NOT_REPRESENTABLE,
#endif
#ifdef PROBE_REFUSED_OUT_OF_RANGE
    out_of_range = PROBE_REFUSED_OUT_OF_RANGE,
#endif
};

inline constexpr std::uint32_t number(Refusal refusal) noexcept { return static_cast<std::uint32_t>(refusal); }

/* A refusal in words, with its number. */
inline std::string told(Refusal refusal)
{
    const char *words = "a refusal that this header does not know";
    switch (refusal) {
    case Refusal::invalid_input: words = "invalid input: the ray or the query box is not valid"; break;
    case Refusal::bad_shape: words = "bad shape: a count, a length or a parameter is outside the limits, or a record is malformed"; break;
    case Refusal::no_room: words = "no room: a buffer is too short"; break;
    case Refusal::wrong_pose: words = "wrong pose: the pose does not have as many vertices as the mesh"; break;
    case Refusal::out_of_bounds: words = "out of bounds: an index, a box or a tree does not fit"; break;
    case Refusal::overflow: words = "overflow: a computed number is not finite"; break;
    case Refusal::no_normal: words = "no normal: the surface that is hit has no unit normal"; break;
    case Refusal::not_convergent: words = "not convergent: the traversal of the distance grid has no answer"; break;
    case Refusal::bad_range: words = "bad range: a range of heights is out of order or not finite"; break;
    case Refusal::limit_reached: words = "limit reached: the cast would visit more nodes than the limit allows"; break;
#ifdef PROBE_REFUSED_NOT_REPRESENTABLE
    case Refusal::not_representable: words = "not representable: a float of the record is NaN, or no f32 is exactly that number"; break;
#endif
#ifdef PROBE_REFUSED_OUT_OF_RANGE
    case Refusal::out_of_range: words = "out of range: the origin or a corner is not within 8,192, near or the maximum is above 32,768, or the radius is above 128";
        break;
#endif
    }
    return "refused " + std::to_string(number(refusal)) + ", " + words;
}

/* The same, and for refusal 1 the test that the ray fails (Ray::fault), if one is given. */
inline std::string told(Refusal refusal, const char *fault)
{
    if (refusal != Refusal::invalid_input || fault == nullptr)
        return told(refusal);
    return "refused " + std::to_string(number(refusal)) + ", invalid input: " + fault;
}

/* Thrown when the value of a refused call is read. */
class Refused : public std::runtime_error {
public:
    explicit Refused(Refusal refusal, const char *fault = nullptr)
        : std::runtime_error(told(refusal, fault)), refusal_(refusal)
    {
    }
    Refusal refusal() const noexcept { return refusal_; }

private:
    Refusal refusal_;
};

/* Why Mesh::with_tree did not accept a tree: the check refused, or (no refusal) the tree does not fit the mesh. */
struct TreeFault {
    std::optional<Refusal> refusal;
};

/* Thrown when a tree does not pass the check. */
class TreeDoesNotFit : public std::runtime_error {
public:
    TreeDoesNotFit() : std::runtime_error("the tree does not fit the mesh") {}
};

/* Thrown when the mesh of a file is read that is not an STL file. */
class StlError : public std::runtime_error {
public:
    using std::runtime_error::runtime_error;
};

/* Thrown when a hit is read and there is none, or a refusal is read and there is none. */
class NotThere : public std::logic_error {
public:
    using std::logic_error::logic_error;
};

namespace detail {

template <class Error>
[[noreturn]] void raise(Error &&error)
{
#if defined(__cpp_exceptions)
    throw std::forward<Error>(error);
#else
    static_cast<void>(error);
    std::abort();
#endif
}

[[noreturn]] inline void fail(Refusal refusal) { raise(Refused(refusal)); }

/* Why a cast refused, and for refusal 1 the test that its ray fails. */
struct CastFault {
    Refusal refusal;
    const char *fault;
};

[[noreturn]] inline void fail(const CastFault &why) { raise(Refused(why.refusal, why.fault)); }

[[noreturn]] inline void fail(const TreeFault &fault)
{
    if (fault.refusal)
        fail(*fault.refusal);
    raise(TreeDoesNotFit());
}

[[noreturn]] inline void fail(const StlError &error) { raise(StlError(error)); }

/* A vector's pointer. It is not null for an empty vector either; nothing is read or written through it then. */
template <class T>
const T *from(const std::vector<T> &area) noexcept
{
    static const T nothing{};
    return area.empty() ? &nothing : area.data();
}

template <class T>
T *into(std::vector<T> &area) noexcept
{
    static T nothing{};
    return area.empty() ? &nothing : area.data();
}

template <class T>
void grow(std::vector<T> &area, std::size_t length)
{
    if (area.size() < length)
        area.resize(length);
}

/* The library refuses more triangles than the limit whatever the buffers are, so none are made then. */
inline std::size_t room_for(std::size_t count) noexcept { return count > PROBE_MAX_TRIANGLES ? 0 : count; }

} // namespace detail

/* ---- answers ---- */

/* A value, or the reason why there is none. value() throws Refused for a refusal. */
template <class T, class Why = Refusal>
class [[nodiscard]] Result {
public:
    explicit Result(T value) : held_(std::in_place_index<0>, std::move(value)) {}
    explicit Result(Why why, const char *fault = nullptr) : held_(std::in_place_index<1>, std::move(why)), fault_(fault) {}

    bool is_refused() const noexcept { return held_.index() == 1; }

    const T &value() const &
    {
        demand();
        return *std::get_if<0>(&held_);
    }

    T value() &&
    {
        demand();
        return std::move(*std::get_if<0>(&held_));
    }

    Why refusal() const
    {
        if (!is_refused())
            detail::raise(NotThere("refusal() of a call that did not refuse"));
        return *std::get_if<1>(&held_);
    }

private:
    void demand() const
    {
        if (!is_refused())
            return;
        if constexpr (std::is_same_v<Why, Refusal>)
            detail::fail(detail::CastFault{*std::get_if<1>(&held_), fault_});
        else
            detail::fail(*std::get_if<1>(&held_));
    }

    std::variant<T, Why> held_;
    const char *fault_ = nullptr; /* the test of refusal 1 that a ray fails */
};

/* A miss: no hit from near to the maximum, as the cast reads them, by the cast's definition. */
struct None {};

/* The three cases of a Cast, for a switch. */
enum class Kind { hit, none, refused };

/* The result of a cast. */
template <class H>
class [[nodiscard]] Cast {
public:
    explicit Cast(H hit) : held_(std::move(hit)) {}
    explicit Cast(None none) : held_(none) {}
    explicit Cast(Refusal refusal, const char *fault = nullptr) : held_(detail::CastFault{refusal, fault}) {}

    explicit operator bool() const = delete;

    Kind kind() const noexcept
    {
        return std::holds_alternative<H>(held_) ? Kind::hit : std::holds_alternative<None>(held_) ? Kind::none : Kind::refused;
    }

    /* Calls one of three functions: the first with the hit, the second with nothing, the third with the refusal. */
    template <class OnHit, class OnNone, class OnRefused>
    auto match(OnHit &&on_hit, OnNone &&on_none, OnRefused &&on_refused) const
    {
        if (const H *hit = std::get_if<H>(&held_))
            return on_hit(*hit);
        if (const detail::CastFault *why = std::get_if<detail::CastFault>(&held_))
            return on_refused(why->refusal);
        return on_none();
    }

    /* The hit, or nothing for a miss. Throws a refusal. */
    std::optional<H> hit_or_none() const
    {
        demand();
        const H *hit = std::get_if<H>(&held_);
        return hit ? std::optional<H>(*hit) : std::nullopt;
    }

    /* The hit. Throws a refusal, and NotThere for a miss. */
    H hit() const
    {
        demand();
        if (is_none())
            detail::raise(NotThere("hit() of a cast that is a miss"));
        return *std::get_if<H>(&held_);
    }

    /* Whether the cast is a miss. Throws a refusal, which is neither a hit nor a miss. */
    bool is_none() const
    {
        demand();
        return std::holds_alternative<None>(held_);
    }

    bool is_refused() const noexcept { return std::holds_alternative<detail::CastFault>(held_); }

    Refusal refusal() const
    {
        if (!is_refused())
            detail::raise(NotThere("refusal() of a cast that did not refuse"));
        return std::get_if<detail::CastFault>(&held_)->refusal;
    }

private:
    void demand() const
    {
        if (const detail::CastFault *why = std::get_if<detail::CastFault>(&held_))
            detail::fail(*why);
    }

    std::variant<None, H, detail::CastFault> held_;
};

using Vec3 = probe_vec3;

/* Three vertex indices, from 0. */
using Triangle = std::array<std::uint32_t, 3>;

/* A hit. A zero of the normal may be -0: a normal that is negated negates its zeros too. */
struct Hit {
    Vec3 normal;
    double distance;
};

/* A hit on a mesh, with the triangle's index, from 0. */
struct MeshHit {
    Vec3 normal;
    double distance;
    std::uint32_t triangle;
};

/* A hit on a cabinet, with the part, from 0, and the triangle's index in its mesh. */
struct PartHit {
    Vec3 normal;
    double distance;
    std::uint32_t triangle;
    std::size_t part;
};

namespace detail {

/* Where a call writes a hit. */
struct Places {
    std::array<double, PROBE_HIT_LENGTH> hit{};
    std::array<std::uint32_t, PROBE_INDEX_LENGTH> index{};

    Vec3 normal() const noexcept { return Vec3{hit[0], hit[1], hit[2]}; }
    Hit plain() const noexcept { return Hit{normal(), hit[3]}; }
    MeshHit of_mesh() const noexcept { return MeshHit{normal(), hit[3], index[0]}; }
};

} // namespace detail

/* ---- a ray ---- */

/* A ray: its origin, its direction (of length 1, within 1e-12), its maximum distance, and the near distance from which on
 * surfaces are hit. */
struct Ray {
    Vec3 origin;
    Vec3 direction;
    double max_distance;
    double near_distance = 0;

    /* The ray of eight numbers: origin, direction, maximum, near distance. */
    static Ray of(const std::array<double, 8> &numbers) noexcept
    {
        return Ray{{numbers[0], numbers[1], numbers[2]}, {numbers[3], numbers[4], numbers[5]}, numbers[6], numbers[7]};
    }

    /* A ray with the given direction, of any length, normalised. A direction that cannot be normalised (zero, or not finite) is
     * left as it is, and a cast refuses it. */
    static Ray toward(Vec3 origin, Vec3 direction, double max_distance)
    {
        /* divided by the largest component first, so that no square overflows or vanishes */
        const double largest = std::fmax(std::fmax(std::fabs(direction.x), std::fabs(direction.y)), std::fabs(direction.z));
        const Vec3 scaled{direction.x / largest, direction.y / largest, direction.z / largest};
        const double length = std::sqrt(scaled.x * scaled.x + scaled.y * scaled.y + scaled.z * scaled.z);
        const Vec3 unit{scaled.x / length, scaled.y / length, scaled.z / length};
        const bool whole = std::isfinite(unit.x) && std::isfinite(unit.y) && std::isfinite(unit.z);
        return Ray{origin, whole ? unit : direction, max_distance};
    }

    /* The same ray, passing over surfaces nearer than a distance. Distances are still measured from the origin. */
    Ray with_near(double distance) const
    {
        Ray ray = *this;
        ray.near_distance = distance;
        return ray;
    }

    /* The test of refusal 1 that the ray fails, in words; null if it fails none. */
    const char *fault() const noexcept
    {
        const auto any = [](const Vec3 &v, auto test) { return test(v.x) || test(v.y) || test(v.z); };
        const auto is_nan = [](double part) { return std::isnan(part); };
        const auto is_infinite = [](double part) { return std::isinf(part); };
        const double square = direction.x * direction.x + direction.y * direction.y + direction.z * direction.z;
        const std::pair<bool, const char *> tests[] = {
            {any(origin, is_nan), "the origin has a NaN"},
            {any(origin, is_infinite), "the origin is infinite"},
            {any(direction, is_nan), "the direction has a NaN"},
            {any(direction, is_infinite), "the direction is infinite"},
            {!any(direction, [](double part) { return part != 0; }), "the direction is zero"},
            /* the squares whose roots are not more than 1e-12 from 1 */
            {!(square >= 0.999999999998 && square <= 1.000000000002), "the direction's length is not 1"},
            {is_nan(max_distance), "the maximum is NaN"},
            {max_distance > 0 && is_infinite(max_distance), "the maximum is infinite"},
            {max_distance < 0, "the maximum is below 0"},
            {is_nan(near_distance), "the near distance is NaN"},
            {near_distance < 0, "the near distance is below 0"},
            {near_distance > max_distance, "the near distance is above the maximum"},
        };
        for (const auto &[failed, words] : tests)
            if (failed)
                return words;
        return nullptr;
    }

    /* The point at a distance. */
    Vec3 at(double distance) const noexcept
    {
        return Vec3{
            origin.x + direction.x * distance, origin.y + direction.y * distance, origin.z + direction.z * distance};
    }
};

/* The refusal of a cast of this ray, in words; for refusal 1 with the test that the ray fails. */
inline std::string explained(Refusal refusal, const Ray &ray) { return told(refusal, ray.fault()); }

/* A drill: the closed, flat-ended cylinder of a radius about a ray's segment, from its near distance to its maximum. */
struct Drill {
    Ray ray;
    double radius;

    /* The test of refusal 1 that the ray or the radius fails, in words; null if neither fails one. */
    const char *fault() const noexcept
    {
        if (const char *words = ray.fault())
            return words;
        if (std::isnan(radius))
            return "the radius is NaN";
        if (radius < 0)
            return "the radius is below 0";
        return std::isinf(radius) ? "the radius is infinite" : nullptr;
    }
};

/* The same for a drill. */
inline std::string explained(Refusal refusal, const Drill &drill) { return told(refusal, drill.fault()); }

namespace detail {

/* The result of a call for a ray or a drill that may write a hit. A number other than the two codes is a refusal, also one that is
 * new. */
template <class H, class Asked>
Cast<H> cast_of(std::uint32_t answer, const H &hit, const Asked &asked)
{
    if (answer == PROBE_HIT)
        return Cast<H>(hit);
    if (answer == PROBE_NONE)
        return Cast<H>(None{});
    return Cast<H>(static_cast<Refusal>(answer), asked.fault());
}

} // namespace detail

/* ---- plane, triangle, grids ---- */

/* The plane of all points whose dot product with the normal, of length 1, is the distance. */
struct Plane {
    Vec3 normal;
    double distance;
};

/* Heights over a grid: heights[r * columns + c] is the height of row r and column c, over (c * spacing[0], r * spacing[1]). */
struct HeightField {
    std::size_t rows;
    std::size_t columns;
    std::array<double, 2> spacing;
    std::vector<double> heights;
};

/* The same grid, with only a low and a high known for each height. */
struct HeightRanges {
    std::size_t rows;
    std::size_t columns;
    std::array<double, 2> spacing;
    std::vector<double> lows;
    std::vector<double> highs;
};

/* Distances from a surface over a grid: values[(k * sides[1] + j) * sides[0] + i] is the distance of node (i, j, k), at
 * origin + (i, j, k) * spacing. */
struct LevelSet {
    std::array<std::uint32_t, 3> sides;
    Vec3 origin;
    Vec3 spacing;
    std::vector<double> values;
};

inline Cast<Hit> ray_plane(const Ray &ray, const Plane &plane)
{
    detail::Places places;
    const std::uint32_t answer = probe_ray_plane_near(
        ray.origin.x, ray.origin.y, ray.origin.z, ray.direction.x, ray.direction.y, ray.direction.z, ray.max_distance,
        ray.near_distance, plane.normal.x, plane.normal.y, plane.normal.z, plane.distance, places.hit.data(),
        places.hit.size());
    return detail::cast_of(answer, places.plain(), ray);
}

inline Cast<Hit> ray_triangle(const Ray &ray, const Vec3 &a, const Vec3 &b, const Vec3 &c)
{
    detail::Places places;
    const std::uint32_t answer = probe_ray_triangle_near(
        ray.origin.x, ray.origin.y, ray.origin.z, ray.direction.x, ray.direction.y, ray.direction.z, ray.max_distance,
        ray.near_distance, a.x, a.y, a.z, b.x, b.y, b.z, c.x, c.y, c.z, places.hit.data(), places.hit.size());
    return detail::cast_of(answer, places.plain(), ray);
}

/* The same casts with the numbers in arrays. A ray has eight: origin, direction, maximum and near distance. A plane has four:
 * normal and distance. A triangle has nine: its corners. Faster, unless the numbers were written just before. */
inline Cast<Hit> ray_plane_slices(const std::array<double, 8> &ray, const std::array<double, 4> &plane)
{
    detail::Places places;
    const std::uint32_t answer = probe_ray_plane_slices(
        ray.data(), ray.size(), plane.data(), plane.size(), places.hit.data(), places.hit.size());
    return detail::cast_of(answer, places.plain(), Ray::of(ray));
}

inline Cast<Hit> ray_triangle_slices(const std::array<double, 8> &ray, const std::array<double, 9> &triangle)
{
    detail::Places places;
    const std::uint32_t answer = probe_ray_triangle_slices(
        ray.data(), ray.size(), triangle.data(), triangle.size(), places.hit.data(), places.hit.size());
    return detail::cast_of(answer, places.plain(), Ray::of(ray));
}

inline Cast<Hit> ray_height_field(const Ray &ray, const HeightField &field)
{
    detail::Places places;
    const std::uint32_t answer = probe_ray_height_field_near(
        ray.origin.x, ray.origin.y, ray.origin.z, ray.direction.x, ray.direction.y, ray.direction.z, ray.max_distance,
        ray.near_distance, field.rows, field.columns, field.spacing[0], field.spacing[1], detail::from(field.heights),
        field.heights.size(), places.hit.data(), places.hit.size());
    return detail::cast_of(answer, places.plain(), ray);
}

/* The normal points to where the distances grow, and is not turned towards the ray. A hit may lie one float past the maximum. */
inline Cast<Hit> ray_level_set(const Ray &ray, const LevelSet &grid)
{
    detail::Places places;
    const std::uint32_t answer = probe_ray_level_set_near(
        ray.origin.x, ray.origin.y, ray.origin.z, ray.direction.x, ray.direction.y, ray.direction.z, ray.max_distance,
        ray.near_distance, grid.sides[0], grid.sides[1], grid.sides[2], grid.origin.x, grid.origin.y, grid.origin.z,
        grid.spacing.x, grid.spacing.y, grid.spacing.z, detail::from(grid.values), grid.values.size(), places.hit.data(),
        places.hit.size());
    return detail::cast_of(answer, places.plain(), ray);
}

/* The first cell, row * (columns - 1) + column, of which some grid within the ranges has a triangle whose box touches the box of
 * the ray's segment. */
struct Cell {
    std::uint32_t number;
};

/* A cast at a grid whose heights are known only within ranges: clear, possible, or a refusal. */
class [[nodiscard]] Clearance {
public:
    Clearance(std::uint32_t answer, std::uint32_t cell, const char *fault = nullptr)
        : answer_(answer), cell_{cell}, fault_(fault)
    {
    }

    explicit operator bool() const = delete;

    bool is_refused() const noexcept { return answer_ != PROBE_CLEAR && answer_ != PROBE_POSSIBLE; }

    Refusal refusal() const
    {
        if (!is_refused())
            detail::raise(NotThere("refusal() of a cast that did not refuse"));
        return static_cast<Refusal>(answer_);
    }

    /* Whether no grid within the ranges has a triangle whose box touches the box of the ray's segment. If so, the height cast is a
     * miss on every such grid. If not, it need not be a hit on any (probe_ray_height_ranges in probe_rays.h). Throws a refusal. */
    bool is_clear() const
    {
        demand();
        return answer_ == PROBE_CLEAR;
    }

    /* The cell, if the cast is not clear. Throws a refusal. */
    std::optional<Cell> possible() const
    {
        demand();
        return answer_ == PROBE_POSSIBLE ? std::optional<Cell>(cell_) : std::nullopt;
    }

    /* Calls one of three functions: the first with nothing, the second with the cell, the third with the refusal. */
    template <class OnClear, class OnPossible, class OnRefused>
    auto match(OnClear &&on_clear, OnPossible &&on_possible, OnRefused &&on_refused) const
    {
        if (is_refused())
            return on_refused(static_cast<Refusal>(answer_));
        return answer_ == PROBE_CLEAR ? on_clear() : on_possible(cell_);
    }

private:
    void demand() const
    {
        if (is_refused())
            detail::fail(detail::CastFault{static_cast<Refusal>(answer_), fault_});
    }

    std::uint32_t answer_;
    Cell cell_;
    const char *fault_; /* the test of refusal 1 that the ray fails */
};

inline Clearance ray_height_ranges(const Ray &ray, const HeightRanges &ranges)
{
    std::uint32_t cell = 0;
    const std::uint32_t answer = probe_ray_height_ranges(
        ray.origin.x, ray.origin.y, ray.origin.z, ray.direction.x, ray.direction.y, ray.direction.z, ray.max_distance,
        ray.near_distance, ranges.rows, ranges.columns, ranges.spacing[0], ranges.spacing[1], detail::from(ranges.lows),
        ranges.lows.size(), detail::from(ranges.highs), ranges.highs.size(), &cell, 1);
    return Clearance(answer, cell, PROBE_IS_REFUSAL(answer) ? ray.fault() : nullptr);
}

/* ---- meshes ---- */

/* A tree in its own vectors. The table in probe_rays.h gives their lengths and contents. */
struct Tree {
    std::size_t nodes = 0;
    std::vector<double> node_boxes;
    std::vector<double> triangle_boxes;
    std::vector<std::uint32_t> node_words;
    std::vector<std::uint32_t> order;

    /* The buffers of a tree of n triangles, all zeros. */
    static Tree with_room(std::size_t n)
    {
        Tree tree;
        tree.node_boxes.resize(PROBE_NODE_BOXES_LENGTH(n));
        tree.triangle_boxes.resize(PROBE_TRIANGLE_BOXES_LENGTH(n));
        tree.node_words.resize(PROBE_NODE_WORDS_LENGTH(n));
        tree.order.resize(PROBE_ORDER_LENGTH(n));
        return tree;
    }
};

/* The work buffers of a cast or query. They grow as a mesh needs, may serve any number of meshes, and hold nothing that a call
 * depends on. Each thread has its own. */
struct Scratch {
    std::vector<std::uint32_t> list;
    std::vector<std::uint32_t> stack;
    std::vector<std::uint32_t> indices;
    std::vector<double> numbers;
    std::vector<double> rays;
    std::vector<std::uint32_t> codes;

    void fit(std::size_t n, std::size_t nodes)
    {
        detail::grow(list, PROBE_LIST_LENGTH(n));
        detail::grow(stack, PROBE_STACK_LENGTH(nodes));
    }

    /* n places always suffice for a listing: the traversal lists no more triangles than there are. */
    void fit_hits(std::size_t n)
    {
        detail::grow(indices, n);
        detail::grow(numbers, 4 * n);
    }

    /* The numbers of many rays, and places for their results: the codes, and those of a listing of as many hits. */
    void fit_many(const std::vector<Ray> &many)
    {
        static_assert(sizeof(Ray) == 8 * sizeof(double) && std::is_trivially_copyable_v<Ray>, "a ray is its eight numbers");
        fit_hits(many.size());
        detail::grow(codes, many.size());
        rays.resize(PROBE_RAYS_LENGTH(many.size()));
        if (!many.empty())
            std::memcpy(rays.data(), many.data(), many.size() * sizeof(Ray));
    }

    /* The results of many rays after a call. The buffers are long enough and the mesh is within the limits, so the call refuses
     * nothing but single rays. */
    std::vector<Cast<MeshHit>> read_many(std::uint32_t answer, const std::vector<Ray> &many) const
    {
        std::vector<Cast<MeshHit>> casts;
        casts.reserve(many.size());
        for (std::size_t k = 0; k < many.size(); k++) {
            const double *hit = numbers.data() + 4 * k;
            const MeshHit place{Vec3{hit[0], hit[1], hit[2]}, hit[3], indices[k]};
            casts.push_back(detail::cast_of(answer == PROBE_DONE ? codes[k] : answer, place, many[k]));
        }
        return casts;
    }

    /* The same for many drills: their numbers, a code and an index each. */
    void fit_drills(const std::vector<Drill> &many)
    {
        static_assert(sizeof(Drill) == 9 * sizeof(double) && std::is_trivially_copyable_v<Drill>, "a drill is its nine numbers");
        detail::grow(codes, many.size());
        detail::grow(indices, many.size());
        rays.resize(PROBE_DRILLS_LENGTH(many.size()));
        if (!many.empty())
            std::memcpy(rays.data(), many.data(), many.size() * sizeof(Drill));
    }

    std::vector<Cast<std::uint32_t>> read_drills(std::uint32_t answer, const std::vector<Drill> &many) const
    {
        std::vector<Cast<std::uint32_t>> casts;
        casts.reserve(many.size());
        for (std::size_t k = 0; k < many.size(); k++)
            casts.push_back(detail::cast_of(answer == PROBE_DONE ? codes[k] : answer, indices[k], many[k]));
        return casts;
    }
};

/* Vertices and triangles as the calls take them: three numbers a vertex, three vertex indices a triangle. */
struct Shape {
    std::vector<double> vertices;
    std::vector<std::uint32_t> triangles;

    Shape() = default;
    Shape(std::vector<double> numbers, std::vector<std::uint32_t> indices)
        : vertices(std::move(numbers)), triangles(std::move(indices))
    {
    }

    static Shape of(const std::vector<Vec3> &points, const std::vector<Triangle> &corners)
    {
        Shape shape;
        shape.vertices = flat(points);
        shape.triangles.reserve(3 * corners.size());
        for (const Triangle &triangle : corners)
            shape.triangles.insert(shape.triangles.end(), triangle.begin(), triangle.end());
        return shape;
    }

    static std::vector<double> flat(const std::vector<Vec3> &points)
    {
        std::vector<double> numbers;
        numbers.reserve(3 * points.size());
        for (const Vec3 &point : points)
            numbers.insert(numbers.end(), {point.x, point.y, point.z});
        return numbers;
    }

    std::size_t vertex_count() const noexcept { return vertices.size() / 3; }
    std::size_t triangle_count() const noexcept { return triangles.size() / 3; }
};

/* Whether every corner of every triangle is three numbers; a corner whose index is past the vertices is not. */
inline bool mesh_has_numbers(const Shape &shape)
{
    return probe_mesh_has_numbers(detail::from(shape.vertices), shape.vertices.size(), detail::from(shape.triangles),
                                  shape.triangles.size()) == PROBE_YES;
}

namespace detail {
/* The exact cast without a tree. */
inline Cast<MeshHit> cast_exact(const Shape &shape, const Ray &ray)
{
    Places places;
    const std::uint32_t answer = probe_ray_mesh_exact_plain(
        ray.origin.x, ray.origin.y, ray.origin.z, ray.direction.x, ray.direction.y, ray.direction.z, ray.max_distance,
        ray.near_distance, from(shape.vertices), shape.vertices.size(), from(shape.triangles), shape.triangles.size(),
        places.hit.data(), places.hit.size(), places.index.data(), places.index.size());
    return cast_of(answer, places.of_mesh(), ray);
}

/* The drill without a tree. */
inline Cast<std::uint32_t> drill(const Shape &shape, const Drill &drill)
{
    const Ray &ray = drill.ray;
    std::uint32_t index = 0;
    const std::uint32_t answer = probe_drill_plain(
        ray.origin.x, ray.origin.y, ray.origin.z, ray.direction.x, ray.direction.y, ray.direction.z, ray.max_distance,
        ray.near_distance, drill.radius, from(shape.vertices), shape.vertices.size(), from(shape.triangles),
        shape.triangles.size(), &index, PROBE_INDEX_LENGTH);
    return cast_of(answer, index, drill);
}
} // namespace detail

/* Whether a tree, from whatever builder, fits a mesh. Refuses with 2 or 3. */
inline Result<bool> tree_check(const Shape &shape, const Tree &tree)
{
    std::vector<std::uint32_t> marks(PROBE_MARKS_LENGTH(detail::room_for(shape.triangle_count())));
    const std::uint32_t answer = probe_tree_check(
        detail::from(shape.vertices), shape.vertices.size(), detail::from(shape.triangles), shape.triangles.size(), tree.nodes,
        detail::from(tree.node_boxes), tree.node_boxes.size(), detail::from(tree.triangle_boxes), tree.triangle_boxes.size(),
        detail::from(tree.node_words), tree.node_words.size(), detail::from(tree.order), tree.order.size(),
        detail::into(marks), marks.size());
    if (answer == PROBE_YES)
        return Result<bool>(true);
    if (answer == PROBE_NO)
        return Result<bool>(false);
    return Result<bool>(static_cast<Refusal>(answer));
}

/* A mesh and a tree that fits it: built here, or somebody else's that passed the check. So a cast at the mesh's own vertices
 * misses no triangle whose box touches the box of the ray's segment. Neither mesh nor tree can be changed. */
class Mesh {
public:
    /* Builds the tree. Refuses with 2 (more than 65,536 vertices or triangles), 5 (no triangle, an index past the vertices, or a
     * triangle whose box is not finite) or 6. */
    static Result<Mesh> build(const std::vector<Vec3> &vertices, const std::vector<Triangle> &triangles)
    {
        return build(Shape::of(vertices, triangles));
    }

    static Result<Mesh> build(Shape shape)
    {
        const std::size_t n = detail::room_for(shape.triangle_count());
        Tree tree = Tree::with_room(n);
        std::vector<std::uint32_t> work(PROBE_WORK_LENGTH(n));
        const std::uint32_t answer = probe_build(
            detail::from(shape.vertices), shape.vertices.size(), detail::from(shape.triangles), shape.triangles.size(),
            detail::into(tree.node_boxes), tree.node_boxes.size(), detail::into(tree.triangle_boxes),
            tree.triangle_boxes.size(), detail::into(tree.node_words), tree.node_words.size(), detail::into(tree.order),
            tree.order.size(), detail::into(work), work.size(), &tree.nodes, PROBE_COUNT_LENGTH);
        if (answer != PROBE_DONE)
            return Result<Mesh>(static_cast<Refusal>(answer));
        return Result<Mesh>(Mesh(std::move(shape), std::move(tree)));
    }

    /* Takes a tree that somebody else built, if it passes the check. With a tree that does not, a cast could miss a surface, and
     * nothing would distinguish this miss from a correct one. */
    static Result<Mesh, TreeFault> with_tree(Shape shape, Tree tree)
    {
        const Result<bool> fits = tree_check(shape, tree);
        if (fits.is_refused())
            return Result<Mesh, TreeFault>(TreeFault{fits.refusal()});
        if (!fits.value())
            return Result<Mesh, TreeFault>(TreeFault{std::nullopt});
        return Result<Mesh, TreeFault>(Mesh(std::move(shape), std::move(tree)));
    }

    /* Merges another mesh with this one: its vertices and triangles follow this one's. `cast` at the result returns the nearer of
     * the hits of `cast` at the two meshes; probe_merge in probe_rays.h says which if they are equally near, or if one refuses.
     * Refuses with 2 if both together have more than 65,536 vertices or triangles. */
    Result<Mesh> glue(const Mesh &other) const
    {
        std::size_t vertices = shape_.vertex_count() + other.shape_.vertex_count();
        std::size_t n = shape_.triangle_count() + other.shape_.triangle_count();
        if (vertices > PROBE_MAX_VERTICES || n > PROBE_MAX_TRIANGLES)
            vertices = n = 0; /* the call refuses whatever the buffers are */
        Shape shape;
        shape.vertices.resize(PROBE_VERTICES_LENGTH(vertices));
        shape.triangles.resize(PROBE_TRIANGLES_LENGTH(n));
        Tree tree = Tree::with_room(n);
        std::vector<std::uint32_t> marks(PROBE_MARKS_LENGTH(n));
        const Shape &one = shape_, &two = other.shape_;
        const Tree &first = tree_, &second = other.tree_;
        const std::uint32_t answer = probe_merge(
            detail::from(one.vertices), one.vertices.size(), detail::from(one.triangles), one.triangles.size(), first.nodes,
            detail::from(first.node_boxes), first.node_boxes.size(), detail::from(first.triangle_boxes),
            first.triangle_boxes.size(), detail::from(first.node_words), first.node_words.size(), detail::from(first.order),
            first.order.size(), detail::from(two.vertices), two.vertices.size(), detail::from(two.triangles),
            two.triangles.size(), second.nodes, detail::from(second.node_boxes), second.node_boxes.size(),
            detail::from(second.triangle_boxes), second.triangle_boxes.size(), detail::from(second.node_words),
            second.node_words.size(), detail::from(second.order), second.order.size(), detail::into(shape.vertices),
            shape.vertices.size(), detail::into(shape.triangles), shape.triangles.size(), detail::into(tree.node_boxes),
            tree.node_boxes.size(), detail::into(tree.triangle_boxes), tree.triangle_boxes.size(),
            detail::into(tree.node_words), tree.node_words.size(), detail::into(tree.order), tree.order.size(),
            detail::into(marks), marks.size(), &tree.nodes, PROBE_COUNT_LENGTH);
        if (answer != PROBE_DONE)
            return Result<Mesh>(static_cast<Refusal>(answer));
        return Result<Mesh>(Mesh(std::move(shape), std::move(tree)));
    }

    /* The nearest triangle that a ray hits; of equally near ones, the one with the lowest index. Refuses with 1, 6 or 7. */
    Cast<MeshHit> cast(const Ray &ray) { return cast(ray, scratch_); }

    Cast<MeshHit> cast(const Ray &ray, Scratch &scratch) const { return cast_at(ray, shape_.vertices, scratch); }

    /* The same at other vertices. They must be as many as the mesh's; otherwise the cast refuses with 4 or 2. The tree's boxes
     * stay those of the mesh's own vertices: only triangles whose box there touches the box of the ray's segment are tested. */
    Cast<MeshHit> cast_at(const Ray &ray, const std::vector<Vec3> &pose, Scratch &scratch) const
    {
        return cast_at(ray, Shape::flat(pose), scratch);
    }

    Cast<MeshHit> cast_at(const Ray &ray, const std::vector<double> &pose, Scratch &scratch) const
    {
        scratch.fit(shape_.triangle_count(), tree_.nodes);
        detail::Places places;
        const std::uint32_t answer = probe_ray_mesh_near(
            ray.origin.x, ray.origin.y, ray.origin.z, ray.direction.x, ray.direction.y, ray.direction.z, ray.max_distance,
            ray.near_distance, detail::from(shape_.vertices), shape_.vertices.size(), detail::from(shape_.triangles),
            shape_.triangles.size(), detail::from(pose), pose.size(), tree_.nodes, detail::from(tree_.node_boxes),
            tree_.node_boxes.size(), detail::from(tree_.triangle_boxes), tree_.triangle_boxes.size(),
            detail::from(tree_.node_words), tree_.node_words.size(), detail::from(tree_.order), tree_.order.size(),
            detail::into(scratch.list), scratch.list.size(), detail::into(scratch.stack), scratch.stack.size(),
            places.hit.data(), places.hit.size(), places.index.data(), places.index.size());
        return detail::cast_of(answer, places.of_mesh(), ray);
    }

    /* The exact cast, in any direction, decided in integers on a grid. It returns what PlainMesh::cast_exact returns, through the
     * tree. The two are proved to agree for a mesh without a NaN, so a miss at the mesh's own vertices is certain. The
     * constructor looks for a NaN, and a mesh that has one is cast at without its tree. Refuses with 1 or 12. */
    Cast<MeshHit> cast_exact(const Ray &ray) { return cast_exact(ray, scratch_); }

    Cast<MeshHit> cast_exact(const Ray &ray, Scratch &scratch) const
    {
        return has_numbers_ ? cast_exact_at(ray, shape_.vertices, scratch) : detail::cast_exact(shape_, ray);
    }

    /* The same at other vertices, as in `cast_at`. A surface that has left the tree's boxes may be missed, so a miss is not
     * certain there. */
    Cast<MeshHit> cast_exact_at(const Ray &ray, const std::vector<Vec3> &pose, Scratch &scratch) const
    {
        return cast_exact_at(ray, Shape::flat(pose), scratch);
    }

    Cast<MeshHit> cast_exact_at(const Ray &ray, const std::vector<double> &pose, Scratch &scratch) const
    {
        scratch.fit(shape_.triangle_count(), tree_.nodes);
        detail::Places places;
        const std::uint32_t answer = probe_ray_mesh_exact(
            ray.origin.x, ray.origin.y, ray.origin.z, ray.direction.x, ray.direction.y, ray.direction.z, ray.max_distance,
            ray.near_distance, detail::from(shape_.vertices), shape_.vertices.size(), detail::from(shape_.triangles),
            shape_.triangles.size(), detail::from(pose), pose.size(), tree_.nodes, detail::from(tree_.node_boxes),
            tree_.node_boxes.size(), detail::from(tree_.triangle_boxes), tree_.triangle_boxes.size(),
            detail::from(tree_.node_words), tree_.node_words.size(), detail::from(tree_.order), tree_.order.size(),
            detail::into(scratch.stack), scratch.stack.size(),
            places.hit.data(), places.hit.size(), places.index.data(), places.index.size());
        return detail::cast_of(answer, places.of_mesh(), ray);
    }

    /* The `cast` of each ray, in the order of the rays, by one call. Each ray is refused on its own: the others are still
     * cast. */
    [[nodiscard]] std::vector<Cast<MeshHit>> cast_many(const std::vector<Ray> &rays) { return cast_many(rays, scratch_); }

    [[nodiscard]] std::vector<Cast<MeshHit>> cast_many(const std::vector<Ray> &rays, Scratch &scratch) const
    {
        scratch.fit(shape_.triangle_count(), tree_.nodes);
        scratch.fit_many(rays);
        const std::uint32_t answer = probe_ray_mesh_many(
            detail::from(scratch.rays), scratch.rays.size(), detail::from(shape_.vertices), shape_.vertices.size(),
            detail::from(shape_.triangles), shape_.triangles.size(), detail::from(shape_.vertices), shape_.vertices.size(),
            tree_.nodes, detail::from(tree_.node_boxes), tree_.node_boxes.size(), detail::from(tree_.triangle_boxes),
            tree_.triangle_boxes.size(), detail::from(tree_.node_words), tree_.node_words.size(), detail::from(tree_.order),
            tree_.order.size(), detail::into(scratch.list), scratch.list.size(),
            detail::into(scratch.stack), scratch.stack.size(), detail::into(scratch.codes), scratch.codes.size(),
            detail::into(scratch.numbers), scratch.numbers.size(), detail::into(scratch.indices), scratch.indices.size());
        return scratch.read_many(answer, rays);
    }

    /* The `cast_exact` of each ray, in the same way. */
    [[nodiscard]] std::vector<Cast<MeshHit>> cast_exact_many(const std::vector<Ray> &rays)
    {
        return cast_exact_many(rays, scratch_);
    }

    [[nodiscard]] std::vector<Cast<MeshHit>> cast_exact_many(const std::vector<Ray> &rays, Scratch &scratch) const
    {
        if (!has_numbers_) {
            std::vector<Cast<MeshHit>> casts;
            for (const Ray &ray : rays)
                casts.push_back(detail::cast_exact(shape_, ray));
            return casts;
        }
        scratch.fit(shape_.triangle_count(), tree_.nodes);
        scratch.fit_many(rays);
        const std::uint32_t answer = probe_ray_mesh_exact_many(
            detail::from(scratch.rays), scratch.rays.size(), detail::from(shape_.vertices), shape_.vertices.size(),
            detail::from(shape_.triangles), shape_.triangles.size(), detail::from(shape_.vertices), shape_.vertices.size(),
            tree_.nodes, detail::from(tree_.node_boxes), tree_.node_boxes.size(), detail::from(tree_.triangle_boxes),
            tree_.triangle_boxes.size(), detail::from(tree_.node_words), tree_.node_words.size(), detail::from(tree_.order),
            tree_.order.size(),
            detail::into(scratch.stack), scratch.stack.size(), detail::into(scratch.codes), scratch.codes.size(),
            detail::into(scratch.numbers), scratch.numbers.size(), detail::into(scratch.indices), scratch.indices.size());
        return scratch.read_many(answer, rays);
    }

    /* Whether a drill of a radius about a ray's segment touches the mesh: none if it is clear, or the lowest index of a triangle,
     * with area or without, that has a point in it. Both are certain, on a grid of 2^-15 mm and, within 2^-13 mm, of the part as
     * drawn: probe_rays.h says how ('The drill'). It is decided in integers, through the tree; a mesh that has a NaN is asked
     * without it. Refuses with 1 (also for a radius that is NaN, infinite or below 0) or 12 (also for one above 128). */
    Cast<std::uint32_t> drill(const Ray &ray, double radius) { return drill(ray, radius, scratch_); }

    Cast<std::uint32_t> drill(const Ray &ray, double radius, Scratch &scratch) const
    {
        if (!has_numbers_)
            return detail::drill(shape_, Drill{ray, radius});
        scratch.fit(shape_.triangle_count(), tree_.nodes);
        std::uint32_t index = 0;
        const std::uint32_t answer = probe_drill(
            ray.origin.x, ray.origin.y, ray.origin.z, ray.direction.x, ray.direction.y, ray.direction.z, ray.max_distance,
            ray.near_distance, radius, detail::from(shape_.vertices), shape_.vertices.size(), detail::from(shape_.triangles),
            shape_.triangles.size(), tree_.nodes, detail::from(tree_.node_boxes), tree_.node_boxes.size(),
            detail::from(tree_.triangle_boxes), tree_.triangle_boxes.size(), detail::from(tree_.node_words),
            tree_.node_words.size(), detail::from(tree_.order), tree_.order.size(), detail::into(scratch.list),
            scratch.list.size(), detail::into(scratch.stack), scratch.stack.size(), &index, PROBE_INDEX_LENGTH);
        return detail::cast_of(answer, index, Drill{ray, radius});
    }

    /* The `drill` of each, in the order of the drills, by one call. Each drill is refused on its own: the others are still
     * asked. */
    [[nodiscard]] std::vector<Cast<std::uint32_t>> drill_many(const std::vector<Drill> &drills)
    {
        return drill_many(drills, scratch_);
    }

    [[nodiscard]] std::vector<Cast<std::uint32_t>> drill_many(const std::vector<Drill> &drills, Scratch &scratch) const
    {
        if (!has_numbers_) {
            std::vector<Cast<std::uint32_t>> casts;
            for (const Drill &drill : drills)
                casts.push_back(detail::drill(shape_, drill));
            return casts;
        }
        scratch.fit(shape_.triangle_count(), tree_.nodes);
        scratch.fit_drills(drills);
        const std::uint32_t answer = probe_drill_many(
            detail::from(scratch.rays), scratch.rays.size(), detail::from(shape_.vertices), shape_.vertices.size(),
            detail::from(shape_.triangles), shape_.triangles.size(), tree_.nodes, detail::from(tree_.node_boxes),
            tree_.node_boxes.size(), detail::from(tree_.triangle_boxes), tree_.triangle_boxes.size(),
            detail::from(tree_.node_words), tree_.node_words.size(), detail::from(tree_.order), tree_.order.size(),
            detail::into(scratch.list), scratch.list.size(), detail::into(scratch.stack), scratch.stack.size(),
            detail::into(scratch.codes), scratch.codes.size(), detail::into(scratch.indices), scratch.indices.size());
        return scratch.read_drills(answer, drills);
    }

    /* Every triangle that a ray hits by the rounded cast, of those whose box touches the box of the ray's segment: each once, in
     * order of depth; of equally near ones the lower index first. The hit of `cast` is the first of them, and the list is empty
     * exactly if `cast` is a miss. Refuses with 1, 6 or 7. */
    Result<std::vector<MeshHit>> cast_all(const Ray &ray) { return cast_all(ray, scratch_); }

    Result<std::vector<MeshHit>> cast_all(const Ray &ray, Scratch &scratch) const
    {
        return cast_all_at(ray, shape_.vertices, scratch);
    }

    Result<std::vector<MeshHit>> cast_all_at(const Ray &ray, const std::vector<double> &pose, Scratch &scratch) const
    {
        return list(probe_ray_mesh_all, ray, pose, scratch);
    }

    /* Every triangle that the exact cast meets: each triangle in which the ray's segment has a point, edges and corners included, as
     * `cast_exact` says, once, with its normal and the double nearest to its own least depth. They are in order of depth; of equally
     * near ones the lower index is first. The hit of `cast_exact` is the first of them, and the list is empty exactly if `cast_exact`
     * is a miss. A point on a shared edge lies in both triangles, so both are listed. Refuses as `cast_exact` does. */
    Result<std::vector<MeshHit>> cast_exact_all(const Ray &ray) { return cast_exact_all(ray, scratch_); }

    Result<std::vector<MeshHit>> cast_exact_all(const Ray &ray, Scratch &scratch) const
    {
        if (has_numbers_)
            return cast_exact_all_at(ray, shape_.vertices, scratch);
        /* the exact cast refuses a mesh that has a NaN at a corner */
        return Result<std::vector<MeshHit>>(detail::cast_exact(shape_, ray).refusal(), ray.fault());
    }

    /* The same at other vertices, as many as the mesh's. Each hit is a true one there, but the list need not be complete. */
    Result<std::vector<MeshHit>> cast_exact_all_at(const Ray &ray, const std::vector<double> &pose, Scratch &scratch) const
    {
        return list(probe_ray_mesh_exact_all, ray, pose, scratch);
    }

    /* The `cast_exact_all` of each ray, in the order of the rays. */
    [[nodiscard]] std::vector<Result<std::vector<MeshHit>>> cast_exact_all_many(const std::vector<Ray> &rays)
    {
        return cast_exact_all_many(rays, scratch_);
    }

    [[nodiscard]] std::vector<Result<std::vector<MeshHit>>> cast_exact_all_many(const std::vector<Ray> &rays,
                                                                                Scratch &scratch) const
    {
        std::vector<Result<std::vector<MeshHit>>> lists;
        lists.reserve(rays.size());
        for (const Ray &ray : rays)
            lists.push_back(cast_exact_all(ray, scratch));
        return lists;
    }

    /* The triangles whose boxes touch the box from `min` to `max`, in ascending order. Refuses with 1. */
    Result<std::vector<std::uint32_t>> query(const Vec3 &min, const Vec3 &max) { return query(min, max, scratch_); }

    Result<std::vector<std::uint32_t>> query(const Vec3 &min, const Vec3 &max, Scratch &scratch) const
    {
        scratch.fit(shape_.triangle_count(), tree_.nodes);
        std::size_t found = 0;
        const std::uint32_t answer = probe_query(
            min.x, min.y, min.z, max.x, max.y, max.z, shape_.triangle_count(), tree_.nodes, detail::from(tree_.node_boxes),
            tree_.node_boxes.size(), detail::from(tree_.triangle_boxes), tree_.triangle_boxes.size(),
            detail::from(tree_.node_words), tree_.node_words.size(), detail::from(tree_.order), tree_.order.size(),
            detail::into(scratch.list), scratch.list.size(), detail::into(scratch.stack), scratch.stack.size(), &found,
            PROBE_COUNT_LENGTH);
        using List = std::vector<std::uint32_t>;
        if (answer != PROBE_DONE)
            return Result<List>(static_cast<Refusal>(answer));
        return Result<List>(List(scratch.list.begin(), scratch.list.begin() + static_cast<std::ptrdiff_t>(found)));
    }

    const Shape &shape() const noexcept { return shape_; }
    const Tree &tree() const noexcept { return tree_; }
    std::size_t triangle_count() const noexcept { return shape_.triangle_count(); }
    std::size_t vertex_count() const noexcept { return shape_.vertex_count(); }

private:
    /* The hits that a listing of the library gives. */
    Result<std::vector<MeshHit>> list(decltype(probe_ray_mesh_all) listing, const Ray &ray, const std::vector<double> &pose,
                                      Scratch &scratch) const
    {
        scratch.fit(shape_.triangle_count(), tree_.nodes);
        scratch.fit_hits(shape_.triangle_count());
        std::size_t found = 0;
        const std::uint32_t answer = listing(
            ray.origin.x, ray.origin.y, ray.origin.z, ray.direction.x, ray.direction.y, ray.direction.z, ray.max_distance,
            ray.near_distance, detail::from(shape_.vertices), shape_.vertices.size(), detail::from(shape_.triangles),
            shape_.triangles.size(), detail::from(pose), pose.size(), tree_.nodes, detail::from(tree_.node_boxes),
            tree_.node_boxes.size(), detail::from(tree_.triangle_boxes), tree_.triangle_boxes.size(),
            detail::from(tree_.node_words), tree_.node_words.size(), detail::from(tree_.order), tree_.order.size(),
            detail::into(scratch.list), scratch.list.size(), detail::into(scratch.stack), scratch.stack.size(),
            detail::into(scratch.indices), scratch.indices.size(), detail::into(scratch.numbers), scratch.numbers.size(),
            &found, PROBE_COUNT_LENGTH);
        if (answer != PROBE_DONE)
            return Result<std::vector<MeshHit>>(static_cast<Refusal>(answer), ray.fault());
        std::vector<MeshHit> hits;
        hits.reserve(found);
        for (std::size_t k = 0; k < found; k++) {
            const double *numbers = scratch.numbers.data() + 4 * k;
            hits.push_back(MeshHit{Vec3{numbers[1], numbers[2], numbers[3]}, numbers[0], scratch.indices[k]});
        }
        return Result<std::vector<MeshHit>>(std::move(hits));
    }

    Mesh(Shape shape, Tree tree)
        : shape_(std::move(shape)), tree_(std::move(tree)), has_numbers_(mesh_has_numbers(shape_))
    {
    }

    Shape shape_;
    Tree tree_;
    bool has_numbers_; /* the exact cast and the drill through the tree need it */
    Scratch scratch_;
};

/* A mesh without a tree, for parts of few triangles: nothing is built, and a cast visits every triangle. It is proved to return
 * what Mesh::cast returns, refusals included. Threads may share it. */
class PlainMesh {
public:
    PlainMesh(const std::vector<Vec3> &vertices, const std::vector<Triangle> &triangles)
        : shape_(Shape::of(vertices, triangles))
    {
    }

    explicit PlainMesh(Shape shape) : shape_(std::move(shape)) {}

    /* Refuses with 1, 2, 5, 6 or 7. A mesh without triangles is a miss. */
    Cast<MeshHit> cast(const Ray &ray) const
    {
        detail::Places places;
        const std::uint32_t answer = probe_ray_mesh_plain(
            ray.origin.x, ray.origin.y, ray.origin.z, ray.direction.x, ray.direction.y, ray.direction.z, ray.max_distance,
            ray.near_distance, detail::from(shape_.vertices), shape_.vertices.size(), detail::from(shape_.triangles),
            shape_.triangles.size(), places.hit.data(), places.hit.size(), places.index.data(), places.index.size());
        return detail::cast_of(answer, places.of_mesh(), ray);
    }

    /* The exact cast, in any direction, decided in integers: the first point of the segment that lies in a closed triangle. Edges
     * and corners are hit, and triangles coplanar with the ray count, so a miss is certain. Corners, ray, near and the maximum are
     * read on a grid first: probe_rays.h says how, at probe_ray_mesh_exact_plain. Refuses with 1, 12 (the origin or a corner is
     * not within 8,192, or near or the maximum is above 32,768), 2 or 5. */
    Cast<MeshHit> cast_exact(const Ray &ray) const { return detail::cast_exact(shape_, ray); }

    /* Whether a drill of a radius about a ray's segment touches the mesh, as Mesh::drill says. Refuses with 2 or 5 too. */
    Cast<std::uint32_t> drill(const Ray &ray, double radius) const { return detail::drill(shape_, Drill{ray, radius}); }

    /* The same mesh with a tree. */
    Result<Mesh> build() const { return Mesh::build(shape_); }

    const Shape &shape() const noexcept { return shape_; }

private:
    Shape shape_;
};

/* ---- a cabinet ---- */

/* The result of a cast at a cabinet, and the number of nodes spent on it: 0 if it was refused before the first part. */
struct [[nodiscard]] CabinetCast {
    Cast<PartHit> answer;
    std::size_t spent;
};

/* Meshes with their trees, each at its own origin. The cabinet owns copies of them. */
class Cabinet {
public:
    /* Adds a mesh at an origin, and returns the part's number. */
    std::size_t push(const Mesh &mesh, const Vec3 &origin)
    {
        const Shape &shape = mesh.shape();
        const Tree &tree = mesh.tree();
        probe_part part{};
        part.origin = origin;
        part.nodes = tree.nodes;
        part.vertices = appended(vertices_, shape.vertices);
        part.triangles = appended(triangles_, shape.triangles);
        part.node_boxes = appended(node_boxes_, tree.node_boxes);
        part.triangle_boxes = appended(triangle_boxes_, tree.triangle_boxes);
        part.node_words = appended(node_words_, tree.node_words);
        part.order = appended(order_, tree.order);
        parts_.push_back(part);
        largest_ = std::max(largest_, shape.triangle_count());
        most_nodes_ = std::max(most_nodes_, tree.nodes);
        return parts_.size() - 1;
    }

    /* Adds the mesh of a part once more, at another origin. Nothing but the part is added. */
    std::size_t place_again(std::size_t part, const Vec3 &origin)
    {
        if (part >= parts_.size())
            detail::raise(std::out_of_range("the cabinet has no such part"));
        probe_part again = parts_[part];
        again.origin = origin;
        parts_.push_back(again);
        return parts_.size() - 1;
    }

    std::size_t size() const noexcept { return parts_.size(); }

    /* The sum of the parts' node counts: a limit that suffices for every ray. */
    std::size_t nodes() const noexcept
    {
        std::size_t sum = 0;
        for (const probe_part &part : parts_)
            sum += part.nodes;
        return sum;
    }

    /* The nearest triangle of all parts, visiting at most `limit` nodes; of equally near ones, the one of the lowest part and
     * then of the lowest index. Refuses with 1, 6, 7 or 10. */
    CabinetCast cast(const Ray &ray, std::size_t limit = no_limit) { return cast(ray, limit, scratch_); }

    CabinetCast cast(const Ray &ray, std::size_t limit, Scratch &scratch) const
    {
        scratch.fit(largest_, most_nodes_);
        detail::Places places;
        std::size_t part = 0, spent = 0;
        const std::uint32_t answer = probe_ray_cabinet(
            ray.origin.x, ray.origin.y, ray.origin.z, ray.direction.x, ray.direction.y, ray.direction.z, ray.max_distance,
            ray.near_distance, detail::from(parts_), parts_.size(), detail::from(vertices_), vertices_.size(),
            detail::from(triangles_), triangles_.size(), detail::from(node_boxes_), node_boxes_.size(),
            detail::from(triangle_boxes_), triangle_boxes_.size(), detail::from(node_words_), node_words_.size(),
            detail::from(order_), order_.size(), limit, detail::into(scratch.list), scratch.list.size(),
            detail::into(scratch.stack), scratch.stack.size(), places.hit.data(), places.hit.size(), places.index.data(),
            places.index.size(), &part, PROBE_COUNT_LENGTH, &spent, PROBE_COUNT_LENGTH);
        const PartHit hit{places.normal(), places.hit[3], places.index[0], part};
        return CabinetCast{detail::cast_of(answer, hit, ray), spent};
    }

private:
    template <class T>
    static probe_span appended(std::vector<T> &area, const std::vector<T> &more)
    {
        const probe_span span{area.size(), more.size()};
        area.insert(area.end(), more.begin(), more.end());
        return span;
    }

    std::vector<probe_part> parts_;
    std::vector<double> vertices_;
    std::vector<std::uint32_t> triangles_;
    std::vector<double> node_boxes_;
    std::vector<double> triangle_boxes_;
    std::vector<std::uint32_t> node_words_;
    std::vector<std::uint32_t> order_;
    std::size_t largest_ = 0;
    std::size_t most_nodes_ = 0;
    Scratch scratch_;
};

/* ---- a mesh of any number of triangles ---- */

/* One mesh, or, if that would be too large, a cabinet of meshes: halved along the longest side until each piece is small enough.
 * Triangles are counted from 0, in the order in which they were given. */
class LargeMesh {
public:
    /* Builds the trees, of pieces of at most `most` triangles and as many vertices: at least 1 and 3, at most 65,536. Refuses with
     * 2 (more than 2^32 - 1 triangles), 5 (no triangle, an index past the vertices, or a triangle whose box is not finite) or 6. */
    static Result<LargeMesh> build(Shape shape, std::size_t most = PROBE_MAX_TRIANGLES)
    {
        const std::size_t count = shape.triangle_count();
        if (count > std::numeric_limits<std::uint32_t>::max())
            return Result<LargeMesh>(Refusal::bad_shape);
        const auto past = [&](std::uint32_t index) { return index >= shape.vertex_count(); };
        if (count == 0 || std::any_of(shape.triangles.begin(), shape.triangles.end(), past))
            return Result<LargeMesh>(Refusal::out_of_bounds);
        std::vector<std::uint32_t> numbers(count);
        std::iota(numbers.begin(), numbers.end(), std::uint32_t{0});
        LargeMesh large(std::move(shape));
        const std::size_t limit = std::clamp(most, std::size_t{1}, std::size_t{PROBE_MAX_TRIANGLES});
        if (const std::optional<Refusal> refusal = large.add(std::move(numbers), limit))
            return Result<LargeMesh>(*refusal);
        for (const Piece &piece : large.pieces_)
            large.cabinet_.push(piece.mesh, Vec3{0, 0, 0});
        return Result<LargeMesh>(std::move(large));
    }

    /* The nearest triangle by the exact cast: a miss is certain. Of equally near ones, also of different pieces, the one with the
     * lowest number. Refuses with 1 or 12. */
    Cast<MeshHit> cast(const Ray &ray) { return cast(ray, scratch_); }

    Cast<MeshHit> cast(const Ray &ray, Scratch &scratch) const
    {
        std::optional<MeshHit> nearest;
        for (const Piece &piece : pieces_) {
            const Cast<MeshHit> answer = piece.mesh.cast_exact(ray, scratch);
            if (answer.is_refused())
                return answer;
            if (answer.is_none())
                continue;
            MeshHit hit = answer.hit();
            hit.triangle = piece.numbers[hit.triangle];
            if (!nearest || std::pair(hit.distance, hit.triangle) < std::pair(nearest->distance, nearest->triangle))
                nearest = hit;
        }
        return nearest ? Cast<MeshHit>(*nearest) : Cast<MeshHit>(None{});
    }

    /* Whether a drill of a radius about a ray's segment touches the mesh, as Mesh::drill says: none if it is clear, or the lowest
     * number of a triangle that is touched, of all pieces. Refuses with 1 or 12. */
    Cast<std::uint32_t> drill(const Ray &ray, double radius) { return drill(ray, radius, scratch_); }

    Cast<std::uint32_t> drill(const Ray &ray, double radius, Scratch &scratch) const
    {
        std::optional<std::uint32_t> lowest;
        for (const Piece &piece : pieces_) {
            const Cast<std::uint32_t> answer = piece.mesh.drill(ray, radius, scratch);
            if (answer.is_refused())
                return answer;
            if (answer.is_none())
                continue;
            const std::uint32_t number = piece.numbers[answer.hit()];
            lowest = lowest ? std::min(*lowest, number) : number;
        }
        return lowest ? Cast<std::uint32_t>(*lowest) : Cast<std::uint32_t>(None{});
    }

    /* The `drill` of each, in the order of the drills. */
    [[nodiscard]] std::vector<Cast<std::uint32_t>> drill_many(const std::vector<Drill> &drills)
    {
        return drill_many(drills, scratch_);
    }

    [[nodiscard]] std::vector<Cast<std::uint32_t>> drill_many(const std::vector<Drill> &drills, Scratch &scratch) const
    {
        std::vector<Cast<std::uint32_t>> casts;
        casts.reserve(drills.size());
        for (const Drill &each : drills)
            casts.push_back(drill(each.ray, each.radius, scratch));
        return casts;
    }

    /* The nearest triangle by the rounded cast, that of Mesh::cast. Of equally near ones of different pieces, the one of the first
     * piece. Refuses with 1, 6 or 7. */
    Cast<MeshHit> cast_rounded(const Ray &ray) { return cast_rounded(ray, scratch_); }

    Cast<MeshHit> cast_rounded(const Ray &ray, Scratch &scratch) const
    {
        return cabinet_.cast(ray, no_limit, scratch)
            .answer.match(
                [&](const PartHit &hit) {
                    return Cast<MeshHit>(MeshHit{hit.normal, hit.distance, pieces_[hit.part].numbers[hit.triangle]});
                },
                [] { return Cast<MeshHit>(None{}); }, [](Refusal refusal) { return Cast<MeshHit>(refusal); });
    }

    /* Every triangle that a ray meets, by the exact cast, that of Mesh::cast_exact_all: each once, in order of depth, then of number.
     * The list is empty exactly if `cast` is a miss. Refuses as `cast` does. */
    Result<std::vector<MeshHit>> cast_exact_all(const Ray &ray) { return cast_exact_all(ray, scratch_); }

    Result<std::vector<MeshHit>> cast_exact_all(const Ray &ray, Scratch &scratch) const
    {
        std::vector<MeshHit> all;
        for (const Piece &piece : pieces_) {
            const Result<std::vector<MeshHit>> hits = piece.mesh.cast_exact_all(ray, scratch);
            if (hits.is_refused())
                return hits;
            for (MeshHit hit : hits.value()) {
                hit.triangle = piece.numbers[hit.triangle];
                all.push_back(hit);
            }
        }
        const auto key = [](const MeshHit &hit) { return std::pair(hit.distance, hit.triangle); };
        std::sort(all.begin(), all.end(), [&](const MeshHit &a, const MeshHit &b) { return key(a) < key(b); });
        return Result<std::vector<MeshHit>>(std::move(all));
    }

    const Shape &shape() const noexcept { return shape_; }

    /* How many meshes it consists of. */
    std::size_t pieces() const noexcept { return pieces_.size(); }

private:
    /* A mesh of some of the triangles, with the number of each in the whole. */
    struct Piece {
        Mesh mesh;
        std::vector<std::uint32_t> numbers;
    };

    explicit LargeMesh(Shape shape) : shape_(std::move(shape)) {}

    /* Adds the triangles of these numbers, ascending, as one piece, or in halves. */
    std::optional<Refusal> add(std::vector<std::uint32_t> numbers, std::size_t most)
    {
        if (numbers.size() <= most) {
            Shape part = part_of(numbers);
            if (part.vertex_count() <= std::max(most, std::size_t{3})) {
                Result<Mesh> mesh = Mesh::build(std::move(part));
                if (mesh.is_refused())
                    return mesh.refusal();
                pieces_.push_back(Piece{std::move(mesh).value(), std::move(numbers)});
                return std::nullopt;
            }
        }
        std::vector<std::uint32_t> upper = upper_half(numbers);
        const std::optional<Refusal> refusal = add(std::move(numbers), most);
        return refusal ? refusal : add(std::move(upper), most);
    }

    /* Some of the triangles, with their vertices, in the order of their first use. */
    Shape part_of(const std::vector<std::uint32_t> &numbers) const
    {
        Shape part;
        std::unordered_map<std::uint32_t, std::uint32_t> places;
        for (const std::uint32_t number : numbers)
            for (std::size_t k = 0; k < 3; k++) {
                const std::uint32_t index = shape_.triangles[3 * std::size_t{number} + k];
                const auto [place, is_new] = places.emplace(index, static_cast<std::uint32_t>(places.size()));
                const double *vertex = &shape_.vertices[3 * std::size_t{index}];
                if (is_new)
                    part.vertices.insert(part.vertices.end(), vertex, vertex + 3);
                part.triangles.push_back(place->second);
            }
        return part;
    }

    /* The sum of a triangle's three coordinates along an axis. */
    double middle(std::uint32_t number, std::size_t axis) const
    {
        double sum = 0;
        for (std::size_t k = 0; k < 3; k++)
            sum += shape_.vertices[3 * std::size_t{shape_.triangles[3 * std::size_t{number} + k]} + axis];
        return sum;
    }

    /* The extent of the triangles' centres along an axis. */
    double width(const std::vector<std::uint32_t> &numbers, std::size_t axis) const
    {
        double low = std::numeric_limits<double>::max(), high = std::numeric_limits<double>::lowest();
        for (const std::uint32_t number : numbers) {
            low = std::fmin(low, middle(number, axis));
            high = std::fmax(high, middle(number, axis));
        }
        return high - low;
    }

    /* Splits off the upper half of two or more triangles, along the longest side of the box of their centres. Both halves are
     * ascending, so that of equally near triangles of a piece the first is returned. */
    std::vector<std::uint32_t> upper_half(std::vector<std::uint32_t> &numbers) const
    {
        const std::array<double, 3> widths{width(numbers, 0), width(numbers, 1), width(numbers, 2)};
        const auto longest = static_cast<std::size_t>(std::max_element(widths.begin(), widths.end()) - widths.begin());
        std::vector<std::pair<double, std::uint32_t>> keyed;
        for (const std::uint32_t number : numbers) {
            const double key = middle(number, longest);
            keyed.emplace_back(std::isnan(key) ? 0 : key, number); // a NaN has no order, and Mesh::build refuses it
        }
        const auto half = static_cast<std::ptrdiff_t>(numbers.size() / 2);
        std::nth_element(keyed.begin(), keyed.begin() + half, keyed.end());
        std::transform(keyed.begin(), keyed.end(), numbers.begin(), [](const auto &pair) { return pair.second; });
        std::vector<std::uint32_t> upper(numbers.begin() + half, numbers.end());
        numbers.resize(static_cast<std::size_t>(half));
        std::sort(numbers.begin(), numbers.end());
        std::sort(upper.begin(), upper.end());
        return upper;
    }

    Shape shape_;
    std::vector<Piece> pieces_;
    Cabinet cabinet_;
    Scratch scratch_;
};

/* ---- STL files ---- */

namespace detail {

/* A binary file has 80 bytes of header, four of the count, and 50 for each facet, of which the first 12 are its normal. */
inline constexpr std::size_t stl_start = 84, stl_facet = 50, stl_normal = 12;

/* Four bytes, little-endian. */
inline std::uint32_t four_bytes(std::string_view bytes, std::size_t at) noexcept
{
    std::uint32_t sum = 0;
    for (std::size_t k = 0; k < 4; k++)
        sum |= std::uint32_t{static_cast<unsigned char>(bytes[at + k])} << (8 * k);
    return sum;
}

/* Reads the facets of a binary file, nine numbers each. Returns what is wrong with the file, or nothing. */
inline std::string read_binary(std::string_view bytes, std::vector<double> &corners)
{
    for (std::size_t facet = 0; stl_start + stl_facet * facet < bytes.size(); facet++)
        for (std::size_t k = 0; k < 9; k++) {
            const std::uint32_t bits = four_bytes(bytes, stl_start + stl_facet * facet + stl_normal + 4 * k);
            float value = 0;
            std::memcpy(&value, &bits, sizeof value);
            if (!std::isfinite(value))
                return "facet " + std::to_string(facet) + ": a coordinate is not finite";
            corners.push_back(static_cast<double>(value));
        }
    return {};
}

/* Takes the next word off a line. */
inline std::string_view next_word(std::string_view &line) noexcept
{
    constexpr std::string_view blanks = " \t\r\v\f";
    const std::size_t start = std::min(line.find_first_not_of(blanks), line.size());
    const std::size_t end = std::min(line.find_first_of(blanks, start), line.size());
    const std::string_view word = line.substr(start, end - start);
    line.remove_prefix(end);
    return word;
}

inline std::string lower_case(std::string_view word)
{
    std::string lower(word);
    for (char &letter : lower)
        if (letter >= 'A' && letter <= 'Z')
            letter = static_cast<char>(letter - 'A' + 'a');
    return lower;
}

/* Reads words as numbers, with a decimal point in every locale. */
class Numbers {
public:
    Numbers() { stream_.imbue(std::locale::classic()); }

    /* The number: infinite if it is too large for a double, nothing if the word is not a number. */
    std::optional<double> of(std::string_view word)
    {
        double value = 0;
        stream_.clear();
        stream_.str(std::string(word));
        stream_ >> value;
        if (!stream_.eof())
            return std::nullopt;
        if (!stream_.fail())
            return value;
        const bool too_large = std::fabs(value) == std::numeric_limits<double>::max();
        return too_large ? std::optional<double>(std::numeric_limits<double>::infinity()) : std::nullopt;
    }

private:
    std::istringstream stream_;
};

/* The facets of an ASCII file, line by line. It may hold several solids; their names and the normals are ignored. */
class AsciiStl {
public:
    explicit AsciiStl(std::vector<double> &corners) : corners_(corners) {}

    /* Reads a line. Returns what is wrong with it, or nothing. */
    std::string line(std::string_view rest)
    {
        const std::string word = lower_case(next_word(rest));
        if (word == "vertex")
            return vertex(rest);
        if (word == "endfacet")
            return facet();
        if (word == "facet")
            facet_.clear();
        else if (word == "solid" || word == "endsolid")
            open_ = word == "solid";
        else if (!word.empty() && word != "outer" && word != "endloop")
            return '"' + word.substr(0, 20) + "\" is not a word of an STL file";
        return {};
    }

    bool is_open() const noexcept { return open_; }

private:
    std::string vertex(std::string_view rest)
    {
        for (int axis = 0; axis < 3; axis++) {
            const std::optional<double> value = numbers_.of(next_word(rest));
            if (!value)
                return "'vertex' takes three numbers";
            if (!std::isfinite(*value))
                return "a coordinate is not finite";
            facet_.push_back(*value);
        }
        return next_word(rest).empty() ? std::string() : "'vertex' takes three numbers";
    }

    std::string facet()
    {
        if (facet_.size() != 9)
            return "a facet of " + std::to_string(facet_.size() / 3) + " vertices";
        corners_.insert(corners_.end(), facet_.begin(), facet_.end());
        return {};
    }

    std::vector<double> &corners_;
    std::vector<double> facet_;
    Numbers numbers_;
    bool open_ = false;
};

inline std::string read_ascii(std::string_view text, std::vector<double> &corners)
{
    AsciiStl file(corners);
    for (std::size_t number = 1; !text.empty(); number++) {
        const std::size_t end = std::min(text.find('\n'), text.size());
        const std::string wrong = file.line(text.substr(0, end));
        if (!wrong.empty())
            return "line " + std::to_string(number) + ": " + wrong;
        text.remove_prefix(std::min(end + 1, text.size()));
    }
    return file.is_open() ? "cut short: the last solid has no 'endsolid'" : "";
}

/* The file without the three bytes of a BOM, if it begins with them. */
inline std::string_view without_bom(std::string_view bytes) noexcept
{
    constexpr std::string_view bom = "\xEF\xBB\xBF";
    return bytes.substr(bytes.substr(0, bom.size()) == bom ? bom.size() : 0);
}

/* Whether the first word begins with 'solid' and there is no zero byte: an ASCII file has none. */
inline bool is_ascii_stl(std::string_view text)
{
    const std::size_t start = std::min(text.find_first_not_of(" \t\r\n\v\f"), text.size());
    return lower_case(text.substr(start, 5)) == "solid" && text.find('\0') == text.npos;
}

/* Reads the facets of a file. A binary file may begin with 'solid' too, so the length decides first. */
inline std::string read_facets(std::string_view bytes, std::vector<double> &corners)
{
    const bool has_count = bytes.size() >= stl_start;
    const std::size_t count = has_count ? four_bytes(bytes, stl_start - 4) : 0;
    const std::size_t length = stl_start + stl_facet * count;
    if (has_count && bytes.size() == length)
        return read_binary(bytes, corners);
    const std::string_view text = without_bom(bytes);
    if (is_ascii_stl(text))
        return read_ascii(text, corners);
    const std::string size = std::to_string(bytes.size()) + " bytes";
    if (!has_count)
        return "not an STL file: " + size + ", not ASCII, and too few for a binary file";
    return (bytes.size() < length ? "not an STL file, or a binary one cut short: " : "not an STL file: ") + size + ", and a binary file of "
        + std::to_string(count) + " facets has " + std::to_string(length);
}

struct VertexHash {
    std::size_t operator()(const std::array<double, 3> &vertex) const noexcept
    {
        std::size_t sum = 0;
        for (const double part : vertex)
            sum = sum * 1000003 ^ std::hash<double>()(part);
        return sum;
    }
};

/* The mesh of facets, nine numbers each. Equal vertices are merged, -0 and 0 too, in the order of their first use. */
inline Shape merged(const std::vector<double> &corners)
{
    Shape shape;
    std::unordered_map<std::array<double, 3>, std::uint32_t, VertexHash> places;
    shape.triangles.reserve(corners.size() / 3);
    for (std::size_t at = 0; at + 3 <= corners.size(); at += 3) {
        const std::array<double, 3> vertex{corners[at], corners[at + 1], corners[at + 2]};
        const auto [place, is_new] = places.emplace(vertex, static_cast<std::uint32_t>(places.size()));
        if (is_new)
            shape.vertices.insert(shape.vertices.end(), vertex.begin(), vertex.end());
        shape.triangles.push_back(place->second);
    }
    return shape;
}

} // namespace detail

/* The mesh of an STL file's bytes, binary or ASCII. Equal vertices are merged, -0 and 0 too, but never merely near ones, so no
 * point moves. The triangles are in the file's order. A file has no unit. The limits of a mesh are not tested here: Mesh::build
 * refuses with 2 above them. */
inline Result<Shape, StlError> stl_shape(std::string_view bytes)
{
    std::vector<double> corners;
    std::string wrong = detail::read_facets(bytes, corners);
    if (wrong.empty() && corners.empty())
        wrong = "no triangles";
    if (!wrong.empty())
        return Result<Shape, StlError>(StlError(wrong));
    return Result<Shape, StlError>(detail::merged(corners));
}

/* The same for a file. An error message begins with the file's name. */
inline Result<Shape, StlError> read_stl(const std::string &path)
{
    std::ifstream file(path, std::ios::binary);
    const std::string bytes((std::istreambuf_iterator<char>(file)), std::istreambuf_iterator<char>());
    if (!file.is_open() || file.bad())
        return Result<Shape, StlError>(StlError(path + ": the file cannot be read"));
    Result<Shape, StlError> shape = stl_shape(bytes);
    if (shape.is_refused())
        return Result<Shape, StlError>(StlError(path + ": " + shape.refusal().what()));
    return shape;
}

/* ---- records of `probe` ---- */

namespace detail {

template <class Call>
Result<std::vector<std::uint8_t>> converted(Call *call, const std::vector<std::uint8_t> &record)
{
    std::vector<std::uint8_t> out(PROBE_MAX_RECORD);
    std::size_t written = 0;
    const std::uint32_t answer =
        call(from(record), record.size(), into(out), out.size(), &written, PROBE_COUNT_LENGTH);
    if (answer != PROBE_DONE)
        return Result<std::vector<std::uint8_t>>(static_cast<Refusal>(answer));
    out.resize(written);
    return Result<std::vector<std::uint8_t>>(std::move(out));
}

} // namespace detail

/* Converts one record of version 2, with its four length bytes, to version 3, whose floats have four bytes. Refuses with 2, or
 * with 11 if a float is NaN or no f32 is exactly that number. */
inline Result<std::vector<std::uint8_t>> record_to_short(const std::vector<std::uint8_t> &record)
{
    return detail::converted(probe_record_to_short, record);
}

/* Converts one record of version 3 to version 2. Refuses with 2, or with 11 if a float is NaN. */
inline Result<std::vector<std::uint8_t>> record_to_long(const std::vector<std::uint8_t> &record)
{
    return detail::converted(probe_record_to_long, record);
}

} // namespace probe_rays

#endif
