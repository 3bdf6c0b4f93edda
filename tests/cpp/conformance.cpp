// Goes through a conformance file with the C++ header: each case by each method that gives its answer, every float by its bits.
// usage: conformance FILE FOLDER METHODS   (tests/conformance.json, a folder for files that a case writes, and what methods.py prints)
// Every method of METHODS must have been in a case; one that was not fails the run. It prints how many cases and methods there were.
#include <array>
#include <cstdint>
#include <cstdio>
#include <cstdlib>
#include <cstring>
#include <fstream>
#include <functional>
#include <iterator>
#include <map>
#include <optional>
#include <set>
#include <string>
#include <utility>
#include <vector>

#include "json.hpp"
#include "probe_rays.hpp"

using namespace probe_rays;

namespace {

using Fields = std::vector<std::pair<std::string, Json>>;

std::set<std::string> asked;
const Json *current = nullptr;

[[noreturn]] void wrong(const std::string &why)
{
    std::fprintf(stderr, "error: C++: %s, %s: %s\n", current->at("call").text.c_str(), current->at("why").text.c_str(), why.c_str());
    std::exit(1);
}

// the value of an expression, which calls the method of this name
#define ASK(name, expression) (static_cast<void>(asked.insert(name)), expression)

void same(const char *what, const Json &found, const Json &expected)
{
    if (found != expected)
        wrong(std::string(what) + ": " + found.line().substr(0, 300) + " in place of " + expected.line().substr(0, 300));
}

void holds(bool is_so, const char *what)
{
    if (!is_so)
        wrong(what);
}

// ---- numbers

double number_of(const Json &bits)
{
    const std::uint64_t whole = std::stoull(bits.text, nullptr, 16);
    double value = 0;
    std::memcpy(&value, &whole, sizeof value);
    return value;
}

Json bits(double value)
{
    std::uint64_t whole = 0;
    std::memcpy(&whole, &value, sizeof whole);
    char text[17];
    std::snprintf(text, sizeof text, "%016llx", static_cast<unsigned long long>(whole));
    return Json::of(std::string(text));
}

template <class T>
Json list_of(const std::vector<T> &values, const std::function<Json(const T &)> &one)
{
    std::vector<Json> list;
    for (const T &value : values)
        list.push_back(one(value));
    return Json::of(std::move(list));
}

Json bits(const std::vector<double> &values)
{
    return list_of<double>(values, [](const double &value) { return bits(value); });
}

Json wholes(const std::vector<std::uint32_t> &values)
{
    return list_of<std::uint32_t>(values, [](const std::uint32_t &value) { return Json::of(std::size_t{value}); });
}

/* A list, or the same few values so many times. */
template <class T>
std::vector<T> values(const Json &rows, const std::function<T(const Json &)> &one)
{
    const bool repeated = rows.kind == Json::Kind::object;
    const Json &of = repeated ? rows.at("of") : rows;
    std::vector<T> all;
    for (std::size_t time = 0; time < (repeated ? rows.at("times").whole : 1); time++)
        for (const Json &value : of.list)
            all.push_back(one(value));
    return all;
}

std::vector<double> floats(const Json &rows) { return values<double>(rows, number_of); }

std::vector<std::uint32_t> words(const Json &rows)
{
    return values<std::uint32_t>(rows, [](const Json &value) { return static_cast<std::uint32_t>(value.whole); });
}

template <std::size_t N>
std::array<double, N> array_of(const Json &rows)
{
    const std::vector<double> all = floats(rows);
    std::array<double, N> found{};
    std::copy_n(all.begin(), N, found.begin());
    return found;
}

Vec3 vector_at(const std::vector<double> &flat, std::size_t place) { return Vec3{flat[place], flat[place + 1], flat[place + 2]}; }

std::vector<Vec3> vectors(const std::vector<double> &flat)
{
    std::vector<Vec3> rows;
    for (std::size_t place = 0; place + 3 <= flat.size(); place += 3)
        rows.push_back(vector_at(flat, place));
    return rows;
}

std::vector<Triangle> corners(const std::vector<std::uint32_t> &flat)
{
    std::vector<Triangle> rows;
    for (std::size_t place = 0; place + 3 <= flat.size(); place += 3)
        rows.push_back(Triangle{flat[place], flat[place + 1], flat[place + 2]});
    return rows;
}

std::vector<std::uint8_t> bytes_of(const std::string &hex)
{
    std::vector<std::uint8_t> bytes;
    for (std::size_t place = 0; place < hex.size(); place += 2)
        bytes.push_back(static_cast<std::uint8_t>(std::stoul(hex.substr(place, 2), nullptr, 16)));
    return bytes;
}

Json hex(const std::vector<std::uint8_t> &bytes)
{
    std::string text;
    for (const std::uint8_t byte : bytes) {
        char two[3];
        std::snprintf(two, sizeof two, "%02x", byte);
        text += two;
    }
    return Json::of(text);
}

// ---- answers

Json refused(Refusal refusal)
{
    return Json::of(Fields{{"refused", Json::of(std::size_t{ASK("number(Refusal)", number(refusal))})}});
}

Json hit_json(const Vec3 &normal, double distance)
{
    return bits(std::vector<double>{normal.x, normal.y, normal.z, distance});
}

Json json(const Hit &hit) { return Json::of(Fields{{"hit", hit_json(hit.normal, hit.distance)}}); }

/* The triangle that a drill touches. */
Json json(const std::uint32_t &index) { return Json::of(Fields{{"touched", Json::of(std::size_t{index})}}); }

template <class H>
Json json(const H &hit)
{
    return Json::of(Fields{{"hit", hit_json(hit.normal, hit.distance)}, {"triangle", Json::of(std::size_t{hit.triangle})}});
}

/* Whether a call throws this refusal. */
template <class Call>
bool throws(Refusal refusal, Call &&call)
{
    try {
        static_cast<void>(call());
    } catch (const Refused &thrown) {
        return ASK("Refused::refusal()", thrown.refusal()) == refusal;
    }
    return false;
}

template <class Call>
bool is_not_there(Call &&call)
{
    try {
        static_cast<void>(call());
    } catch (const NotThere &) {
        return true;
    }
    return false;
}

/* The cast by each of its methods: they must all say the same. */
template <class H>
Json json(const Cast<H> &cast)
{
    const Kind kind = ASK("Cast::kind()", cast.kind());
    holds(ASK("Cast::is_refused()", cast.is_refused()) == (kind == Kind::refused), "is_refused");
    const Json matched = ASK("Cast::match(OnHit, OnNone, OnRefused)", cast.match(
        [](const H &hit) { return json(hit); }, [] { return Json::of(std::string("none")); }, [](Refusal why) { return refused(why); }));
    if (kind == Kind::refused) {
        const Refusal why = ASK("Cast::refusal()", cast.refusal());
        same("refusal()", refused(why), matched);
        holds(throws(why, [&] { return ASK("Cast::hit()", cast.hit()); }), "hit() of a refusal");
        holds(throws(why, [&] { return ASK("Cast::hit_or_none()", cast.hit_or_none()); }), "hit_or_none() of a refusal");
        holds(throws(why, [&] { return ASK("Cast::is_none()", cast.is_none()); }), "is_none() of a refusal");
        return matched;
    }
    holds(is_not_there([&] { return cast.refusal(); }), "refusal() of a cast that did not refuse");
    const std::optional<H> hit = cast.hit_or_none();
    holds(hit.has_value() == (kind == Kind::hit) && cast.is_none() == !hit, "is_none and hit_or_none");
    if (hit) {
        same("hit_or_none()", json(*hit), matched);
        same("hit()", json(cast.hit()), matched);
    } else {
        holds(is_not_there([&] { return cast.hit(); }), "hit() of a miss");
    }
    return matched;
}

/* A value, or why there is none. */
template <class T, class One>
Json json(const Result<T> &result, One &&one)
{
    if (!ASK("Result::is_refused()", result.is_refused())) {
        holds(is_not_there([&] { return result.refusal(); }), "refusal() of a call that did not refuse");
        return one(ASK("Result::value()", result.value()));
    }
    const Refusal why = ASK("Result::refusal()", result.refusal());
    holds(throws(why, [&] { return result.value(); }), "value() of a refusal");
    return refused(why);
}

Json json(const Result<std::vector<MeshHit>> &result)
{
    const auto one = [](const MeshHit &hit) { return json(hit); };
    return json(result, [&](const std::vector<MeshHit> &hits) { return list_of<MeshHit>(hits, one); });
}

Json json(const std::vector<Cast<MeshHit>> &casts)
{
    return list_of<Cast<MeshHit>>(casts, [](const Cast<MeshHit> &cast) { return json(cast); });
}

// ---- rays

/* The ray by its members, by eight numbers, and by `with_near`: the same bits. */
Ray ray_of(const Json &numbers)
{
    const std::array<double, 8> given = array_of<8>(numbers);
    const Ray ray = ASK("Ray::of(array<double, 8>)", Ray::of(given));
    const Ray plain{{given[0], given[1], given[2]}, {given[3], given[4], given[5]}, given[6]};
    const Ray near = ASK("Ray::with_near(double)", plain.with_near(given[7]));
    holds(std::memcmp(&ray, given.data(), sizeof ray) == 0 && std::memcmp(&near, &ray, sizeof ray) == 0, "the ray's numbers");
    return ray;
}

Json numbers_of(const Ray &ray)
{
    std::vector<double> all(8);
    std::memcpy(all.data(), &ray, sizeof ray);
    return bits(all);
}

// ---- shapes

Json plane(const Json &c)
{
    const std::array<double, 4> at = array_of<4>(c.at("plane"));
    const std::array<double, 8> numbers = array_of<8>(c.at("ray"));
    same("ray_plane_slices", json(ASK("ray_plane_slices(array<double, 8>, array<double, 4>)", ray_plane_slices(numbers, at))),
         c.at("answer"));
    return json(ASK("ray_plane(Ray, Plane)", ray_plane(ray_of(c.at("ray")), Plane{{at[0], at[1], at[2]}, at[3]})));
}

Json triangle(const Json &c)
{
    const std::array<double, 9> at = array_of<9>(c.at("corners"));
    const std::vector<Vec3> rows = vectors(floats(c.at("corners")));
    const std::array<double, 8> numbers = array_of<8>(c.at("ray"));
    same("ray_triangle_slices", json(ASK("ray_triangle_slices(array<double, 8>, array<double, 9>)", ray_triangle_slices(numbers, at))),
         c.at("answer"));
    return json(ASK("ray_triangle(Ray, Vec3, Vec3, Vec3)", ray_triangle(ray_of(c.at("ray")), rows[0], rows[1], rows[2])));
}

Json height_field(const Json &c)
{
    const HeightField field{c.at("rows").whole, c.at("columns").whole, array_of<2>(c.at("spacing")), floats(c.at("heights"))};
    return json(ASK("ray_height_field(Ray, HeightField)", ray_height_field(ray_of(c.at("ray")), field)));
}

Json height_ranges(const Json &c)
{
    const HeightRanges ranges{
        c.at("rows").whole, c.at("columns").whole, array_of<2>(c.at("spacing")), floats(c.at("lows")), floats(c.at("highs"))};
    const Clearance found = ASK("ray_height_ranges(Ray, HeightRanges)", ray_height_ranges(ray_of(c.at("ray")), ranges));
    const auto possible = [](Cell cell) { return Json::of(Fields{{"possible", Json::of(std::size_t{cell.number})}}); };
    const Json matched = ASK("Clearance::match(OnClear, OnPossible, OnRefused)", found.match(
        [] { return Json::of(std::string("clear")); }, possible, [](Refusal why) { return refused(why); }));
    if (ASK("Clearance::is_refused()", found.is_refused())) {
        const Refusal why = ASK("Clearance::refusal()", found.refusal());
        same("refusal()", refused(why), matched);
        holds(throws(why, [&] { return found.is_clear(); }) && throws(why, [&] { return found.possible(); }), "a refusal is thrown");
        return matched;
    }
    holds(is_not_there([&] { return found.refusal(); }), "refusal() of a cast that did not refuse");
    const std::optional<Cell> cell = ASK("Clearance::possible()", found.possible());
    holds(ASK("Clearance::is_clear()", found.is_clear()) == !cell, "is_clear");
    same("possible()", cell ? possible(*cell) : Json::of(std::string("clear")), matched);
    return matched;
}

Json level_set(const Json &c)
{
    const std::vector<std::uint32_t> sides = words(c.at("sides"));
    const std::vector<double> origin = floats(c.at("origin")), spacing = floats(c.at("spacing"));
    const LevelSet grid{{sides[0], sides[1], sides[2]}, vector_at(origin, 0), vector_at(spacing, 0), floats(c.at("values"))};
    return json(ASK("ray_level_set(Ray, LevelSet)", ray_level_set(ray_of(c.at("ray")), grid)));
}

// ---- meshes

std::map<std::string, Json> given_meshes;

Tree tree_of(const Json &given)
{
    Tree tree;
    tree.nodes = given.at("nodes").whole;
    tree.node_boxes = floats(given.at("node_boxes"));
    tree.triangle_boxes = floats(given.at("triangle_boxes"));
    tree.node_words = words(given.at("node_words"));
    tree.order = words(given.at("order"));
    return tree;
}

Json tree_json(const Tree &tree)
{
    return Json::of(Fields{{"nodes", Json::of(tree.nodes)}, {"node_boxes", bits(tree.node_boxes)},
                           {"triangle_boxes", bits(tree.triangle_boxes)}, {"node_words", wholes(tree.node_words)},
                           {"order", wholes(tree.order)}});
}

const Json &given_mesh(const Json &c, const char *field = "mesh") { return given_meshes.at(c.at(field).text); }

Shape shape_of(const Json &given)
{
    return ASK("Shape::Shape(vector<double>, vector<uint32_t>)", Shape(floats(given.at("vertices")), words(given.at("triangles"))));
}

/* The mesh of a name, built or with its own tree, made once. */
const Mesh &mesh_of(const std::string &name)
{
    static std::map<std::string, Mesh> made;
    const auto found = made.find(name);
    if (found != made.end())
        return found->second;
    const Json &given = given_meshes.at(name);
    const Json *tree = given.find("tree");
    Mesh mesh = tree ? ASK("Mesh::with_tree(Shape, Tree)", Mesh::with_tree(shape_of(given), tree_of(*tree))).value()
                     : ASK("Mesh::build(Shape)", Mesh::build(shape_of(given))).value();
    return made.emplace(name, std::move(mesh)).first->second;
}

const Mesh &mesh_of(const Json &c) { return mesh_of(c.at("mesh").text); }

/* What the file says of a mesh: its counts, and of a small one everything. */
Json mesh_json(const Mesh &mesh, const Json &expected)
{
    const Shape &shape = ASK("Mesh::shape()", mesh.shape());
    const Tree &tree = ASK("Mesh::tree()", mesh.tree());
    const std::size_t vertices = ASK("Mesh::vertex_count()", mesh.vertex_count());
    const std::size_t triangles = ASK("Mesh::triangle_count()", mesh.triangle_count());
    holds(ASK("Shape::vertex_count()", shape.vertex_count()) == vertices, "vertex_count");
    holds(ASK("Shape::triangle_count()", shape.triangle_count()) == triangles, "triangle_count");
    Fields fields{{"counts", Json::of(std::vector<Json>{Json::of(vertices), Json::of(triangles), Json::of(tree.nodes)})}};
    if (expected.find("tree"))
        fields.emplace_back("tree", tree_json(tree));
    if (expected.find("vertices"))
        fields.emplace_back("vertices", bits(shape.vertices));
    if (expected.find("triangles"))
        fields.emplace_back("triangles", wholes(shape.triangles));
    return Json::of(std::move(fields));
}

Json build(const Json &c)
{
    const Json &given = given_mesh(c), &answer = c.at("answer");
    const auto found = [&](const Mesh &mesh) { return mesh_json(mesh, answer); };
    const std::vector<Vec3> points = vectors(floats(given.at("vertices")));
    const std::vector<Triangle> triangles = corners(words(given.at("triangles")));
    const Shape shape = ASK("Shape::of(vector<Vec3>, vector<Triangle>)", Shape::of(points, triangles));
    same("Shape::flat", bits(ASK("Shape::flat(vector<Vec3>)", Shape::flat(points))), bits(shape.vertices));
    same("by rows", json(ASK("Mesh::build(vector<Vec3>, vector<Triangle>)", Mesh::build(points, triangles)), found), answer);
    const PlainMesh plain = ASK("PlainMesh::PlainMesh(vector<Vec3>, vector<Triangle>)", PlainMesh(points, triangles));
    same("PlainMesh::shape", bits(ASK("PlainMesh::shape()", plain.shape()).vertices), bits(shape.vertices));
    same("PlainMesh::build", json(ASK("PlainMesh::build()", plain.build()), found), answer);
    return json(Mesh::build(shape_of(given)), found);
}

Json with_tree(const Json &c)
{
    const Shape shape = shape_of(given_mesh(c));
    const Tree tree = tree_of(c.at("tree"));
    const auto words = [](bool fits) { return Json::of(std::string(fits ? "fits" : "does not fit")); };
    same("tree_check", json(ASK("tree_check(Shape, Tree)", tree_check(shape, tree)), words), c.at("answer"));
    const Result<Mesh, TreeFault> taken = Mesh::with_tree(shape, tree);
    if (!taken.is_refused()) {
        same("the tree that was taken", tree_json(taken.value().tree()), c.at("tree"));
        return words(true);
    }
    if (const std::optional<Refusal> why = taken.refusal().refusal) {
        holds(throws(*why, [&] { return taken.value(); }), "value() of a refusal");
        return refused(*why);
    }
    try {
        static_cast<void>(taken.value());
    } catch (const TreeDoesNotFit &) {
        return words(false);
    }
    wrong("value() of a tree that does not fit");
}

Json glue(const Json &c)
{
    const Mesh &first = mesh_of(c.at("first").text), &second = mesh_of(c.at("second").text);
    return json(ASK("Mesh::glue(Mesh)", first.glue(second)), [&](const Mesh &mesh) { return mesh_json(mesh, c.at("answer")); });
}

Json has_numbers(const Json &c)
{
    return Json::of(std::size_t{ASK("mesh_has_numbers(Shape)", mesh_has_numbers(shape_of(given_mesh(c))))});
}

/* The casts of a mesh: with its own work buffers, with new ones, and at its own vertices, at which a mesh with a NaN is cast at
 * through its tree. */
Json cast(const Json &c)
{
    const Ray ray = ray_of(c.at("ray"));
    Mesh own = mesh_of(c);
    Scratch one, two;
    const Mesh &mesh = mesh_of(c);
    same("with its own work buffers", json(ASK("Mesh::cast(Ray)", own.cast(ray))), c.at("answer"));
    same("at its own vertices", json(mesh.cast_at(ray, mesh.shape().vertices, one)), c.at("answer"));
    return json(ASK("Mesh::cast(Ray, Scratch)", mesh.cast(ray, two)));
}

Json cast_at(const Json &c)
{
    const Ray ray = ray_of(c.at("ray"));
    const std::vector<double> pose = floats(c.at("pose"));
    Scratch one, two;
    same("by rows", json(ASK("Mesh::cast_at(Ray, vector<Vec3>, Scratch)", mesh_of(c).cast_at(ray, vectors(pose), one))),
         c.at("answer"));
    return json(ASK("Mesh::cast_at(Ray, vector<double>, Scratch)", mesh_of(c).cast_at(ray, pose, two)));
}

Json cast_exact(const Json &c)
{
    const Ray ray = ray_of(c.at("ray"));
    Mesh own = mesh_of(c);
    Scratch one, two;
    const Mesh &mesh = mesh_of(c);
    same("with its own work buffers", json(ASK("Mesh::cast_exact(Ray)", own.cast_exact(ray))), c.at("answer"));
    if (mesh_has_numbers(mesh.shape()))
        same("at its own vertices", json(mesh.cast_exact_at(ray, mesh.shape().vertices, one)), c.at("answer"));
    return json(ASK("Mesh::cast_exact(Ray, Scratch)", mesh.cast_exact(ray, two)));
}

Json cast_exact_at(const Json &c)
{
    const Ray ray = ray_of(c.at("ray"));
    const std::vector<double> pose = floats(c.at("pose"));
    Scratch one, two;
    same("by rows", json(ASK("Mesh::cast_exact_at(Ray, vector<Vec3>, Scratch)", mesh_of(c).cast_exact_at(ray, vectors(pose), one))),
         c.at("answer"));
    return json(ASK("Mesh::cast_exact_at(Ray, vector<double>, Scratch)", mesh_of(c).cast_exact_at(ray, pose, two)));
}

Json cast_all(const Json &c)
{
    const Ray ray = ray_of(c.at("ray"));
    Mesh own = mesh_of(c);
    Scratch scratch;
    same("with its own work buffers", json(ASK("Mesh::cast_all(Ray)", own.cast_all(ray))), c.at("answer"));
    return json(ASK("Mesh::cast_all(Ray, Scratch)", mesh_of(c).cast_all(ray, scratch)));
}

Json cast_all_at(const Json &c)
{
    Scratch scratch;
    const std::vector<double> pose = floats(c.at("pose"));
    return json(ASK("Mesh::cast_all_at(Ray, vector<double>, Scratch)", mesh_of(c).cast_all_at(ray_of(c.at("ray")), pose, scratch)));
}

Json cast_exact_all(const Json &c)
{
    const Ray ray = ray_of(c.at("ray"));
    Mesh own = mesh_of(c);
    Scratch scratch;
    same("with its own work buffers", json(ASK("Mesh::cast_exact_all(Ray)", own.cast_exact_all(ray))), c.at("answer"));
    return json(ASK("Mesh::cast_exact_all(Ray, Scratch)", mesh_of(c).cast_exact_all(ray, scratch)));
}

Json cast_exact_all_at(const Json &c)
{
    Scratch scratch;
    const std::vector<double> pose = floats(c.at("pose"));
    const Ray ray = ray_of(c.at("ray"));
    return json(ASK("Mesh::cast_exact_all_at(Ray, vector<double>, Scratch)", mesh_of(c).cast_exact_all_at(ray, pose, scratch)));
}

std::vector<Ray> rays_of(const Json &c) { return values<Ray>(c.at("rays"), ray_of); }

/* Twice with the same work buffers: what a call leaves in them does not matter. */
Json cast_many(const Json &c)
{
    Mesh own = mesh_of(c);
    Scratch scratch;
    const std::vector<Ray> rays = rays_of(c);
    same("with its own work buffers", json(ASK("Mesh::cast_many(vector<Ray>)", own.cast_many(rays))), c.at("answer"));
    same("the first time", json(mesh_of(c).cast_many(rays, scratch)), c.at("answer"));
    return json(ASK("Mesh::cast_many(vector<Ray>, Scratch)", mesh_of(c).cast_many(rays, scratch)));
}

Json cast_exact_many(const Json &c)
{
    Mesh own = mesh_of(c);
    Scratch scratch;
    const std::vector<Ray> rays = rays_of(c);
    same("with its own work buffers", json(ASK("Mesh::cast_exact_many(vector<Ray>)", own.cast_exact_many(rays))), c.at("answer"));
    same("the first time", json(mesh_of(c).cast_exact_many(rays, scratch)), c.at("answer"));
    return json(ASK("Mesh::cast_exact_many(vector<Ray>, Scratch)", mesh_of(c).cast_exact_many(rays, scratch)));
}

Json cast_all_many(const Json &c)
{
    Scratch scratch;
    return list_of<Ray>(rays_of(c), [&](const Ray &ray) { return json(mesh_of(c).cast_all(ray, scratch)); });
}

Json cast_exact_all_many(const Json &c)
{
    using Listing = Result<std::vector<MeshHit>>;
    Mesh own = mesh_of(c);
    Scratch scratch;
    const std::vector<Ray> rays = rays_of(c);
    const auto lists = [](const std::vector<Listing> &all) {
        return list_of<Listing>(all, [](const Listing &hits) { return json(hits); });
    };
    same("with its own work buffers", lists(ASK("Mesh::cast_exact_all_many(vector<Ray>)", own.cast_exact_all_many(rays))),
         c.at("answer"));
    return lists(ASK("Mesh::cast_exact_all_many(vector<Ray>, Scratch)", mesh_of(c).cast_exact_all_many(rays, scratch)));
}

Json query(const Json &c)
{
    const std::vector<double> box = floats(c.at("box"));
    Mesh own = mesh_of(c);
    Scratch scratch;
    const Vec3 low = vector_at(box, 0), high = vector_at(box, 3);
    same("with its own work buffers", json(ASK("Mesh::query(Vec3, Vec3)", own.query(low, high)), wholes), c.at("answer"));
    return json(ASK("Mesh::query(Vec3, Vec3, Scratch)", mesh_of(c).query(low, high, scratch)), wholes);
}

PlainMesh plain_of(const Json &c) { return ASK("PlainMesh::PlainMesh(Shape)", PlainMesh(shape_of(given_mesh(c)))); }

Json plain_cast(const Json &c) { return json(ASK("PlainMesh::cast(Ray)", plain_of(c).cast(ray_of(c.at("ray"))))); }

Json plain_cast_exact(const Json &c)
{
    return json(ASK("PlainMesh::cast_exact(Ray)", plain_of(c).cast_exact(ray_of(c.at("ray")))));
}

// ---- cabinets and pieces

/* The parts, each mesh pushed; or one that was placed before placed again. */
Cabinet cabinet_of(const Json &c, bool again)
{
    Cabinet cabinet;
    std::map<std::string, std::size_t> first;
    for (const Json &part : c.at("parts").list) {
        const Vec3 origin = vector_at(floats(part.at("origin")), 0);
        const std::string &name = part.at("mesh").text;
        const std::size_t size = ASK("Cabinet::size()", cabinet.size());
        const std::size_t number = again && first.count(name)
                                       ? ASK("Cabinet::place_again(size_t, Vec3)", cabinet.place_again(first.at(name), origin))
                                       : ASK("Cabinet::push(Mesh, Vec3)", cabinet.push(mesh_of(name), origin));
        holds(number == size, "the part's number");
        first.emplace(name, number);
    }
    return cabinet;
}

Json cabinet_json(const CabinetCast &cast, const Cabinet &cabinet)
{
    Fields fields{{"cast", json(cast.answer)}, {"spent", Json::of(cast.spent)},
                  {"nodes", Json::of(ASK("Cabinet::nodes()", cabinet.nodes()))}};
    if (cast.answer.kind() == Kind::hit)
        fields.emplace_back("part", Json::of(cast.answer.hit().part));
    return Json::of(std::move(fields));
}

Json cabinet_cast(const Json &c)
{
    const Ray ray = ray_of(c.at("ray"));
    const Json *given = c.find("limit");
    const std::size_t limit = given ? given->whole : no_limit;
    Cabinet own = cabinet_of(c, false);
    const Cabinet cabinet = cabinet_of(c, true);
    Scratch scratch;
    const CabinetCast cast = given ? own.cast(ray, limit) : ASK("Cabinet::cast(Ray, size_t)", own.cast(ray));
    same("with its own work buffers", cabinet_json(cast, own), c.at("answer"));
    return cabinet_json(ASK("Cabinet::cast(Ray, size_t, Scratch)", cabinet.cast(ray, limit, scratch)), cabinet);
}

Result<LargeMesh> large_of(const Json &c)
{
    const Json *most = c.find("most");
    Shape shape = shape_of(given_mesh(c));
    return most ? ASK("LargeMesh::build(Shape, size_t)", LargeMesh::build(shape, most->whole)) : LargeMesh::build(shape);
}

Json large(const Json &c)
{
    return json(large_of(c), [&](const LargeMesh &mesh) {
        same("shape", bits(ASK("LargeMesh::shape()", mesh.shape()).vertices), bits(shape_of(given_mesh(c)).vertices));
        return Json::of(Fields{{"pieces", Json::of(ASK("LargeMesh::pieces()", mesh.pieces()))}});
    });
}

Json large_cast(const Json &c)
{
    LargeMesh own = large_of(c).value();
    Scratch scratch;
    const Ray ray = ray_of(c.at("ray"));
    same("with its own work buffers", json(ASK("LargeMesh::cast(Ray)", own.cast(ray))), c.at("answer"));
    return json(ASK("LargeMesh::cast(Ray, Scratch)", own.cast(ray, scratch)));
}

Json large_cast_rounded(const Json &c)
{
    LargeMesh own = large_of(c).value();
    Scratch scratch;
    const Ray ray = ray_of(c.at("ray"));
    same("with its own work buffers", json(ASK("LargeMesh::cast_rounded(Ray)", own.cast_rounded(ray))), c.at("answer"));
    return json(ASK("LargeMesh::cast_rounded(Ray, Scratch)", own.cast_rounded(ray, scratch)));
}

Json large_cast_exact_all(const Json &c)
{
    LargeMesh own = large_of(c).value();
    Scratch scratch;
    const Ray ray = ray_of(c.at("ray"));
    same("with its own work buffers", json(ASK("LargeMesh::cast_exact_all(Ray)", own.cast_exact_all(ray))), c.at("answer"));
    return json(ASK("LargeMesh::cast_exact_all(Ray, Scratch)", own.cast_exact_all(ray, scratch)));
}

// ---- drills

Drill drill_of(const Json &numbers)
{
    const std::array<double, 9> given = array_of<9>(numbers);
    std::array<double, 8> ray{};
    std::copy_n(given.begin(), 8, ray.begin());
    return Drill{Ray::of(ray), given[8]};
}

std::vector<Drill> drills_of(const Json &c) { return values<Drill>(c.at("drills"), drill_of); }

Json drills_json(const std::vector<Cast<std::uint32_t>> &casts)
{
    return list_of<Cast<std::uint32_t>>(casts, [](const Cast<std::uint32_t> &cast) { return json(cast); });
}

Json plain_drill(const Json &c)
{
    const Drill drill = drill_of(c.at("drill"));
    return json(ASK("PlainMesh::drill(Ray, double)", plain_of(c).drill(drill.ray, drill.radius)));
}

Json mesh_drill(const Json &c)
{
    const Drill drill = drill_of(c.at("drill"));
    Mesh own = mesh_of(c);
    Scratch scratch;
    same("with its own work buffers", json(ASK("Mesh::drill(Ray, double)", own.drill(drill.ray, drill.radius))), c.at("answer"));
    return json(ASK("Mesh::drill(Ray, double, Scratch)", mesh_of(c).drill(drill.ray, drill.radius, scratch)));
}

Json mesh_drill_many(const Json &c)
{
    const std::vector<Drill> drills = drills_of(c);
    Mesh own = mesh_of(c);
    Scratch scratch;
    same("with its own work buffers", drills_json(ASK("Mesh::drill_many(vector<Drill>)", own.drill_many(drills))), c.at("answer"));
    return drills_json(ASK("Mesh::drill_many(vector<Drill>, Scratch)", mesh_of(c).drill_many(drills, scratch)));
}

Json large_drill(const Json &c)
{
    const Drill drill = drill_of(c.at("drill"));
    LargeMesh own = large_of(c).value();
    Scratch scratch;
    same("with its own work buffers", json(ASK("LargeMesh::drill(Ray, double)", own.drill(drill.ray, drill.radius))), c.at("answer"));
    return json(ASK("LargeMesh::drill(Ray, double, Scratch)", own.drill(drill.ray, drill.radius, scratch)));
}

Json large_drill_many(const Json &c)
{
    const std::vector<Drill> drills = drills_of(c);
    LargeMesh own = large_of(c).value();
    Scratch scratch;
    same("with its own work buffers", drills_json(ASK("LargeMesh::drill_many(vector<Drill>)", own.drill_many(drills))),
         c.at("answer"));
    return drills_json(ASK("LargeMesh::drill_many(vector<Drill>, Scratch)", own.drill_many(drills, scratch)));
}

/* The words, and what a refusal of the drill says. */
Json drill_fault(const Json &c)
{
    const Drill drill = drill_of(c.at("drill"));
    const char *words = ASK("Drill::fault()", drill.fault());
    const std::string expected = told(Refusal::invalid_input, words);
    holds(ASK("explained(Refusal, Drill)", explained(Refusal::invalid_input, drill)) == expected, "explained");
    try {
        Scratch scratch;
        static_cast<void>(mesh_of("square of 4").drill(drill.ray, drill.radius, scratch).hit_or_none());
        holds(!words, "a drill with a fault is refused");
    } catch (const Refused &why) {
        holds(why.refusal() != Refusal::invalid_input || why.what() == expected, "what a refusal says");
    }
    return Json::of(std::string(words ? words : ""));
}

// ---- records, files, rays, refusals

Json to_short(const Json &c)
{
    return json(ASK("record_to_short(vector<uint8_t>)", record_to_short(bytes_of(c.at("record").text))), hex);
}

Json to_long(const Json &c)
{
    return json(ASK("record_to_long(vector<uint8_t>)", record_to_long(bytes_of(c.at("record").text))), hex);
}

std::string folder;

Json stl(const Json &c)
{
    const std::vector<std::uint8_t> bytes = bytes_of(c.at("file").text);
    const std::string file(bytes.begin(), bytes.end()), path = folder + "/case.stl";
    std::ofstream(path, std::ios::binary) << file;
    const auto found = [](const Result<Shape, StlError> &shape) {
        if (shape.is_refused())
            return Json::of(std::string("error"));
        return Json::of(Fields{{"vertices", bits(shape.value().vertices)}, {"triangles", wholes(shape.value().triangles)}});
    };
    same("from a file", found(ASK("read_stl(string)", read_stl(path))), c.at("answer"));
    return found(ASK("stl_shape(string_view)", stl_shape(file)));
}

Json version_of(const Json &c)
{
    holds(c.at("answer").whole == PROBE_VERSION, "PROBE_VERSION");
    return Json::of(std::size_t{ASK("version()", version())});
}

Json toward(const Json &c)
{
    const std::vector<double> origin = floats(c.at("origin")), direction = floats(c.at("direction"));
    return numbers_of(ASK("Ray::toward(Vec3, Vec3, double)",
                          Ray::toward(vector_at(origin, 0), vector_at(direction, 0), number_of(c.at("maximum")))));
}

Json point_at(const Json &c)
{
    const Vec3 point = ASK("Ray::at(double)", ray_of(c.at("ray")).at(number_of(c.at("distance"))));
    return bits(std::vector<double>{point.x, point.y, point.z});
}

/* The words, and what a refusal of the ray says. */
Json fault(const Json &c)
{
    const Ray ray = ray_of(c.at("ray"));
    const char *words = ASK("Ray::fault()", ray.fault());
    const std::string said = words ? words : "";
    const std::string expected = words ? "refused 1, invalid input: " + said : told(Refusal::invalid_input);
    holds(ASK("explained(Refusal, Ray)", explained(Refusal::invalid_input, ray)) == expected, "explained");
    holds(ASK("told(Refusal, char*)", told(Refusal::invalid_input, words)) == expected, "told");
    holds(told(Refusal::overflow, words) == told(Refusal::overflow), "the fault is refusal 1's alone");
    try {
        static_cast<void>(ray_plane(ray, Plane{{0, 0, 1}, 0}).hit_or_none());
        holds(!words, "a ray with a fault is refused");
    } catch (const Refused &why) {
        holds(why.what() == expected, "what a refusal says");
    }
    return Json::of(said);
}

Json refusal(const Json &c)
{
    const auto which = static_cast<Refusal>(c.at("number").whole);
    const std::string said = ASK("told(Refusal)", told(which)), start = "refused " + std::to_string(number(which)) + ", ";
    holds(said.rfind(start, 0) == 0 && said.find(": ") != said.npos, "a refusal's words");
    return Json::of(said.substr(start.size(), said.find(": ") - start.size()));
}

using Call = Json (*)(const Json &);

const std::map<std::string, Call> calls{
    {"ray_plane", plane}, {"ray_triangle", triangle}, {"ray_height_field", height_field}, {"ray_height_ranges", height_ranges},
    {"ray_level_set", level_set}, {"Mesh", build}, {"Mesh.with_tree", with_tree}, {"Mesh.glue", glue},
    {"mesh_has_numbers", has_numbers}, {"Mesh.cast", cast}, {"Mesh.cast_at", cast_at}, {"Mesh.cast_exact", cast_exact},
    {"Mesh.cast_exact_at", cast_exact_at}, {"Mesh.cast_all", cast_all}, {"Mesh.cast_all_at", cast_all_at},
    {"Mesh.cast_exact_all", cast_exact_all}, {"Mesh.cast_exact_all_at", cast_exact_all_at},
    {"Mesh.cast_exact_all_many", cast_exact_all_many}, {"Mesh.cast_many", cast_many}, {"Mesh.cast_exact_many", cast_exact_many}, {"Mesh.cast_all_many", cast_all_many},
    {"Mesh.query", query}, {"PlainMesh.cast", plain_cast}, {"PlainMesh.cast_exact", plain_cast_exact},
    {"PlainMesh.drill", plain_drill}, {"Mesh.drill", mesh_drill}, {"Mesh.drill_many", mesh_drill_many},
    {"LargeMesh.drill", large_drill}, {"LargeMesh.drill_many", large_drill_many}, {"Drill.fault", drill_fault},
    {"Cabinet.cast", cabinet_cast}, {"LargeMesh", large}, {"LargeMesh.cast", large_cast},
    {"LargeMesh.cast_exact_all", large_cast_exact_all}, {"LargeMesh.cast_rounded", large_cast_rounded}, {"record_to_short", to_short}, {"record_to_long", to_long}, {"stl", stl},
    {"version", version_of}, {"Ray.toward", toward}, {"Ray.at", point_at}, {"Ray.fault", fault}, {"Refusal", refusal},
};

// what the header does not have
const std::set<std::string> lacks{"LargeMesh.cast_all", "bounds", "open_edges", "shells"};

std::string contents(const char *path)
{
    std::ifstream file(path, std::ios::binary);
    return std::string((std::istreambuf_iterator<char>(file)), std::istreambuf_iterator<char>());
}

/* Whether the methods of the list are those that were asked, and no others. */
std::size_t compare_methods(const char *path)
{
    std::ifstream list(path);
    std::set<std::string> methods;
    for (std::string line; std::getline(list, line);)
        methods.insert(line);
    for (const std::string &method : methods)
        if (!asked.count(method)) {
            std::fprintf(stderr, "error: C++: no case calls %s: add one (differential/src/conformance)\n", method.c_str());
            std::exit(1);
        }
    for (const std::string &method : asked)
        if (!methods.count(method)) {
            std::fprintf(stderr, "error: C++: the header has no %s\n", method.c_str());
            std::exit(1);
        }
    return methods.size();
}

} // namespace

int main(int count, char **arguments)
{
    if (count != 4) {
        std::fprintf(stderr, "usage: conformance FILE FOLDER METHODS\n");
        return 2;
    }
    const std::string text = contents(arguments[1]);
    const Json file = JsonReader(text).value();
    folder = arguments[2];
    for (const auto &mesh : file.at("meshes").fields)
        given_meshes.insert(mesh);
    static_cast<void>(ASK("Shape::Shape()", Shape()));
    std::size_t ran = 0;
    for (const Json &c : file.at("cases").list) {
        current = &c;
        const std::string &name = c.at("call").text;
        if (lacks.count(name))
            continue;
        if (!calls.count(name))
            wrong("the runner has no such call");
        same("the answer", calls.at(name)(c), c.at("answer"));
        ran++;
    }
    std::printf("%zu cases, %zu methods\n", ran, compare_methods(arguments[3]));
    return 0;
}
