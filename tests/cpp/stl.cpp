// The STL reader of the C++ header: examples/panel.stl, whose 120 triangles and 60 vertices follow from the panel's shape, the
// same panel as a binary file, and files that are wrong. It takes the path of panel.stl and prints how many checks held; the
// first that fails ends it with status 1.
#include <cstdint>
#include <cstdio>
#include <cstdlib>
#include <cstring>
#include <fstream>
#include <iterator>
#include <string>
#include <vector>

#include "probe_rays.hpp"

using namespace probe_rays;

namespace {

int checks = 0;

void check(bool held, const char *what, int line)
{
    if (!held) {
        std::fprintf(stderr, "stl.cpp:%d: %s\n", line, what);
        std::exit(1);
    }
    checks++;
}

#define CHECK(what) check((what), #what, __LINE__)

std::string bytes_of(std::uint32_t word)
{
    std::string four;
    for (int k = 0; k < 4; k++)
        four.push_back(static_cast<char>(word >> (8 * k) & 0xFF));
    return four;
}

/* A binary file whose header begins with 'solid'; a facet is nine numbers. */
std::string binary(const std::vector<double> &corners)
{
    std::string file = "solid but binary";
    file.resize(80, '\0');
    file += bytes_of(static_cast<std::uint32_t>(corners.size() / 9));
    for (std::size_t at = 0; at < corners.size(); at += 9) {
        file.append(12, '\0');
        for (std::size_t k = 0; k < 9; k++) {
            const float value = static_cast<float>(corners[at + k]);
            std::uint32_t bits = 0;
            std::memcpy(&bits, &value, sizeof bits);
            file += bytes_of(bits);
        }
        file.append(2, '\0');
    }
    return file;
}

std::vector<double> corners_of(const Shape &shape)
{
    std::vector<double> corners;
    for (const std::uint32_t index : shape.triangles)
        corners.insert(corners.end(), shape.vertices.begin() + 3 * index, shape.vertices.begin() + 3 * index + 3);
    return corners;
}

bool same(const Shape &a, const Shape &b) { return a.vertices == b.vertices && a.triangles == b.triangles; }

bool same(const Result<Shape, StlError> &a, const Shape &b) { return !a.is_refused() && same(a.value(), b); }

/* Whether a file is refused in just these words. */
bool says(const std::string &file, const std::string &words)
{
    const Result<Shape, StlError> shape = stl_shape(file);
    return shape.is_refused() && shape.refusal().what() == words;
}

std::string replaced(std::string text, const std::string &old, const std::string &by)
{
    const std::size_t at = text.find(old);
    CHECK(at != text.npos);
    return text.replace(at, old.size(), by);
}

const std::string bom = "\xEF\xBB\xBF";

const std::string one = "solid one\nfacet normal 0 0 1\n outer loop\n  vertex 0 0 0\n  vertex 4 0 0\n  vertex 0 4 0\n endloop\n"
                        "endfacet\nendsolid one\n";

void small_files()
{
    const Shape triangle({0, 0, 0, 4, 0, 0, 0, 4, 0}, {0, 1, 2});
    CHECK(same(stl_shape(one), triangle) && same(stl_shape(bom + one), triangle) && same(stl_shape("\r\n " + one), triangle));
    CHECK(same(stl_shape(replaced(one, "4 0 0", "+4.0E+00 -0 1e-400")), triangle));
    // two facets with a side in common: four vertices, and a zero with a sign is no vertex of its own
    const std::vector<double> square{0, 0, 0, 4, 0, 0, 0, 4, 0, 4, 4, 0, 0, 4, -0.0, 4, -0.0, 0};
    CHECK(same(stl_shape(binary(square)), Shape({0, 0, 0, 4, 0, 0, 0, 4, 0, 4, 4, 0}, {0, 1, 2, 3, 2, 1})));
}

void wrong_files()
{
    CHECK(says("", "not an STL file: 0 bytes, not ASCII, and too few for a binary file"));
    CHECK(says("solid nothing\nendsolid nothing\n", "no triangles") && says(binary({}), "no triangles"));
    CHECK(says(replaced(one, "endsolid one\n", ""), "cut short: the last solid has no 'endsolid'"));
    CHECK(says(replaced(one, "  vertex 4 0 0\n", ""), "line 7: a facet of 2 vertices"));
    CHECK(says(replaced(one, "4 0 0", "4 O 0"), "line 5: 'vertex' takes three numbers"));
    CHECK(says(replaced(one, "4 0 0", "4 0x 0"), "line 5: 'vertex' takes three numbers"));
    CHECK(says(replaced(one, "4 0 0", "4 0"), "line 5: 'vertex' takes three numbers"));
    CHECK(says(replaced(one, "4 0 0", "4 0 0 0"), "line 5: 'vertex' takes three numbers"));
    CHECK(says(replaced(one, "4 0 0", "4 1e400 0"), "line 5: a coordinate is not finite"));
    CHECK(says(replaced(one, "outer", "inner"), "line 3: \"inner\" is not a word of an STL file"));
    CHECK(says(binary({0, 0, 0, 1, 0, 0, 0, 1e300, 0}), "facet 0: a coordinate is not finite"));
}

void panel(const std::string &path)
{
    std::ifstream file(path, std::ios::binary);
    const std::string text((std::istreambuf_iterator<char>(file)), std::istreambuf_iterator<char>());
    const Shape shape = read_stl(path).value();
    CHECK(shape.triangle_count() == 120 && shape.vertex_count() == 60);
    CHECK(same(stl_shape(text), shape) && same(stl_shape(bom + text), shape));

    // each of its numbers is an f32, so that a binary file has the same panel
    const std::string file_of_floats = binary(corners_of(shape));
    CHECK(file_of_floats.size() == 84 + 50 * 120 && same(stl_shape(file_of_floats), shape));
    CHECK(says(file_of_floats.substr(0, 6083),
        "not an STL file, or a binary one cut short: 6083 bytes, and a binary file of 120 facets has 6084"));
    CHECK(says(file_of_floats + "x", "not an STL file: 6085 bytes, and a binary file of 120 facets has 6084"));

    const std::string nowhere = path + ".nowhere";
    const Result<Shape, StlError> missing = read_stl(nowhere);
    CHECK(missing.is_refused() && missing.refusal().what() == nowhere + ": the file cannot be read");
    bool thrown = false;
    try {
        (void)read_stl(nowhere).value();
    } catch (const StlError &) {
        thrown = true;
    }
    CHECK(thrown);
}

} // namespace

int main(int count, char **words)
{
    if (count != 2) {
        std::fprintf(stderr, "usage: stl PANEL.STL\n");
        return 2;
    }
    small_files();
    wrong_files();
    panel(words[1]);
    std::printf("%d checks\n", checks);
    return 0;
}
