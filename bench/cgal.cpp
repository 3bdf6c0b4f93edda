// CGAL's tree of boxes over the same triangles; tools/bench builds this where CGAL is installed. A cast is the first triangle
// along a ray, and none where it lies beyond the maximum; or the nearest of all triangles that the segment meets, which is the faster
// way where the segment is short. There are two kernels: CGAL's fastest, doubles and nothing exact, and the one whose predicates are
// exact, Exact_predicates_inexact_constructions_kernel (the functions of its side are called cgal_exact_..).
#include <CGAL/AABB_tree.h>
#include <CGAL/Exact_predicates_inexact_constructions_kernel.h>
#include <CGAL/Simple_cartesian.h>
// the names since CGAL 6, and those before
#if __has_include(<CGAL/AABB_traits_3.h>)
#include <CGAL/AABB_traits_3.h>
#include <CGAL/AABB_triangle_primitive_3.h>
#define BOARD_TRAITS CGAL::AABB_traits_3
#define BOARD_PRIMITIVE CGAL::AABB_triangle_primitive_3
#else
#include <CGAL/AABB_traits.h>
#include <CGAL/AABB_triangle_primitive.h>
#define BOARD_TRAITS CGAL::AABB_traits
#define BOARD_PRIMITIVE CGAL::AABB_triangle_primitive
#endif
#include <cstddef>
#include <cstdint>
#include <iterator>
#include <vector>

template <class Kernel> struct Board {
    using Triangle = typename Kernel::Triangle_3;
    using Point = typename Kernel::Point_3;
    using Vector = typename Kernel::Vector_3;
    using Triangles = std::vector<Triangle>;
    using Primitive = BOARD_PRIMITIVE<Kernel, typename Triangles::const_iterator>;
    using Tree = CGAL::AABB_tree<BOARD_TRAITS<Kernel, Primitive>>;

    Triangles triangles;
    Tree tree;
    std::vector<typename Tree::Primitive_id> met;

    Board(const double *vertices, const std::uint32_t *indices, std::size_t count)
    {
        auto corner = [&](std::size_t k) {
            const double *p = vertices + 3 * static_cast<std::size_t>(indices[k]);
            return Point(p[0], p[1], p[2]);
        };
        triangles.reserve(count);
        for (std::size_t i = 0; i < count; i++)
            triangles.emplace_back(corner(3 * i), corner(3 * i + 1), corner(3 * i + 2));
        const Triangles &all = triangles;
        tree.insert(all.begin(), all.end());
        tree.build();
    }

    // How far along a ray a triangle's plane is.
    static double depth(const Triangle &t, const Point &origin, const Vector &direction)
    {
        const Vector normal = CGAL::cross_product(t[1] - t[0], t[2] - t[0]);
        return (normal * (t[0] - origin)) / (normal * direction);
    }

    // ray: origin, direction, maximum. 1 is a hit, and its distance is written; 0 is none.
    std::uint32_t first(const double *ray, double *distance) const
    {
        const Point origin(ray[0], ray[1], ray[2]);
        const Vector direction(ray[3], ray[4], ray[5]);
        const auto found = tree.first_intersected_primitive(typename Kernel::Ray_3(origin, direction));
        if (!found)
            return 0;
        *distance = depth(**found, origin, direction);
        return *distance <= ray[6];
    }

    // The same by all triangles that the segment meets.
    std::uint32_t nearest(const double *ray, double *distance)
    {
        const Point origin(ray[0], ray[1], ray[2]);
        const Vector direction(ray[3], ray[4], ray[5]);
        met.clear();
        tree.all_intersected_primitives(typename Kernel::Segment_3(origin, origin + ray[6] * direction), std::back_inserter(met));
        for (std::size_t i = 0; i < met.size(); i++) {
            const double here = depth(*met[i], origin, direction);
            if (i == 0 || here < *distance)
                *distance = here;
        }
        return !met.empty();
    }
};

#define SIDE(NAME, KERNEL)                                                                                                    \
    extern "C" Board<KERNEL> *NAME##_build(const double *vertices, const std::uint32_t *triangles, std::size_t count)         \
    {                                                                                                                         \
        return new Board<KERNEL>(vertices, triangles, count);                                                                 \
    }                                                                                                                         \
    extern "C" void NAME##_free(Board<KERNEL> *board)                                                                         \
    {                                                                                                                         \
        delete board;                                                                                                         \
    }                                                                                                                         \
    extern "C" std::uint32_t NAME##_first(const Board<KERNEL> *board, const double *ray, double *distance)                    \
    {                                                                                                                         \
        return board->first(ray, distance);                                                                                   \
    }                                                                                                                         \
    extern "C" std::uint32_t NAME##_nearest(Board<KERNEL> *board, const double *ray, double *distance)                        \
    {                                                                                                                         \
        return board->nearest(ray, distance);                                                                                 \
    }

using Doubles = CGAL::Simple_cartesian<double>;
using Exact = CGAL::Exact_predicates_inexact_constructions_kernel;
SIDE(cgal, Doubles)
SIDE(cgal_exact, Exact)
