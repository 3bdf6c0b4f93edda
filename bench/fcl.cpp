// FCL's tree of boxes over the same triangles, and a cylinder that is collided with it: whether the two have a point in common, by
// iteration in doubles. tools/bench builds this where FCL is installed.
#include <cstddef>
#include <cstdint>
#include <fcl/fcl.h>
#include <vector>

namespace {

using Model = fcl::BVHModel<fcl::OBBRSSd>;

struct Part {
    Model model;
    fcl::CollisionRequestd request{1, false};

    Part(const double *vertices, std::size_t vertex_count, const std::uint32_t *indices, std::size_t count)
    {
        std::vector<fcl::Vector3d> points;
        std::vector<fcl::Triangle> triangles;
        for (const double *p = vertices; p < vertices + 3 * vertex_count; p += 3)
            points.emplace_back(p[0], p[1], p[2]);
        for (const std::uint32_t *t = indices; t < indices + 3 * count; t += 3)
            triangles.emplace_back(t[0], t[1], t[2]);
        model.beginModel();
        model.addSubModel(points, triangles);
        model.endModel();
    }
};

} // namespace

extern "C" Part *fcl_build(const double *vertices, std::size_t vertex_count, const std::uint32_t *indices, std::size_t count)
{
    return new Part(vertices, vertex_count, indices, count);
}

extern "C" void fcl_free(Part *part)
{
    delete part;
}

// drill: origin, direction, maximum, near, radius. 1 where it touches the part, 0 where it is clear.
extern "C" std::uint32_t fcl_drill(const Part *part, const double *drill)
{
    const fcl::Vector3d origin(drill[0], drill[1], drill[2]), direction(drill[3], drill[4], drill[5]);
    const double length = drill[6] - drill[7];
    const fcl::Cylinderd cylinder(drill[8], length);
    fcl::Transform3d pose = fcl::Transform3d::Identity();
    pose.linear() = Eigen::Quaterniond::FromTwoVectors(fcl::Vector3d::UnitZ(), direction).toRotationMatrix();
    pose.translation() = origin + (drill[7] + length / 2) * direction;
    fcl::CollisionResultd result;
    fcl::collide(&part->model, fcl::Transform3d::Identity(), &cylinder, pose, part->request, result);
    return result.isCollision();
}
