"""Facts about a mesh before a ray is cast: its bounding box, whether it is closed, and how many shells it has.

The functions compare vertex indices, so equal corners must be one vertex, as read_stl makes them. They take any number of
triangles.

  >>> from probe_rays import bounds, open_edges, shells
  >>> vertices = [(0, 0, 0), (2, 0, 0), (0, 3, 0), (0, 0, 4)]
  >>> tetrahedron = [(0, 2, 1), (0, 1, 3), (1, 2, 3), (2, 0, 3)]
  >>> bounds(vertices)
  ((0.0, 0.0, 0.0), (2.0, 3.0, 4.0))
  >>> open_edges(tetrahedron), shells(tetrahedron)
  (0, 1)
"""
from ._arrays import owned


def bounds(vertices):
    """The minimum and the maximum coordinates of the vertices, as two tuples, or None if there are no vertices. A NaN is
    ignored, unless all numbers of an axis are NaN."""
    numbers = owned(vertices, "d", 3, "vertices")
    if not numbers:
        return None
    axes = [numbers[axis::3] for axis in range(3)]
    axes = [[number for number in axis if number == number] or axis for axis in axes]
    return tuple(map(min, axes)), tuple(map(max, axes))


def _edges(triangles):
    """The edges of each triangle, in the triangle's direction."""
    indices = owned(triangles, "I", 3, "triangles")
    for a, b, c in zip(indices[::3], indices[1::3], indices[2::3]):
        yield (a, b), (b, c), (c, a)


def open_edges(triangles):
    """The number of edges that are not shared by exactly two triangles in opposite directions. A closed surface whose triangles
    all face outward has none."""
    # how often an edge is used from the lower vertex to the higher, and how often back
    passed = {}
    for edges in _edges(triangles):
        for start, end in edges:
            times = passed.setdefault((min(start, end), max(start, end)), [0, 0])
            times[start > end] += 1
    return sum(times != [1, 1] for times in passed.values())


def shells(triangles):
    """The number of shells: sets of triangles that are connected through common edges."""
    parents, first, count = [], {}, 0

    def root_of(triangle):
        while parents[triangle] != triangle:
            parents[triangle] = triangle = parents[parents[triangle]]
        return triangle

    for triangle, edges in enumerate(_edges(triangles)):
        parents.append(triangle)
        count += 1
        for start, end in edges:
            other = root_of(first.setdefault((min(start, end), max(start, end)), triangle))
            root = root_of(triangle)
            if other != root:
                parents[root] = other
                count -= 1
    return count
