"""Ray casts at a plane, a triangle, a triangle mesh with its bounding box tree, a height grid and a distance grid.

The casts, and the tree's build, query and check, are proved calls of a shared library (the repository's README.md). This
module calls them through ctypes, and adds arrays, types and exceptions: that part is tested, not proved.

A cast returns a hit, or None for a miss. It raises Refused if it refuses: nothing is known of the surface then.

  >>> import probe_rays
  >>> square = probe_rays.Mesh([(0, 0, 0), (4, 0, 0), (4, 4, 0), (0, 4, 0)], [(0, 1, 2), (0, 2, 3)])
  >>> hit = square.cast(probe_rays.Ray((1, 3, 5), (0, 0, -1), 10))
  >>> hit.distance, hit.triangle
  (5.0, 1)
  >>> square.cast(probe_rays.Ray((9, 9, 5), (0, 0, -1), 10)) is None
  True
  >>> square.cast(probe_rays.Ray((1, 3, 5), (0, 0, -2), 10))
  Traceback (most recent call last):
  probe_rays.answers.Refused: refused 1, invalid input: the direction's length is not 1

Vertices, rays, heights and values may be any rows of numbers, or a buffer such as a numpy array or an array.array. Arrays are
returned as a memoryview, which numpy.asarray accepts directly.
"""
from .answers import Casts, Drills, Hit, MeshHit, NotAdmitted, PartHit, Possible, Refused, TreeDoesNotFit
from .cabinet import Cabinet, CabinetCast
from .facts import bounds, open_edges, shells
from .grids import HeightField, HeightRanges, LevelSet
from .large import LargeMesh
from .mesh import Mesh, PlainMesh, Tree, tree_check
from .records import record_to_long, record_to_short
from .ray import Ray, ray_plane, ray_triangle
from .stl import StlError, read_stl
from ._library import VERSION, version

__all__ = [
    "Cabinet", "CabinetCast", "Casts", "Drills", "HeightField", "HeightRanges", "Hit", "LargeMesh", "LevelSet", "Mesh", "MeshHit",
    "NotAdmitted", "PartHit", "PlainMesh", "Possible", "Ray", "Refused", "StlError", "Tree", "TreeDoesNotFit", "VERSION",
    "bounds", "open_edges", "ray_plane", "ray_triangle", "read_stl", "record_to_long", "record_to_short", "shells",
    "tree_check", "version",
]
