"""A cabinet of many parts, cast at under one limit on the nodes."""
import ctypes
from array import array
from typing import NamedTuple, Optional

from ._arrays import lent, whole, zeros
from ._library import library
from .answers import PartHit, settled


class Span(ctypes.Structure):
    _fields_ = [("start", ctypes.c_size_t), ("length", ctypes.c_size_t)]


class Vec3(ctypes.Structure):
    _fields_ = [("x", ctypes.c_double), ("y", ctypes.c_double), ("z", ctypes.c_double)]


class Part(ctypes.Structure):
    """The header's probe_part."""

    _fields_ = [
        ("origin", Vec3),
        ("nodes", ctypes.c_size_t),
        ("vertices", Span),
        ("triangles", Span),
        ("node_boxes", Span),
        ("triangle_boxes", Span),
        ("node_words", Span),
        ("order", Span),
    ]


NO_LIMIT = 2**64 - 1


class CabinetCast(NamedTuple):
    """The result of a cast at a cabinet, a PartHit or None, and the number of nodes spent on it."""

    hit: Optional[PartHit]
    spent: int


class _Lent:
    """The parts and the buffers that they share. Casts that run keep it while the cabinet grows."""

    def __init__(self, placed):
        self.areas = [array(code) for code in "dIddII"]
        self.parts = (Part * max(len(placed), 1))()
        known = {}
        for part, (mesh, origin) in zip(self.parts, placed):
            spans = known.get(id(mesh))
            if spans is None:
                spans = known[id(mesh)] = [self._appended(*pair) for pair in zip(self.areas, self._pieces(mesh))]
            part.origin, part.nodes = Vec3(*origin), mesh._tree.nodes
            part.vertices, part.triangles, part.node_boxes, part.triangle_boxes, part.node_words, part.order = spans
        self.largest = max((len(mesh._triangles) // 3 for mesh, _ in placed), default=0)
        self.most_nodes = max((mesh._tree.nodes for mesh, _ in placed), default=0)
        self.fixed = [ctypes.addressof(self.parts), len(placed)]
        for area in self.areas:
            self.fixed += lent(area)

    @staticmethod
    def _pieces(mesh):
        return (mesh._vertices, mesh._triangles, *mesh._tree[1:])

    @staticmethod
    def _appended(area, more):
        start = len(area)
        area.extend(more)
        return Span(start, len(more))


class Cabinet:
    """Meshes with their trees, each at its own origin. A mesh that is placed more than once is stored once."""

    def __init__(self):
        self._placed, self._lent = [], None

    def __len__(self):
        return len(self._placed)

    def add(self, mesh, origin):
        """Places a mesh, and returns the part's number."""
        x, y, z = origin
        self._placed.append((mesh, (x, y, z)))
        self._lent = None
        return len(self._placed) - 1

    @property
    def nodes(self):
        """The sum of the parts' node counts: a limit that suffices for every ray."""
        return sum(mesh._tree.nodes for mesh, _ in self._placed)

    def cast(self, ray, limit=None):
        """The nearest triangle of all parts, visiting at most `limit` nodes; of equally near ones, the one of the lowest part and
        then of the lowest index. Raises Refused with 1, 6, 7 or 10; its `spent` is the number of nodes spent."""
        shared = self._lent
        if shared is None:
            shared = self._lent = _Lent(list(self._placed))
        limit = NO_LIMIT if limit is None else whole(limit, 64, "limit")
        listed, stack = zeros("I", shared.largest), zeros("I", shared.most_nodes + 1)
        hit, index, part, spent = zeros("d", 4), zeros("I", 1), zeros("Q", 1), zeros("Q", 1)
        numbers = ray.numbers()
        answer = library.probe_ray_cabinet(
            *numbers, *shared.fixed, limit, *lent(listed), *lent(stack),
            *lent(hit), *lent(index), *lent(part), *lent(spent),
        )
        met = settled(answer, numbers, lambda: PartHit(hit[3], tuple(hit[:3]), index[0], part[0]), spent=spent[0])
        return CabinetCast(met, spent[0])
