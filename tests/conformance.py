#!/usr/bin/env python3
"""Goes through a conformance file with the Python module: each case by each method that gives its answer, every float by its bits.

usage: conformance.py FILE FOLDER   (tests/conformance.json, and a folder for files that a case writes)

Every public function, class, method and property of the module, and each of their parameters, must have been in a case; one that
was not fails the run. It prints how many cases and methods there were.
"""
import inspect
import json
import pathlib
import struct
import sys
from array import array

import probe_rays
from probe_rays import Cabinet, LargeMesh, Mesh, PlainMesh, Ray, Refused, StlError, Tree, TreeDoesNotFit

# not an answer, or tested elsewhere: what raises, and what a hit or a list of casts consists of
NOT_CALLED = {"Casts", "Drills", "Hit", "MeshHit", "NotAdmitted", "PartHit", "Possible", "Refused", "StlError", "TreeDoesNotFit", "CabinetCast"}

asked = {}  # the parameters that were given, by method
current = None  # the case


class Wrong(Exception):
    pass


def name_of(owner, method):
    if owner is probe_rays:
        return method
    return f"{owner.__name__ if inspect.isclass(owner) else type(owner).__name__}.{method}"


def ask(owner, method, *given, **named):
    """Calls a method of an object or class, or a function of the module, and notes its parameters."""
    call = getattr(owner, method)
    bound = inspect.signature(call).bind(*given, **named)
    asked.setdefault(name_of(owner, method), set()).update(bound.arguments)
    return call(*given, **named)


def read(owner, what):
    """A property or a constant."""
    asked.setdefault(name_of(owner, what), set())
    return getattr(owner, what)


def number(bits):
    return struct.unpack(">d", bytes.fromhex(bits))[0]


def bits(value):
    return struct.pack(">d", value).hex()


def values(rows, of=lambda value: value):
    """A list, or the same few values so many times."""
    if isinstance(rows, dict):
        return [of(value) for value in rows["of"]] * rows["times"]
    return [of(value) for value in rows]


def floats(rows):
    return values(rows, number)


def in_rows(flat, width):
    return [tuple(flat[at : at + width]) for at in range(0, len(flat), width)]


def ray_of(numbers):
    x, y, z, dx, dy, dz, most, near = floats(numbers)
    return ask(probe_rays, "Ray", (x, y, z), (dx, dy, dz), most, near)


def hit_json(hit):
    if hit is None:
        return "none"
    found = {"hit": [bits(part) for part in (*hit.normal, hit.distance)]}
    if hasattr(hit, "triangle"):
        found["triangle"] = hit.triangle
    return found


def answer_of(call, *given, **named):
    """What a call returns or refuses, as the file has it."""
    try:
        return hit_json(call(*given, **named))
    except Refused as why:
        return {"refused": why.number}


def listed(call, *given, **named):
    try:
        return [hit_json(hit) for hit in call(*given, **named)]
    except Refused as why:
        return {"refused": why.number}


def same(what, found, expected):
    if found != expected:
        raise Wrong(f"{what}: {str(found)[:400]} in place of {str(expected)[:400]}")


def tree_of(given):
    return ask(
        probe_rays, "Tree", given["nodes"], floats(given["node_boxes"]), floats(given["triangle_boxes"]),
        values(given["node_words"]), values(given["order"]),
    )


def tree_json(tree):
    sides = [[bits(side) for side in area] for area in (tree.node_boxes, tree.triangle_boxes)]
    return dict(zip(("nodes", "node_boxes", "triangle_boxes", "node_words", "order"),
                    (tree.nodes, *sides, list(tree.node_words), list(tree.order))))


class Runner:
    def __init__(self, meshes, folder):
        self.given, self.folder, self.built = meshes, folder, {}

    def numbers(self, name):
        return floats(self.given[name]["vertices"]), values(self.given[name]["triangles"])

    def mesh(self, name):
        """The mesh of a name, built once."""
        if name not in self.built:
            vertices, triangles = self.numbers(name)
            tree = self.given[name].get("tree")
            if tree is None:
                self.built[name] = ask(probe_rays, "Mesh", in_rows(vertices, 3), in_rows(triangles, 3))
            else:
                self.built[name] = ask(Mesh, "with_tree", vertices, triangles, tree_of(tree))
        return self.built[name]

    def mesh_json(self, mesh):
        vertices, triangles, tree = (read(mesh, what) for what in ("vertices", "triangles", "tree"))
        return {"counts": [len(vertices), len(triangles), tree.nodes], "tree": tree_json(tree),
                "vertices": [bits(part) for row in vertices.tolist() for part in row],
                "triangles": [part for row in triangles.tolist() for part in row]}

    def is_mesh(self, call, expected):
        """A call that makes a mesh: the counts, and of a small one everything."""
        try:
            found = self.mesh_json(call())
        except Refused as why:
            found = {"refused": why.number}
        same("the mesh", {what: found.get(what) for what in expected}, expected)

    # ---- shapes

    def ray_plane(self, case):
        *normal, distance = floats(case["plane"])
        return answer_of(ask, probe_rays, "ray_plane", ray_of(case["ray"]), normal, distance)

    def ray_triangle(self, case):
        return answer_of(ask, probe_rays, "ray_triangle", ray_of(case["ray"]), *in_rows(floats(case["corners"]), 3))

    def ray_height_field(self, case):
        heights, spacing = floats(case["heights"]), floats(case["spacing"])
        field = ask(probe_rays, "HeightField", heights, case["rows"], case["columns"], spacing)
        return answer_of(ask, field, "cast", ray_of(case["ray"]))

    def ray_height_ranges(self, case):
        lows, highs = floats(case["lows"]), floats(case["highs"])
        ranges = ask(probe_rays, "HeightRanges", lows, highs, case["rows"], case["columns"], floats(case["spacing"]))
        try:
            found = ask(ranges, "cast", ray_of(case["ray"]))
        except Refused as why:
            return {"refused": why.number}
        return "clear" if found is None else {"possible": found.cell}

    def ray_level_set(self, case):
        origin, spacing = floats(case["origin"]), floats(case["spacing"])
        grid = ask(probe_rays, "LevelSet", floats(case["values"]), case["sides"], origin, spacing)
        return answer_of(ask, grid, "cast", ray_of(case["ray"]))

    # ---- meshes

    def Mesh(self, case):
        vertices, triangles = self.numbers(case["mesh"])
        self.is_mesh(lambda: ask(probe_rays, "Mesh", vertices, triangles), case["answer"])
        self.is_mesh(lambda: ask(ask(probe_rays, "PlainMesh", vertices, triangles), "build"), case["answer"])
        return case["answer"]

    def Mesh_with_tree(self, case):
        vertices, triangles = self.numbers(case["mesh"])
        tree = tree_of(case["tree"])
        try:
            fits = "fits" if ask(probe_rays, "tree_check", vertices, triangles, tree) else "does not fit"
        except Refused as why:
            fits = {"refused": why.number}
        same("tree_check", fits, case["answer"])
        try:
            mesh = ask(Mesh, "with_tree", vertices, triangles, tree)
        except TreeDoesNotFit:
            return "does not fit"
        except Refused as why:
            return {"refused": why.number}
        same("the tree that was taken", tree_json(mesh.tree), case["tree"])
        return "fits"

    def Mesh_glue(self, case):
        first, second = self.mesh(case["first"]), self.mesh(case["second"])
        self.is_mesh(lambda: ask(first, "glue", second), case["answer"])
        return case["answer"]

    def at_mesh(self, method, case, by=answer_of):
        """A cast at a mesh; without a pose also with its own vertices as one, which a mesh with a NaN casts at through its tree."""
        mesh, ray = self.mesh(case["mesh"]), ray_of(case["ray"])
        if "pose" in case:
            return by(ask, mesh, method, ray, floats(case["pose"]))
        if "NaN" not in case["mesh"]:
            same("at its own vertices", by(ask, mesh, method, ray, pose=self.numbers(case["mesh"])[0]), case["answer"])
        return by(ask, mesh, method, ray)

    def Mesh_cast(self, case):
        return self.at_mesh("cast", case)

    def Mesh_cast_exact(self, case):
        return self.at_mesh("cast_exact", case)

    def Mesh_cast_all(self, case):
        return self.at_mesh("cast_all", case, listed)

    def Mesh_cast_exact_all(self, case):
        return self.at_mesh("cast_exact_all", case, listed)

    Mesh_cast_at, Mesh_cast_exact_at = Mesh_cast, Mesh_cast_exact
    Mesh_cast_all_at, Mesh_cast_exact_all_at = Mesh_cast_all, Mesh_cast_exact_all

    def PlainMesh_cast(self, case):
        mesh = ask(probe_rays, "PlainMesh", *self.numbers(case["mesh"]))
        return answer_of(ask, mesh, "cast", ray_of(case["ray"]))

    def PlainMesh_cast_exact(self, case):
        mesh = ask(probe_rays, "PlainMesh", *self.numbers(case["mesh"]))
        return answer_of(ask, mesh, "cast_exact", ray_of(case["ray"]))

    def columns(self, case):
        """The origins, directions, maxima and near distances of many rays."""
        rays = [floats(ray) for ray in case["rays"]]
        return [ray[:3] for ray in rays], [ray[3:6] for ray in rays], [ray[6] for ray in rays], [ray[7] for ray in rays]

    def many(self, method, case):
        """Many rays by one call; of the arrays a miss has an infinite distance and a refused ray a NaN."""
        rays, columns, mesh = case["rays"], self.columns(case), self.mesh(case["mesh"])
        casts = ask(mesh, method, *columns, refused="keep")
        same("how many", len(casts), len(rays))
        refused = [at for at, answer in enumerate(case["answer"]) if "refused" in answer]
        same("those refused", casts.refused, refused)
        for at, answer in enumerate(case["answer"]):
            hit = answer.get("hit") if isinstance(answer, dict) else None
            distance = hit[3] if hit else None if at in refused else bits(float("inf"))
            if distance is None:
                same("a refused ray's distance", casts.distances[at] != casts.distances[at], True)
            else:
                same("a distance", bits(casts.distances[at]), distance)
            if hit:
                same("a normal", [bits(part) for part in casts.normals.tolist()[at]], hit[:3])
            same("a triangle", casts.triangles[at], answer["triangle"] if hit else casts.NO_TRIANGLE)
        try:
            ask(mesh, method, *columns)
            same("no ray was refused", refused, [])
        except Refused as why:
            same("the first refused", why.ray, refused[0])
        return [answer_of(lambda at=at: casts[at]) for at in range(len(casts))]

    def Mesh_cast_many(self, case):
        return self.many("cast_many", case)

    def Mesh_cast_exact_many(self, case):
        return self.many("cast_exact_many", case)

    def Mesh_cast_all_many(self, case):
        mesh = self.mesh(case["mesh"])
        return [listed(ask, mesh, "cast_all", ray_of(ray)) for ray in case["rays"]]

    def Mesh_cast_exact_all_many(self, case):
        """One call raises the first refusal, so a ray that is refused is also cast alone."""
        mesh = self.mesh(case["mesh"])
        found = [listed(ask, mesh, "cast_exact_all", ray_of(ray)) for ray in case["rays"]]
        try:
            lists = ask(mesh, "cast_exact_all_many", *self.columns(case))
            same("of many", [[hit_json(hit) for hit in hits] for hits in lists], case["answer"])
        except Refused as why:
            refused = [hits for hits in case["answer"] if isinstance(hits, dict)]
            same("the first refused", {"refused": why.number}, refused[0])
        return found

    def Mesh_query(self, case):
        low, high = in_rows(floats(case["box"]), 3)
        try:
            return ask(self.mesh(case["mesh"]), "query", low, high)
        except Refused as why:
            return {"refused": why.number}

    # ---- cabinets and pieces

    def Cabinet_cast(self, case):
        cabinet = ask(probe_rays, "Cabinet")
        for number, part in enumerate(case["parts"]):
            same("the part's number", ask(cabinet, "add", self.mesh(part["mesh"]), floats(part["origin"])), number)
        same("the parts", len(cabinet), len(case["parts"]))
        limits = {"limit": case["limit"]} if "limit" in case else {}
        found = {"nodes": read(cabinet, "nodes")}
        try:
            cast = ask(cabinet, "cast", ray_of(case["ray"]), **limits)
        except Refused as why:
            return {"cast": {"refused": why.number}, "spent": why.spent, **found}
        found.update(cast=hit_json(cast.hit), spent=cast.spent)
        if cast.hit is not None:
            found["part"] = cast.hit.part
        return found

    def large(self, case):
        most = {"most": case["most"]} if "most" in case else {}
        return ask(probe_rays, "LargeMesh", *self.numbers(case["mesh"]), **most)

    def LargeMesh(self, case):
        try:
            large = self.large(case)
        except Refused as why:
            return {"refused": why.number}
        vertices, triangles = self.numbers(case["mesh"])
        same("vertices", [part for row in read(large, "vertices").tolist() for part in row], vertices)
        same("triangles", [part for row in read(large, "triangles").tolist() for part in row], triangles)
        return {"pieces": read(large, "pieces")}

    def LargeMesh_cast(self, case):
        return answer_of(ask, self.large(case), "cast", ray_of(case["ray"]))

    def LargeMesh_cast_exact_all(self, case):
        return listed(ask, self.large(case), "cast_exact_all", ray_of(case["ray"]))

    def LargeMesh_cast_rounded(self, case):
        return answer_of(ask, self.large(case), "cast_rounded", ray_of(case["ray"]))

    # ---- drills

    def drilled(self, owner, case):
        *ray, radius = case["drill"]
        try:
            touched = ask(owner, "drill", ray_of(ray), number(radius))
        except Refused as why:
            return {"refused": why.number}
        return "none" if touched is None else {"touched": touched}

    def PlainMesh_drill(self, case):
        return self.drilled(ask(probe_rays, "PlainMesh", *self.numbers(case["mesh"])), case)

    def Mesh_drill(self, case):
        return self.drilled(self.mesh(case["mesh"]), case)

    def LargeMesh_drill(self, case):
        return self.drilled(self.large(case), case)

    def drilled_many(self, owner, case):
        rows = [floats(drill) for drill in case["drills"]]
        origins, directions, *rest = [row[:3] for row in rows], [row[3:6] for row in rows], *([row[k] for row in rows] for k in (6, 7, 8))
        most, near, radius = rest
        drills = ask(owner, "drill_many", origins, directions, most, radius, near, refused="keep")
        refused = [at for at, answer in enumerate(case["answer"]) if "refused" in answer]
        same("those refused", drills.refused, refused)
        try:
            ask(owner, "drill_many", origins, directions, most, radius, near)
            same("no drill was refused", refused, [])
        except Refused as why:
            same("the first refused", why.ray, refused[0])
        found = []
        for at in range(len(drills)):
            try:
                touched = drills[at]
                same("a triangle", drills.triangles[at], drills.NO_TRIANGLE if touched is None else touched)
                found.append("none" if touched is None else {"touched": touched})
            except Refused as why:
                found.append({"refused": why.number})
        return found

    def Mesh_drill_many(self, case):
        return self.drilled_many(self.mesh(case["mesh"]), case)

    def LargeMesh_drill_many(self, case):
        return self.drilled_many(self.large(case), case)

    def Drill_fault(self, case):
        """What a refusal of the drill says; a drill has no type of its own."""
        *ray, radius = case["drill"]
        try:
            self.mesh("square of 4").drill(ray_of(ray), number(radius))
        except Refused as why:
            return why.fault or ""
        return ""

    # ---- records, files, facts

    def convert(self, method, case):
        try:
            return ask(probe_rays, method, bytes.fromhex(case["record"])).hex()
        except Refused as why:
            return {"refused": why.number}

    def record_to_short(self, case):
        return self.convert("record_to_short", case)

    def record_to_long(self, case):
        return self.convert("record_to_long", case)

    def stl(self, case):
        path = self.folder / "case.stl"
        path.write_bytes(bytes.fromhex(case["file"]))
        try:
            vertices, triangles = ask(probe_rays, "read_stl", path, most=None)
        except StlError:
            return "error"
        for mesh in (ask(Mesh, "from_stl", path), ask(LargeMesh, "from_stl", path)):
            same("its triangles", [part for row in mesh.triangles.tolist() for part in row], list(triangles))
            same("its vertices", [bits(part) for row in mesh.vertices.tolist() for part in row], [bits(part) for part in vertices])
        return {"vertices": [bits(part) for part in vertices], "triangles": list(triangles)}

    def bounds(self, case):
        found = ask(probe_rays, "bounds", floats(case["vertices"]))
        return "none" if found is None else [bits(part) for end in found for part in end]

    def open_edges(self, case):
        return ask(probe_rays, "open_edges", case["triangles"])

    def shells(self, case):
        return ask(probe_rays, "shells", case["triangles"])

    def version(self, case):
        same("VERSION", read(probe_rays, "VERSION"), case["answer"])
        return ask(probe_rays, "version")

    # ---- rays and refusals

    def Ray_toward(self, case):
        origin, direction, most = floats(case["origin"]), floats(case["direction"]), number(case["maximum"])
        near = ask(Ray, "toward", origin, direction, most, near_distance=0.5)
        same("near", near.near_distance, 0.5)
        return [bits(part) for part in ask(ask(Ray, "toward", origin, direction, most), "numbers")]

    def Ray_at(self, case):
        return [bits(part) for part in ask(ray_of(case["ray"]), "at", number(case["distance"]))]

    def Ray_fault(self, case):
        ray = ray_of(case["ray"])
        found = ask(ray, "fault") or ""
        try:
            probe_rays.ray_plane(ray, (0, 0, 1), 0)
            said = ""
        except Refused as why:
            said = why.fault
        same("the refusal's words", said, found)
        return found

    def Refusal(self, case):
        said = str(Refused(case["number"]))
        start, end = f"refused {case['number']}, ", ": "
        if not said.startswith(start) or end not in said:
            raise Wrong(said)
        return said[len(start) :].split(end)[0]

    # what the module does not have; a constructor asks for a mesh's numbers
    LACKS = {"LargeMesh.cast_all", "mesh_has_numbers"}

    def run(self, cases):
        global current
        ran = 0
        for case in cases:
            if case["call"] in self.LACKS:
                continue
            current = case
            method = getattr(self, case["call"].replace(".", "_"), None)
            if method is None:
                raise Wrong("the runner has no such call")
            same("the answer", method(case), case["answer"])
            ran += 1
        return ran


def public_methods():
    """Every public name of the module with the parameters that it takes; of a class its methods and properties too."""
    for name in probe_rays.__all__:
        found = getattr(probe_rays, name)
        if not (inspect.isclass(found) or inspect.isfunction(found)):
            yield name, set()
            continue
        if name not in NOT_CALLED:
            yield name, set(inspect.signature(found).parameters)
        if inspect.isclass(found):
            for method, value in vars(found).items():
                if method.startswith("_") or not isinstance(value, (property, classmethod, staticmethod)) and not inspect.isfunction(value):
                    continue
                is_property = isinstance(value, property)
                parameters = {} if is_property else inspect.signature(getattr(found, method)).parameters
                yield f"{name}.{method}", set(parameters) - {"self"}


def main():
    if len(sys.argv) != 3:
        sys.exit(__doc__)
    given = json.loads(pathlib.Path(sys.argv[1]).read_text())
    try:
        ran = Runner(given["meshes"], pathlib.Path(sys.argv[2])).run(given["cases"])
    except Wrong as why:
        case = {what: value for what, value in current.items() if what in ("call", "why", "mesh")}
        sys.exit(f"error: Python: {case}: {why}")
    methods = dict(public_methods())
    for name, parameters in methods.items():
        if name not in asked:
            sys.exit(f"error: Python: no case calls {name}: add one (differential/src/conformance)")
        if parameters - asked[name]:
            sys.exit(f"error: Python: no case gives {name} its {sorted(parameters - asked[name])}")
    print(f"{ran} cases, {len(methods)} methods")


if __name__ == "__main__":
    main()
