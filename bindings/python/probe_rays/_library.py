"""The shared library and its calls. The calls, codes and refusals are read from the header, so they are stated only there."""
import ctypes
import os
import pathlib
import re

# an installed folder (lib/python/probe_rays in it), or the repository (bindings/python/probe_rays)
ROOT = pathlib.Path(__file__).resolve().parents[3]

KINDS = {"double": ctypes.c_double, "size_t": ctypes.c_size_t, "uint32_t": ctypes.c_uint32}


def _header():
    text = (ROOT / "include" / "probe_rays.h").read_text()
    return re.sub(r"/\*.*?\*/", "", text, flags=re.S)


def declared(text):
    """Each call of the header with the types of its parameters; every pointer is a void pointer."""
    calls = {}
    for name, parameters in re.findall(r"^uint32_t (probe_\w+)\(([^)]*)\);", text, re.M):
        words = [] if parameters.strip() == "void" else parameters.split(",")
        calls[name] = [ctypes.c_void_p if "*" in word else KINDS[word.split()[0]] for word in words]
    return calls


def _loaded(calls_version):
    name = f"libprobe_rays.so.{calls_version}"
    named = os.environ.get("PROBE_RAYS_LIBRARY")
    # the file that is named; otherwise that of this folder, or one that the system finds
    candidates = [named] if named else [str(ROOT / "lib" / name), str(ROOT / "target" / "install" / "lib" / name), name]
    said = []
    for candidate in candidates:
        try:
            return ctypes.CDLL(candidate)
        except OSError as why:
            said.append(str(why))
    raise ImportError(
        "\n".join(said) + "\nthe shared library is not found: run `tools/install PREFIX` in the repository, or unpack a release"
        " archive, and put PREFIX/lib/python on PYTHONPATH; or set PROBE_RAYS_LIBRARY to the library's file"
    )


_text = _header()
CODES = {name: int(number) for name, number in re.findall(r"^#define PROBE_(\w+) (\d+)u *$", _text, re.M)}
VERSION = CODES.pop("VERSION")
REFUSALS = {number: name[8:] for name, number in CODES.items() if name.startswith("REFUSED_")}
HIT, NONE, YES, NO, DONE = (CODES[name] for name in ("HIT", "NONE", "YES", "NO", "DONE"))
CLEAR, POSSIBLE = CODES["CLEAR"], CODES["POSSIBLE"]
MAX_COUNT = CODES["MAX_TRIANGLES"]

library = _loaded(VERSION)
library.probe_version.restype = ctypes.c_uint32


def version():
    """The version of the library's calls. It is VERSION if the header belongs to the library."""
    return library.probe_version()


if version() != VERSION:
    raise ImportError(f"the library's calls have version {version()}, but those of the header have version {VERSION}")


def untyped(name):
    """A call that takes ctypes values as they are, for arguments that are made once. ctypes converts none of them."""
    call = library[name]
    call.restype = ctypes.c_uint32
    return call


for _name, _kinds in declared(_text).items():
    _call = getattr(library, _name, None)
    if _call is None:
        raise ImportError(f"the library has no {_name}, but the header has: they are from different releases")
    _call.argtypes, _call.restype = _kinds, ctypes.c_uint32
