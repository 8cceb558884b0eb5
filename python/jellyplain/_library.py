"""The shared library: where it is looked for, its functions as c/jellyplain.h declares them, and the check of version and layout at
loading.
"""
from __future__ import annotations

import ctypes
import os
import threading
from typing import Any, Dict, List, Optional, Tuple

from ._version import __version__

MAJOR = int(__version__.split(".")[0])
LAYOUT = 3
SONAME = "libjellyplain.so.%d" % MAJOR
VARIABLE = "JELLYPLAIN_LIBRARY"

MOVES, BOXES, WINDOWS, BOOMS, ROWS, FILE_POSES, TEXT = 31, 16, 63, 8, 256, 559, 4161

Point = ctypes.c_float * 3
Box = ctypes.c_float * 6
Halves = ctypes.c_float * 32
Counts = ctypes.c_uint32 * 3
Rows = ctypes.c_float * 180
Moves = Rows * MOVES


class PoseStruct(ctypes.Structure):
    _fields_ = [("time", ctypes.c_float), ("matrix", ctypes.c_float * 16), ("pad", ctypes.c_float)]


class Run(ctypes.Structure):
    _fields_ = [("place", ctypes.c_size_t), ("length", ctypes.c_size_t), ("refusal", ctypes.c_uint8)]


class Held(ctypes.Structure):
    _fields_ = [("poses", ctypes.c_size_t), ("first", ctypes.c_float), ("last", ctypes.c_float), ("rigid", ctypes.c_bool), ("refusal", ctypes.c_uint8)]


class Count(ctypes.Structure):
    """jellyplain_windows, jellyplain_file_read, jellyplain_written and jellyplain_reached: a count or a length, and a refusal."""

    _fields_ = [("count", ctypes.c_size_t), ("refusal", ctypes.c_uint8)]


NUMBER, RIGID, SIZE, DEPTH, FLOAT, ARRAY = ctypes.c_uint8, ctypes.c_bool, ctypes.c_size_t, ctypes.c_uint32, ctypes.c_float, ctypes.c_void_p
# What each function returns, and its arguments; arrays and structs go as pointers.
FUNCTIONS: Dict[str, Tuple[Any, List[Any]]] = {
    "layout": (ctypes.c_uint32, []),
    "version": (ctypes.c_uint32, []),
    "build": (NUMBER, [RIGID, ARRAY, ARRAY, ARRAY]),
    "point": (NUMBER, [ARRAY, FLOAT, ARRAY, ARRAY]),
    "pad": (NUMBER, [ARRAY, FLOAT, ARRAY]),
    "interpolate": (NUMBER, [ARRAY, FLOAT, ARRAY]),
    "bound_point_motion": (NUMBER, [ARRAY, ARRAY, ARRAY, ARRAY]),
    "motion_bounds": (NUMBER, [ARRAY, ARRAY, ARRAY, ARRAY]),
    "cover": (NUMBER, [ARRAY, ARRAY, DEPTH, ARRAY]),
    "build_moves": (NUMBER, [RIGID, ARRAY, SIZE, ARRAY]),
    "moves_join": (NUMBER, [ARRAY, SIZE, ARRAY, SIZE, ARRAY]),
    "refused_run": (Run, [RIGID, ARRAY, SIZE]),
    "moves_point": (NUMBER, [ARRAY, SIZE, FLOAT, ARRAY, ARRAY]),
    "moves_pad": (NUMBER, [ARRAY, SIZE, FLOAT, ARRAY]),
    "moves_interpolate": (NUMBER, [ARRAY, SIZE, FLOAT, ARRAY]),
    "moves_held": (Held, [ARRAY, SIZE]),
    "moves_pose": (NUMBER, [ARRAY, SIZE, SIZE, ARRAY]),
    "moves_points": (NUMBER, [ARRAY, SIZE, ARRAY, SIZE, ARRAY, ARRAY, SIZE]),
    "moves_cover": (NUMBER, [ARRAY, SIZE, ARRAY, DEPTH, ARRAY]),
    "moves_try": (NUMBER, [ARRAY, SIZE, SIZE, ARRAY, ARRAY, DEPTH, ARRAY]),
    "moves_covers": (NUMBER, [ARRAY, SIZE, ARRAY, SIZE, DEPTH, ARRAY, ARRAY]),
    "moves_window_cover": (NUMBER, [ARRAY, SIZE, ARRAY, DEPTH, FLOAT, FLOAT, ARRAY]),
    "moves_windows": (Count, [ARRAY, SIZE, ARRAY, SIZE, ARRAY, ARRAY, DEPTH, ARRAY, SIZE, ARRAY]),
    "read_file": (Count, [ARRAY, SIZE, ARRAY, ARRAY]),
    "write_file": (Count, [ARRAY, SIZE, ARRAY, ARRAY, SIZE]),
    "day": (NUMBER, [ARRAY, ARRAY, SIZE, ARRAY]),
    "reached_rows": (Count, [ARRAY, ARRAY, SIZE, ARRAY]),
    "cut": (NUMBER, [ARRAY, ctypes.c_uint32, ARRAY]),
    "moves_reach": (NUMBER, [ARRAY, SIZE, ARRAY, SIZE, DEPTH, ARRAY, SIZE, ARRAY, SIZE, ARRAY]),
}


class LibraryError(ImportError):
    """The shared library is not there, can't be loaded, or is one of another version; `path` says which file was tried."""


class _Functions:
    """The functions of a shared library that fits this package, each as an attribute without its prefix."""

    def __init__(self, path: str) -> None:
        try:
            # ctypes gives up the interpreter's lock while a function runs.
            loaded = ctypes.CDLL(path)
        except OSError as problem:
            raise LibraryError("%s can't be loaded as a shared library: %s" % (path, problem), path=path) from None
        for name, (result, arguments) in FUNCTIONS.items():
            try:
                function = getattr(loaded, "jellyplain_" + name)
            except AttributeError:
                raise LibraryError("%s has no jellyplain_%s: it is another library, or an older one" % (path, name), path=path) from None
            function.restype, function.argtypes = result, arguments
            setattr(self, name, function)
        layout, version = loaded.jellyplain_layout(), loaded.jellyplain_version()
        if layout != LAYOUT or version // 10000 != MAJOR:
            raise LibraryError("%s has version %d and layout %d, and this package is for version %d.x and layout %d"
                               % (path, version, layout, MAJOR, LAYOUT), path=path)
        self.path = path

    def __getattr__(self, name: str) -> Any:
        raise AttributeError("the library has no jellyplain_%s" % name)


def _beside() -> List[str]:
    """The package's own folder and, where the package stands in the repository, target/lib, which `make` writes to."""
    package = os.path.dirname(os.path.abspath(__file__))
    root = os.path.dirname(os.path.dirname(package))
    repository = [os.path.join(root, "target", "lib", SONAME)] if os.path.exists(os.path.join(root, "c", "jellyplain.h")) else []
    return [os.path.join(package, SONAME), *repository]


def _found() -> str:
    """A path, or the bare name where the system's loader is to look for it."""
    named = os.environ.get(VARIABLE)
    if named:
        return os.path.abspath(named)
    return next((path for path in _beside() if os.path.exists(path)), SONAME)


_lock = threading.Lock()
_loaded: Optional[_Functions] = None


def load(path: Optional[str] = None) -> str:
    """Loads the library now, not at the first call, and answers the path that it was loaded from.

    It is the file at `path`; or else what the environment variable JELLYPLAIN_LIBRARY names; or else libjellyplain.so.2 in the package's
    own folder, in target/lib of the repository that the package stands in, or wherever the system's loader finds it (LD_LIBRARY_PATH,
    ldconfig). What is named and not there is not looked for elsewhere.

    Version and layout are looked at once, here. Raises `LibraryError`, an ImportError, where there is no library that fits, and
    RuntimeError where another path has been loaded before.
    """
    global _loaded
    with _lock:
        wanted = os.path.abspath(path) if path is not None else None
        if _loaded is None:
            place = wanted or _found()
            if place != SONAME and not os.path.exists(place):
                raise LibraryError("the library %s is not there: run `make` in the repository's root, or let %s name %s"
                                   % (place, VARIABLE, SONAME), path=place)
            try:
                _loaded = _Functions(place)
            except LibraryError as problem:
                if place != SONAME:
                    raise
                raise LibraryError("%s; it is not in %s either: run `make` in the repository's root, or let %s name it"
                                   % (problem, " or ".join(map(os.path.dirname, _beside())), VARIABLE), path=place) from None
        elif wanted is not None and wanted != _loaded.path:
            raise RuntimeError("the library %s has been loaded, and a process has one: %s is another" % (_loaded.path, wanted))
        return _loaded.path


def functions() -> Any:
    """The library's functions; the first call loads it."""
    if _loaded is None:
        load()
    return _loaded
