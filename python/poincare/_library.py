"""The library for C, loaded: its calls with their types, and its codes."""

import ctypes
import functools
import os
import pathlib
from ctypes.util import find_library

DONE = 0
REFUSED = 100
FULL = 108
NO_ROOM = 200
BAD_POOL = 201
NO_MEMORY = 202

HERE = pathlib.Path(__file__).resolve().parent
PACKED = HERE / "libpoincare.so"
BUILT = HERE.parents[1] / "c" / "out" / "libpoincare.so"

CODE, SIZE = ctypes.c_uint32, ctypes.c_size_t
PLACE, BYTES = ctypes.c_void_p, ctypes.c_char_p

# What each call takes, and what it gives.
CALLS = {
    "poincare_session_size": ([], SIZE),
    "poincare_session_align": ([], SIZE),
    "poincare_stopper_size": ([], SIZE),
    "poincare_stopper_align": ([], SIZE),
    "poincare_session_init": ([PLACE], None),
    "poincare_stopper_init": ([PLACE], None),
    "poincare_open": ([PLACE, ctypes.c_uint32], CODE),
    "poincare_close": ([PLACE], CODE),
    "poincare_line": ([PLACE, BYTES, SIZE], CODE),
    "poincare_line_within": ([PLACE, BYTES, SIZE, ctypes.c_uint64], CODE),
    "poincare_text": ([PLACE, BYTES, SIZE, ctypes.POINTER(SIZE)], CODE),
    "poincare_draw": ([PLACE, BYTES, SIZE, ctypes.POINTER(SIZE)], CODE),
    "poincare_pool": ([PLACE, ctypes.POINTER(ctypes.c_uint32), ctypes.POINTER(ctypes.c_uint32)], CODE),
    "poincare_stopper_open": ([PLACE, PLACE], CODE),
    "poincare_stop": ([PLACE], CODE),
    "poincare_clear": ([PLACE], CODE),
    "poincare_stopper_close": ([PLACE], CODE),
    "poincare_answers": ([ctypes.c_uint32, BYTES, SIZE, PLACE, SIZE, ctypes.POINTER(SIZE)], CODE),
}


class LibraryMissing(ImportError):
    """The shared object is not built, or is not where it is looked for."""


def place_of_library() -> str:
    """Where the shared object is: what POINCARE_LIBRARY names, or what the package has inside, or what `make -C c` built, or
    what is installed."""
    built = next((str(it) for it in (PACKED, BUILT) if it.exists()), None)
    place = os.environ.get("POINCARE_LIBRARY") or built or find_library("poincare")
    if not place:
        raise LibraryMissing(
            f"libpoincare.so is not built: there is no {BUILT}, and none is installed. "
            "Build it with `make -C c`, or name it in the variable POINCARE_LIBRARY."
        )
    return place


@functools.cache
def library() -> ctypes.CDLL:
    """The shared object, loaded once, when something is first asked of it."""
    place = place_of_library()
    try:
        loaded = ctypes.CDLL(place)
        for name, (takes, gives) in CALLS.items():
            call = getattr(loaded, name)
            call.argtypes, call.restype = takes, gives
    except (OSError, AttributeError) as error:
        raise LibraryMissing(f"{place} is not the library of poincare, or cannot be loaded: {error}") from None
    return loaded


class Slot:
    """Memory for a session or a stopper, at a multiple of what the library wants."""

    def __init__(self, size: int, align: int) -> None:
        self._bytes = ctypes.create_string_buffer(size + align)
        start = ctypes.addressof(self._bytes)
        self.place = start + -start % align
