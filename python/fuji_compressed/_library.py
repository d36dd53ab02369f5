"""Finds and declares the shared library. FUJI_COMPRESSED_LIBRARY names another file."""

import ctypes
import ctypes.util
import os
import pathlib

SONAME = "libfuji_compressed.so.0"

version = "0.1.0"


class Record(ctypes.Structure):
    """A record of statistics, as `fuji_record` in fuji_compressed.h."""

    _fields_ = [("sum", ctypes.c_uint32), ("n", ctypes.c_uint32)]


def _places():
    named = os.environ.get("FUJI_COMPRESSED_LIBRARY")
    if named:
        yield named
        return
    here = pathlib.Path(__file__).resolve().parent
    yield str(here / SONAME)  # beside this module
    for up in here.parents:  # installed: PREFIX/lib; in the source tree: target/shared
        yield str(up / SONAME)
        yield str(up / "lib" / SONAME)
        yield str(up / "target" / "shared" / SONAME)
    yield SONAME
    found = ctypes.util.find_library("fuji_compressed")
    if found:
        yield found


def _load() -> ctypes.CDLL:
    for place in _places():
        if os.sep in place and not os.path.exists(place):
            continue
        try:
            return ctypes.CDLL(place)
        except OSError:
            if "FUJI_COMPRESSED_LIBRARY" in os.environ:
                raise
    raise ImportError(f"{SONAME} was not found: install it (./install), or let FUJI_COMPRESSED_LIBRARY name it")


def _declare(loaded: ctypes.CDLL) -> ctypes.CDLL:
    size, number = ctypes.c_size_t, ctypes.c_uint32
    bytes_, samples = ctypes.POINTER(ctypes.c_uint8), ctypes.POINTER(ctypes.c_uint16)
    sizes, numbers, records = ctypes.POINTER(size), ctypes.POINTER(number), ctypes.POINTER(Record)
    scratch = [samples, size, records, size]
    calls = {
        "fuji_parse": [bytes_, size, sizes, sizes],
        "fuji_open": [bytes_, size, sizes, sizes],
        "fuji_decode_region": [bytes_, size, size, size, size, size, bytes_, samples, size, *scratch, sizes],
        "fuji_read_block": [bytes_, size, size, *scratch, sizes, sizes],
        "fuji_bad_code": [bytes_, size, size, sizes, sizes],
        "fuji_read_set": [bytes_, size, size, samples, size, *scratch, sizes, sizes],
        "fuji_tighten": [bytes_, size, bytes_, size, samples, size, *scratch, sizes, sizes],
        "fuji_lossy_copy": [bytes_, size, bytes_, size, bytes_, size, samples, size, *scratch, sizes, sizes],
        "fuji_short_codes": [number, number, number, numbers, size, sizes, sizes],
    }
    for name, types in calls.items():
        function = getattr(loaded, name)
        function.argtypes, function.restype = types, None
    return loaded


library = _declare(_load())
