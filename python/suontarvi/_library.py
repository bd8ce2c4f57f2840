"""The shared library: where it is found, and calls of it."""

from __future__ import annotations

import ctypes
import functools
import os
import pathlib
from typing import Any, Iterable

import numpy as np

from ._refused import Refused
from ._version import __version__

MAX_N = 4096
MAX_ENTRIES = 262144
MAX_SYMMETRIC_ENTRIES = 131072
# of a step of a gap
MAX_DIGITS = 50
NONE = 0xFFFFFFFF

_HERE = pathlib.Path(__file__).resolve().parent
_REPOSITORY = _HERE.parent.parent


def _path() -> pathlib.Path:
    """The file of the library: the one that SUONTARVI_SO names, or the wheel's own, or the repository's."""
    named = os.environ.get("SUONTARVI_SO")
    if named is not None:
        path = pathlib.Path(named)
        if not path.is_file():
            raise OSError(f"SUONTARVI_SO names {named}, which is no file")
        return path
    packed = _HERE / "libsuontarvi.so.0"
    if packed.is_file():
        return packed
    built = _REPOSITORY / "target" / "python" / "libsuontarvi.so"
    archive = _REPOSITORY / "target" / "staticlib" / "libsuontarvi.a"
    if not built.is_file():
        first = "" if archive.is_file() else "`tools/build.sh suontarvi` and then "
        raise OSError(f"{built} is not there: run {first}`python/build.sh`, or set SUONTARVI_SO to the shared library")
    if archive.is_file() and archive.stat().st_mtime_ns > built.stat().st_mtime_ns:
        raise OSError(f"{built} is older than {archive}: run `python/build.sh`")
    return built


def _version_of(number: int) -> str:
    return f"{number >> 16}.{number >> 8 & 255}.{number & 255}"


@functools.lru_cache(maxsize=1)
def library() -> ctypes.CDLL:
    """The shared library; its version must be that of this module."""
    path = _path()
    try:
        # without a folder in its name it would be looked for elsewhere
        loaded = ctypes.CDLL(str(path.resolve()))
    except OSError as error:
        raise OSError(f"{path} cannot be loaded: {error}") from None
    try:
        version = loaded.suontarvi_version
    except AttributeError:
        raise OSError(f"{path} has no suontarvi_version: it is older than this module") from None
    version.restype = ctypes.c_uint32
    found = _version_of(version())
    if found != __version__:
        raise OSError(f"{path} is of version {found}, and this module of {__version__}")
    return loaded


def lend(arguments: Iterable[Any]) -> list:
    """Arguments of a C call: numbers as u32 or doubles, arrays as pointer and length. The arrays must outlive them."""
    words: list = []
    for argument in arguments:
        if isinstance(argument, np.ndarray):
            if not argument.flags.c_contiguous:
                raise ValueError("an array that is lent must be contiguous")
            words += [ctypes.c_void_p(argument.ctypes.data), ctypes.c_size_t(argument.size)]
        elif isinstance(argument, float):
            words.append(ctypes.c_double(argument))
        else:
            # a number beyond u32 is beyond every limit
            words.append(ctypes.c_uint32(min(max(int(argument), 0), NONE)))
    return words


def call(name: str, *arguments: Any) -> None:
    """Raises the refusal of the call."""
    function = getattr(library(), name)
    function.restype = ctypes.c_uint32
    number = function(*lend(arguments))
    if number:
        raise Refused(number)
