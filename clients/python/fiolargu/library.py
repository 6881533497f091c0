"""The C library, loaded by ctypes: its calls, and the bytes that they read.

The library is the file that FIOLARGU_LIBRARY names, or else `libfiolargu.so.0` where the loader finds it, or else in the
folder lib/ of the prefix or of the repository that this package lies in, where no other user can write.
"""

from __future__ import annotations

import ctypes
import functools
import os
import stat
from typing import TYPE_CHECKING, Any, Callable, Iterator, List, Optional, Tuple, Union

from .errors import LibraryMissing, refusal

if TYPE_CHECKING:
    import array
    import mmap

    # What has bytes that are read without a copy.
    Bytes = Union[bytes, bytearray, memoryview, mmap.mmap, "array.array[Any]"]

NAME = "libfiolargu.so.0"
# The first version that has the calls below. Later versions with the same first number have them too.
_VERSION = (0, 2)
NO_LITERAL = 0xFFFFFFFF


class Handle(ctypes.Structure):
    """A plan or a stream of the library."""

    _fields_ = [("at", ctypes.c_void_p)]


class Piece(ctypes.Structure):
    """Bytes that the library reads."""

    _fields_ = [("at", ctypes.c_void_p), ("len", ctypes.c_size_t)]


class Info(ctypes.Structure):
    """What a plan has."""

    _fields_ = [
        ("literals", ctypes.c_uint64), ("longest", ctypes.c_uint64), ("cost", ctypes.c_uint64),
        ("flags", ctypes.c_uint32), ("runs", ctypes.c_uint32),
    ]


class _PyBuffer(ctypes.Structure):
    """Py_buffer of the C API of Python. It is needed because `from_buffer` refuses bytes that are read alone."""

    _fields_ = [
        ("buf", ctypes.c_void_p), ("obj", ctypes.c_void_p), ("len", ctypes.c_ssize_t), ("itemsize", ctypes.c_ssize_t),
        ("readonly", ctypes.c_int), ("ndim", ctypes.c_int), ("format", ctypes.c_char_p), ("shape", ctypes.c_void_p),
        ("strides", ctypes.c_void_p), ("suboffsets", ctypes.c_void_p), ("internal", ctypes.c_void_p),
    ]


_get_buffer = ctypes.pythonapi.PyObject_GetBuffer
_get_buffer.argtypes = [ctypes.py_object, ctypes.POINTER(_PyBuffer), ctypes.c_int]
_release_buffer = ctypes.pythonapi.PyBuffer_Release
_release_buffer.argtypes = [ctypes.POINTER(_PyBuffer)]
_release_buffer.restype = None
# Stands for an empty text, whose address the library wants too.
_NOTHING = ctypes.create_string_buffer(1)


class Borrowed:
    """An object's bytes, which stay where they are until `release`. TypeError where it has none, BufferError where they do not
    lie in one row."""

    __slots__ = ("at", "size", "_view")

    def __init__(self, data: Bytes) -> None:
        self._view: Optional[_PyBuffer] = None
        self.at: Union[bytes, int]
        """What a call takes as the address. ctypes passes the address of `bytes` itself, which is faster."""
        if isinstance(data, bytes):
            self.at, self.size = data, len(data)
            return
        if isinstance(data, str):
            raise TypeError("bytes are searched, not a str: encode it")
        view = _PyBuffer()
        _get_buffer(data, ctypes.byref(view), 0)
        self._view = view
        self.at, self.size = view.buf or ctypes.addressof(_NOTHING), view.len

    def address(self) -> int:
        """The address as a number."""
        return self.at if isinstance(self.at, int) else address_of(self.at)

    def release(self) -> None:
        """Lets the object go. It may move its bytes again."""
        if self._view is not None:
            _release_buffer(ctypes.byref(self._view))
            self._view = None

    def __enter__(self) -> Borrowed:
        return self

    def __exit__(self, *_: object) -> None:
        self.release()

    def __del__(self) -> None:
        self.release()


def address_of(data: bytes) -> int:
    """Where the bytes lie."""
    return ctypes.cast(ctypes.c_char_p(data), ctypes.c_void_p).value or 0


def _near() -> Iterator[str]:
    """Where the library lies near this package: in its repository, or in the prefix that it was installed into. Files
    that another user could have put there are passed over, as in /tmp/lib."""
    folder = os.path.dirname(os.path.abspath(__file__))
    for _ in range(6):
        folder = os.path.dirname(folder)
        lib = os.path.join(folder, "lib")
        path = os.path.join(lib, NAME)
        if all(map(_is_ours, (folder, lib, path))):
            yield path


def _is_ours(path: str) -> bool:
    """Whether a file or folder is there, belongs to this user or to root, and not everybody can write it."""
    try:
        found = os.stat(path)
    except OSError:
        return False
    return found.st_uid in (0, os.geteuid()) and not found.st_mode & stat.S_IWOTH


def _loaded(given: Optional[str]) -> ctypes.CDLL:
    """The library's file, opened: the one that was given, or the one that is found."""
    cause: Optional[OSError] = None
    for path in [given] if given else [NAME, *_near()]:
        try:
            return ctypes.CDLL(path)
        except OSError as fault:
            cause = fault
    hint = "" if given else " (FIOLARGU_LIBRARY may name its file)"
    raise LibraryMissing(f"the C library cannot be loaded: {cause}{hint}") from cause


_PLAN, _STREAM = ctypes.POINTER(Handle), ctypes.POINTER(Handle)
_SIZE, _SIZES, _FLAGS, _AT = ctypes.c_size_t, ctypes.POINTER(ctypes.c_size_t), ctypes.c_uint32, ctypes.c_void_p
_POSITION, _POSITIONS = ctypes.c_uint64, ctypes.POINTER(ctypes.c_uint64)
# The words of each call that answers a status.
_CALLS = {
    "plan_new": [_PLAN, _AT, _SIZE, _FLAGS, _AT, _SIZE, _SIZES],
    "plan_of_lines": [_PLAN, _AT, _SIZE, _FLAGS, _SIZES],
    "plan_load": [_PLAN, _AT, _SIZE, _SIZE, _SIZES],
    "plan_save": [_PLAN, _AT, _SIZE, _SIZES],
    "plan_share": [_PLAN, _PLAN],
    "plan_info": [_PLAN, ctypes.POINTER(Info)],
    "plan_literal": [_PLAN, _SIZE, _AT, _SIZE, _SIZES],
    "scan": [_PLAN, _AT, _SIZE, _SIZES, _AT, _SIZE, _SIZES],
    "next": [_PLAN, _AT, _SIZE, _SIZE, _SIZES],
    "stream_open": [_PLAN, _STREAM, _POSITION],
    "stream_feed": [_STREAM, _AT, _SIZE, _SIZES, _AT, _SIZE, _SIZES],
    "stream_place": [_STREAM, _POSITIONS],
    "stream_copy": [_STREAM, _STREAM],
    "stream_reset": [_STREAM, _POSITION],
    "check": [_AT, _SIZE, _SIZES, _SIZES],
}


class Library:
    """The calls of the library, each under its name without `fiolargu_`, as a function that answers the status."""

    def __init__(self, file: ctypes.CDLL) -> None:
        try:
            version = file.fiolargu_version
            version.argtypes, version.restype = [], ctypes.c_uint32
            self.version: Tuple[int, int, int] = _numbers(version())
            for name, words in _CALLS.items():
                call = getattr(file, f"fiolargu_{name}")
                call.argtypes, call.restype = words, ctypes.c_int32
                setattr(self, name, call)
            for name, handle in ("plan_free", _PLAN), ("stream_close", _STREAM):
                call = getattr(file, f"fiolargu_{name}")
                call.argtypes, call.restype = [handle], None
                setattr(self, name, call)
        except AttributeError as fault:
            raise LibraryMissing(f"{file._name} is another library, or of another version: {fault}") from fault
        if self.version[0] != _VERSION[0] or self.version[:2] < _VERSION:
            raise LibraryMissing(f"{file._name} has version {_dotted(self.version)}, and {_dotted(_VERSION)} is needed")

    if TYPE_CHECKING:
        def __getattr__(self, name: str) -> Callable[..., int]: ...


def _numbers(version: int) -> Tuple[int, int, int]:
    """The three numbers of a version."""
    return version // 1000000, version // 1000 % 1000, version % 1000


def _dotted(numbers: Tuple[int, ...]) -> str:
    """Numbers of a version as users write them."""
    return ".".join(map(str, numbers))


@functools.lru_cache(maxsize=None)
def _library(given: Optional[str]) -> Library:
    return Library(_loaded(given))


def library() -> Library:
    """The library, which is loaded at the first call. LibraryMissing where it cannot be."""
    return _library(os.environ.get("FIOLARGU_LIBRARY"))


def answered(status: int, detail: int = 0) -> None:
    """Raises the error of a status. Does nothing for success."""
    if status != 0:
        raise refusal(status, detail)


def pieces(patterns: List[bytes]) -> ctypes.Array[Piece]:
    """The patterns as the library takes them. They are to live as long as the array."""
    found = (Piece * max(len(patterns), 1))()
    for piece, pattern in zip(found, patterns):
        piece.at, piece.len = address_of(pattern), len(pattern)
    return found
