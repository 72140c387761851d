"""Compressed day files."""
from __future__ import annotations

import bz2
import gzip
import lzma
import subprocess

# The first bytes of compressed files, by format.
READERS = {b"\x1f\x8b": gzip.decompress, b"BZh": bz2.decompress, b"\xfd7zXZ\0": lzma.decompress}
ZSTD = b"\x28\xb5\x2f\xfd"


def is_packed(beginning: bytes) -> bool:
    """Returns whether a file that begins with these bytes is compressed. A day file never begins with them, since its first block would
    be longer than any message."""
    return beginning.startswith((*READERS, ZSTD))


def unpacked(data: bytes) -> bytes:
    """Returns the contents of compressed bytes."""
    if data.startswith(ZSTD):
        return _zstd(data)
    return next(read for beginning, read in READERS.items() if data.startswith(beginning))(data)


def _zstd(data: bytes) -> bytes:
    """Unpacks with the module of Python 3.14, the package zstandard or the command zstd, whichever is installed."""
    try:
        from compression import zstd  # type: ignore[import-not-found]

        return bytes(zstd.decompress(data))
    except ImportError:
        pass
    try:
        import zstandard  # type: ignore[import-not-found]

        return bytes(zstandard.ZstdDecompressor().stream_reader(data).read())
    except ImportError:
        pass
    try:
        return subprocess.run(["zstd", "--decompress", "--stdout", "--quiet"], input=data, stdout=subprocess.PIPE, check=True).stdout
    except FileNotFoundError:
        raise ModuleNotFoundError("to read a .zst file, install the package zstandard or the command zstd") from None
