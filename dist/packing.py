"""Packs the files of an archive, and unpacks them: the same bytes for the same files."""
import gzip
import io
import tarfile
import zlib
from typing import NamedTuple


class File(NamedTuple):
    """A file of an archive."""

    data: bytes
    is_executable: bool = False


class Broken(Exception):
    """Why a file is no archive of ours."""


def pack(path, folder, files, time):
    """Writes an archive, with all its files in one folder, in order, of one time and nobody's."""
    with open(path, "wb") as file, gzip.GzipFile("", "wb", 9, file, time) as packed:
        with tarfile.open(fileobj=packed, mode="w", format=tarfile.USTAR_FORMAT) as tar:
            for name in sorted(files):
                entry = tarfile.TarInfo(f"{folder}/{name}")
                entry.size, entry.mtime = len(files[name].data), time
                entry.mode = 0o755 if files[name].is_executable else 0o644
                tar.addfile(entry, io.BytesIO(files[name].data))


def unpacked(path):
    """The folder of an archive and its files by name. It has plain files alone, all in that folder."""
    files = {}
    try:
        with tarfile.open(path, "r:gz") as tar:
            for entry in tar:
                folder, _, name = entry.name.partition("/")
                if not entry.isreg() or not name or name.startswith("/") or ".." in name.split("/"):
                    raise Broken(f"{entry.name} is no plain file in its folder")
                files[folder, name] = File(tar.extractfile(entry).read(), bool(entry.mode & 0o100))
    except (tarfile.TarError, EOFError, OSError, zlib.error) as reason:
        raise Broken(f"it can't be unpacked: {reason}") from None
    folders = {folder for folder, _ in files}
    if len(folders) != 1:
        raise Broken(f"it has {len(folders)} folders")
    return folders.pop(), {name: file for (_, name), file in files.items()}


def sums_in(text):
    """The sums that a text such as sha256sum prints has, by name."""
    rows = (line.partition("  ") for line in text.splitlines() if "  " in line)
    return {name: its_sum for its_sum, _, name in rows}
