"""Archives that are the same bytes for the same files: sorted, of one owner and one time."""
import gzip
import io
import tarfile
import zipfile
from typing import NamedTuple

EARLIEST = (1980, 1, 1, 0, 0, 0)  # the earliest time that a zip file can tell


class File(NamedTuple):
    content: bytes
    mode: int = 0o644


def tarred(files, time):
    """A compressed tar file of these files, by their paths, and of the folders that they are in."""
    buffer = io.BytesIO()
    # The name and the time of what is compressed are no part of it.
    with gzip.GzipFile(fileobj=buffer, mode="wb", filename="", mtime=0) as compressed:
        with tarfile.open(fileobj=compressed, mode="w", format=tarfile.PAX_FORMAT) as archive:
            for path in sorted({*files, *folders(files)}):
                archive.addfile(*member(path, files.get(path), time))
    return buffer.getvalue()


def member(path, file, time):
    """An entry of a tar file, and what it holds. What is no file is a folder."""
    entry = tarfile.TarInfo(path)
    entry.mtime, entry.uname, entry.gname = time, "root", "root"
    if file is None:
        entry.type, entry.mode = tarfile.DIRTYPE, 0o755
        return entry, None
    entry.size, entry.mode = len(file.content), file.mode
    return entry, io.BytesIO(file.content)


def folders(files):
    """Each folder that one of the files is in."""
    parts = [path.split("/")[:-1] for path in files]
    return {"/".join(names[:length]) for names in parts for length in range(1, len(names) + 1)}


def zipped(files):
    """A zip file of these bytes, by their paths and in their order."""
    buffer = io.BytesIO()
    with zipfile.ZipFile(buffer, "w") as archive:
        for path, content in files.items():
            entry = zipfile.ZipInfo(path, EARLIEST)
            entry.compress_type, entry.external_attr = zipfile.ZIP_DEFLATED, 0o644 << 16
            archive.writestr(entry, content)
    return buffer.getvalue()
