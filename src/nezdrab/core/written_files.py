"""The files that explore writes: each is there whole or not at all, and takes no other's place."""
import fcntl
import os
import stat
import time
from contextlib import suppress
from io import FileIO
from pathlib import Path
from typing import Iterable, Optional

from .errors import ExploreError
from .values import dataclass, field

LOCK_SECONDS = 1.0
# A file as it was left, to tell whether it is still that file.
Stamp = tuple[int, int, int, int]


def stamp_of(found: os.stat_result) -> Stamp:
    return found.st_dev, found.st_ino, found.st_size, found.st_mtime_ns


def is_locked_here(handle: int) -> bool:
    """Locks a file; false if another explore has it. A child that is just being started still holds
    what was open before, until it runs its program: so the lock is tried for a moment."""
    for seconds in (0.0, *[LOCK_SECONDS / 20] * 20):
        time.sleep(seconds)
        with suppress(OSError):
            fcntl.flock(handle, fcntl.LOCK_EX | fcntl.LOCK_NB)
            return True
    return False


def usual_mode() -> int:
    """The mode of a new file."""
    mask = os.umask(0o77)
    os.umask(mask)
    return 0o666 & ~mask


def replaced(target: Path, found: Optional[os.stat_result], parts: Iterable[bytes]) -> Stamp:
    """Writes the file beside its place, and then puts it there. Owner and mode stay."""
    import tempfile  # which takes a while to read

    handle, beside = tempfile.mkstemp(prefix=".explore-", dir=target.parent)
    try:
        with open(handle, "wb") as file:
            file.writelines(parts)
            file.flush()
            if found is not None:
                with suppress(OSError):
                    os.fchown(handle, found.st_uid, found.st_gid)
            os.fchmod(handle, stat.S_IMODE(found.st_mode) if found else usual_mode())
            os.fsync(handle)
            stamp = stamp_of(os.fstat(handle))
        os.replace(beside, target)
    except BaseException:
        with suppress(OSError):
            os.unlink(beside)
        raise
    return stamp


def write_to(device: FileIO, data: bytes) -> None:
    while data:
        data = data[device.write(data) :]


@dataclass
class Output:
    """Whether what writes now may overwrite files that this run hasn't written, how that is said,
    and those that it has written."""

    way: str = ""
    overwrites: bool = False
    left: dict[Path, Stamp] = field(default_factory=dict)

    def target(self, path: Path) -> tuple[Path, Optional[os.stat_result]]:
        """What the path names, through links, and what is there. An error if it mustn't be
        written."""
        target = Path(os.path.realpath(path))
        try:
            found = path.stat()
        except FileNotFoundError:
            return target, None
        except OSError as error:
            raise ExploreError(f"{path} can't be written: {error.strerror}") from error
        if stat.S_ISDIR(found.st_mode):
            raise ExploreError(f"{path} is a folder")
        if not stat.S_ISREG(found.st_mode):
            return path, found
        if not found.st_mode & 0o222 or not os.access(target, os.W_OK):
            raise ExploreError(f"{path} is read-only")
        if not self.overwrites and self.left.get(target) != stamp_of(found):
            raise ExploreError(f"{path} is there already; {self.way} overwrites it")
        return target, found

    def write(self, path: Path, data: bytes) -> None:
        """Writes a file whole, or leaves what was there. Devices and pipes are written to."""
        self.write_parts(path, [data])

    def write_parts(self, path: Path, parts: Iterable[bytes]) -> None:
        """The same of a file that comes in parts, of which none is kept."""
        target, found = self.target(path)
        try:
            if found is None or stat.S_ISREG(found.st_mode):
                self.left[target] = replaced(target, found, parts)
                return
            with open(target, "wb", buffering=0) as device:
                for part in parts:
                    write_to(device, part)
        except OSError as error:
            raise ExploreError(f"{path} can't be written: {error.strerror}") from error


OUTPUT = Output()


def write_whole(path: Path, text: str) -> None:
    """Writes a text file, as `Output.write`."""
    OUTPUT.write(path, text.encode("utf-8", "surrogateescape"))
