"""The journal: a session on the disk that has each edit at once, so that no edit is lost with the
terminal or with the power."""
import os
import shlex
import threading
import time
from contextlib import contextmanager, suppress
from pathlib import Path
from typing import Iterator, Optional, Sequence

from .errors import ExploreError
from .in_words import counted
from .language import is_edit
from .options import LONGEST_PART, MARK, Options, option_text, options_of_words
from .values import dataclass, field
from .written_files import is_locked_here

ENDING = ".journal"
MOST_KEPT = 30
SECONDS_BETWEEN_SYNCS = 0.05
AT_THE_PROMPT = "# at the prompt"
OF_SESSION, NO_SESSION = "# session ", "none"
# Comments before the edits of a line at the prompt: the line, and the options that it changed, as
# they were before.
OF_LINE, OPTIONS_BEFORE = "# line ", "#<"
LOCKS = Path("/proc/locks")


def state_folder() -> Optional[Path]:
    """Where the history and the journals are."""
    folder = os.environ.get("XDG_STATE_HOME") or os.path.expanduser("~/.local/state")
    return Path(folder) / "nezdrab" if os.path.isabs(folder) else None


def session_line(session: Optional[object]) -> str:
    """The line of a journal that names its session."""
    return f"{OF_SESSION}{session or NO_SESSION}".replace("\n", " ")


@dataclass
class KeptStep:
    """A line at the prompt, its edits, and the lines of the options that it changed."""

    line: str
    edits: list[str] = field(default_factory=list)
    before: list[str] = field(default_factory=list)
    is_marked: bool = True  # an edit without a comment is a step by itself

    def options_before(self, path: Path) -> Optional[Options]:
        """The options before this line, if it changed them. Their paths are absolute."""
        text = option_text(MARK + it[len(OPTIONS_BEFORE) :] for it in self.before)
        try:
            words = None if text is None else shlex.split(text)
        except ValueError as error:
            raise ExploreError(f"{path} can't be read: {error}") from error
        return None if words is None else options_of_words(words, str(path), path.parent)


@dataclass
class Contents:
    """What a journal has: its session's name, the session's edits, the steps at the prompt, and
    where each edit of these ends, in bytes. What follows the last line feed was cut off."""

    session: str = NO_SESSION
    of_session: list[str] = field(default_factory=list)
    steps: list[KeptStep] = field(default_factory=list)
    ends: list[int] = field(default_factory=list)

    @property
    def edits(self) -> list[str]:
        return [edit for step in self.steps for edit in step.edits]

    @classmethod
    def of(cls, path: Path) -> "Contents":
        """What this file has. An error if it is no journal."""
        found, at = cls(), 0
        for number, line in enumerate(path.read_bytes().split(b"\n")[:-1], 1):
            at += len(line) + 1
            text = line.decode(errors="surrogateescape")
            if is_edit(text):
                found._take_edit(text, at)
            elif text.startswith("#"):
                found._take_comment(text, at)
            else:
                raise ExploreError(f"{path}:{number}: no line of a journal")
        if not found.ends:
            raise ExploreError(f"{path} is no journal")
        found.steps = [it for it in found.steps if it.edits]
        return found

    def _take_edit(self, text: str, end: int) -> None:
        if not self.ends:
            self.of_session.append(text)
            return
        if not self.steps or not self.steps[-1].is_marked:
            self.steps.append(KeptStep(text, is_marked=False))
        self.steps[-1].edits.append(text)
        self.ends.append(end)

    def _take_comment(self, text: str, end: int) -> None:
        if text == AT_THE_PROMPT:
            self.ends.append(end)
        elif text.startswith(OF_SESSION):
            self.session = text[len(OF_SESSION) :]
        elif text.startswith(OF_LINE):
            self.steps.append(KeptStep(text[len(OF_LINE) :]))
        elif text.startswith(OPTIONS_BEFORE) and self.steps:
            self.steps[-1].before.append(text)


def holder_in_words(handle: int) -> str:
    """The process that has locked a file, if the system tells."""
    file = os.fstat(handle).st_ino
    with suppress(OSError, ValueError):
        for line in LOCKS.read_text().splitlines():
            _, kind, _, _, process, place, *_ = line.split()
            if kind == "FLOCK" and int(place.rpartition(":")[2]) == file and int(process) > 0:
                return f", process {process}"
    return ""


def there_already(path: Path) -> ExploreError:
    how = f"--resume {shlex.quote(str(path))}"
    return ExploreError(f"{path} is there already; {how} takes it up")


def opened(path: Path, flags: int) -> int:
    """The file, locked. An error if another explore has it."""
    try:
        handle = os.open(path, os.O_RDWR | os.O_APPEND | os.O_CLOEXEC | flags, 0o600)
    except FileExistsError:
        raise there_already(path) from None
    except OSError as error:
        raise ExploreError(f"{path}: {error.strerror}") from error
    if not is_locked_here(handle):
        holder = holder_in_words(handle)
        os.close(handle)
        raise ExploreError(f"{path} is in use by another explore{holder}")
    return handle


def replaced(path: Path, data: bytes) -> int:
    """Puts a file with these bytes, locked, in the place of this one."""
    beside = path.with_name(f".explore-{os.getpid()}")
    handle = opened(beside, os.O_CREAT | os.O_EXCL)
    try:
        while data:
            data = data[os.write(handle, data) :]
        os.fsync(handle)
        os.replace(beside, path)
    except BaseException:
        os.close(handle)
        beside.unlink(missing_ok=True)
        raise
    return handle


@dataclass
class Journal:
    """The journal of this run. Its file is made with the first edit, where explore chooses or the
    user."""

    heading: Sequence[str]
    path: Optional[Path] = None
    is_own: bool = False
    handle: Optional[int] = None
    ends: list[int] = field(default_factory=list)
    marks: list[str] = field(default_factory=list)  # that stand before the next edit
    waiting: list[str] = field(default_factory=list)
    options: Optional[Sequence[str]] = None  # those that wait to be written
    fault: str = ""
    is_synced: bool = True

    @property
    def place(self) -> Optional[Path]:
        """Where all edits are, if they are in a file."""
        is_behind = self.waiting or self.options is not None
        return None if self.handle is None or is_behind else self.path

    @classmethod
    def taken_up(cls, path: Path, is_own: bool) -> "Journal":
        """A journal that is there, to be written on."""
        handle = opened(path, 0)
        ends = Contents.of(path).ends
        os.ftruncate(handle, ends[-1])
        return cls((), path, is_own, handle, ends)

    def begins(self, line: str) -> None:
        """The next edits are those of this line at the prompt, so one step for `undo`."""
        data = line.replace("\n", " ").encode(errors="surrogateescape")
        cut = " .." if len(data) > LONGEST_PART else ""
        self.marks = [f"{OF_LINE}{data[:LONGEST_PART].decode(errors='surrogateescape')}{cut}"]

    def add(self, edits: Sequence[str], count: int) -> None:
        """Writes the last of all edits, which are new. What can't be written waits for the next."""
        if count:
            first, *others = edits[-count:]
            self.waiting += ["\n".join([*self.marks, first]), *others]
            self.marks = []
        try:
            if self.handle is None:
                self._create(edits[: len(edits) - len(self.waiting)])
            if self.options is not None:
                self._write_options(self.options)
                self.options = None
            self._write(self.waiting)
            self.waiting, self.fault = [], ""
        except (OSError, ExploreError) as error:
            said = error.strerror if isinstance(error, OSError) else str(error)
            self.fault = f"the journal can't be written: {said}"

    def change_options(self, before: Sequence[str], lines: Sequence[str]) -> None:
        """Puts lines of options in the place of those before. If the file can't be written, they
        wait for the next edit."""
        self.marks += [OPTIONS_BEFORE + it[len(MARK) :] for it in before]
        self.heading = [*lines, *(it for it in self.heading if not it.startswith(MARK))]
        if self.handle is not None:
            self.options = lines
            self.add((), 0)

    def _write_options(self, lines: Sequence[str]) -> None:
        """Writes the file anew with these options, whole or not at all."""
        assert self.handle is not None and self.path is not None
        before = self.path.read_bytes()
        kept = [it for it in before.split(b"\n") if not it.startswith(MARK.encode())]
        options = [it.encode(errors="surrogateescape") for it in lines]
        after = b"\n".join([*options, *kept])
        handle = replaced(Path(os.path.realpath(self.path)), after)
        os.close(self.handle)
        self.handle = handle
        self.ends = [it + len(after) - len(before) for it in self.ends]

    def take_back(self, count: int) -> None:
        """Takes out the last edits."""
        for _ in range(count):
            (self.waiting or self.ends).pop()
        if self.handle is not None:
            os.ftruncate(self.handle, self.ends[-1])
            os.fsync(self.handle)

    @contextmanager
    def together(self) -> Iterator[None]:
        """Each edit of this part is in the file at once. For the disk a thread waits, so that no
        edit does: a power cut may lose those of the last moment."""
        ended = threading.Event()
        syncing = threading.Thread(target=self._sync_often, args=(ended,), daemon=True)
        self.is_synced = False
        syncing.start()
        try:
            yield
        finally:
            ended.set()
            syncing.join()
            self.is_synced = True

    def _sync_often(self, ended: threading.Event) -> None:
        """Waits for the disk whenever the file has grown, and once more when this part ends."""
        size, is_last = 0, False
        while not is_last:
            is_last = ended.wait(SECONDS_BETWEEN_SYNCS)
            end = (self.ends or [0])[-1]
            try:
                if self.handle is not None and end != size:
                    size = end
                    os.fsync(self.handle)
            except OSError as error:
                self.fault = f"the journal can't be written: {error.strerror}"

    def remove(self) -> None:
        """Removes the file, unless the user has named it."""
        if self.handle is not None and self.path and self.is_own:
            self.path.unlink(missing_ok=True)

    def _create(self, before: Sequence[str]) -> None:
        if self.path is None:
            self.path = new_path()
        self.handle = opened(self.path, os.O_CREAT | os.O_EXCL)
        self.ends = [0]
        try:
            self._write([*self.heading, *before, AT_THE_PROMPT])
        except OSError:
            os.close(self.handle)
            self.handle = None
            self.path.unlink(missing_ok=True)
            raise
        self.ends = self.ends[-1:]
        folder = os.open(self.path.parent, os.O_RDONLY)
        os.fsync(folder)
        os.close(folder)

    def _write(self, lines: Sequence[str]) -> None:
        """Writes whole lines, or nothing."""
        assert self.handle is not None
        encoded = [f"{it}\n".encode(errors="surrogateescape") for it in lines]
        data = b"".join(encoded)
        try:
            while data:
                data = data[os.write(self.handle, data) :]
            if self.is_synced:
                os.fsync(self.handle)
        except OSError:
            os.ftruncate(self.handle, self.ends[-1])
            raise
        for line in encoded:
            self.ends.append(self.ends[-1] + len(line))


def kept_journals() -> Iterator[Path]:
    """The journals of earlier runs, the newest first."""
    folder = state_folder()
    found = []
    for path in folder.glob(f"*{ENDING}") if folder else ():
        try:
            found.append((path.stat().st_mtime_ns, path))
        except OSError:
            pass
    yield from (path for _, path in sorted(found, reverse=True))


def holder_of(path: Path) -> str:
    """That another explore has it, or why it can't be opened; nothing if it is free."""
    try:
        os.close(opened(path, 0))
    except ExploreError as error:
        return str(error)
    return ""


def new_path() -> Path:
    """The path of a new journal. The oldest ones go."""
    folder = state_folder()
    if folder is None:
        raise ExploreError("there is no folder for it")
    folder.mkdir(parents=True, exist_ok=True)
    for path in [*kept_journals()][MOST_KEPT - 1 :]:
        if not holder_of(path):
            path.unlink(missing_ok=True)
    return folder / f"{time.strftime('%Y%m%d-%H%M%S')}-{os.getpid()}{ENDING}"


def with_edits() -> Iterator[Path]:
    """The journals with edits, the newest first."""
    for path in kept_journals():
        with suppress(ExploreError, OSError):
            if Contents.of(path).edits:
                yield path


def newest() -> Optional[Path]:
    """The newest journal with edits that no explore has."""
    return next((it for it in with_edits() if not holder_of(it)), None)


def in_use() -> str:
    """That another explore has the newest journal with edits, if one has it."""
    return next(filter(None, map(holder_of, with_edits())), "")


def told() -> Iterator[str]:
    """That there is a journal, and how it is taken up."""
    path = newest()
    if path is None:
        return
    found = Contents.of(path)
    when = time.strftime("%d %b %Y %H:%M", time.localtime(path.stat().st_mtime))
    what = f"{counted(len(found.edits), 'edit')} of {when} (session: {found.session})"
    yield f"a journal has {what}: ./explore --resume takes it up"
