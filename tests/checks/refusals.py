"""refuse-each [--stride LIST] [--past-start] [--searches] PROGRAM FOLDER..: runs each stored session
of these folders (with --searches each session of searches, by the program search) with each request
for memory refused in turn, and once more with every later request refused too. Each run must either
write nothing and end with status 4 and the program's line 'refused 1 NoMemory', or reply 'refused 1
NoMemory' to some lines and be otherwise the same as the session without those lines.

A start makes more than a thousand requests, the same ones for each session. So all of them are
refused for the first session alone, the first 200 of them (which read the words and the files) for
each further session with other arguments, and none for the rest. Past its start the first 2,000
requests of a session are refused; a longer one repeats them, as for the states that a long run
keeps. With --past-start these alone are refused, and no later one with any of them.

With a list of strides each session that has no stride of its own is run with each of them. The
sessions of a folder `long` are left out: they make too many requests, or may run long if a line is
refused. The last line is 'N passed, M failed', which counts runs in which a request was refused.
The status is 77 if there is no C compiler, or if the program takes no library, as release files."""
import contextlib
import functools
import os
import shutil
import struct
import subprocess
import sys
import tempfile
from concurrent.futures import ThreadPoolExecutor
from pathlib import Path
from typing import BinaryIO, Callable, Iterator, NamedTuple, Optional, Union

from tests import stored_sessions as sessions

REFUSED = b"refused 1 NoMemory\n"
AT_START = [sessions.Ended(b"", 4, name + b": " + REFUSED) for name in (b"pdp11", b"search")]
NONE = 1_000_000_000
OF_OTHER_STARTS = 200
MOST_PAST_START = 2_000
LEFT_OUT = "long"
COMPILER = os.environ.get("CC", "cc")
SKIPPED = 77
# The kind of an ELF file's segment that names what loads libraries.
LOADER = 3


class Told(NamedTuple):
    """What the library tells of a copy of the program: which request it was refused, whether alone,
    and how it ended."""

    request: int
    how: str
    ended: sessions.Ended


class Task(NamedTuple):
    """A session, with how many of its first requests are refused, past which number more are, and
    whether every later one is with them too."""

    session: sessions.Session
    first: int
    past: int
    later: bool


def takes_libraries(program: str) -> bool:
    """Whether a library can be preloaded to it: a file in ELF that names what loads libraries, or
    a script."""
    with open(program, "rb") as file:
        head = file.read(4096)
    if head[:4] != b"\x7fELF":
        return True
    (start,) = struct.unpack_from("<Q", head, 32)
    size, count = struct.unpack_from("<HH", head, 54)
    kinds = (struct.unpack_from("<I", head, start + size * it)[0] for it in range(count))
    return LOADER in kinds


def build_library(folder: str) -> str:
    """The allocator that refuses, as a library to preload."""
    source = str(Path(__file__).with_name("refuse_each.c"))
    library = os.path.join(folder, "refuse_each.so")
    options = ["-O1", "-fPIC", "-shared", "-fno-builtin"]
    subprocess.run([COMPILER, *options, "-o", library, source], check=True)
    return library


def told_by(told: BinaryIO) -> Iterator[Union[Told, int]]:
    """What the library tells of each copy of the program, and at last how many requests there
    were."""
    for line in told:
        words = line.split()
        if len(words) == 1:
            yield int(words[0])
        else:
            output, error = told.read(int(words[3])), told.read(int(words[4]))
            ended = sessions.Ended(output, int(words[2]), error)
            yield Told(int(words[0]), words[1].decode(), ended)


def run_refusing(
    program: str, library: str, task: Task
) -> Iterator[Union[Told, int, sessions.Ended]]:
    """Runs the session with each request of the task refused. Tells of each run, and at last how
    the session ended with none refused."""
    reads, writes = os.pipe()
    words = {"LD_PRELOAD": library, "REFUSE_TOLD": str(writes)}
    words |= {"REFUSE_FIRST": str(task.first), "REFUSE_PAST": str(task.past)}
    words |= {"REFUSE_MOST": str(MOST_PAST_START), "REFUSE_LATER": str(int(task.later))}
    with contextlib.ExitStack() as files:
        given, output, error = (files.enter_context(tempfile.TemporaryFile()) for _ in range(3))
        given.write(task.session.lines)
        given.seek(0)
        with subprocess.Popen(
            [program, *task.session.args],
            cwd=task.session.folder,
            env={**os.environ, **words},
            pass_fds=(writes,),
            stdin=given,
            stdout=output,
            stderr=error,
        ) as ran:
            os.close(writes)
            with os.fdopen(reads, "rb") as told:
                yield from told_by(told)
        output.seek(0)
        error.seek(0)
        yield sessions.Ended(output.read(), ran.returncode, error.read())


def requests_of_start(program: str, library: str, session: sessions.Session) -> int:
    """How many requests the session makes without its lines."""
    task = Task(session._replace(lines=b""), 0, NONE, False)
    return next(it for it in run_refusing(program, library, task) if isinstance(it, int))


def without_refused(session: sessions.Session, replies: list[bytes]) -> Optional[bytes]:
    """The session without the lines that were refused for memory, or None if it hasn't as many
    lines with a reply."""
    lines = sessions.lines_of(session.lines)
    answered = [at for at, line in enumerate(lines) if sessions.has_reply(line)]
    if len(answered) != len(replies):
        return None
    refused = {at for at, reply in zip(answered, replies) if reply == REFUSED}
    return b"".join(line for at, line in enumerate(lines) if at not in refused)


def fault_of(
    session: sessions.Session, ended: sessions.Ended, ample: Callable[[bytes], sessions.Ended]
) -> Optional[str]:
    """What is wrong with a run in which a request was refused, or None. `ample` runs lines with
    ample memory."""
    if ended in (*AT_START, session.expected):
        return None
    replies = sessions.replies_of(ended.output)
    rest = without_refused(session, replies)
    if rest is None:
        return f"has {len(replies)} replies; {sessions.difference(ended, session.expected)}"
    kept = ended._replace(output=b"".join(it for it in replies if it != REFUSED))
    return None if kept == ample(rest) else sessions.difference(kept, ample(rest))


def try_each(program: str, library: str, task: Task) -> tuple[int, list[str]]:
    """How many runs were right, and what is wrong with the others."""
    session = task.session
    right, faults = 0, []
    requests: Optional[int] = None

    @functools.cache
    def ample(lines: bytes) -> sessions.Ended:
        return sessions.run(program, session, lines)

    for told in run_refusing(program, library, task):
        if isinstance(told, Told):
            fault = fault_of(session, told.ended, ample)
            if fault is None:
                right += 1
            else:
                refused = f"request {told.request} ({told.how})"
                faults.append(f"{session.name}: with {refused} refused, {fault}")
        elif isinstance(told, int):
            requests = told
        elif told != session.expected:
            fault = sessions.difference(told, session.expected)
            faults.append(f"{session.name}: with no request refused, {fault}")
    wanted = None if requests is None else wanted_runs(task, requests)
    if right + len(faults) != wanted:
        faults.append(f"{session.name}: {right} of {wanted} runs were right")
    return right, faults


def wanted_runs(task: Task, requests: int) -> int:
    """How many runs a task makes of a session that makes this number of requests."""
    return (task.first + min(requests - task.past, MOST_PAST_START)) * (1 + task.later)


def tasks_of(
    asked: sessions.Asked, library: str, ending: str, past_start: bool
) -> Iterator[Task]:
    """What is refused to each session."""
    program: str = asked.words["program"]
    starts: dict[tuple[str, ...], int] = {}
    stored = (it for folder in asked.folders for it in sessions.sessions_of(folder, ending))
    found = (it for it in stored if os.path.basename(it.folder) != LEFT_OUT)
    for session in (one for it in found for one in sessions.with_strides(it, asked.strides)):
        words, first = tuple(session.args), 0
        if words not in starts:
            first = OF_OTHER_STARTS if starts else NONE
            starts[words] = requests_of_start(program, library, session)
        past = starts[words]
        yield Task(session, 0 if past_start else min(first, past), past, not past_start)


def main() -> int:
    parser = sessions.parser_of(__doc__)
    parser.add_argument("program", metavar="PROGRAM", type=sessions.existing_program)
    asked = sessions.asked(parser, "--past-start", "--searches")
    program = asked.words["program"]
    ending = ".search" if "--searches" in asked.flags else ".session"
    past_start = "--past-start" in asked.flags
    if shutil.which(COMPILER) is None:
        print(f"{COMPILER} isn't installed")
        return SKIPPED
    if not takes_libraries(program):
        print(f"{program} takes no library, so no allocator can be preloaded to it")
        return SKIPPED
    passed = failed = 0
    with tempfile.TemporaryDirectory() as room, ThreadPoolExecutor(os.cpu_count()) as pool:
        library = build_library(room)
        tasks = tasks_of(asked, library, ending, past_start)
        for right, faults in pool.map(lambda it: try_each(program, library, it), tasks):
            passed, failed = passed + right, failed + len(faults)
            print("".join(f"{fault}\n" for fault in faults), end="", flush=True)
    if passed == 0:
        print("no request for memory was refused: the library to preload isn't used")
        failed += 1
    print(f"{passed} passed, {failed} failed")
    return int(failed > 0)


if __name__ == "__main__":
    sys.exit(main())
