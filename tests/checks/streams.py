"""streams: runs pdp11 on streams that fail, and on the largest images. An
input that can't be read, an output that takes nothing, and one that takes the first bytes of the
replies, for each number of bytes, end it with status 3. A reply is out before the next line is
read. An image is read to its last word, also if it comes in two parts, and one that is longer by a
word or a byte is refused with status 5. The last line is 'N passed, M failed'."""
import os
import resource
import select
import subprocess
import sys
import tempfile
import time
from typing import BinaryIO, Callable, Iterator, Optional, Union

from tests import stored_sessions as sessions, under_test

# The bytes of the largest image, what is longer by as little as can be, and a question about the
# last word, with its reply.
LARGEST = {
    "--core": (31 * 8192, 2, "mem 0 757776 1", "mem 001001"),
    "--disk": (4872 * 512, 2, "dsk 0 4603777 1", "dsk 001001"),
    "--disk7": (4872 * 512, 2, "version 2\ndsk 0 7 4603777 1", "ok\ndsk 001001"),
    "--tape": (1048576, 1, "regs 1000000001", "refused 7 TurnTooLarge"),
}
DONE = (0, "")
INPUT_OR_OUTPUT = (3, "pdp11: input or output\n")
BAD_IMAGE = (5, "pdp11: refused 14 BadImage\n")
# What is asked of an output that takes a part of the replies.
LINES = "regs 0\nno line\nversion 3\ncore 0 7\nmem 0 0 2\n"
PAUSE = 0.5  # seconds that the second part of an image waits


def ended(
    program: str,
    words: list[str],
    reader: Union[int, BinaryIO],
    writer: Union[int, BinaryIO],
    before: Optional[Callable[[], None]] = None,
) -> tuple[int, str, str]:
    """What a run of the program came to: its status, what it said, and what it wrote. `before` is
    called in the new process, which keeps Python's signals then."""
    ran = subprocess.run(
        [program, *words],
        stdin=reader,
        stdout=writer,
        stderr=subprocess.PIPE,
        timeout=sessions.SECONDS,
        preexec_fn=before,
        restore_signals=before is None,
    )
    return ran.returncode, ran.stderr.decode(), (ran.stdout or b"").decode()


def runs_of_streams(program: str, folder: str, step: int) -> Iterator[tuple[str, bool]]:
    """Each run on a stream that fails, and whether it ended as it must. Of the numbers of bytes
    that an output takes, each step-th one is tried."""
    lines = os.path.join(folder, "lines")
    with open(lines, "w", encoding="ascii") as file:
        file.write("regs 0\n")
    at_folder = os.open(folder, os.O_RDONLY)
    with open(lines, "rb") as reader, open("/dev/full", "wb") as full:
        got = ended(program, [], at_folder, subprocess.PIPE)
        yield "an input that is a folder", got == (*INPUT_OR_OUTPUT, "")
        runs: list[list[str]] = [[], ["--help"]]
        for words in runs:
            got = ended(program, words, reader, full)
            yield f"an output that takes nothing {words}", got == (*INPUT_OR_OUTPUT, "")
    os.close(at_folder)
    yield "an output that takes a part of the replies", takes_each_part(program, folder, step)
    yield "a reply before the next line", replies_at_once(program)
    yield "an image in two parts", takes_two_parts(program)


def let_files_grow_to(size: int) -> None:
    resource.setrlimit(resource.RLIMIT_FSIZE, (size, size))


def takes_each_part(program: str, folder: str, step: int) -> bool:
    """Whether the program fails at a file that takes only the first bytes of its replies, for each
    step-th number of bytes, and has written these."""
    lines, output = os.path.join(folder, "lines"), os.path.join(folder, "output")
    with open(lines, "w", encoding="ascii") as file:
        file.write(LINES)

    def taken(size: int) -> tuple[tuple[int, str, str], bytes]:
        # a write past the limit fails, since Python ignores SIGXFSZ and the program inherits that
        with open(lines, "rb") as reader, open(output, "wb") as writer:
            got = ended(program, [], reader, writer, lambda: let_files_grow_to(size))
        with open(output, "rb") as file:
            return got, file.read()

    whole, replies = taken(1 << 20)
    cut = (*INPUT_OR_OUTPUT, "")
    parts = (taken(size) == (cut, replies[:size]) for size in range(0, len(replies), step))
    return whole == (*DONE, "") and len(replies) > 100 and all(parts)


def replies_at_once(program: str) -> bool:
    """Whether the program replies to a line while its input is still open."""
    with subprocess.Popen([program], stdin=subprocess.PIPE, stdout=subprocess.PIPE) as ran:
        assert ran.stdin is not None
        ran.stdin.write(b"regs 0\n")
        ran.stdin.flush()
        return bool(select.select([ran.stdout], [], [], sessions.SECONDS)[0])


def takes_two_parts(program: str) -> bool:
    """Whether the program reads an image whose second word comes some time after the first."""
    reads, writes = os.pipe()
    command = [program, "--core", f"/dev/fd/{reads}"]
    pipe = subprocess.PIPE
    with subprocess.Popen(command, stdin=pipe, stdout=pipe, pass_fds=(reads,)) as ran:
        for word in b"\x01\x02", b"\x03\x04":
            os.write(writes, word)
            time.sleep(PAUSE)
        os.close(writes)
        os.close(reads)
        return ran.communicate(b"mem 0 0 2\n")[0] == b"mem 001001 002003\n"


def runs_of_images(program: str, folder: str) -> Iterator[tuple[str, bool]]:
    """Each run on an image of the largest size or above, and whether it ended as it must."""
    image, lines = os.path.join(folder, "image"), os.path.join(folder, "lines")
    for option, (size, more, asked, reply) in LARGEST.items():
        with open(image, "wb") as file:
            file.seek(size - 2)
            file.write(b"\x01\x02")
        with open(lines, "w", encoding="ascii") as file:
            file.write(f"{asked}\n")
        with open(lines, "rb") as reader:
            got = ended(program, [option, image], reader, subprocess.PIPE)
        yield f"{option}, {size} bytes", got == (*DONE, f"{reply}\n")
        os.truncate(image, size + more)
        got = ended(program, [option, image], subprocess.DEVNULL, subprocess.PIPE)
        yield f"{option}, {size + more} bytes", got == (*BAD_IMAGE, "")


def runs(program: str, step: int = 1) -> list[tuple[str, bool]]:
    """Each run of the program, and whether it ended as it must."""
    with tempfile.TemporaryDirectory() as folder:
        return [*runs_of_streams(program, folder, step), *runs_of_images(program, folder)]


def main() -> int:
    sessions.parser_of(__doc__).parse_args()
    found = runs(under_test.by_its_name("pdp11"))
    wrong = [name for name, is_well in found if not is_well]
    print("".join(f"{name}: another end\n" for name in wrong), end="")
    print(f"{len(found) - len(wrong)} passed, {len(wrong)} failed")
    return int(len(wrong) > 0)


if __name__ == "__main__":
    sys.exit(main())
