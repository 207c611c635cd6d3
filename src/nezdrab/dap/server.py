"""`explore dap`: the adapter on standard input and output, and for those that come to a port."""
import argparse
import os
import socket
import subprocess
import sys
from pathlib import Path

from ..core.errors import ExploreError
from ..core.interrupts import INTERRUPTS
from ..core.programs import by_another_python
from ..shell.command_line import Parser, ShowVersion
from ..shell.output import complain, put
from .adapter import Adapter
from .launch import Programs
from .wire import Wire

HOST, LARGEST_PORT = "127.0.0.1", 65_535
BEGIN = "from nezdrab.main import dap; sys.exit(dap())"
DESCRIPTION = """\
What an editor starts to debug in a recorded run, forwards and backwards: it speaks the Debug
Adapter Protocol on standard input and output; with --socket to one editor, on a socket that is
yours alone; or with --port on that port of this computer alone, to each editor by a process of its
own. Each user of the computer may come to the port, and do in your name what the console does.
docs/USING.md has what `launch` takes."""


def new_parser() -> Parser:
    """What reads the arguments of the adapter."""
    parser = Parser(
        prog="explore dap",
        description=DESCRIPTION,
        allow_abbrev=False,
        formatter_class=argparse.RawDescriptionHelpFormatter,
    )
    parser.add_argument("--version", action=ShowVersion, help="shows the newest release, and ends")
    where = parser.add_mutually_exclusive_group()
    where.add_argument("--port", metavar="N", help="waits there for editors; 0 is any free port")
    where.add_argument("--socket", metavar="PATH", help="waits there for one editor")
    parser.add_argument("--program", metavar="FILE", default="", help="a built search")
    parser.add_argument("--disassembler", metavar="FILE", default="", help="a built disassemble")
    return parser


def arguments(words: list[str]) -> argparse.Namespace:
    return new_parser().parse_args(words)


def private_streams() -> Wire:
    """Standard input and output for messages alone: for all others input is empty, and what they
    write goes to standard error."""
    given, written = os.dup(0), os.dup(1)
    nothing = os.open(os.devnull, os.O_RDONLY)
    os.dup2(nothing, 0)
    os.close(nothing)
    os.dup2(2, 1)
    return Wire(given, written)


def listening(port: str) -> socket.socket:
    if not (port.isascii() and port.isdigit() and len(port) <= 5 and int(port) <= LARGEST_PORT):
        raise ExploreError(f"--port {port}: N is 0 to {LARGEST_PORT}")
    server = socket.socket()
    server.setsockopt(socket.SOL_SOCKET, socket.SO_REUSEADDR, 1)
    try:
        server.bind((HOST, int(port)))
        server.listen()
    except OSError as error:
        raise ExploreError(f"--port {port}: {error.strerror}") from error
    return server


def client_at(path: str) -> socket.socket:
    """The first editor that comes to a socket of this user alone, which is gone then."""
    server = socket.socket(socket.AF_UNIX)
    mask = os.umask(0o177)
    try:
        server.bind(path)
    except OSError as error:
        raise ExploreError(f"--socket {path}: {error.strerror or error}") from error
    finally:
        os.umask(mask)
    try:
        with server:
            server.listen(1)
            put(f"{path} waits for an editor; Ctrl-C ends")
            with INTERRUPTS.allowed():
                return server.accept()[0]
    finally:
        Path(path).unlink(missing_ok=True)


def serve_port(found: argparse.Namespace) -> None:
    """Starts an adapter for each editor that comes, until Ctrl-C. It ends those that are left."""
    server, words = listening(found.port), []
    for name in ("program", "disassembler"):
        value = getattr(found, name)
        words += [f"--{name}", os.path.abspath(value)] if value else []
    command = [*by_another_python(BEGIN), *words]
    started: list["subprocess.Popen[bytes]"] = []
    put(f"{HOST}:{server.getsockname()[1]} waits for editors; Ctrl-C ends")
    try:
        while True:
            with INTERRUPTS.allowed():
                editor, _ = server.accept()
            with editor:
                own = editor.fileno()
                it = subprocess.Popen(command, stdin=own, stdout=own, start_new_session=True)
            started = [it for it in [*started, it] if it.poll() is None]
    finally:
        server.close()
        for it in started:
            it.terminate()


def serve(words: list[str]) -> int:
    """Returns the exit status."""
    found = arguments(words)
    programs = Programs(found.program, found.disassembler)
    if found.port is not None:
        serve_port(found)
    elif found.socket is not None:
        with client_at(found.socket) as editor:
            Adapter(Wire(editor.fileno(), editor.fileno()), programs).serve()
    elif sys.stdin.isatty():
        complain("an editor starts this, and speaks to it; docs/USING.md has how")
        return 2
    else:
        Adapter(private_streams(), programs).serve()
    return 0
