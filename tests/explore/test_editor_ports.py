"""Editors that come to a port, or to a socket."""
import re
import signal
import socket
import stat
import subprocess

from .editor import Editor, WithEditors
from .explore_case import SECONDS
from .test_editor_sessions import STOPPED
from .test_editors import OF_LEDGER


class Ports(WithEditors):
    def server(self, *words: str) -> tuple["subprocess.Popen[bytes]", int]:
        process = self.adapter("--port", "0", *words)
        assert process.stdout
        line = process.stdout.readline().decode()
        found = re.fullmatch(r"127\.0\.0\.1:([0-9]+) waits for editors; Ctrl-C ends\n", line)
        assert found is not None, line
        return process, int(found[1])

    def editor_at(self, port: int) -> tuple[Editor, socket.socket]:
        client = socket.create_connection(("127.0.0.1", port), timeout=SECONDS)
        self.addCleanup(client.close)
        return Editor(self, client.fileno(), client.fileno()), client

    def test_editors_at_a_port(self) -> None:
        """Two at once, each with a machine of its own; one vanishes, and another comes."""
        process, port = self.server()
        first, gone = self.editor_at(port)
        second, _ = self.editor_at(port)
        first.enter(**{**OF_LEDGER, "turn": 100})
        second.enter(**{**OF_LEDGER, "turn": 200})
        self.assertEqual(first.go("stepIn"), (101, "step"))
        self.assertEqual(second.go("stepBack"), (199, "step"))
        gone.close()
        third, _ = self.editor_at(port)
        third.enter(**OF_LEDGER)
        third.ask("disconnect")
        third.until_the_end()
        self.assertEqual(second.go("stepBack"), (198, "step"))
        self.ended(process)
        second.until_the_end()

    def test_one_editor_at_a_socket(self) -> None:
        """The socket is of its user alone, and gone once an editor has come."""
        path = self.folder / "socket"
        process, client = self.adapter("--socket", str(path)), socket.socket(socket.AF_UNIX)
        assert process.stdout
        line = process.stdout.readline().decode()
        self.assertEqual(line, f"{path} waits for an editor; Ctrl-C ends\n")
        self.assertEqual(stat.filemode(path.lstat().st_mode), "srw-------")
        self.addCleanup(client.close)
        client.connect(str(path))
        editor = Editor(self, client.fileno(), client.fileno())
        editor.enter(**{**OF_LEDGER, "turn": 100})
        self.assertFalse(path.exists())
        self.assertEqual(editor.go("stepIn"), (101, "step"))
        editor.ask("disconnect")
        editor.until_the_end()
        super().ended(process)

    def test_sockets_that_are_none(self) -> None:
        there = self.folder / "there"
        there.write_text("kept")
        for path, why in (
            (f"{there}", "Address already in use"),
            (f"{there}/x", "Not a directory"),
            (f"{self.folder}/{'x' * 200}", "AF_UNIX path too long"),
        ):
            process = self.adapter("--socket", path)
            super().ended(process, 1, f"explore: --socket {path}: {why}\n".encode())
        self.assertEqual(there.read_text(), "kept")
        process = self.adapter("--socket", "it")
        assert process.stdout
        process.stdout.readline()
        self.ended(process)
        self.assertFalse((self.folder / "it").exists())

    def ended(
        self, process: "subprocess.Popen[bytes]", status: int = 130, said: bytes = STOPPED
    ) -> None:
        """Ctrl-C ends a server, and what it started."""
        if process.poll() is None:
            process.send_signal(signal.SIGINT)
        super().ended(process, status, said)

    def test_ports_that_are_none(self) -> None:
        taken = socket.socket()
        self.addCleanup(taken.close)
        taken.bind(("127.0.0.1", 0))
        taken.listen()
        number = taken.getsockname()[1]
        program = self.command()[0]
        for port, why in (
            (f"{number}", "Address already in use"),
            ("65536", "N is 0 to 65535"),
            ("x", "N is 0 to 65535"),
        ):
            ended = subprocess.run(
                [program, "dap", "--port", port],
                env=self.environment(),
                stdin=subprocess.DEVNULL,
                stderr=subprocess.PIPE,
                timeout=SECONDS,
            )
            self.assertEqual(ended.returncode, 1)
            self.assertEqual(ended.stderr.decode(), f"explore: --port {port}: {why}\n")
