"""Emacs at a terminal of tmux, at which the tests type, and which they ask what it holds."""
import glob
import json
import os
import shlex
import shutil
import signal
import subprocess
import tempfile
import time
from contextlib import suppress
from dataclasses import dataclass
from pathlib import Path
from typing import Any, Callable

from .explore_case import BUILT, ROOT, SECONDS

NEEDED = ("emacs", "emacsclient", "tmux")
# Debian's elpa-dap-mode. What a user has installed in a home isn't looked at.
HAS_DAP_MODE = bool(glob.glob("/usr/share/emacs/site-lisp/elpa/dap-mode-*"))
MISSING = [it for it in NEEDED if not shutil.which(it)] + ["elpa-dap-mode"] * (not HAS_DAP_MODE)
LACKING = f"{', '.join(MISSING)}: not installed" if MISSING else ""

REPL = "*dap-ui-repl*"  # dap-mode's debug console
COLUMNS, LINES, POLL = 160, 60, 0.05
# Nothing is compiled meanwhile, and M-x has no hints: while it looks for one, Emacs 28 loses keys.
# These stand in the user's early-init.el.
SETTINGS = """
(setq native-comp-deferred-compilation nil native-comp-jit-compilation nil
      native-comp-enable-subr-trampolines nil
      suggest-key-bindings nil extended-command-suggest-shorter nil
      server-socket-dir (getenv "HOME") server-name "server")
"""
# What Emacs has of its session, as the fields of State.
STATE = """
;; Once Emacs takes keys: C-g before would end it.
(add-hook 'window-setup-hook (lambda () (run-with-timer 0 nil #'server-start)))
(defvar tested-stops 0)
(add-hook 'dap-stack-frame-changed-hook
          (lambda (it)
            (when (dap--debug-session-active-frame it) (setq tested-stops (1+ tested-stops)))))
(defun tested-marked ()
  (with-current-buffer "ledger.lst"
    (let ((mark (seq-find (lambda (it) (eq (overlay-get it 'face) 'dap-ui-marker-face))
                          (overlays-in (point-min) (point-max)))))
      (if mark (buffer-substring-no-properties (overlay-start mark) (overlay-end mark)) ""))))
(defun tested-text (buffer)
  (if (get-buffer buffer)
      (with-current-buffer buffer (buffer-substring-no-properties (point-min) (point-max)))
    ""))
(defun tested-state ()
  (let* ((it (dap--cur-session)) (frame (when it (dap--debug-session-active-frame it))))
    (list :stops tested-stops
          :state (if it (dap--debug-session-state it) "")
          :frame (if frame (gethash "name" frame) "")
          :marked (if frame (tested-marked) "")
          :said (if it (tested-text (dap--debug-session-output-buffer it)) ""))))
"""


@dataclass(frozen=True)
class State:
    stops: int  # how often dap-mode went to a frame
    state: str  # running, also at a stop, or terminated
    frame: str
    marked: str  # the line with the mark of the current one
    said: str  # what the adapter has said


class Emacs:
    """An Emacs with the files of examples/editors/ loaded as they say. Its home, the clone that it
    is told of, and the socket of its tmux are in a folder of its own."""

    def __init__(self) -> None:
        self.home = Path(tempfile.mkdtemp(prefix="emacs-"))
        self.clone = self.home / "clone"
        self.listing = self.clone / "examples" / "ledger" / "ledger.lst"
        self.pid = 0

    def start(self) -> None:
        for name in ("editors", "ledger"):
            shutil.copytree(ROOT / "examples" / name, self.clone / "examples" / name)
        programs = ["--program", BUILT.program, "--disassembler", BUILT.disassembler]
        explore = self.clone / "explore"
        words = shlex.join([str(ROOT / "explore"), "dap", *programs])
        explore.write_text(f'#!/bin/sh\n[ "$*" = dap ] && exec {words}\nexit 2\n')
        explore.chmod(0o755)
        self.begin()

    def begin(self) -> None:
        settings, state = self.home / ".emacs.d" / "early-init.el", self.home / "state.el"
        settings.parent.mkdir()
        settings.write_text(SETTINGS)
        state.write_text(STATE)
        shipped = self.clone / "examples" / "editors" / "nezdrab-dap.el"
        loaded = ["-l", str(shipped), "-l", str(state)]
        command = shlex.join(["emacs", "-nw", "--no-splash", *loaded])
        size = ["-x", str(COLUMNS), "-y", str(LINES)]
        self.tmux("new-session", "-d", *size, f"exec {command}")
        self.pid = int(self.tmux("display-message", "-p", "#{pane_pid}"))
        self.until("Emacs is there", lambda: (self.home / "server").exists())

    def environment(self) -> dict[str, str]:
        own = {"HOME": self.home, "TMPDIR": self.home, "NEZDRAB": self.clone}
        terminal = {"SHELL": "/bin/sh", "LC_ALL": "C.UTF-8", "TERM": "xterm-256color"}
        return {"PATH": os.environ["PATH"], **{it: str(own[it]) for it in own}, **terminal}

    def end(self) -> None:
        """Whatever has happened, nothing is left: without Emacs its tmux ends, and its adapter."""
        if self.pid:
            with suppress(ProcessLookupError):
                os.kill(self.pid, signal.SIGKILL)
        with suppress(AssertionError):
            self.tmux("kill-server")
        shutil.rmtree(self.home, ignore_errors=True)

    # What is typed

    def tmux(self, *words: str) -> str:
        command = ["tmux", "-u", "-S", str(self.home / "tmux"), "-f", os.devnull, *words]
        return self.run(command)

    def run(self, command: list[str]) -> str:
        ended = subprocess.run(
            command,
            cwd=self.home,
            env=self.environment(),
            stdin=subprocess.DEVNULL,
            capture_output=True,
            text=True,
            timeout=SECONDS,
        )
        assert ended.returncode == 0, f"{command}: {ended.stderr}"
        return ended.stdout

    def keys(self, *names: str) -> None:
        self.tmux("send-keys", *names)

    def type(self, line: str) -> None:
        """A line, and Return."""
        self.tmux("send-keys", "-l", line)
        self.keys("Enter")

    def command(self, name: str, *answers: str) -> None:
        """M-x, the command, and what it asks for."""
        assert self.value(f"(commandp '{name})") is True, f"Emacs has no command {name}"
        self.keys("Escape", "x")
        for line in (name, *answers):
            self.type(line)

    def visit_listing(self) -> None:
        """In a window that isn't one of dap-mode's lists."""
        lists = "(lambda (it) (or (window-dedicated-p it) (window-parameter it 'window-side)))"
        self.value(f"(null (select-window (car (seq-remove {lists} (window-list)))))")
        self.keys("C-x", "C-f")
        self.type(str(self.listing))
        chosen = "(buffer-file-name (window-buffer))"
        self.until("the listing", lambda: self.value(chosen) == str(self.listing))

    # What is shown, and what Emacs holds

    def screen(self) -> str:
        return self.tmux("capture-pane", "-p")

    def value(self, expression: str) -> Any:
        """The value of an expression of Lisp, as JSON has it."""
        words = ["emacsclient", "-s", str(self.home / "server"), "--eval"]
        said = self.run([*words, f"(json-encode {expression})"])
        return json.loads(json.loads(said, strict=False))

    def state(self) -> State:
        return State(**self.value("(tested-state)"))

    def text(self, buffer: str) -> str:
        """What stands in a buffer."""
        return str(self.value(f'(tested-text "{buffer}")'))

    def until(self, what: str, given: Callable[[], Any]) -> Any:
        """Asks until there is something, and returns it."""
        limit = time.monotonic() + SECONDS
        while not (found := given()):
            assert time.monotonic() < limit, f"never: {what}\n{self.screen()}"
            time.sleep(POLL)
        return found

    def until_shown(self, text: str) -> None:
        self.until(f"{text!r} on the screen", lambda: text in self.screen())
