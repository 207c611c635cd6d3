"""The loop of the adapter: it does one request after another, and a part of what runs in between.
Another thread reads: so `pause` and `disconnect` are heard while something is long at work."""
import queue
import signal
import threading
import time
from typing import Optional, Union

from ..core.errors import ExploreError
from ..core.interrupts import INTERRUPTS
from ..shell.output import Unwritable, fault_in_words
from . import point_requests, session_requests, shown_requests  # noqa: F401
from .client import REQUESTS, Client
from .launch import Programs
from .running import Stop
from .wire import BadMessage, Fields, Object, OutOfStep, Wire

# What ends the work under way, and all that was asked before it, if that takes longer than this.
ENDING, SECONDS = ("pause", "cancel", "disconnect", "terminate"), 1.0
# What may come before `initialize`, and what may come while it runs.
FIRST = ("initialize", "disconnect", "terminate")
WHILE_RUNNING = ENDING + (
    *("initialize", "launch", "attach", "configurationDone", "threads", "loadedSources", "source"),
    *("setBreakpoints", "setFunctionBreakpoints", "setInstructionBreakpoints"),
    *("setDataBreakpoints", "setExceptionBreakpoints", "breakpointLocations"),
)
STOPPED = "it was stopped; the edits are all there"

# A message, what is wrong with one, or the end of the stream.
Incoming = Union[Object, ExploreError, None]


class Work:
    """What the main thread is at, so that another one can end it, as Ctrl-C does, and how many
    messages it has taken."""

    def __init__(self) -> None:
        self.lock, self.taken, self.is_under_way = threading.Lock(), 0, False

    def __enter__(self) -> None:
        with self.lock:
            self.is_under_way = True

    def __exit__(self, *what: object) -> None:
        with self.lock:
            self.is_under_way = False
        INTERRUPTS.forget()

    def end_before(self, number: int) -> None:
        """Ends what is under way in a second, until the message with this number is taken."""
        waits = threading.Thread(target=self._end_before, args=[number], daemon=True)
        waits.start()

    def _end_before(self, number: int) -> None:
        main = threading.main_thread().ident
        while self.taken < number and main is not None:
            time.sleep(SECONDS)
            with self.lock:
                if self.is_under_way and self.taken < number:
                    signal.pthread_kill(main, signal.SIGINT)


class Adapter:
    """A session with an editor, from its first message to its last."""

    def __init__(self, wire: Wire, programs: Programs):
        self.wire, self.client = wire, Client(wire.send, programs)
        self.incoming: "queue.Queue[Incoming]" = queue.Queue()
        self.work = Work()

    def read(self) -> None:
        """What the other thread does."""
        found: Incoming = {}
        number = 0
        while found is not None and not isinstance(found, OutOfStep):
            try:
                found = self.wire.message()
            except (BadMessage, OutOfStep) as error:
                found = error
            self.incoming.put(found)
            number += 1
            if not isinstance(found, dict) or found.get("command") in ENDING:
                self.work.end_before(number)

    def serve(self) -> None:
        """Ends with `disconnect`, and when the editor has gone."""
        threading.Thread(target=self.read, daemon=True).start()
        try:
            while not self.client.is_over:
                self.take()
        except ConnectionError:
            pass
        finally:
            self.client.close()

    def take(self) -> None:
        """Does the next request, or, if there is none, a part of what runs."""
        if self.client.run is not None and self.incoming.empty():
            self.advance()
            return
        with INTERRUPTS.allowed():
            found = self.incoming.get()
        self.work.taken += 1
        if isinstance(found, dict):
            self.message(found)
        elif found is None:
            self.client.is_over = True
        else:
            self.client.say(str(found), "stderr")
            if isinstance(found, OutOfStep):
                self.client.terminated()
                self.client.is_over = True

    def advance(self) -> None:
        """A part of what runs. It stops if that fails."""
        fault = ""
        try:
            with self.work, INTERRUPTS.allowed():
                self.client.advance()
        except KeyboardInterrupt:
            self.client.run = None
        except ExploreError as error:
            fault = str(error)
        except (ConnectionError, Unwritable):
            raise
        except Exception as error:
            fault = fault_in_words(error)
        if fault:
            self.client.run = None
            self.client.say(fault, "stderr")
            self.client.stopped(Stop(self.client.explorer.turn, "pause", text=fault))

    def message(self, message: Object) -> None:
        number, name = message.get("seq"), message.get("command")
        if message.get("type") != "request" or not isinstance(name, str):
            self.client.say("a message is no request with a command", "stderr")
            return
        if not isinstance(number, int) or isinstance(number, bool):
            self.client.say(f"the request {name} has no seq that is a whole number", "stderr")
            return
        body, fault = self.done(name, message)
        answer: Object = {"request_seq": number, "command": name, "success": not fault}
        if fault:
            shown = fault.replace("{", "(").replace("}", ")")
            answer.update(message=fault)
            body = {"error": {"id": 1, "format": shown, "showUser": True}}
        self.client.message("response", **answer, **({} if body is None else {"body": body}))
        later, self.client.later = self.client.later, []
        for event in later:
            event()

    def done(self, name: str, message: Object) -> tuple[Optional[Object], str]:
        """The body of the reply to a request, and why it can't be done, or an empty text."""
        try:
            with self.work, INTERRUPTS.allowed():
                return self.body(name, message), ""
        except KeyboardInterrupt:
            return None, STOPPED
        except (ExploreError, OSError) as error:
            return None, str(error) or type(error).__name__
        except Exception as error:
            return None, fault_in_words(error)

    def body(self, name: str, message: Object) -> Optional[Object]:
        arguments = message.get("arguments")
        if name not in REQUESTS:
            raise ExploreError(f"{name} is no request that is done here")
        if not self.client.is_initialized and name not in FIRST:
            raise ExploreError(f"{name} came before initialize")
        if arguments is not None and not isinstance(arguments, dict):
            raise ExploreError(f"{name}: the arguments are no object")
        if name not in WHILE_RUNNING:
            self.client.check_stopped()
        return REQUESTS[name](self.client, Fields(arguments or {}, name))
