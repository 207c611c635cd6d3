"""Messages of the Debug Adapter Protocol on a stream: lines of a heading that has their length in
bytes, an empty line, and JSON; and the fields of requests, with the types that they must have."""
import json
import os
from typing import Any, Iterator, Optional

from ..core.errors import ExploreError
from ..core.values import dataclass
from ..shell.output import Unwritable, write_all

LONGEST_MESSAGE, LONGEST_LINE, PART_BYTES = 1 << 24, 1 << 12, 1 << 16
LENGTH = "content-length"

# An object of JSON.
Object = dict[str, Any]


class BadMessage(ExploreError):
    """A message that can't be read. The next one can."""


class OutOfStep(ExploreError):
    """Where the next message begins isn't known."""


class Cut(Exception):
    """The stream has ended."""


class Wire:
    """Two file descriptors. Another thread may read: it holds no lock of a stream that Python would
    need at its end."""

    def __init__(self, given: int, written: int):
        self.given, self.written, self.waiting = given, written, bytearray()

    def _more(self) -> None:
        try:
            part = os.read(self.given, PART_BYTES)
        except OSError as error:
            raise Cut from error
        if not part:
            raise Cut
        self.waiting += part

    def _line(self) -> str:
        """A line of the heading, without its end."""
        while b"\n" not in self.waiting:
            if len(self.waiting) > LONGEST_LINE:
                raise OutOfStep(f"a line of a heading has more than {LONGEST_LINE} bytes")
            self._more()
        end = self.waiting.index(b"\n")
        line = bytes(self.waiting[:end]).removesuffix(b"\r")
        del self.waiting[: end + 1]
        return line.decode("latin-1")

    def _length(self) -> int:
        """What a heading says. Lines that it doesn't know are passed over, if they have the form of
        one: the first line of HTTP, as a browser sends to a port, has not."""
        length = ""
        while line := self._line():
            name, colon, value = line.partition(":")
            if not colon or not name.replace("-", "").isalnum():
                raise OutOfStep(f"{line[:40]!r} is no line of a heading, such as Content-Length: 9")
            length = value.strip() if name.lower() == LENGTH else length
        if not (length.isascii() and length.isdigit() and len(length) <= 10):
            raise OutOfStep("a heading has no Content-Length that is a number")
        if int(length) > LONGEST_MESSAGE:
            raise OutOfStep(f"a message of {length} bytes is longer than {LONGEST_MESSAGE}")
        return int(length)

    def message(self) -> Optional[Object]:
        """The next message, or None at the end of the stream, also in the middle of one."""
        try:
            length = self._length()
            while len(self.waiting) < length:
                self._more()
        except Cut:
            return None
        body = bytes(self.waiting[:length])
        del self.waiting[:length]
        try:
            found = json.loads(body)
        except (ValueError, RecursionError) as error:
            raise BadMessage(f"a message is no JSON: {error}") from error
        if not isinstance(found, dict):
            raise BadMessage("a message is no object of JSON")
        return found

    def send(self, message: Object) -> None:
        """Writes a message whole. ConnectionError if nobody reads any more."""
        body = json.dumps(message).encode("ascii")
        try:
            write_all(self.written, b"Content-Length: %d\r\n\r\n%s" % (len(body), body))
        except ConnectionError:
            raise
        except OSError as error:
            raise Unwritable(error.strerror) from error


KINDS = {str: "a text", int: "a whole number", bool: "true or false", list: "a list"}
KINDS[dict] = "an object"


@dataclass(frozen=True)
class Fields:
    """The fields of an object in the request of this name. null is as no field."""

    values: Object
    request: str

    def has(self, name: str) -> bool:
        return self.values.get(name) is not None

    def _found(self, name: str, kind: type, default: Any) -> Any:
        value = self.values.get(name)
        if value is None:
            if default is None:
                raise ExploreError(f"{self.request}: the field '{name}' is missing")
            return default
        if not isinstance(value, kind) or kind is int and isinstance(value, bool):
            raise ExploreError(f"{self.request}: the field '{name}' isn't {KINDS[kind]}")
        return value

    def text(self, name: str, default: Optional[str] = None) -> str:
        found: str = self._found(name, str, default)
        try:
            found.encode()
        except UnicodeEncodeError:
            raise ExploreError(f"{self.request}: '{name}' has half a surrogate pair") from None
        return found

    def path(self, name: str, default: Optional[str] = None) -> str:
        """A text that can be a path."""
        found = self.text(name, default)
        if "\0" in found:
            raise ExploreError(f"{self.request}: {name} has a NUL")
        return found

    def number(self, name: str, default: Optional[int] = None) -> int:
        found: int = self._found(name, int, default)
        return found

    def truth(self, name: str, default: bool) -> bool:
        found: bool = self._found(name, bool, default)
        return found

    def inside(self, name: str) -> "Fields":
        return Fields(self._found(name, dict, None), self.request)

    def items(self, name: str) -> list[Any]:
        """The items of a list, none if there is no such field."""
        found: list[Any] = self._found(name, list, [])
        return found

    def objects(self, name: str) -> Iterator["Fields"]:
        """The objects in a list."""
        for it in self.items(name):
            if not isinstance(it, dict):
                raise ExploreError(f"{self.request}: '{name}' has an item that isn't an object")
            yield Fields(it, self.request)

    def texts(self, name: str) -> Iterator[str]:
        """The texts in a list."""
        for it in self.items(name):
            if not isinstance(it, str):
                raise ExploreError(f"{self.request}: '{name}' has an item that isn't a text")
            yield it
