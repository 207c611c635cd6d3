"""The control sequences in what a program prints: what they set at the terminal, and how that is
set back. A query has the terminal send an answer, which would come in as keys."""
import re
from functools import lru_cache
from typing import Iterator

LONGEST = 65_536  # of a sequence that isn't whole yet
# A control of one byte does inside a sequence what it does outside. CAN, SUB and ESC end the
# sequence.
CONTROL = rb"\0-\x17\x19\x1c-\x1f\x7f"
CONTROLS = re.compile(rb"[%b]+" % CONTROL)
# ESC; then `[` and its parameters, or a string, or other bytes before the last one.
BEGIN = rb"\x1b[%b]*" % CONTROL
PARAMETERS = rb"\[[ -?%b]*" % CONTROL
STRING = rb"[\]P^_X][^\a\x18\x1a\x1b]*"
OTHERS = rb"[ -/][ -/%b]*" % CONTROL
SEQUENCE = re.compile(
    rb"(?P<whole>%b(?:%b[@-~]|%b(?:\a|\x1b\\)|%b[0-~]|[0-OQ-WYZ\\`-~]))"
    rb"|(?P<part>(?:%b(?:%b|%b\x1b?|%b)?|\xc2+)\Z)"
    rb"|%b(?:%b|%b|%b)?"
    % ((BEGIN, PARAMETERS, STRING, OTHERS) * 3)
)
# Controls of one byte that stand for ESC and another byte, as a terminal of 8 bits or of UTF-8 has
# them.
OF_8_BITS, OF_UTF_8 = re.compile(rb"([\x80-\x9f])"), re.compile(rb"\xc2([\x80-\x9f])")
# The first byte of such a control without the second: behind a sequence that goes nowhere there may
# be one.
CUT_OF_UTF_8 = re.compile(rb"\xc2+(?=\x1b)")
# What xterm and others answer: who and how they are, where the cursor is, which modes, colours and
# texts they have. Of the strings, a title, a folder and a link may have a `?`.
ENQUIRY = b"\x05"
QUERY = re.compile(
    rb"\x1bZ|\x1b\[([=>]?[\d;]*c|\??[\d;]*n|[\d;]*x|(1[1-8]|19|2[01])[\d;]*t|>[\d;]*q|\?u"
    rb"|\??[\d;]*\$p|[\d;]*(\*y|\$[uw]|&u|['#]\||#R|\"v|\+x)|\?[\d;]*[Sgm])"
    rb"|\x1b\](?!(0|1|2|7|8);).*\?.*|\x1b\](6[01]\b|1337;Re[pq]).*|\x1b(P[\d;]*([$+][qQ]|p)|_).*",
    re.DOTALL,
)
MODES = re.compile(rb"\x1b\[(?P<mark>\??)(?P<numbers>[\d;]*)(?P<how>[hl])")
# Modes that are on in a terminal that nothing has set, and those by which the terminal reports
# without a key: that its window is in front, or has another size or other colours.
ON = {b"12", b"?2", b"?7", b"?8", b"?25", b"?1034", b"?1035", b"?1036"}
REPORTS = {b"?1004", b"?2031", b"?2048"}
VT52, ANSI_AGAIN = b"?2", b"\x1b<"
# When these go off, the cursor is back where it was before they were set.
RETURNS = {b"?1048", b"?1049"}
SET_ANEW, WHOLE_REGION, LAST_LINE = b"\x1bc", b"\x1b[r", b"\x1b[999;1H\r\n"
# What puts the cursor anywhere, or leaves it anywhere when it is set back.
ADDRESSES = re.compile(rb"\x1b\[((?!1?(;1?)?[Hf])[\d;]*[Hf]|[\d;]*r)")
ORIGIN = b"?6"
STRING_END, SHIFT_OUT, SHIFT_IN = b"\x1b\\", b"\x0e", b"\x0f"
# Other sequences that set something, and what sets it back.
SETTINGS = [
    (re.compile(rb"\x1b\[[\d;:]*m"), b"\x1b[m"),  # colours
    (re.compile(rb"\x1b[()*+./-].*"), b"\x1b(B\x1b)B\x1b*B\x1b+B"),  # character sets
    (re.compile(rb"\x1b[no|}~]"), SHIFT_IN),
    (re.compile(rb"\x1b%@"), b"\x1b%G"),
    (re.compile(rb"\x1b="), b"\x1b>"),  # the keypad
    (re.compile(rb"\x1b\[>[\d;]*m"), b"\x1b[>m"),  # what keys send
    (re.compile(rb"\x1b\[[=>][\d;]*u"), b"\x1b[<99u\x1b[=0u"),
    (re.compile(rb"\x1b\[\d* q"), b"\x1b[0 q"),  # the form of the cursor
    (re.compile(rb"\x1b\]8;.*"), b"\x1b]8;;" + STRING_END),  # a link
    *(  # the palette, and the colours of text, ground and cursor
        (re.compile(rb"\x1b\]%d;.*" % it), b"\x1b]%d%b" % (100 + it, STRING_END))
        for it in (4, 10, 11, 12)
    ),
]


def escape_of(found: "re.Match[bytes]") -> bytes:
    """ESC and the other byte that a control of 8 bits stands for."""
    return bytes([0o33, found[1][0] - 0o100])


def controls_in(sequence: bytes, bare: bytes) -> bytes:
    """The controls of one byte that do what they do although the sequence goes nowhere. In a string
    there are none."""
    is_string = bare[1:2] in {b"]", b"P", b"^", b"_", b"X"}
    return b"" if is_string else b"".join(CONTROLS.findall(sequence))


@lru_cache(maxsize=4096)
def set_back_by(bare: bytes) -> list[bytes]:
    """What sets back what this sequence sets."""
    return [it for form, it in SETTINGS if form.fullmatch(bare)]


class Sequences:
    """What a program prints, on its way to a terminal. A sequence goes on once it is whole, and one
    that is cut by another or too long goes nowhere. Queries go on if the program gets answers."""

    def __init__(self, is_utf_8: bool, has_answers: bool):
        self.is_utf_8 = is_utf_8
        self.has_answers, self.withheld = has_answers, 0
        self.held = b""
        self._forget()

    def _forget(self) -> None:
        """The terminal is as if nothing had been set."""
        self.modes: dict[bytes, bool] = {}  # those that aren't as at first
        self.used: set[bytes] = set()
        self.is_addressed = False

    def passed(self, data: bytes) -> bytes:
        """What of these bytes goes to the terminal now."""
        if not self.has_answers:
            self.withheld += data.count(ENQUIRY)
            data = data.replace(ENQUIRY, b"")
        if SHIFT_OUT in data:
            self.used.add(SHIFT_IN)
        data, self.held = self.held + data, b""
        if self.is_utf_8:
            data = CUT_OF_UTF_8.sub(b"", OF_UTF_8.sub(escape_of, data))
        else:
            data = OF_8_BITS.sub(escape_of, data)
        return SEQUENCE.sub(self._passed_sequence, data)

    def _passed_sequence(self, found: "re.Match[bytes]") -> bytes:
        sequence, part = found[0], found["part"]
        if part is not None and len(part) <= LONGEST:
            self.held = part
            return b""
        bare = CONTROLS.sub(b"", sequence)
        if found["whole"] is None:
            return controls_in(sequence, bare)
        if QUERY.fullmatch(bare) and not self.has_answers:
            self.withheld += 1
            return controls_in(sequence, bare)
        modes = MODES.fullmatch(bare)
        if modes:
            return self._passed_modes(sequence, bare, modes)
        self._note(bare)
        return sequence

    def _passed_modes(self, sequence: bytes, bare: bytes, found: "re.Match[bytes]") -> bytes:
        """The sequence that sets these modes, without those by which the terminal reports."""
        mark, is_on = found["mark"], found["how"] == b"h"
        numbers = [it for it in found["numbers"].split(b";") if it]
        passed = [
            it for it in numbers if self.has_answers or not is_on or mark + it not in REPORTS
        ]
        for name in (mark + it for it in passed):
            self.is_addressed = self.is_addressed or name == ORIGIN
            if is_on == (name in ON):
                self.modes.pop(name, None)
            else:
                self.modes[name] = is_on
        if passed == numbers:
            return sequence
        self.withheld += 1
        left = b"\x1b[%b%b%b" % (mark, b";".join(passed), found["how"])
        return (left if passed else b"") + controls_in(sequence, bare)

    def _note(self, bare: bytes) -> None:
        if bare == SET_ANEW:
            self._forget()
        self.is_addressed = self.is_addressed or ADDRESSES.fullmatch(bare) is not None
        self.used.update(set_back_by(bare))

    def set_back(self) -> bytes:
        """What makes the terminal as it was before the program. If the program has put the cursor
        anywhere, the cursor is then in the last line."""
        return b"".join(self._parts_of_set_back())

    def _parts_of_set_back(self) -> Iterator[bytes]:
        modes, used, is_addressed = self.modes, self.used, self.is_addressed
        self._forget()
        if modes.pop(VT52, None) is not None:
            yield ANSI_AGAIN
        if is_addressed:
            yield WHOLE_REGION
        for name, is_on in modes.items():
            yield b"\x1b[%b%b" % (name, b"l" if is_on else b"h")
        yield from (it for _, it in SETTINGS if it in used)
        if is_addressed and not RETURNS & modes.keys():
            yield LAST_LINE
