"""Texts and bytes as they are shown: a control byte is text, and has no effect on a terminal."""
import re

# LF and TAB stay: they move the cursor, and do nothing else.
HIDDEN = re.compile(r"[^\n\t -~]")
MOVES = b"\b\t\n\r"


def visible_character(character: str) -> str:
    """The character, or what stands for one that a terminal shows in no place of its own: a byte
    has three octal digits, as in the replies of `text`, and a character above 377 its number."""
    if character.isprintable():
        return character
    return escaped_character(character)


def escaped_character(character: str) -> str:
    number = ord(character)
    if 0xDC80 <= number <= 0xDCFF:  # a byte that is no text
        return f"\\{number - 0xDC00:03o}"
    if number <= 0o177:
        return f"\\{number:03o}"
    return f"\\u{number:04x}" if number <= 0xFFFF else f"\\U{number:08x}"


def visible(text: str) -> str:
    """The text, in which nothing is left that a terminal takes for a command: no control character,
    no byte that is no text, and none of the characters that change the direction of writing."""
    if text.isprintable():
        return text
    return HIDDEN.sub(lambda it: visible_character(it[0]), text)


def in_text(byte: int) -> str:
    """A byte as replies of `text` have it."""
    return chr(byte) if 0o40 <= byte < 0o177 and byte != ord("\\") else f"\\{byte:03o}"


SHOWN = [bytes([it]) if it in MOVES else in_text(it).encode() for it in range(0o400)]


def visible_bytes(data: bytes) -> bytes:
    """The bytes as `text` shows them, except that BS, TAB, LF and CR move the cursor."""
    return b"".join([SHOWN[it] for it in data])
