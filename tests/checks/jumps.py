"""jumps [--stride LIST] [--skipped N] [FOLDER..]: runs each stored session of these folders on
pdp11 with all its questions asked again before the next edit, and at the end: a hundred times in
reverse order, and as often in their order. Each question must have the same reply each time.

each-turn (--each-turn) asks questions before the first question after an edit instead: about turn
1, turn 0, turn 2, turn 0 and so on, up to the turn of the question, at most 250. With stride 1 each
of these turns so begins from a loaded state, in which no line is decoded and no translation kept.
The session must have the same replies.

With a list of strides each session that has no stride of its own is run with each of them; the list
is 1 if it isn't given. A session is skipped if its output isn't one reply for each of its lines: if
the program shows its help, or doesn't start, or the last line doesn't end. With --skipped exactly N
sessions must be skipped. The last line is 'N passed, M failed'."""
import sys
from typing import Optional

from tests import stored_sessions as sessions, under_test

TIMES = 100
STRIDES = ["1"]
MOST_TURNS = 250

Answered = list[tuple[bytes, bytes]]


def answered_lines(session: sessions.Session) -> Optional[Answered]:
    """The lines of a session, each with its reply (empty for a line that has none), or None if the
    output isn't one reply for each line, or if the last line doesn't end."""
    lines = sessions.lines_of(session.lines)
    replies = sessions.replies_of(session.expected.output)
    are_answered = [sessions.has_reply(line) for line in lines]
    if sum(are_answered) != len(replies) or not session.lines.endswith(b"\n"):
        return None
    left = iter(replies)
    return [(line, next(left) if has_one else b"") for line, has_one in zip(lines, are_answered)]


def is_question(line: bytes, reply: bytes) -> bool:
    is_taken = reply != b"" and not reply.startswith(b"refused")
    return is_taken and sessions.first_word(line) in sessions.QUESTIONS


def with_jumps(answered: Answered) -> tuple[bytes, bytes]:
    """The lines of a session with its questions asked again, and the output that they must have."""
    jumped: Answered = []
    asked: Answered = []

    def ask_again() -> None:
        for order in (asked[::-1], asked) * TIMES:
            jumped.extend(order)
        asked.clear()

    for line, reply in answered:
        if is_question(line, reply):
            asked.append((line, reply))
        elif reply:
            ask_again()
        jumped.append((line, reply))
    ask_again()
    return b"".join(line for line, _ in jumped), b"".join(reply for _, reply in jumped)


def failure(program: str, session: sessions.Session, answered: Answered) -> Optional[str]:
    """What is wrong with a session whose questions are asked again, or None."""
    lines, output = with_jumps(answered)
    got, wanted = sessions.run(program, session, lines), session.expected._replace(output=output)
    return None if got == wanted else sessions.difference(got, wanted)


def with_each_turn(answered: Answered) -> tuple[bytes, list[bool]]:
    """The lines of a session with questions about each turn before its own, and for each line that
    has a reply whether it is one of its own."""
    lines: list[bytes] = []
    are_own: list[bool] = []
    turn = 0
    for line, reply in answered:
        if is_question(line, reply):
            last = min(int(line.split()[1]), MOST_TURNS)
            for it in range(turn + 1, last + 1):
                lines += [b"regs %d\n" % it, b"regs 0\n"]
                are_own += [False, False]
            turn = max(turn, last)
        elif reply:
            turn = 0
        lines.append(line)
        are_own += [True] * (reply != b"")
    return b"".join(lines), are_own


def failure_of_turns(
    program: str, session: sessions.Session, answered: Answered
) -> Optional[str]:
    """What is wrong with a session each of whose turns begins from a loaded state, or None."""
    lines, are_own = with_each_turn(answered)
    got = sessions.run(program, session, lines)
    replies = sessions.replies_of(got.output)
    if len(replies) == len(are_own):
        own = b"".join(reply for reply, is_own in zip(replies, are_own) if is_own)
        got = got._replace(output=own)
    return None if got == session.expected else sessions.difference(got, session.expected)


def main() -> int:
    parser = sessions.parser_of(__doc__)
    parser.add_argument("--skipped", metavar="N", type=int)
    asked = sessions.asked(parser, "--each-turn")
    some = (sessions.RULES, f"{sessions.VALUES}/kept-states")
    usual = sessions.ALL if asked.flags else some
    folders = sessions.folders_of(asked.folders, *usual)
    failure_in = failure_of_turns if asked.flags else failure
    program, to_skip = under_test.by_its_name("pdp11"), asked.words["skipped"]
    passed, failed, skipped = 0, 0, []
    for session in (it for folder in folders for it in sessions.sessions_of(folder)):
        answered = answered_lines(session)
        if answered is None:
            skipped.append(session.name)
            continue
        for one in sessions.with_strides(session, asked.strides or STRIDES):
            wrong = failure_in(program, one, answered)
            if wrong is None:
                passed += 1
            else:
                failed += 1
                print(f"{one.name}: {wrong}")
    if to_skip not in (None, len(skipped)):
        failed += 1
        print(f"{to_skip} sessions are to be skipped, and these are:", *skipped, sep="\n  ")
    print(f"{len(skipped)} skipped")
    print(f"{passed} passed, {failed} failed")
    return int(failed > 0 or passed == 0)


if __name__ == "__main__":
    sys.exit(main())
