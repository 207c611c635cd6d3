"""undoing [FOLDER..]: runs each stored session of these folders on search, with each edit taken
back and made again at once. While it is taken back, the questions that were asked since the edit
before it are asked again. At the end all edits are taken back, one by one, and made again, and the
last questions asked once more. The replies must be those of the session, and `undo` and `redo`
refused where no edit is left.

A session is skipped if it has no reply, or not one for each of its lines, and if it asks for help
or has a line of a search. The last line is 'N passed, M failed'."""
import sys
from typing import Optional

from tests import stored_sessions as sessions, under_test
from tests.checks.jumps import Answered, answered_lines, is_question
from tests.checks.stored import as_search

UNDO, REDO, NONE, OK = b"undo\n", b"redo\n", b"refused 17 NoSuchEdit\n", b"ok\n"
MOST_ASKED = 4


def is_edit(line: bytes, reply: bytes) -> bool:
    is_taken = reply != b"" and not reply.startswith(b"refused")
    return is_taken and sessions.first_word(line).strip() in sessions.EDITS


def with_undone(answered: Answered) -> tuple[bytes, bytes]:
    """The lines of a session with its edits taken back and made again, and the output that they
    must have."""
    done: Answered = []
    asked: Answered = []
    edits = 0
    for line, reply in answered:
        done.append((line, reply))
        if is_question(line, reply):
            asked = [*asked, (line, reply)][-MOST_ASKED:]
        elif is_edit(line, reply):
            if sessions.first_word(line) == b"version":
                edits = 0
                done += [(UNDO, NONE), (REDO, NONE)]
            else:
                edits += 1
                done += [(UNDO, OK), *asked, (REDO, OK), (REDO, NONE)]
            asked = []
    done += [*[(UNDO, OK)] * edits, (UNDO, NONE), *[(REDO, OK)] * edits, *asked]
    return b"".join(line for line, _ in done), b"".join(reply for _, reply in done)


def failure(program: str, session: sessions.Session, answered: Answered) -> Optional[str]:
    """What is wrong with a session whose edits are taken back and made again, or None."""
    lines, output = with_undone(answered)
    got, wanted = sessions.run(program, session, lines), session.expected._replace(output=output)
    return None if got == wanted else sessions.difference(got, wanted)


def main() -> int:
    folders = sessions.asked_folders(sessions.parser_of(__doc__)).folders
    program = under_test.by_its_name("search")
    passed, failed, skipped = 0, 0, 0
    for folder in sessions.folders_of(folders, sessions.RULES, f"{sessions.VALUES}/kept-states"):
        for session in sessions.sessions_of(folder):
            answered = answered_lines(session) if sessions.is_of_both(session) else None
            if answered is None or session.expected.output == b"":
                skipped += 1
                continue
            wrong = failure(program, as_search(session), answered)
            passed, failed = passed + (wrong is None), failed + (wrong is not None)
            if wrong is not None:
                print(f"{session.name}: {wrong}")
    print(f"{skipped} skipped")
    print(f"{passed} passed, {failed} failed")
    return int(failed > 0 or passed == 0)


if __name__ == "__main__":
    sys.exit(main())
