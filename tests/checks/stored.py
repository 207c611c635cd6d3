"""sessions [--stride LIST] [FOLDER..]: runs the stored sessions of these folders on pdp11, and
compares standard output, exit status and standard error byte for byte. Each session that has no
stride of its own is run with each stride of the list, and must end the same. The list is 1,4,10000
if it isn't given.

sessions-by-search (--search) runs them on search, with no list as they are: it must end as pdp11
does, with its own name on standard error. Sessions that ask for help, or have a line of a search,
are left out. searches (--searches) runs the sessions NAME.search and NAME.search-transcript in
place of the others. The last line is 'N passed, M failed'."""
import sys

from tests import stored_sessions as sessions, under_test

STRIDES = ["1", "4", "10000"]


def as_search(session: sessions.Session) -> sessions.Session:
    """The session as the program search must end it."""
    error = session.expected.error.replace(b"pdp11: ", b"search: ")
    return session._replace(expected=session.expected._replace(error=error))


def main() -> int:
    asked = sessions.asked(sessions.parser_of(__doc__), "--search", "--searches")
    ending = ".search" if "--searches" in asked.flags else ".session"
    usual = (f"{sessions.RULES}/searches",) if ending == ".search" else sessions.ALL
    strides = asked.strides or ([] if "--search" in asked.flags else STRIDES)
    program = under_test.by_its_name("search" if asked.flags else "pdp11")
    passed = failed = 0
    for folder in sessions.folders_of(asked.folders, *usual):
        found = sessions.sessions_of(folder, ending)
        if not found:
            print(f"{folder}: no session")
            failed += 1
        if "--search" in asked.flags:
            found = [as_search(it) for it in found if sessions.is_of_both(it)]
        for session in (one for it in found for one in sessions.with_strides(it, strides)):
            got = sessions.run(program, session, session.lines)
            if got == session.expected:
                passed += 1
            else:
                failed += 1
                print(f"{session.name}: {sessions.difference(got, session.expected)}")
    print(f"{passed} passed, {failed} failed")
    return int(failed > 0)


if __name__ == "__main__":
    sys.exit(main())
