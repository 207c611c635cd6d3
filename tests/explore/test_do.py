"""Files of lines, words of one's own, and lines that are displayed."""
from .explore_case import Case
from .terminal import AtTerminal

FIRST = "examples/first-run.session"
KEYS = ("--start", "2000", "--disk", "examples/moved-keys.disk", "examples/boot-rk0.session")


class Files(Case):
    """`do FILE` and what ends it."""

    def put(self, name: str, *lines: str) -> None:
        (self.folder / name).write_text("".join(f"{it}\n" for it in lines))

    def test_lines_are_done_as_if_they_were_typed(self) -> None:
        lines = ["mem 0 1000 2", "at 5 tick", "core 2000 7", "show 1", "step", "events"]
        self.put("it", "# a comment", "", *lines, " \t")
        typed = self.explore("".join(f"{it}\n" for it in lines), "--echo", FIRST)
        self.assertEqual(self.explore("do it\n", "--echo", FIRST), f"explore> do it\n{typed}")
        self.assertEqual(
            self.explore("do it\n", FIRST),
            self.explore("".join(f"{it}\n" for it in lines), FIRST),
        )

    def test_each_line_is_a_step_of_undo(self) -> None:
        self.put("it", "core 1000 1", "core 1002 2", "core 1004 3")
        written = self.explore("do it\nundo\npatches\nundo\nredo\n").splitlines()
        self.assertEqual(written[3], "taken back: core 1004 3")
        self.assertEqual(written[4:7], ["patches 2", "core 001000 000001", "core 001002 000002"])
        self.assertEqual(written[7:], ["taken back: core 1002 2", "made again: core 1002 2"])

    def test_a_line_that_fails_ends_it(self) -> None:
        wanted: dict[str, str] = {}
        for line, said in (
            ("mem 0 1 1", "refused 3 OddAddress\n  the address is odd\ndo: it:2: refused; "),
            ("step x", "do: it:2: step: the form is: step [K]; "),
            ("nothing", "there is no line 'nothing'; help lists the topics\ndo: it:2: refused; "),
            ("load nowhere", "do: it:2: load: nowhere: No such file or directory; "),
            ("expect x within 5", "do: it:2: expect: 'x' isn't printed in the turns 0 to 4; "),
            ("record", "do: it:2: record: each turn is recorded: "),
        ):
            self.put(line.split()[0], "core 2000 1", line, "core 2000 2")
            wanted[line.split()[0]] = said
        lines = (f"regs 0\ndo {name}\nmem 0 2000 1\n" for name in wanted)
        parts = self.explore("".join(lines), FIRST).split("R0 000000 ")[1:]
        self.assertEqual(len(parts), len(wanted))
        for part, (name, said) in zip(parts, wanted.items()):
            self.assertIn(said.replace("it:2", f"{name}:2"), part)
            end = "the lines after it aren't done\nmem 000001\n"
            self.assertTrue(part.endswith(end), part)

    def test_a_search_that_finds_nothing_does_not_end_it(self) -> None:
        self.put("it", "until PC 4000 to 9", "core 2000 2")
        self.assertTrue(self.explore("do it\n", FIRST).endswith("\nok\n"))

    def test_files_that_do_files(self) -> None:
        self.put("a", "core 2000 1", "do b", "core 2002 1")
        self.put("b", "core 2000 2", "step x", "core 2000 3")
        self.assertIn("do: a:2: b:2: step: the form is", self.explore("do a\n"))
        self.put("b", "core 2000 2")
        written = self.explore("do a\nmem 0 2000 2\n")
        self.assertTrue(written.endswith("mem 000002 000001\n"), written)
        self.put("itself", "at 5 tick", "do itself")
        written = self.explore("do itself\nevents\ndo a\n")
        self.assertIn("itself:2: do: itself: more than 16 files that do one another; ", written)
        self.assertIn("\n16 events\n", written)
        self.assertEqual(written.count("aren't done"), 1)
        self.assertTrue(written.endswith("ok\nok\nok\n"))

    def test_quit_ends_explore(self) -> None:
        self.put("it", "mem 0 0 1", "quit", "mem 0 2 1")
        self.put("other", "do it", "mem 0 4 1")
        self.assertEqual(self.explore("do other\nmem 0 6 1\n"), "mem 000000\n")
        written = self.explore("define leave quit\nleave\nmem 0 0 1\n")
        self.assertEqual(written, "define leave quit\n")

    def test_files_that_are_none(self) -> None:
        (self.folder / "nul").write_bytes(b"mem 0 0 1\n\0\n")
        (self.folder / "bytes").write_bytes(b"\xff\xfe\r\nmem 0 0 1\r\n")
        (self.folder / "end").write_bytes(b"mem 0 0 1\r\nmem 0 2 1")
        (self.folder / "gz").write_bytes(b"\x1f\x8b\x08")
        wanted = (
            ("nowhere", "do: nowhere: No such file"),
            (".", "do: .: Is a directory"),
            ("/dev/zero", "do: /dev/zero is too long: it has more than 1048576 bytes"),
            ("/dev/null", ""),
            ("nul", "do: nul is no text"),
            ("gz", "do: gz is a gzip: gunzip it first"),
            ("bytes", "there is no line '\\377\\376'"),
            ("end", "mem 000000\nmem 000000\n"),
            ("''", "do: a FILE has no name"),
            ("a b", "do: the form is: do FILE; a FILE or a TEXT with spaces stands in quotes"),
        )
        written = self.explore("".join(f"regs 0\ndo {name}\n" for name, _ in wanted))
        for part, (name, said) in zip(written.split("R0 ")[1:], wanted):
            self.assertIn(said, part, name)


class Words(Case):
    """`define`, `defines`, `undefine`."""

    def test_arguments(self) -> None:
        defined = "define w core $1 $2\ndefine two mem 0 $1 2\ndefine say type $*\n"
        lines = "w 1000 5\nw 1002 6\ntwo 1000\nsay 'a b' from 300\n"
        wrong = "w 1000\nw 1000 1 2\nw\ntwo 1000 5\n"
        written = self.explore(f"{defined}{lines}{wrong}", *KEYS)
        self.assertIn("\nok\nok\nmem 000005 000006\nevent 1 at 300 key 141\n", written)
        self.assertEqual(
            written.splitlines()[-4:],
            [
                "w: $2 is missing; w is: core $1 $2",
                "w: '2' is too much; w is: core $1 $2",
                "w: $1 is missing; w is: core $1 $2",
                "two: '5' is too much; two is: mem 0 $1 2",
            ],
        )

    def test_quotes_stay_and_an_apostrophe_is_none(self) -> None:
        written = self.explore("define t type $1\"!\" from 300\nt 'a b'\n", *KEYS)
        keys = [int(it.split()[5], 8) for it in written.splitlines()[1:]]
        self.assertEqual(bytes(keys), b"a b!")
        written = self.explore("define c core $*\nc 1000 MOV #'A,R0\n")
        self.assertNotIn("isn't closed", written)

    def test_the_current_turn(self) -> None:
        lines = "define now regs $turn\ndefine turns regs $turns\nshow 1\nnow\nregs 1\nturns\n"
        written = self.explore(lines, FIRST).splitlines()
        self.assertEqual(written[-4], written[-3])
        self.assertEqual(written[-2], "refused 10 BadLine")

    def test_a_word_may_lead_to_another(self) -> None:
        lines = "define a b 1000 $1\ndefine b core $1 $2\na 7\nmem 0 1000 1\nundo\nmem 0 1000 1\n"
        written = self.explore(lines).splitlines()[2:]
        self.assertEqual(written, ["ok", "mem 000007", "taken back: a 7", "mem 000000"])

    def test_words_without_an_end(self) -> None:
        lines = "".join(f"define w{it} w{it + 1} $* $* $*\n" for it in range(15))
        written = self.explore(f"define a b\ndefine b a\n{lines}a\nw0 {'x' * 90}\n").splitlines()
        self.assertEqual(written[-2], "a: words that are defined by one another: more than 16")
        self.assertEqual(written[-1], "w0: the line has more than 65536 characters with its words")

    def test_names_that_are_taken(self) -> None:
        names = ("step", "mem", "help", "quit", "q", "exit", "latest", "setup", "do", "define")
        wrong = ("5", "a!", "?", "-x", "\u00e9", "a$", "x" * 65)
        lines = "".join(f"define {name} regs 0\n" for name in (*names, *wrong))
        written = self.explore(f"{lines}define\ndefine a\ndefine a # regs 0\n").splitlines()
        for name, said in zip(names, written):
            wanted = f"define: {name} is a command already; help {name} says what it does"
            self.assertEqual(said, wanted)
        for said in written[len(names) : -3]:
            self.assertIn(" is no NAME: a letter, ", said)
        self.assertEqual(written[-3:-1], ["define: the form is: define NAME LINE"] * 2)
        self.assertEqual(written[-1], "define: LINE is a comment")

    def test_a_word_of_another_debugger_may_be_defined(self) -> None:
        written = self.explore("b 1000\ndefine b break $*\nb 1000\nhelp b\nundefine b\nb 1000\n")
        said = "`break 1000`, then `continue`"
        self.assertEqual(
            written.splitlines(),
            [said, "breakpoint 1: break 1000", "define b break $*", "breakpoint 2: break 1000"]
            + ["define b break $*", "no more: define b break $*", said, "breakpoint 3: break 1000"],
        )

    def test_what_is_listed_defines_them_again(self) -> None:
        listed = self.explore("defines\ndefine z regs $1\ndefine a type \"x y\"\ndefines\n")
        self.assertTrue(listed.startswith("no word is defined"))
        lines = "".join(f"{it}\n" for it in listed.splitlines()[-2:])
        (self.folder / "words").write_text(lines)
        self.assertEqual(self.explore("do words\ndefines\n"), lines * 2)
        self.assertIn("x isn't defined", self.explore("undefine x\n"))

    def test_a_word_that_stands_for_nothing(self) -> None:
        lines = "define all $*\nall\nall # x\nall regs 0\nall quit!\nregs 1\n"
        written = self.explore(lines)
        self.assertEqual(written.count("R0"), 1)


class Displays(Case):
    """`display` and `undisplay`."""

    def test_it_is_shown_when_the_turn_moves(self) -> None:
        lines = "display mem $turn 1000 1\nshow 3\nstep\nregs 5\nshow 4\n"
        lines += "until PC 1004 from 0\nback 9\n"
        written = self.explore(lines, FIRST)
        # at first, then for turns 3, 4 and 1
        self.assertEqual(written.count("mem 012700"), 4)
        self.assertEqual(written.count("display 1: mem $turn 1000 1\nmem 012700\n"), 3)
        self.assertEqual(written.count("display 1 from now on: mem $turn 1000 1"), 1)

    def test_it_leaves_the_turn(self) -> None:
        written = self.explore("show 4\ndisplay see 2\ndisplay step\nstep\nback\n", FIRST)
        shown = [it for it in written.splitlines() if it.startswith("before turn ")]
        turns = [int(it.split()[2].rstrip(":")) for it in shown]
        # show 4; display step; step, its display; back, its display
        self.assertEqual(turns, [4, 5, 5, 6, 4, 5])

    def test_it_is_shown_for_each_line_of_a_file(self) -> None:
        (self.folder / "it").write_text("step\nstep\nregs 0\n")
        written = self.explore("display trail $turn 1\nundisplay\n", FIRST)
        self.assertIn("refused 8 CountOutOfRange", written)
        self.assertIn("no line is displayed", written)
        written = self.explore("show 3\ndisplay trail $turn 1\ndo it\nregs 0\n", FIRST)
        self.assertEqual(written.count("display 1: trail"), 2)
        self.assertEqual(written.count("trail 1\n"), 3)

    def test_words_are_taken_as_they_are_defined(self) -> None:
        lines = "define w last $turn $1\ndisplay w 1000\nundefine w\nstep\ndisplay\n"
        written = self.explore(lines, FIRST)
        self.assertEqual(written.count("display 1: last $turn 1000\nlast never\n"), 2)

    def test_what_can_not_be_displayed(self) -> None:
        refused = ["core 1000 5", "core 1000 HALT", "at 5 tick", "type x", "undo", "do it"]
        refused += ["load x", "quit", "console", "break 1000", "define a b", "display show"]
        refused += ["log x", "bt", "sweep 1", "save x", "expect x"]
        shown = self.explore("".join(f"display {it}\n" for it in refused)).splitlines()
        said = "display: '{}' can't be displayed: a LINE shows or finds something"
        self.assertEqual(shown, [said.format(it.split()[0]) for it in refused])
        written = self.explore("display mem 0 1 1\ndisplay show x\nstep\n", FIRST)
        self.assertNotIn("display 1", written)

    def test_one_that_fails_later_says_so(self) -> None:
        lines = "show 5\ndisplay trail $turn 4\nshow 1\nshow 6\n"
        written = self.explore(lines, FIRST)
        self.assertEqual(written.count("display 1: trail $turn 4\nrefused 8 CountOutOfRange\n"), 1)
        self.assertEqual(written.count("display 1: trail $turn 4\ntrail 4\n"), 1)

    def test_numbers(self) -> None:
        lines = "display regs $turn\ndisplay show\nundisplay 1\nundisplay 1\nundisplay 9999999999\n"
        written = self.explore(f"{lines}display patches\nundisplay\nundisplay\ndisplay\n", FIRST)
        self.assertIn("display 1 is gone: regs $turn\nundisplay: there is no display 1; ", written)
        self.assertIn("display 3 from now on: patches\ndisplay 2 is gone: show\n", written)
        self.assertTrue(written.endswith("no line is displayed: display LINE adds one\n" * 2))


class AtPrompt(AtTerminal):
    """Ctrl-C, and the prompt in what is shown."""

    def test_ctrl_c_ends_a_file(self) -> None:
        (self.folder / "it").write_text("core 1000 777\nregs 1000000000\ncore 1000 1\n")
        self.begin()
        self.type("do it\n")
        self.wait_for(b"explore> core 1000 777\r\nok\r\n")
        self.wait_for(b"explore> regs 1000000000\r\n")
        self.wait_for(b"do: at work, ")
        self.interrupt()
        self.wait_for(b"do: stopped; the edits are all there")
        self.type("patches\n")
        self.wait_for(b"core 001000 000777")
        self.end()

    def test_ctrl_c_in_a_sweep_ends_the_file(self) -> None:
        (self.folder / "it").write_text(
            "sweep -y -j 1 key 101 from 0 to 900000: regs 900001\ncore 2000 5\n"
        )
        self.begin("examples/one-key-sooner.session")
        self.type("do it\n")
        self.wait_for(b"] ")
        self.interrupt()
        self.wait_for(b"do: it:1: stopped; the lines after it aren't done")
        self.end()

    def test_the_journal_has_each_line(self) -> None:
        (self.folder / "it").write_text("core 1000 1\ncore 1002 2\n")
        self.begin()
        self.type("do it\n")
        self.wait_for(b"explore> core 1002 2\r\nok\r\n")
        self.type("show 5\n")
        self.wait_for(b"turn 5: ")
        self.end()
        written = self.explore("undo\nundo\n", "--resume")
        self.assertIn("taken back: core 1002 2\ntaken back: core 1000 1\n", written)
