"""The prompt at a terminal, which the tests play through a pseudo terminal."""

from .terminal import AtTerminal


class Terminal(AtTerminal):
    """Line editing, history and Ctrl-C."""

    def test_a_line_goes_through(self) -> None:
        self.begin("examples/first-run.session")
        self.type("mem 0 1000 2\n")
        self.wait_for(b"mem 012700 000005")
        self.end()

    def test_an_arrow_brings_the_line_before(self) -> None:
        self.begin()
        self.type("last 0 1000\n")
        self.wait_for(b"last never")
        self.type("\x1b[A\n")
        self.wait_for(b"last never")
        self.end()

    def test_a_path_is_completed_into_a_folder(self) -> None:
        self.begin()
        self.type("symbols exam\tledger/user.s\t\n")
        self.wait_for(b"symbols examples/ledger/user.sym")
        self.wait_for(b" symbols\r\n")
        self.end()

    def test_a_path_with_a_space_is_completed_in_quotes(self) -> None:
        (self.folder / "my folder").mkdir()
        (self.folder / "my folder" / "two words").write_text("HERE 1000\n")
        (self.folder / "my folder" / "two\x1b[5m").write_text("")  # which is no name to show
        self.begin()
        self.type("symbols my\tt\t\n")
        self.wait_for(b'"my folder/two words"')
        self.wait_for(b"1 symbol\r\n")
        self.end()

    def test_after_a_word_that_is_completed_comes_a_space(self) -> None:
        self.begin("examples/first-run.session")
        self.type("see\t2\n")
        self.wait_for(b"see 2")
        self.wait_for(b"1  kernel  001004  001004  HALT")
        self.type("help scree\t\n")
        self.wait_for(b"screen [N [LAST]]")
        self.end()

    def test_symbols_are_completed_where_an_address_goes(self) -> None:
        (self.folder / "names").write_text("BALANCE 1000\nBALSAM 1002\nother 1004\n")
        (self.folder / "OTHER").write_text("")
        self.begin("examples/first-run.session")
        self.type("names names\n")
        for typed, shown in (
            ("last 1 BALA\t", b"last never"),
            ("first 0 9 at BALA\t", b"first 0"),
            ("first 0 9 where R0 = 5 and core ot\t = 0", b"first 1"),
            ("until PC ot\t from 0", b"turn 1: kernel 001004 (other) HALT"),
            ("break kernel BALA\t if at BALA\t", b"breakpoint 1: break kernel 1000 (BALANCE)"),
            ("dump BALA\t 1", b"001000  012700"),
            ("last 1 user OTH\t", b"user 001004 is 001004 before turn 1"),
        ):
            self.type(f"{typed}\n")
            self.wait_for(shown)
        # a count is none, and a file is none
        self.type("see BALA\t\n")
        self.wait_for(b"the form is: see [N [C]]")
        self.type("symbols OTH\t\n")
        self.wait_for(b"OTHER has no symbol")
        self.end()

    def test_words_of_ones_own_and_topics_are_completed(self) -> None:
        self.begin("examples/first-run.session")
        self.type("define whole regs 0\n")
        self.type("who\t\n")
        self.wait_for(b"R0 000000")
        self.type("help sear\t\n")
        self.wait_for(b"searches: lines of searches")
        (self.folder / "names").write_text("BALANCE 1000\n")
        self.type("names names\n")
        self.type("display pat\t\n")
        self.wait_for(b"display 1 from now on: patches")
        self.type("define w last 5 BAL\t\n")
        self.wait_for(b"define w last 5 BALANCE\r\n")
        self.type("define two mem 0 $1 1\n")
        self.type("two BAL\t\n")
        self.wait_for(b"mem 012700")
        self.type("undefine tw\t\n")
        self.wait_for(b"no more: define two mem")
        self.end()

    def test_the_history_is_there_the_next_time(self) -> None:
        self.begin()
        self.type("mem 0 1000 3\n")
        self.wait_for(b"mem 000000")
        self.end()
        self.seen = b""
        self.begin()
        self.type("\x1b[A\n")
        self.wait_for(b"mem 000000")
        self.end()

    def test_ctrl_c_at_the_prompt_drops_the_line(self) -> None:
        self.begin()
        self.type("core 1000 1")
        self.wait_for(b"core 1000 1")
        self.drop_line()
        self.type("patches\n")
        self.wait_for(b"patches 0")
        self.end()

    def test_ctrl_c_stops_a_question_and_keeps_the_edits(self) -> None:
        self.begin()
        self.type("core 1000 777\n")
        self.wait_for(b"ok")
        self.type("regs 1000000000\n")
        self.wait_for(b"regs: at work, ")
        self.interrupt()
        self.wait_for(b"regs: stopped")
        self.type("patches\n")
        self.wait_for(b"core 001000 000777")
        self.end()

    def test_a_long_question_shows_that_it_is_at_work(self) -> None:
        self.begin()
        self.type("regs 1000000000\n")
        seconds: set[int] = set()
        while len(seconds) < 2:
            self.wait_for(b"regs: at work, ")
            seconds.add(int(self.wait_for(b" s ")))
        self.interrupt()
        self.wait_for(b"regs: stopped")
        # a short one doesn't
        self.type("patches\n")
        self.assertNotIn("at work", self.wait_for(b"patches 0"))
        self.end()

    def test_a_bar_is_shown_and_ctrl_c_stops_a_sweep(self) -> None:
        self.begin("examples/one-key-sooner.session")
        self.type("sweep -y -j 2 -o kept key 101 from 0 to 300000: regs 300001\n")
        self.wait_for(b"] ")
        self.interrupt()
        self.wait_for(b"stopped: ")
        self.wait_for(b"goes on from kept")
        self.type("events\n")
        self.wait_for(b"event")
        self.end()
        kept = (self.folder / "kept").read_text().splitlines()
        self.assertGreater(len(kept), 2)
        self.assertTrue(kept[0].startswith("# sweep key 101: regs 300001, past "))
