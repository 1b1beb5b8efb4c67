"""The shell at a pseudo-terminal: each command and each refusal. at_terminal.py has the sources."""

from __future__ import annotations

import re
import sys
import unittest
from pathlib import Path

sys.path.insert(0, str(Path(__file__).resolve().parent))

from at_terminal import COUNTER, DOT, WRITER, AtTerminal  # noqa: E402
from programs import TOP  # noqa: E402
from terminal import Terminal  # noqa: E402

STOPPED = "step 32, 020a: the machine has stopped for S1: the program ended; line 8: EXIT"


class Moves(AtTerminal):
    def test_banner(self) -> None:
        self.opened()
        self.assertEqual(self.banner, "game.asm: 12 lines, no faults; help lists the commands\n> ")

    def test_step(self) -> None:
        self.answers(
            self.opened(),
            ("step", "step 1, 0202, line 4: LD I, BUF"),
            ("step 2", "step 3, 020c, line 9: UP:     ADD V0, 1"),
            ("s", "V0 00 -> 01\nstep 4, 020e, line 10: LD [I], V0"),
            ("step LIMIT", "step 9, 020c, line 9: UP:     ADD V0, 1"),
            ("step 1000", STOPPED),
        )

    def test_an_empty_line_repeats_the_last_step(self) -> None:
        terminal = self.opened()
        terminal.ask("step 2")
        self.answers(terminal, ("", "step 4, 020e, line 10: LD [I], V0"))
        terminal.ask("print V0")
        self.answers(terminal, ("", "step 6, 0206, line 6: SE V0, LIMIT"))

    def test_back(self) -> None:
        terminal = self.opened()
        terminal.ask("step 10")
        self.answers(
            terminal,
            ("back", "V0 02 -> 01\nstep 9, 020c, line 9: UP:     ADD V0, 1"),
            ("back 100", "step 0, 0200, line 3: START:  LD V0, 0"),
        )

    def test_goto(self) -> None:
        self.answers(
            self.opened(),
            ("goto 30", "step 30, 0206, line 6: SE V0, LIMIT"),
            ("goto #1", "step 1, 0202, line 4: LD I, BUF"),
            ("goto 1000000", STOPPED),
            ("goto LIMIT", "step 5, 0210, line 11: RET"),
        )

    def test_next_goes_over_a_call(self) -> None:
        self.answers(
            self.opened(),
            ("next 2", "step 2, 0204, line 5: LOOP:   CALL UP"),
            ("next", "step 6, 0206, line 6: SE V0, LIMIT"),
            ("n", "step 7, 0208, line 7: JP LOOP"),
        )

    def test_next_stops_at_the_end_of_a_subroutine(self) -> None:
        terminal = self.opened()
        terminal.ask("goto 5")
        self.answers(terminal, ("next", "step 6, 0206, line 6: SE V0, LIMIT"))

    def test_finish(self) -> None:
        terminal = self.opened()
        terminal.ask("goto 3")
        self.answers(terminal, ("finish", "step 6, 0206, line 6: SE V0, LIMIT"))

    def test_until_a_place(self) -> None:
        self.answers(
            self.opened(),
            ("until UP", "step 3, 020c, line 9: UP:     ADD V0, 1"),
            ("until up", "step 9, 020c, line 9: UP:     ADD V0, 1"),
            ("until 7", "step 13, 0208, line 7: JP LOOP"),
            ("until #20e", "step 16, 020e, line 10: LD [I], V0"),
            ("until UP+4", "step 17, 0210, line 11: RET"),
        )

    def test_until_a_comparison_becomes_true(self) -> None:
        self.answers(
            self.opened(),
            ("until V0 = 5", "step 28, 020e, line 10: LD [I], V0"),
            ("goto 0", "step 0, 0200, line 3: START:  LD V0, 0"),
            ("until V0 >= LIMIT-2", "step 16, 020e, line 10: LD [I], V0"),
            ("until [BUF] = 4", "step 23, 0210, line 11: RET"),
            ("until pc = UP", "step 27, 020c, line 9: UP:     ADD V0, 1"),
        )

    def test_until_under_another_profile(self) -> None:
        """A trace begins with the machine's name there."""
        terminal = self.opened()
        terminal.ask("profile octo")
        self.answers(terminal, ("until UP", "step 3, 020c, line 9: UP:     ADD V0, 1"))

    def test_watch(self) -> None:
        self.answers(
            self.opened(),
            ("watch V0", "V0 00 -> 01 by step 3, 020c, line 9: UP:     ADD V0, 1\nstep 4, 020e, line 10: LD [I], V0"),
            ("watch [BUF]", "[BUF] 00 -> 01 by step 4, 020e, line 10: LD [I], V0\nstep 5, 0210, line 11: RET"),
            ("watch BUF", "[BUF] 01 -> 02 by step 10, 020e, line 10: LD [I], V0\nstep 11, 0210, line 11: RET"),
            ("watch V0 = 5", "step 28, 020e, line 10: LD [I], V0"),
        )

    def test_who(self) -> None:
        terminal = self.opened()
        terminal.ask("goto 20")
        self.answers(
            terminal,
            ("who [BUF]", "[BUF] 02 -> 03 by step 16, 020e, line 10: LD [I], V0"),
            ("who v0", "V0 02 -> 03 by step 15, 020c, line 9: UP:     ADD V0, 1"),
            ("who I", "I 0000 -> 0212 by step 1, 0202, line 4: LD I, BUF"),
        )

    def test_a_tick_changes_a_timer(self) -> None:
        """The timers tick where ten steps were made: ST is 5 after step 1, and the tick of step 9 makes it 4."""
        terminal = self.opened("        LD V0, 5\n        LD ST, V0\nLOOP:   ADD V1, 1\n        JP LOOP\n")
        self.answers(
            terminal,
            ("watch ST", "ST 00 -> 05 by step 1, 0202, line 2: LD ST, V0\nstep 2, 0204, line 3: LOOP:   ADD V1, 1"),
            ("watch ST", "ST 05 -> 04 by the tick of step 9\nstep 10, 0204, line 3: LOOP:   ADD V1, 1"),
            ("goto 15", "step 15, 0206, line 4: JP LOOP"),
            ("who ST", "ST 05 -> 04 by the tick of step 9"),
            ("until V1 <> 4", "step 11, 0206, line 4: JP LOOP"),
        )

    def test_break_and_continue(self) -> None:
        self.answers(
            self.opened(),
            ("break", "no breakpoints"),
            ("break UP", "breakpoint UP, 020c"),
            ("b 8", "breakpoint line 8, 020a"),
            ("break", "breakpoint UP\nbreakpoint line 8"),
            ("continue", "step 3, 020c, line 9: UP:     ADD V0, 1"),
            ("c", "step 9, 020c, line 9: UP:     ADD V0, 1"),
            ("clear UP", "no breakpoint at UP any more"),
            ("c", "step 31, 020a, line 8: EXIT"),
            ("clear", "1 breakpoint removed: line 8"),
            ("c", STOPPED),
        )

    def test_break_where_a_comparison_holds(self) -> None:
        self.answers(
            self.opened(),
            ("break LOOP if V0 = 3", "breakpoint LOOP if V0 = 3, 0204"),
            ("c", "step 20, 0204, line 5: LOOP:   CALL UP"),
            ("c", STOPPED),
        )

    def test_reverse(self) -> None:
        terminal = self.opened()
        terminal.ask("goto 32")
        terminal.ask("break UP")
        self.answers(
            terminal,
            ("reverse", "step 27, 020c, line 9: UP:     ADD V0, 1"),
            ("rc", "step 21, 020c, line 9: UP:     ADD V0, 1"),
        )
        terminal.ask("clear")
        self.answers(terminal, ("reverse", "no breakpoint is before this step: this is the start\nstep 0, 0200, line 3: START:  LD V0, 0"))

    def test_run(self) -> None:
        terminal = self.opened()
        terminal.ask("goto 20")
        self.answers(terminal, ("run", STOPPED), ("break START", "breakpoint START, 0200"), ("r", "step 0, 0200, line 3: START:  LD V0, 0"))

    def test_a_breakpoint_whose_label_is_gone(self) -> None:
        terminal = self.opened()
        terminal.ask("break START")
        terminal.ask("edit 3         LD V0, 0")
        self.answers(
            terminal,
            ("c", "breakpoint START: no name START in the source; clear START removes it"),
            ("clear START", "no breakpoint at START any more"),
            ("c", STOPPED),
        )

    def test_breakpoints_stay_with_their_lines(self) -> None:
        terminal = self.opened()
        terminal.ask("break 8")
        terminal.ask("insert 1 ; one line more")
        self.answers(terminal, ("break", "breakpoint line 9"), ("c", "step 31, 020a, line 9: EXIT"))


class Readme(AtTerminal):
    def test_the_first_session_is_typed_as_it_stands(self) -> None:
        session = re.search(r"```console\n\$ packaging/chipbench-shell (\S+)\n(.*?)```", (TOP / "README.md").read_text(), re.DOTALL)
        assert session is not None
        terminal = Terminal([session[1], "--program", self.program], self.folder, place=TOP, NO_COLOR="1")
        self.addCleanup(terminal.close)
        banner, *asked = session[2].split("\n> ")
        self.assertEqual(terminal.read_until("> "), banner + "\n> ")
        self.answers(terminal, *((command, answer.rstrip("\n")) for command, _, answer in (one.partition("\n") for one in asked)))


class Looks(AtTerminal):
    def test_regs(self) -> None:
        terminal = self.opened(COUNTER, "--quiet")
        terminal.ask("goto 11")
        self.assertEqual(
            terminal.ask("regs").split("\n"),
            [
                "step 11, 0210, line 11: RET",
                "V0 02  V1 00  V2 00  V3 00  V4 00  V5 00  V6 00  V7 00",
                "V8 00  V9 00  VA 00  VB 00  VC 00  VD 00  VE 00  VF 00",
                "PC 0210  I 0212  DT 00  ST 00  random bytes used 0  low size  keys down none",
                "call stack 0206",
                "flags 00 00 00 00 00 00 00 00",
            ],
        )

    def test_screen(self) -> None:
        terminal = self.opened(DOT)
        terminal.ask("goto 2")
        shown = terminal.ask("screen").split("\n")
        self.assertEqual(shown, ["step 2, 64 by 32 pixels", "▀▀", *[""] * 15])

    def test_screen_of_the_high_size(self) -> None:
        terminal = self.opened("        HIGH\n" + DOT, columns=132)
        terminal.ask("goto 3")
        self.assertEqual(terminal.ask("screen").split("\n"), ["step 3, 128 by 64 pixels", "▀▀", *[""] * 31])
        terminal.resize(80)
        self.assertEqual(terminal.ask("screen").split("\n"), ["step 3, 128 by 64 pixels", "▀", *[""] * 31])

    def test_list(self) -> None:
        terminal = self.opened()
        terminal.ask("goto 2")
        terminal.ask("break 8")
        shown = terminal.ask("list").split("\n")
        self.assertEqual(len(shown), 11)
        self.assertEqual(shown[0], "      1       ; A counter.")
        self.assertEqual(shown[4], "=>    5 0204  LOOP:   CALL UP")
        self.assertEqual(shown[7], " *    8 020a          EXIT")
        self.answers(terminal, ("", "     12 0212  BUF:    DB 0, 0"), ("", "this is the end of the source"))
        self.assertEqual(terminal.ask("list BUF").split("\n")[0], "      7 0208          JP LOOP")

    def test_x(self) -> None:
        terminal = self.opened()
        terminal.ask("goto 11")
        self.answers(
            terminal,
            ("x BUF 2", "0212  02 00"),
            ("x START 4", "0200  60 00 a2 12"),
            ("", "0204  22 0c 30 05 12 04 00 fd 70 01 f0 55 00 ee 02 00"),
            ("x I", "0212  02 00 00 00 00 00 00 00 00 00 00 00 00 00 00 00"),
            ("x 4095", "0fff  00"),
            ("x/2 BUF", "0212  02 00"),
        )

    def test_dis(self) -> None:
        terminal = self.opened()
        terminal.ask("goto 2")
        self.answers(
            terminal,
            ("dis LOOP 2", "=> 0204 220c  LOOP: CALL #20c\n   0206 3005  SE V0, #05"),
            ("dis #200 1", "   0200 6000  START: LD V0, #00"),
        )
        self.assertEqual(terminal.ask("dis").split("\n")[0], "=> 0204 220c  LOOP: CALL #20c")

    def test_print(self) -> None:
        terminal = self.opened()
        terminal.ask("goto 11")
        self.answers(
            terminal,
            ("print V0", "V0 = 2 = #02 = $00000010"),
            ("p BUF+1", "BUF+1 = 531 = #213 = $1000010011"),
            ("p [BUF]", "[BUF] = 2 = #02 = $00000010"),
            ("p LIMIT - 1", "LIMIT - 1 = 4 = #04 = $00000100"),
            ("p 0x10", "0x10 = 16 = #10 = $00010000"),
        )

    def test_backtrace(self) -> None:
        terminal = self.opened()
        terminal.ask("goto 4")
        wanted = "step 4, 020e, line 10: LD [I], V0\ncalled from 0204, line 5: LOOP:   CALL UP"
        self.answers(terminal, ("backtrace", wanted), ("bt", wanted))

    def test_keys(self) -> None:
        terminal = self.opened()
        self.answers(terminal, ("keys", "no key events"))
        terminal.ask("press 5 at 2")
        terminal.ask("release 5 at 4")
        self.answers(terminal, ("keys", "2 5 down\n4 5 up"))

    def test_keys_of_a_file(self) -> None:
        Path(self.folder, "some.keys").write_text("; two events\n2 5 down\n\n4 5 up ; one\n")
        self.answers(self.opened(COUNTER, "--keys", "some.keys"), ("keys", "2 5 down\n4 5 up"))

    def test_check(self) -> None:
        terminal = self.opened(COUNTER.replace("RET", "REM"), NO_COLOR="1")
        self.assertEqual(self.banner, "game.asm: 12 lines, 1 fault: check shows them; help lists the commands\n> ")
        self.assertIn("game.asm:11:9: F3: unknown word", terminal.ask("check"))
        terminal.ask("edit 11         RET")
        self.answers(terminal, ("check", "no faults and no warnings"))

    def test_check_of_random_bytes(self) -> None:
        source = "HERE: RND V0, 7\nJP HERE\n"
        self.assertIn("game.asm:1:7: W9: ", self.opened(source, NO_COLOR="1").ask("check"))
        for option in ("--seed=7", "--tape=2a91"):
            self.answers(self.opened(source, option, NO_COLOR="1"), ("check", "no faults and no warnings"))

    def test_explain(self) -> None:
        terminal = self.opened()
        self.assertTrue(terminal.ask("explain f9").startswith("F9: undefined name\n"))

    def test_profile(self) -> None:
        terminal = self.opened(COUNTER, "--seed", "7")
        terminal.ask("goto 5")
        self.answers(
            terminal,
            ("profile", "profile schip, rate 10, seed 7"),
            # under vip the store has moved I
            ("profile vip", "profile vip; the state at step 5 differs in I"),
            ("profile", "profile vip, rate 10, seed 7"),
        )

    def test_help(self) -> None:
        terminal = self.opened(columns=100)
        shown = terminal.ask("help")
        for command in ("step [N]", "watch SUBJECT", "press KEY [at STEP]", "quit"):
            self.assertIn(f"\n  {command}", shown)
        self.assertTrue(terminal.ask("help ste").startswith("step [N]\n"))
        self.assertEqual(terminal.ask("help kins"), "kins STEP KEY down|up: chipbench debug answers this command")

    def test_each_command_has_its_help(self) -> None:
        terminal = self.opened(columns=200)
        commands = re.findall(r"^  ([\w-]+)", terminal.ask("help"), re.MULTILINE)
        self.assertEqual(len(commands), 44)
        for command in commands:
            self.assertRegex(terminal.ask(f"help {command}"), rf"(?s)^{command}\b[^\n]*\n[A-Z].*\.$")


class Edits(AtTerminal):
    def test_edit(self) -> None:
        terminal = self.opened()
        terminal.ask("goto 6")
        self.answers(
            terminal,
            ("edit 9 UP:     ADD V0, 2", "line 9 replaced; the state at step 6 differs in V0, 1 byte of the memory"),
            ("edit UP UP:     ADD V0, 1", "line 9 replaced; the state at step 6 differs in V0, 1 byte of the memory"),
            ("edit 1 ; another comment", "line 1 replaced; the state at step 6 is as it was"),
        )
        self.assertEqual(terminal.ask("list 1").split("\n")[0], "      1       ; another comment")

    def test_edit_offers_the_line(self) -> None:
        terminal = self.opened()
        terminal.send("edit START\r")
        self.assertTrue(terminal.read_until("LD V0, 0").endswith("3: START:  LD V0, 0"))
        # the last figure becomes 7
        self.answers(terminal, ("\x7f7", "line 3 replaced; the state at step 0 is as it was"))
        terminal.ask("step")
        self.answers(terminal, ("print V0", "V0 = 7 = #07 = $00000111"))

    def test_edit_is_left_by_ctrl_c(self) -> None:
        terminal = self.opened()
        terminal.send("edit 3\r")
        terminal.read_until("LD V0, 0")
        self.assertIn("stopped; still at step 0", terminal.interrupt())
        self.answers(terminal, ("undo", "nothing to undo"))

    def test_insert(self) -> None:
        terminal = self.opened()
        terminal.ask("insert 4", "4: ")
        terminal.ask("        LD V1, 9", "5: ")
        terminal.ask("; two lines", "6: ")
        self.answers(terminal, (".", "2 lines inserted before line 4; the state at step 0 is as it was"))
        self.answers(terminal, ("insert 1 ; the first", "1 line inserted before line 1; the state at step 0 is as it was"))
        self.answers(terminal, ("until V1 = 9", "step 2, 0204, line 7: LD I, BUF"))

    def test_delete(self) -> None:
        terminal = self.opened()
        self.answers(
            terminal,
            ("delete 1", "1 line deleted; the state at step 0 is as it was"),
            ("delete 9 10", "2 lines deleted; the state at step 0 is as it was"),
            ("delete UP", "1 line deleted; line 4 has a fault: F9: undefined name; the game can't run until it is fixed"),
            ("undo", "undone; no line has a fault any more: the state at step 0 can be shown"),
        )

    def test_undo_and_redo(self) -> None:
        terminal = self.opened()
        terminal.ask("goto 1")
        terminal.ask("edit 3 START:  LD V0, 3")
        terminal.ask("press 4")
        self.answers(
            terminal,
            ("undo", "undone; the state at step 1 is as it was"),
            ("undo", "undone; the state at step 1 differs in V0"),
            ("undo", "nothing to undo"),
            ("redo", "made again; the state at step 1 differs in V0"),
            ("redo", "made again; the state at step 1 is as it was"),
            ("redo", "nothing to redo"),
            ("keys", "1 4 down"),
        )

    def test_press_and_release(self) -> None:
        terminal = self.opened("WAIT:   LD V1, K\n        JP WAIT\n")
        terminal.ask("goto 4")
        self.answers(
            terminal,
            # step 2 takes the key, and step 3 jumps
            ("press B at 2", "key B is down from step 2 on; the state at step 4 differs in V1"),
            ("release 11 at 3", "key B is up from step 3 on; the state at step 4 is as it was"),
            ("press 0", "key 0 is down from step 4 on; the state at step 4 is as it was"),
            ("press B at 3", "key B is down from step 3 on; the state at step 4 is as it was"),
            ("press B at 3", "key B is down from step 3 on already"),
            ("release B at 2", "key B is up from step 2 on; the state at step 4 differs in PC"),
            ("keys", "2 11 up\n3 11 down\n4 0 down"),
        )

    def test_save(self) -> None:
        terminal = self.opened()
        terminal.ask("delete 1")
        self.answers(terminal, ("save", "game.asm: 11 lines written"), ("save copy.asm", "copy.asm: 11 lines written"))
        without = COUNTER.split("\n", 1)[1]
        self.assertEqual((self.file.read_text(), Path(self.folder, "copy.asm").read_text()), (without, without))

    def test_save_keeps_the_ends_of_lines(self) -> None:
        self.file.write_bytes(COUNTER.replace("\n", "\r\n").encode())
        terminal = self.opened("")
        terminal.ask("delete 1")
        terminal.ask("save")
        self.assertEqual(self.file.read_bytes(), COUNTER.split("\n", 1)[1].replace("\n", "\r\n").encode())

    def test_a_file_that_is_not_there_is_made_by_save(self) -> None:
        terminal = self.opened("")
        self.assertEqual(self.banner, "game.asm: 0 lines, no faults; a new file, which save makes; help lists the commands\n> ")
        terminal.ask("insert 1 CLS")
        self.answers(terminal, ("save", "game.asm: 1 line written"))
        self.assertEqual(self.file.read_text(), "CLS\n")

    def test_an_edited_image_that_is_not_saved(self) -> None:
        Path(self.folder, "game.ch8").write_bytes(bytes.fromhex("00e01200"))
        terminal = Terminal(["--image", "game.ch8", "--program", self.program], self.folder)
        self.addCleanup(terminal.close)
        terminal.read_until("> ")
        terminal.ask("insert 1 CLS")
        terminal.send("\x04")
        terminal.read_until("or stay: ")
        self.answers(terminal, ("yes", "the source has no file yet: save FILE"))

    def test_an_image(self) -> None:
        Path(self.folder, "game.ch8").write_bytes(bytes.fromhex("00e01200"))
        terminal = Terminal(["--image", "game.ch8", "--program", self.program], self.folder)
        self.addCleanup(terminal.close)
        self.assertEqual(terminal.read_until("> "), "the source: 2 lines, no faults; help lists the commands\n> ")
        self.answers(
            terminal,
            ("dis #200 2", "=> 0200 00e0  CLS\n   0202 1200  JP #200"),
            ("save", "the source has no file yet: save FILE"),
            ("save new.asm", "new.asm: 2 lines written"),
            ("save /dev/null/new.asm", "/dev/null/new.asm can't be read: Not a directory"),
        )


class Refusals(AtTerminal):
    def test_words_that_are_no_command(self) -> None:
        self.answers(
            self.opened(),
            ("hlep", "no command 'hlep'; did you mean help?; help lists the commands"),
            ("qqqq", "no command 'qqqq'; help lists the commands"),
            ("prove", "'prove' isn't a command of the shell: save, and run `chipbench prove` outside it"),
            ("explain until", "until is a command: help until says what it does"),
            ("re", "'re' begins several commands: reverse, reverse-next, reverse-finish, regs, redo, release, reload"),
        )

    def test_each_argument_that_is_wrong(self) -> None:
        self.answers(
            self.opened(),
            ("goto", "goto takes a step: goto 1000"),
            ("goto LOOP", "LOOP is a label, not a step: until LOOP goes to the next step there"),
            ("goto 1000001", "no step 1000001: the steps are 0 to 1000000"),
            ("back", "this is step 0, the start: no step is before it"),
            ("step 0", "expected 1 step or more: step [N]"),
            ("step x", "no name x in the source"),
            ("finish", "no subroutine is running: the call stack is empty"),
            ("until", "until takes a place or a comparison: until LOOP, until V3 = 5"),
            ("until LOP", "no name LOP in the source; did you mean LOOP?"),
            ("until 99", "no line 99: the source has 12 lines"),
            ("until #1000", "'#1000' is 4096: the memory has the addresses 0 to 4095"),
            ("until V0 = ", "'' is not a number: expected 100, #2a0, 0x2a0, a name, a register, or a sum of these"),
            ("watch", "watch takes a register or a byte of the memory: watch V3, watch [#300]"),
            ("watch 5", "'5' is not a register (V0 to VF, I, PC, DT, ST), an address such as [#300], or a label; did you mean V5?"),
            ("who", "who takes a register or a byte of the memory: who V3, who [#300]"),
            ("who V7", "V7 hasn't changed since step 0"),
            ("clear LOOP", "there is no breakpoint at LOOP"),
            ("break LOOP if [BUF] = 1", "`if` takes a comparison of a register: break LOOP if V3 = 5"),
            ("finish now", "too many words after the command; expected finish"),
            ("list #900", "no line has the address 0900"),
            ("x", "x takes an address: x #300 16, x BALL 2, x I"),
            ("x 4095 2", "Q3: past address 4096"),
            ("x 5*5", "'5*5' is not a number: only + and - may join its parts"),
            ("print", "print takes a value: print V3, print BALL+1, print [#300]"),
            ("print 1-2", "'1-2' is below 0"),
            ("profile chip", "no profile chip: schip, vip, chip48, schip10, schip-modern or octo"),
            ("edit", "expected a line: edit LINE [TEXT]"),
            ("edit 13 CLS", "no line 13: the source has 12 lines"),
            ("insert 14 CLS", "no line 14: insert takes a line from 1 to 13"),
            ("delete", "delete takes a line: delete 12, delete 12 14"),
            ("delete 4 3", "line 3 is before line 4: delete takes the first line first"),
            ("press", "expected a key, and perhaps a step: press KEY [at STEP]"),
            ("press 16", "no key 16: the keys are 0 to 15, or 0 to 9 and A to F"),
            ("press 1 at 1000001", "no step 1000001: the steps are 0 to 1000000"),
            ("session", "session takes a command of chipbench debug: ins, rep, del, kins, krep, kdel, image, syms, list, faults, regs, mem, screen, dis"),
            ("edit 3 ; " + "x" * 200, "N2: text too long"),
        )

    def test_what_is_not_found_leaves_one_where_one_is(self) -> None:
        terminal = self.opened()
        terminal.ask("goto 9")
        stopped = "the machine stops for S1: the program ended, at step 32; still at step 9"
        self.answers(
            terminal,
            ("until START", f"START isn't reached: {stopped}"),
            ("until V0 = 9", f"V0 = 9 doesn't become true: {stopped}"),
            ("watch V9", f"V9 doesn't change: {stopped}"),
            ("watch [BUF+1]", f"[BUF+1] doesn't change: {stopped}"),
            ("regs", terminal.ask("regs")),
        )

    def test_no_step_past_the_last_is_asked_for(self) -> None:
        terminal = self.opened("        LD V1, 0\n" + WRITER)
        # each even step writes, and step 1000000 isn't made
        terminal.ask("goto 999990")
        self.answers(terminal, ("watch [BUF]", "[BUF] doesn't change up to step 1000000; still at step 999990"))

    def test_where_nothing_stops(self) -> None:
        terminal = self.opened(DOT)
        self.answers(terminal, ("continue", "there is no breakpoint and no stop up to step 1000000; still at step 0"))

    def test_where_the_machine_has_stopped(self) -> None:
        terminal = self.opened()
        terminal.ask("goto 32")
        wanted = "the machine has stopped for S1: the program ended: back and goto still go to other steps"
        self.answers(terminal, ("step", wanted), ("next", wanted), ("continue", wanted), ("until LOOP", wanted))

    def test_where_a_line_has_a_fault(self) -> None:
        terminal = self.opened(COUNTER.replace("CALL UP", "CALL UPP"))
        wanted = "line 5 has a fault: F9: undefined name; the game can't run until it is fixed"
        self.answers(terminal, *((command, wanted) for command in ("regs", "step", "screen", "run", "until LOOP", "x BUF")))
        self.assertIn("      5       F9: LOOP:   CALL UPP", terminal.ask("list"))


class SessionWords(AtTerminal):
    def test_words_of_the_session_are_taken_as_they_are(self) -> None:
        self.answers(
            self.opened(),
            ("regs 4", "v 01 00 00 00 00 00 00 00 00 00 00 00 00 00 00 00\npc 020e i 0212 dt 00 st 00 draws 0 low run\nflags 00 00 00 00 00 00 00 00 stack 0206"),
            ("screen 4", "low\n."),
            ("mem 5 530 2", "0100"),
            ("dis 0 512 1", "0200 6000 LD V0, #00\n."),
            ("faults", "."),
            ("syms", "LIMIT 5 2\nSTART 512 3\nLOOP 516 5\nUP 524 9\nBUF 530 12\n."),
            ("image", "6000a212220c3005120400fd7001f05500ee0000"),
            ("rep 3 START:  LD V0, 2", "ok"),
            ("ins 1 ; more", "ok"),
            ("del 1", "ok"),
            ("kins 3 4 down", "ok"),
            ("krep 3 4 up", "ok"),
            ("kdel 3 4", "ok"),
            ("undo", "undone; the state at step 0 is as it was"),
            ("session list", "   1 0200               ; A counter.\n" + terminal_listing()),
        )

    def test_names_stand_for_numbers(self) -> None:
        self.answers(
            self.opened(),
            ("mem LIMIT BUF 2", "0100"),
            ("dis 0 LOOP 1", "0204 220c CALL #20c\n."),
            ("regs LIMIT-1", "v 01 00 00 00 00 00 00 00 00 00 00 00 00 00 00 00\npc 020e i 0212 dt 00 st 00 draws 0 low run\nflags 00 00 00 00 00 00 00 00 stack 0206"),
            ("rep START START:  LD V0, 2", "ok"),
        )

    def test_refusals_are_told(self) -> None:
        self.answers(
            self.opened(),
            ("del 99", "no N1\nN1: no such line"),
            (
                "regs nothing",
                "no C1\nC1: no such command: expected regs STEP; no name nothing in the source; regs alone shows the registers at this step",
            ),
            ("kdel 1 1", "no N8\nN8: no such event"),
        )


def terminal_listing() -> str:
    """The listing of `COUNTER` with 2 in line 3, from its second line on."""
    codes = ["0200 =5", "0200 6002", "0202 a212", "0204 220c", "0206 3005", "0208 1204", "020a 00fd", "020c 7001", "020e f055", "0210 00ee", "0212 0000"]
    texts = COUNTER.replace("LD V0, 0", "LD V0, 2").splitlines()[1:]
    return "\n".join(f"{number:4} {code:<17}  {text}" for number, (code, text) in enumerate(zip(codes, texts), 2)) + "\n."

if __name__ == "__main__":
    unittest.main()
