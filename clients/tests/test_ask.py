#!/usr/bin/env python3
"""Tests of the prompt, through a pseudo-terminal and through pipes."""
import fcntl
import os
import pty
import re
import select
import signal
import struct
import subprocess
import sys
import tempfile
import termios
import time
import unittest

import support
from support import TOP, example, keeps_files

import sysu
from sysu_ask import completing, help, tables

SECONDS = 60
ASK = os.path.join(TOP, "ask")
CODES = re.compile(r"\x1b\[[0-9;?]*[A-Za-z]|\x07")
#: over 99 accounts, 20 answers of 970,299 rows
LONG = "retrieve (a.ACCT, b.ACCT, c.ACCT);" * 20
BANK = example("bank/schema.su").decode() + example("bank/data.su").decode()


class Terminal:
    """The prompt on a terminal of its own."""

    def __init__(self, *words, columns=80, **env):
        self.room = tempfile.TemporaryDirectory()
        inputrc = os.path.join(self.room.name, "inputrc")
        with open(inputrc, "w") as file:
            file.write("set enable-bracketed-paste off\nset bell-style none\nset show-all-if-ambiguous on\nset horizontal-scroll-mode off\n")
        env = {**os.environ, "TERM": "xterm", "INPUTRC": inputrc, "SYSU_HISTORY": os.path.join(self.room.name, "history"),
               "LC_ALL": "C.UTF-8", "PYTHONUNBUFFERED": "1", **env}
        env.pop("COLUMNS", None)
        env.pop("LINES", None)
        self.pid, self.fd = pty.fork()
        if self.pid == 0:
            os.execve(sys.executable, [sys.executable, ASK, *words], env)
        fcntl.ioctl(self.fd, termios.TIOCSWINSZ, struct.pack("HHHH", 50, columns, 0, 0))
        self.text = ""
        self.wait("sysu> ")

    def wait(self, want, seconds=SECONDS):
        """What came up to this text, and behind what was waited for before."""
        end = time.monotonic() + seconds
        while want not in self.text:
            left = end - time.monotonic()
            if left <= 0 or not select.select([self.fd], [], [], left)[0]:
                raise AssertionError(f"{want!r} didn't come; there was {self.text!r}")
            try:
                more = os.read(self.fd, 65536)
            except OSError:
                more = b""
            if not more:
                raise AssertionError(f"it ended before {want!r}; there was {self.text!r}")
            self.text += CODES.sub("", more.decode("utf-8", "replace")).replace("\r\n", "\n")
        before, _, self.text = self.text.partition(want)
        return before

    def type(self, keys):
        os.write(self.fd, keys.encode())

    def rest(self):
        """Waits until it surely reads: readline looks at a signal that comes while it writes the prompt with the next key alone."""
        time.sleep(1)

    def say(self, line, prompt="sysu> "):
        """Types a line, and gives what stands between it and the next prompt."""
        self.type(line + "\r")
        said = self.wait(prompt)
        return said.partition("\n")[2]

    def end(self):
        """Types Ctrl-D; the status."""
        self.type("\x04")
        status = self.gone()
        return status

    def gone(self):
        end = time.monotonic() + SECONDS
        while time.monotonic() < end:
            try:
                if select.select([self.fd], [], [], 0.1)[0]:
                    os.read(self.fd, 65536)
            except OSError:
                pass
            pid, status = os.waitpid(self.pid, os.WNOHANG)
            if pid:
                os.close(self.fd)
                self.room.cleanup()
                return os.WEXITSTATUS(status) if os.WIFEXITED(status) else -os.WTERMSIG(status)
        raise AssertionError("it doesn't end")


class Talk(unittest.TestCase):
    def setUp(self):
        self.it = Terminal()
        self.filled = False

    def tearDown(self):
        self.assertEqual(self.it.end(), 0)

    def fill(self):
        with tempfile.NamedTemporaryFile("w", suffix=".su") as file:
            file.write(BANK)
            file.flush()
            said = self.it.say(f"\\i {file.name}")
        self.assertEqual(said.count("defined\n"), 26)

    def test_a_table(self):
        self.fill()
        self.assertEqual(self.it.say("retrieve (CUST, BAL);"), " CUST  | BAL\n-------+-----\n Jones | 100\n Smith | 250\n(2 rows)\n")
        self.assertEqual(self.it.say("retrieve (BANK) where CUST = 'x';"), " BANK\n------\n(0 rows)\n")

    def test_several_lines(self):
        self.fill()
        self.it.say("retrieve (BANK)", "   -> ")
        self.it.say("-- a comment; with a semicolon", "   -> ")
        self.assertEqual(self.it.say("where CUST = 'Jones';"), " BANK\n------\n B1\n B3\n(2 rows)\n")
        self.it.say("insert CA ('two", "   '> ")
        self.it.say("lines; here', 'Elm')", "   -> ")
        self.assertEqual(self.it.say(";"), "inserted 1\n")
        self.assertIn(" two\\nlines; here | Elm\n", self.it.say("print CA;"))
        # Ctrl-C drops what is typed
        self.it.say("retrieve (", "   -> ")
        self.it.type("BANK")
        self.it.rest()
        self.it.type("\x03")
        self.it.wait("sysu> ")
        self.assertEqual(self.it.say("insert CA ('x', 'y'); insert CA ('x', 'y');"), "inserted 1\ninserted 0\n")

    def test_faults(self):
        self.fill()
        self.it.say("retrieve (BANK)", "   -> ")
        said = self.it.say("  where CUST like 'J';")
        self.assertIn("refused: syntax\n      where CUST like 'J';\n                 ^\nline 2, column 14: here could stand \"!=\"", said)
        self.assertIn("hint: there are no patterns", said)
        said = self.it.say("retrieve (BANKK);")
        self.assertIn("refused: unknown attribute BANKK\n", said)
        self.assertIn("hint: did you mean `BANK`?\n", said)

    def test_wide_letters_and_cut_texts(self):
        self.it.say("attribute A int; attribute T text; relation R (A int, T text); object O (A, T) from R (A, T);")
        for i, text in enumerate(("日本", "é", "e\u0301", "x\x1b[31my", "z" * 200)):
            with tempfile.NamedTemporaryFile("w", suffix=".su") as file:
                file.write(f"insert R ({i}, '{text}')")
                file.flush()
                self.it.say(f"\\i {file.name}")
        said = self.it.say("print R;").split("\n")
        self.assertEqual(said[0], " A | T")
        self.assertEqual(said[2:6], [" 0 | 日本", " 1 | é", " 2 | e\u0301", " 3 | x\\x1b[31my"])
        self.assertTrue(said[6].endswith("z…"))
        self.assertLessEqual(len(said[6]), 80)
        self.it.say("\\wide")
        self.assertIn("z" * 200, self.it.say("print R;").replace("\n", ""))

    def test_completion(self):
        self.fill()
        for typed, want in [
            ("retr\t", "retrieve"), ("retrieve (BAN\t", "retrieve (BANK"), ("print A\t", "AC"), ("load C\t", "load CA"),
            ("maximal (CUST_\t", "maximal (CUST_ADDR"), ("retrieve (t.AM\t", "retrieve (t.AMT"), ("delete AB wh\t", "delete AB where"),
            ("delete AB where BA\t", "delete AB where BAL"), ("explain ret\t", "explain retrieve"), ("\\sq\t", "\\sql"),
        ]:
            self.it.type(typed)
            try:
                self.it.wait(want, 15)
            except AssertionError as fault:
                self.fail(f"{typed!r}: {fault}")
            # an empty line
            self.it.type("\x15\r")
            self.it.wait("sysu> ")

    def test_commands(self):
        self.fill()
        self.assertEqual(self.it.say("\\d AC"), "relation AC (ACCT int, CUST text);\nobject ACCT_CUST (ACCT, CUST) from AC (ACCT, CUST);\n")
        self.assertIn("-- maximal object 1 computed", self.it.say("\\d"))
        self.assertIn("no query was asked yet", self.it.say("\\sql"))
        self.it.say("retrieve (BANK) where CUST = 'Jones';")
        self.assertIn("union\n", self.it.say("\\sql"))
        self.assertIn("rows that must be there", self.it.say("\\h window"))
        self.assertIn("\\pic", self.it.say("\\h"))
        self.assertIn("no command \\nope", self.it.say("\\nope"))
        self.it.say("\\csv")
        self.assertEqual(self.it.say("print BA;"), "rows 2\nBANK,ACCT\nB1,1\nB2,2\n")
        said = self.it.say("\\i /none/at all")
        self.assertIn("No such file", said)

    def test_comparisons(self):
        self.fill()
        said = self.it.say("compare (retrieve (BANK) where CUST = 'Jones') with (retrieve (BANK));")
        self.assertIn("first within second: yes\n", said)
        self.assertIn(" BANK | ACCT | CUST | BAL | LOAN | AMT | ADDR\n", said)
        self.assertTrue(said.endswith("(4 rows)\nrow ('v0')\n"), said)


class Others(unittest.TestCase):
    def test_a_picture(self):
        with tempfile.TemporaryDirectory() as room:
            browser, seen = os.path.join(room, "browser"), os.path.join(room, "seen")
            with open(browser, "w") as file:
                file.write(f"#!/bin/sh\ncp \"${{1#file://}}\" {seen}\n")
            os.chmod(browser, 0o700)
            it = Terminal(BROWSER=f"{browser} %s")
            it.say("attribute A int; relation R (A int); object O (A) from R (A); retrieve (A);")
            it.say("\\pic")
            with open(seen, encoding="utf-8") as file:
                self.assertIn("retrieve", file.read())
            self.assertEqual(it.end(), 0)

    def test_history(self):
        with tempfile.TemporaryDirectory() as room:
            path = os.path.join(room, "history")
            it = Terminal(SYSU_HISTORY=path)
            it.say("attribute A int;")
            self.assertEqual(it.end(), 0)
            it = Terminal(SYSU_HISTORY=path)
            it.type("\x1b[A")
            it.wait("attribute A int;")
            it.type("\r")
            self.assertIn("defined", it.wait("sysu> "))
            self.assertEqual(it.end(), 0)

    def test_an_end_within_a_statement(self):
        it = Terminal()
        it.say("attribute A", "   -> ")
        self.assertEqual(it.end(), 0)
        it = Terminal()
        it.type("\\q\r")
        self.assertEqual(it.gone(), 0)

    @unittest.skipUnless(keeps_files(), "this shell keeps no file")
    def test_ctrl_c_stops_a_statement(self):
        for words in ([], ["bank.db"]):
            with tempfile.TemporaryDirectory() as room:
                words = [os.path.join(room, it) for it in words]
                script, rows = os.path.join(room, "bank.su"), 97
                with open(script, "w") as file:
                    file.write(BANK + "".join(f"insert BA ('B{i}', {i}); insert AC ({i}, 'C{i}');" for i in range(100, 100 + rows)))
                shown = f"({rows + 2} rows)"
                it = Terminal(*words)
                it.say(f"\\i {script}")
                with open(script, "w") as file:
                    file.write(LONG)
                it.say("insert CA ('kept', 'Elm');")
                it.type(f"\\i {script}\r")
                time.sleep(0.5)
                it.type("\x03")
                self.assertIn("stopped", it.wait("sysu> ", 20))
                self.assertIn("kept", it.say("print CA;"))
                self.assertIn(shown, it.say("print AC;"))
                self.assertEqual(it.end(), 0)
                if words:
                    with sysu.open(words[0]) as db:
                        self.assertEqual(len(db.ask("print AC")), rows + 2)

    def piped(self, data, *words):
        ran = subprocess.run([sys.executable, ASK, *words], input=data, stdout=subprocess.PIPE, stderr=subprocess.PIPE, timeout=SECONDS)
        return ran.returncode, ran.stdout, ran.stderr

    def test_without_a_terminal(self):
        small = b"attribute A int; relation R (A int); object O (A) from R (A);"
        for data, want in [
            (b"insert R (1); print R", (0, b"inserted 1\nrows 1\nA\n1\n", b"")),
            (b"print S; print R -- the end", (1, b"refused: unknown relation S\nrows 0\nA\n", b"")),
            (b"print 'open; print R", (1, b"refused: syntax\n", b"")),
            (b"\n\\d R\nprint R", (0, b"relation R (A int);\nobject O (A) from R (A);\nrows 0\nA\n", b"")),
            (b"\\q\nprint R;", (0, b"", b"")),
        ]:
            status, out, err = self.piped(small + data)
            self.assertEqual((status, out, err), (want[0], b"defined\n" * 3 + want[1], want[2]), data)

    def test_the_replies_are_those_of_run(self):
        program = os.environ.get("SYSU")
        if not program:
            self.skipTest("the variable SYSU names no program")
        for name in ("bank", "pair", "courses", "window", "csv"):
            folder = os.path.join(TOP, "examples", name)
            want = subprocess.run([program, "run", os.path.join(folder, "schema.su"), os.path.join(folder, "script.su")], cwd=TOP, stdout=subprocess.PIPE)
            with open(os.path.join(folder, "script.su"), "rb") as file:
                ran = subprocess.run([sys.executable, ASK, "--schema", os.path.join(folder, "schema.su")], cwd=TOP, stdin=file, stdout=subprocess.PIPE)
            self.assertEqual((ran.returncode, ran.stdout), (want.returncode, want.stdout), name)

    def test_words(self):
        self.assertEqual(self.piped(b"", "--nope")[0], 2)
        self.assertEqual(self.piped(b"", "--schema", "/none"), (9, b"", b"ask: the schema /none can't be read\n"))
        self.assertEqual(self.piped(b"", "--files", "/none"), (9, b"", b"ask: --files /none is no folder\n"))
        with tempfile.NamedTemporaryFile("w", suffix=".su") as file:
            file.write("attribute A int; attribute A text")
            file.flush()
            status, _, err = self.piped(b"", "--schema", file.name)
            self.assertEqual((status, b"twice A" in err), (9, True))

    def test_a_reader_that_goes(self):
        it = subprocess.Popen([sys.executable, ASK], stdin=subprocess.PIPE, stdout=subprocess.PIPE, stderr=subprocess.PIPE)
        it.stdout.close()
        try:
            it.stdin.write(b"attribute A int;" * 1000)
            it.stdin.close()
        except BrokenPipeError:
            pass
        it.stderr.read()
        self.assertEqual(it.wait(SECONDS), 5)
        it.stderr.close()

    def test_a_signal_ends_it(self):
        with tempfile.TemporaryDirectory() as room:
            for number, more in ((signal.SIGTERM, 0), (signal.SIGHUP, 3)):
                it = Terminal(TMPDIR=room)
                it.say("attribute A int;")
                it.rest()
                # a terminal that is closed sends more than one
                for _ in range(more + 1):
                    os.kill(it.pid, number)
                self.assertEqual(it.gone(), 128 + number)
                self.assertEqual(os.listdir(room), [])

    def test_a_file_that_is_missing(self):
        small = b"attribute A int; relation R (A int); object O (A) from R (A);\n"
        status, out, err = self.piped(small + b"\\i /none/x.su\nprint R;")
        self.assertEqual((status, out, err), (1, b"defined\n" * 3 + b"rows 0\nA\n", b"can't read /none/x.su: No such file or directory\n"))

    @unittest.skipUnless(keeps_files(), "this shell keeps no file")
    def test_what_stands_before_a_query_is_kept(self):
        it = Terminal()
        # where nothing runs, Ctrl-C stops nothing
        it.rest()
        it.type("\x03")
        self.assertNotIn("stopped", it.wait("sysu> "))
        with tempfile.NamedTemporaryFile("w", suffix=".su") as file:
            file.write(BANK + "".join(f"insert BA ('B{i}', {i}); insert AC ({i}, 'C{i}');" for i in range(100, 197)))
            file.flush()
            it.say(f"\\i {file.name}")
        it.type(f"insert CA ('kept', 'Elm'); {LONG.strip()}; insert CA ('not', 'Elm');\r")
        it.wait("inserted 1\n")
        time.sleep(0.5)
        it.type("\x03")
        self.assertIn("stopped", it.wait("sysu> ", 20))
        self.assertEqual(it.say("retrieve (CUST) where ADDR = 'Elm';"), " CUST\n------\n kept\n(1 row)\n")
        # Ctrl-C once more, while the program is started again
        for gap in (0.002, 0.01, 0.03):
            it.type(LONG.strip() + "\r")
            time.sleep(0.5)
            for _ in range(4):
                it.type("\x03")
                time.sleep(gap)
            it.wait("sysu> ", 20)
            time.sleep(0.5)
            it.text = ""
            self.assertIn(" kept\n(1 row)\n", it.say("retrieve (CUST) where ADDR = 'Elm';"))
        self.assertEqual(it.end(), 0)


class Parts(unittest.TestCase):
    def test_help_has_forms(self):
        from sysu import hints
        for word, (forms, _) in help.WORDS.items():
            for form in forms:
                self.assertIsNone(hints.first_fault(form.encode()), form)
        self.assertEqual(set(help.WORDS) | set(help.ALSO), set(completing.RESERVED) )

    def test_widths(self):
        for text, cells in [("", 0), ("abc", 3), ("é", 1), ("e\u0301", 1), ("日本", 4), ("\U0001f600", 2), ("ｱ", 1), ("Ａ", 2)]:
            self.assertEqual(tables.width(text), cells, text)
        self.assertEqual(tables.cut("日本語", 5), "日本…")
        self.assertEqual(tables.cut("日本語", 6), "日本語")
        self.assertEqual(tables.shown("a\nb\u202e\x1b\x85\u2028"), "a\\nb\\u202e\\x1b\\x85\\u2028")

    def test_tables(self):
        answer = sysu.Answer(("N", "T"), ("int", "text"), [(1, "日本"), (-20, "abcdef")])
        self.assertEqual(tables.table(answer), "   N | T\n-----+--------\n   1 | 日本\n -20 | abcdef\n(2 rows)\n")
        self.assertEqual(tables.table(answer, 13), "   N | T\n-----+-------\n   1 | 日本\n -20 | abcd…\n(2 rows)\n")


if __name__ == "__main__":
    unittest.main()
