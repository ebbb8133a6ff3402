#!/usr/bin/env python3
"""Tests of the module `sysu` against the program."""
import ast
import glob
import importlib.util
import os
import signal
import subprocess
import sys
import tempfile
import threading
import time
import unittest

import support
from support import TOP, bank, keeps_files

import sysu
from sysu import hints, shell, texts

SMALL = "attribute A int; attribute T text; relation R (A int, T text); object O (A, T) from R (A, T);"
#: a query over the bank with so many accounts more, whose answer has 970,299 rows
ROWS = 97
LONG = "retrieve (a.ACCT, b.ACCT, c.ACCT)"
LONGER = ";".join([LONG] * 20)


class Cutting(unittest.TestCase):
    CASES = [
        ("", []),
        ("a;b", ["a", "b"]),
        ("a;;b; \n", ["a", "b"]),
        ("print 'x;y'; b", ["print 'x;y'", "b"]),
        ("print 'it''s; so'; b", ["print 'it''s; so'", "b"]),
        ("a -- no; cut 'here\n; b", ["a -- no; cut 'here\n", "b"]),
        ("-- only; this\n; b", ["b"]),
        ("a - ; b", ["a - ", "b"]),
        ("\ufeffa; b", ["a", "b"]),
        ("a 'open; to", ["a 'open; to"]),
    ]

    def test_statements(self):
        for text, want in self.CASES:
            found = [it.text.decode().strip(" ") for it in texts.statements(text)]
            self.assertEqual(found, [it.strip(" ") for it in want], text)

    def test_an_open_quote(self):
        self.assertEqual([it.open for it in texts.pieces("a;b 'c")], [False, True])
        self.assertEqual([it.open for it in texts.pieces("a 'b';c -- '")], [False, False])

    def test_spans(self):
        text = "\ufeffprint R; insert R ('ä;');x"
        for it in texts.pieces(text):
            data = text.encode()
            self.assertEqual(data[it.start:it.start + len(it.text)], it.text)


class Asking(unittest.TestCase):
    @classmethod
    def setUpClass(cls):
        cls.db = bank()

    @classmethod
    def tearDownClass(cls):
        cls.db.close()

    def test_answers(self):
        for text, columns, rows in [
            ("retrieve (BANK) where CUST = 'Jones'", ("BANK",), [("B1",), ("B3",)]),
            ("retrieve (CUST, ADDR, AMT) where BANK = 'B1';", ("CUST", "ADDR", "AMT"), [("Smith", "Oak", 900)]),
            ("retrieve (t.CUST, t.BAL) where ACCT = 1 and t.BAL > BAL", ("t.CUST", "t.BAL"), [("Smith", 250)]),
            ("print BA -- no end of the line", ("BANK", "ACCT"), [("B1", 1), ("B2", 2)]),
            ("-- a comment in front\nwindow (CUST, BANK)", ("CUST", "BANK"), [("Jones", "B1"), ("Jones", "B3"), ("Smith", "B1"), ("Smith", "B2")]),
            ("retrieve (BANK) where CUST = 'nobody'", ("BANK",), []),
        ]:
            try:
                answer = self.db.ask(text)
            except sysu.Refused as refused:
                self.fail(f"{text}: {refused}")
            self.assertEqual((answer.columns, answer.rows), (columns, rows), text)

    def test_an_answer_is_a_sequence(self):
        answer = self.db.ask("retrieve (CUST, BAL)")
        self.assertEqual(len(answer), 2)
        self.assertEqual(list(answer), [("Jones", 100), ("Smith", 250)])
        self.assertEqual(answer[0], ("Jones", 100))
        self.assertEqual(answer.kinds, ("text", "int"))
        self.assertEqual(answer.dicts()[1], {"CUST": "Smith", "BAL": 250})
        self.assertEqual(answer.column("BAL"), [100, 250])

    def test_other_statements_are_not_asked(self):
        before = self.db.ask("print BA").rows
        for text in ("insert BA ('B9', 9)", "print BA; print BA", "", "schema", "explain retrieve (BANK)"):
            with self.assertRaises(ValueError):
                self.db.ask(text)
        self.assertEqual(self.db.ask("print BA").rows, before)

    def test_replies(self):
        found = self.db.run("insert BA ('B1', 1); closure (ACCT); delete BA ('B9', 9)")
        self.assertEqual([it.text for it in found],
                         ["inserted 0\n", "closure BANK ACCT BAL\n  by ACCT -> BANK\n  by ACCT -> BAL\n", "deleted 0\n"])
        self.assertEqual([it.statement for it in found], ["insert BA ('B1', 1)", "closure (ACCT)", "delete BA ('B9', 9)"])

    def test_refusals(self):
        for text, cause, place, line, column, hint in [
            ("retrieve (BANKK)", "unknown attribute BANKK", None, 1, 1, "did you mean `BANK`?"),
            ("print BA;\n  retrieve BANK", "syntax", 9, 2, 12, "the list stands in parentheses: `retrieve (A)`"),
            ("retrieve (BANK) where CUST == 'ä'", "syntax", 28, 1, 29, "equality is one `=`"),
            ("retrieve (BANK) where CUST = 'ä' x", "syntax", 34, 1, 34, None),
            ("retreive (BANK)", "syntax", 0, 1, 1, "did you mean `retrieve`?"),
            ("print BA; print 'x", "syntax", 6, 1, 17, None),
            ("retrieve (ACCT, LOAN)", "no maximal object covers -: ACCT LOAN", None, 1, 1, None),
            ("-- here\n\n  print BX", "unknown relation BX", None, 3, 3, "did you mean `BA`?"),
        ]:
            with self.assertRaises(sysu.Refused, msg=text) as caught:
                self.db.run(text)
            it = caught.exception
            self.assertEqual((it.cause, it.place, it.line, it.column), (cause, place, line, column), text)
            if hint != "did you mean `BA`?":
                self.assertEqual(it.hint, hint, text)
            if place is not None:
                self.assertIn("\n    " + " " * (column - 1) + "^\n", str(it))

    def test_places(self):
        with sysu.open() as db:
            for reply in db.replies("print;\n-- here\n retrieve (A;x;closure (A) A;print R;attribute A"):
                told = hints.first_fault(reply.source)
                self.assertEqual(reply.fault and (reply.fault.place, set(reply.fault.wanted)), told and (told.place, set(told.wanted)), reply.source)

    def test_replies_as_they_come(self):
        text = SMALL + "print X; retrieve (B);" + "insert R (1, 'x');" * 300 + "print R; attribute A int; attribute B int; retrieve (B); print R; retrieve (AA); relation S (B int); print S"
        with sysu.open() as db:
            seen = []

            def see(reply):
                answer = db.answer(reply)
                seen.append(db.refusal(reply, text).cause if not reply.accepted else answer.rows if answer is not None else reply.text)
            found = db.replies(text, see)
            self.assertEqual(len(found), len(seen))
            self.assertEqual(seen[:6], ["defined\n"] * 4 + ["unknown relation X", "unknown attribute B"])
            self.assertEqual(seen[306:], [[(1, "x")], "twice A", "defined\n", "no maximal object covers -: B", [(1, "x")], "unknown attribute AA", "defined\n", []])
            with self.assertRaises(sysu.Error):
                db.replies("schema", lambda reply: db.run("schema"))
            self.assertEqual(db.ask("print R").rows, [(1, "x")])

    def test_a_refusal_stops_nothing(self):
        with self.assertRaises(sysu.Refused) as caught:
            self.db.run("print X; insert CA ('New', 'Elm'); print Y")
        self.assertEqual([it.accepted for it in caught.exception.replies], [False, True, False])
        self.assertEqual(self.db.run("delete CA ('New', 'Elm')")[0].text, "deleted 1\n")

    def test_comparisons(self):
        it = self.db.compare("retrieve (BANK) where CUST = 'Jones'", "retrieve (BANK) -- all\n;")
        self.assertTrue(it.first.holds)
        self.assertFalse(it.second.holds or it.equal)
        self.assertEqual(it.second.row, ("v0",))
        self.assertEqual(it.second.relation.columns, ("BANK", "ACCT", "CUST", "BAL", "LOAN", "AMT", "ADDR"))
        self.assertEqual(it.second.relation.rows[0], ("v0", 0, "v1", 1, 4, 5, "v2"))
        self.assertTrue(self.db.compare("retrieve (CUST)", "retrieve (CUST)").equal)

    def test_explanations(self):
        answer = self.db.ask("retrieve (BANK) where CUST = 'Jones'")
        it = answer.explain()
        self.assertTrue(str(it).startswith("query: retrieve (BANK) where CUST = 'Jones'\nvariables -\n"))
        self.assertTrue(it._repr_svg_().startswith("<svg "))
        self.assertTrue(self.db.schema._repr_svg_().startswith("<svg "))
        with self.assertRaises(ValueError):
            self.db.ask("print BA").explain()

    def test_sql(self):
        it = self.db.sql("retrieve (BANK) where CUST = 'Jones'", "sqlite")
        self.assertTrue(it.startswith("select "))
        self.assertIn("\nunion\n", it)
        self.assertNotIn("create table", it)
        with self.assertRaises(ValueError):
            self.db.sql("retrieve (BANK)", "oracle")
        with self.assertRaises(sysu.Refused):
            self.db.sql("retrieve (NONE)")

    def test_the_schema(self):
        schema = self.db.schema
        self.assertEqual(list(schema.attributes), ["BANK", "ACCT", "CUST", "BAL", "LOAN", "AMT", "ADDR"])
        self.assertEqual(schema.relations["AC"], {"ACCT": "int", "CUST": "text"})
        self.assertEqual(schema.objects["BANK_ACCT"], (("BANK", "ACCT"), "BA"))

    def test_html(self):
        with sysu.open() as db:
            db.run(SMALL + "insert R (1, '<b>&''\"')")
            it = db.ask("print R")._repr_html_()
        self.assertIn("&lt;b&gt;&amp;&#x27;&quot;", it)
        self.assertNotIn("<b>", it)

    def test_pandas(self):
        try:
            import pandas  # noqa: F401
        except ImportError:
            with self.assertRaises(ImportError):
                self.db.ask("print BA").to_pandas()
            return
        frame = self.db.ask("retrieve (CUST, BAL)").to_pandas()
        self.assertEqual(list(frame.columns), ["CUST", "BAL"])
        self.assertEqual(frame["BAL"].sum(), 350)
        none = self.db.ask("retrieve (CUST, BAL) where BAL < 0").to_pandas()
        self.assertEqual([str(it) for it in none.dtypes], ["object", "int64"])


class Values(unittest.TestCase):
    """Texts with every byte that a value may have, by a statement and by rows."""

    @staticmethod
    def all_texts():
        every = "".join(map(chr, range(0x250)))
        odd = ["", " ", "'", "''", '"', '""', ",", ";", "--", "-- ; '", "a\nb", "a\r\nb", "\r", "\n", "\0", "\ufeff", "\ufeffA", "1", "-1", "007", "rows 1\n",
               "refused: syntax\n", "reply 0 0 0 0 accepted\n", "\\", "\t", "日本語", "\U0001f600", "\u202e", "\u2028", "\x85", "\x7f", "a,b\"c'd"]
        edges = [chr(it) for it in (0x7f, 0x80, 0x7ff, 0x800, 0xd7ff, 0xe000, 0xffff, 0x10000, 0x10ffff)]
        long = ["x" * 4096, "é" * 2048, '"' * 4096, "'" * 4096, "\n" * 4096]
        return sorted({*odd, *edges, *long, *every, *(every[i:i + 300] for i in range(0, len(every), 300))}, key=lambda it: it.encode())

    def test_by_statements(self):
        with sysu.open() as db:
            db.run(SMALL)
            want = self.all_texts()
            db.run(";".join(f"insert R ({i}, {sysu.quoted(it)})" for i, it in enumerate(want)))
            self.assertEqual(db.ask("print R").rows, list(enumerate(want)))
            self.assertEqual(db.ask("retrieve (T)").column("T"), want)

    def test_by_rows(self):
        with sysu.open() as db:
            db.run(SMALL)
            want = self.all_texts()
            self.assertEqual(db.insert("R", enumerate(want)), len(want))
            self.assertEqual(db.insert("R", enumerate(want)), 0)
            self.assertEqual(db.ask("print R").rows, list(enumerate(want)))

    def test_bytes_that_are_no_text(self):
        with sysu.open() as db:
            db.run(SMALL)
            for text in (b"insert R (1, '\xff')", "insert R (1, '\ud800')", b"\xff", "insert R (1, '" + "x" * 4097 + "')"):
                with self.assertRaises(sysu.Refused) as caught:
                    db.run(text)
                self.assertEqual(caught.exception.cause, "syntax")
            for value, cause in (("\ud800", "record 1: column T is no text"), ("x" * 4097, "record 1: column T is no text")):
                with self.assertRaises(sysu.Refused) as caught:
                    db.insert("R", [(1, value)])
                self.assertEqual(caught.exception.cause, cause)
            self.assertEqual(db.ask("print R").rows, [])

    def test_numbers(self):
        with sysu.open() as db:
            db.run(SMALL)
            want = [-(1 << 63), -1, 0, 1, (1 << 63) - 1]
            db.insert("R", [(it, "") for it in want])
            self.assertEqual(db.ask("retrieve (A)").column("A"), want)
            with self.assertRaises(sysu.Refused) as caught:
                db.insert("R", [(1 << 63, "")])
            self.assertEqual(caught.exception.cause, "record 1: column A is no number")

    def test_one_column(self):
        with sysu.open() as db:
            db.run("relation S (T text)")
            db.insert("S", [("",), ("a",)])
            self.assertEqual(db.ask("print S").rows, [("",), ("a",)])

    def test_rows_that_are_refused(self):
        with sysu.open() as db:
            db.run(SMALL + "fd A -> T")
            for rows, cause in [
                ([(1, "a"), (1, "b")], "record 2: breaks A -> T with row (1, 'a')"),
                ([(1, "a"), (1,)], "record 2: width 1, relation has 2"),
                ([(1, "a"), ("1", "b")], "record 2: kind of column A"),
                ([(1, 1)], "record 1: kind of column T"),
            ]:
                with self.assertRaises(sysu.Refused) as caught:
                    db.insert("R", rows)
                self.assertEqual(caught.exception.cause, cause)
            for value in (1.5, None, True, b"x"):
                with self.assertRaises(TypeError):
                    db.insert("R", [(value, "")])
            self.assertEqual(db.ask("print R").rows, [])
            with self.assertRaises(sysu.Refused) as caught:
                db.insert("RR", [])
            self.assertEqual(caught.exception.cause, "unknown relation RR")


class Files(unittest.TestCase):
    def test_loads(self):
        with tempfile.TemporaryDirectory() as room:
            folder = os.path.join(room, "in")
            os.mkdir(folder)
            for name in ("in/a.csv", "out.csv"):
                with open(os.path.join(room, name), "w") as file:
                    file.write("A,T\n1,x\n")
            with sysu.open(files=folder) as db:
                db.run(SMALL)
                self.assertEqual(db.run("load R from 'a.csv'")[0].text, "loaded 1 of 1\n")
                for name in ("../out.csv", os.path.join(room, "out.csv"), "none.csv"):
                    with self.assertRaises(sysu.Refused) as caught:
                        db.run(f"load R from {sysu.quoted(name)}")
                    self.assertEqual(caught.exception.cause, f"can't read {name}")
                self.assertEqual(db.insert("R", [(2, "y")]), 1)
                self.assertEqual(os.listdir(folder), ["a.csv"])

    @unittest.skipUnless(keeps_files(), "this shell keeps no file")
    def test_what_is_accepted_stays(self):
        with tempfile.TemporaryDirectory() as room:
            path = os.path.join(room, "bank.db")
            with bank(path) as db:
                db.run("insert BA ('B9', 9)")
                db.reopen()
                db.run("insert BA ('B8', 8)")
                with self.assertRaises(sysu.Ended) as caught:
                    sysu.open(path)
                self.assertEqual(caught.exception.status, 9)
            with bank(path) as db:
                self.assertEqual(db.ask("print BA").rows, [("B1", 1), ("B2", 2), ("B8", 8), ("B9", 9)])
            with self.assertRaises(sysu.Ended):
                sysu.open(path, schema=os.path.join(TOP, "examples/pair/schema.su"))
            with sysu.open(path, schema=os.path.join(TOP, "examples/bank/schema.su")) as db:
                db.reopen()
            with open(os.path.join(room, "other.db"), "w") as file:
                file.write("no database" * 100)
            with self.assertRaises(sysu.Ended) as caught:
                sysu.open(os.path.join(room, "other.db"))
            self.assertEqual(caught.exception.status, 9)

    def test_a_closed_database(self):
        db = sysu.open()
        room = os.path.dirname(db.path)
        db.close()
        db.close()
        self.assertFalse(os.path.exists(room))
        with self.assertRaises(sysu.Ended):
            db.run("schema")

    def test_a_schema(self):
        with sysu.open(schema=os.path.join(TOP, "examples/bank/schema.su")) as db:
            self.assertEqual(len(db.schema.relations), 7)
        with self.assertRaises(sysu.Ended) as caught:
            sysu.open(schema="/none")
        self.assertEqual(caught.exception.status, 4)
        with tempfile.TemporaryDirectory() as room:
            path = os.path.join(room, "schema.su")
            for text, cause, place, line, column in [
                ("attribute A int;\n  attribute A text;", "twice A", None, 2, 3),
                ("-- ä\nattribute A int;\n fd A - A", "syntax", 5, 3, 7),
                ("attribute A int; print A", "syntax", 0, 1, 18),
            ]:
                with open(path, "w") as file:
                    file.write(text)
                with self.assertRaises(sysu.Refused) as caught:
                    sysu.open(schema=path)
                it = caught.exception
                self.assertEqual((it.cause, it.place, it.line, it.column), (cause, place, line, column), text)


class Limits(unittest.TestCase):
    """A statement that goes on for long, one that takes much memory, a program that dies, Ctrl-C."""

    def filled(self, **words):
        db = bank(**words)
        db.insert("BA", [(f"B{i}", 100 + i) for i in range(ROWS)])
        db.insert("AC", [(100 + i, f"C{i}") for i in range(ROWS)])
        return db

    def still_there(self, db):
        self.assertEqual(db.run("closure (ACCT)")[0].text.split("\n")[0], "closure BANK ACCT BAL")
        if keeps_files():
            self.assertEqual(len(db.ask("print AC")), ROWS + 2)

    @unittest.skipUnless(keeps_files(), "this shell keeps no file")
    def test_seconds(self):
        with self.filled() as db:
            db.seconds = 0.3
            begun = time.monotonic()
            with self.assertRaises(sysu.Stopped) as caught:
                db.run(f"insert BA ('B1', 1); {LONG}; insert BA ('B2', 2)")
            self.assertLess(time.monotonic() - begun, 10)
            self.assertEqual((caught.exception.statement, len(caught.exception.replies)), (LONG, 1))
            self.still_there(db)

    @unittest.skipUnless(keeps_files(), "this shell keeps no file")
    def test_memory(self):
        with self.filled() as db:
            db._shell._memory = shell.resident(db._shell.pid) + (32 << 20)
            with self.assertRaises(sysu.Stopped) as caught:
                db.run(LONG)
            self.assertIn("of memory", str(caught.exception))
            self.still_there(db)

    @unittest.skipUnless(keeps_files(), "this shell keeps no file")
    def test_a_program_that_dies(self):
        with self.filled() as db:
            threading.Timer(0.5, lambda: os.kill(db._shell.pid, 9)).start()
            with self.assertRaises(sysu.Ended) as caught:
                db.run(LONGER)
            self.assertEqual((caught.exception.status, db.closed), (-9, False))
            self.still_there(db)
            with self.assertRaises(sysu.Ended) as caught:
                db.run("print AC; print " + "x" * (1 << 24))
            self.assertEqual((caught.exception.status, len(caught.exception.replies)), (6, 1))
            self.still_there(db)

    @unittest.skipUnless(keeps_files(), "this shell keeps no file")
    def test_an_interrupt(self):
        with self.filled() as db:
            threading.Timer(0.5, lambda: os.kill(os.getpid(), 2)).start()
            with self.assertRaises(KeyboardInterrupt):
                db.run(LONGER)
            self.still_there(db)
            # one that comes while the program is started again: the next call does that
            begin = db._begin

            def cut_off(*_):
                begin()
                db._shell.ask = None
                db._begin, db._torn = begin, True
                raise KeyboardInterrupt
            db._begin = cut_off
            with self.assertRaises(KeyboardInterrupt):
                db.reopen()
            self.assertFalse(db.closed)
            self.still_there(db)
            self.assertIs(signal.getsignal(signal.SIGINT), signal.default_int_handler)

    def test_many_statements(self):
        with sysu.open() as db:
            db.run(SMALL)
            found = db.run(";".join(f"insert R ({i}, 'x')" for i in range(5000)) + ";print R")
            self.assertEqual(len(found), 5001)
            self.assertEqual(len(db.answer(found[-1])), 5000)

    def test_threads(self):
        with bank() as db:
            wrong = []

            def work(k):
                for _ in range(10):
                    if db.ask(f"retrieve (CUST) where ACCT = {k}").rows != [({1: "Jones", 2: "Smith"}[k],)]:
                        wrong.append(k)
            workers = [threading.Thread(target=work, args=(1 + k % 2,)) for k in range(4)]
            for it in workers:
                it.start()
            for it in workers:
                it.join()
            self.assertEqual(wrong, [])

    def test_frames_that_are_wrong(self):
        for said in ("reply 1 0 1 0 accepted", "reply 0 0 1 0 accepted", "reply 0 0 8 0", "reply 0 0 8 0 maybe", "hello", "blank 0 1"):
            with tempfile.TemporaryDirectory() as room:
                path = os.path.join(room, "shell")
                with open(path, "w") as file:
                    file.write(f"#!/bin/sh\nread a\nread b\necho '{said}'\nsleep 5\n")
                os.chmod(path, 0o700)
                kept = os.environ.get("SYSU_SHELL")
                os.environ["SYSU_SHELL"] = path
                try:
                    with self.assertRaises(sysu.Ended, msg=said):
                        sysu.open()
                finally:
                    os.environ.pop("SYSU_SHELL")
                    if kept:
                        os.environ["SYSU_SHELL"] = kept


class Sources(unittest.TestCase):
    def test_python_3_9(self):
        for path in glob.glob(os.path.join(TOP, "clients", "*", "*.py")):
            with open(path, encoding="utf-8") as file:
                ast.parse(file.read(), path, feature_version=(3, 9))

    def test_the_words_are_those_of_the_grammar(self):
        with open(os.path.join(TOP, "docs", "GRAMMAR.md"), encoding="utf-8") as file:
            words = file.read().split("Reserved are\n\n")[1].split("\n\n")[0].split()
        self.assertEqual(sorted(words), sorted(texts.RESERVED))

    def test_the_slips_are_those_of_the_tools(self):
        tools = os.path.join(TOP, "tools")
        if not os.path.exists(os.path.join(tools, "hints.py")):
            self.skipTest("there are no tools")
        sys.path.insert(0, tools)
        try:
            spec = importlib.util.spec_from_file_location("tools_hints", os.path.join(tools, "hints.py"))
            module = importlib.util.module_from_spec(spec)
            spec.loader.exec_module(module)
        finally:
            sys.path.remove(tools)
        self.assertEqual([(behind, at, hint) for behind, at, _, hint in module.HINTS[:-1]], hints.SLIPS[:-1])
        self.assertEqual(set(module.FIRST), {*texts.DEFINITIONS, *texts.STATEMENTS})

    def test_nothing_is_left_in_the_temporary_folder(self):
        with tempfile.TemporaryDirectory() as room:
            code = "import sysu; db = sysu.open(); db.run('attribute A int')"
            subprocess.run([sys.executable, "-B", "-c", code], cwd=os.path.join(TOP, "clients"), env={**os.environ, "TMPDIR": room}, check=True)
            self.assertEqual(os.listdir(room), [])


if __name__ == "__main__":
    unittest.main()
