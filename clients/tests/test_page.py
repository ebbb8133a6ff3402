#!/usr/bin/env python3
"""Tests of the page: its server against hostile requests, and the page in a headless Chromium.

    test_page.py [--pictures FOLDER] ..     as unittest; keeps screenshots in the folder
"""
import http.client
import json
import os
import re
import socket
import subprocess
import sys
import tempfile
import threading
import time
import unittest

import browser
from browser import CONTROL, ENTER, TAB, Browser
from support import TOP, example, keeps_files

from sysu_page import material

PAGE = os.path.join(TOP, "page")
SECONDS = 60
PICTURES = None
ROWS = 97


class Server:
    """The page's server, started for a test."""

    def __init__(self, *words):
        self.run = subprocess.Popen([sys.executable, PAGE, "--no-browser", "--port", "0", *words], stdout=subprocess.PIPE, text=True)
        line = self.run.stdout.readline()
        self.address = re.search(r"http://127\.0\.0\.1:(\d+)/#token=(\S+)", line)[0]
        self.port, self.token = re.search(r":(\d+)/#token=(\S+)", line).groups()
        self.port = int(self.port)

    @property
    def host(self):
        return f"127.0.0.1:{self.port}"

    def request(self, method, path, body=None, headers=None, host=None):
        """The status, the headers and the body of what is answered."""
        link = http.client.HTTPConnection("127.0.0.1", self.port, timeout=SECONDS)
        try:
            link.putrequest(method, path, skip_host=True)
            if host is not False:
                link.putheader("Host", self.host if host is None else host)
            headers = dict(headers or {})
            if body is not None:
                headers.setdefault("Content-Length", str(len(body)))
            for name, value in headers.items():
                link.putheader(name, value)
            link.endheaders(body)
            reply = link.getresponse()
            return reply.status, dict(reply.getheaders()), reply.read()
        finally:
            link.close()

    def call(self, name, body, token=None, **words):
        headers = {"Content-Type": "application/json", "X-Sysu-Token": self.token if token is None else token, **words.pop("headers", {})}
        data = body if isinstance(body, bytes) else json.dumps(body).encode()
        status, _, said = self.request("POST", f"/api/{name}", data, headers, **words)
        return status, json.loads(said) if status == 200 else said.decode()

    def raw(self, data, wait=True):
        """What comes for these bytes."""
        with socket.create_connection(("127.0.0.1", self.port), timeout=SECONDS) as link:
            link.sendall(data)
            if not wait:
                return b""
            found = b""
            while True:
                more = link.recv(65536)
                if not more:
                    return found
                found += more

    def close(self):
        self.run.terminate()
        self.run.stdout.close()
        return self.run.wait(SECONDS)


class Hostile(unittest.TestCase):
    @classmethod
    def setUpClass(cls):
        cls.it = Server("--seconds", "5", "--memory", "400")

    @classmethod
    def tearDownClass(cls):
        cls.it.close()

    def tearDown(self):
        # whatever came, it answers
        self.assertEqual(self.it.request("GET", "/")[0], 200)

    def test_it_listens_on_this_machine_alone(self):
        with open("/proc/net/tcp") as file:
            own = [line.split()[1] for line in file if line.split()[1].endswith(f":{self.it.port:04X}") and line.split()[3] == "0A"]
        self.assertEqual(own, [f"0100007F:{self.it.port:04X}"])

    def test_other_hosts(self):
        for host in ("localhost", f"localhost:{self.it.port}", "evil.example", f"evil.example:{self.it.port}", "127.0.0.1", "127.0.0.1:1", "", False,
                     f"127.0.0.1:{self.it.port}@evil.example"):
            for method, path in (("GET", "/"), ("POST", "/api/open")):
                headers = {"X-Sysu-Token": self.it.token, "Content-Type": "application/json"} if method == "POST" else {}
                status, _, said = self.it.request(method, path, b"{}" if method == "POST" else None, headers, host=host)
                self.assertIn(status, (400, 421), (host, said))
        two = f"GET / HTTP/1.1\r\nHost: {self.it.host}\r\nHost: evil.example\r\nConnection: close\r\n\r\n"
        self.assertIn(b" 421 ", self.it.raw(two.encode()).split(b"\r\n")[0])

    def test_other_origins(self):
        for origin in ("http://evil.example", "null", f"https://{self.it.host}", "http://127.0.0.1:1", f"http://localhost:{self.it.port}"):
            self.assertEqual(self.it.call("open", {}, headers={"Origin": origin})[0], 403, origin)
        self.assertEqual(self.it.call("material", {}, headers={"Origin": f"http://{self.it.host}"})[0], 200)

    def test_other_tokens(self):
        for token in ("", "x", self.it.token[:-1], self.it.token + "x", self.it.token.swapcase()):
            for name in ("open", "ask", "set_up", "explain", "compare", "material", "none"):
                self.assertEqual(self.it.call(name, {}, token=token)[0], 403)
        for path in ("/", "/page.js", f"/?token={self.it.token}"):
            self.assertNotIn(self.it.token.encode(), self.it.request("GET", path)[2])

    def test_paths(self):
        for path in ("/../server.py", "/..%2fserver.py", "/%2e%2e/server.py", "/server.py", "//etc/passwd", "/etc/passwd", "/page.js/", "/page.html", "/./page.js",
                     "/page.js%00", "/api/open", "/api/../page.js", "*", f"http://{self.it.host}/page.js", "/\\..\\server.py"):
            self.assertEqual(self.it.request("GET", path)[0], 404, path)
            self.assertEqual(self.it.request("POST", path, b"{}", {"X-Sysu-Token": self.it.token, "Content-Type": "application/json"})[0] in (404, 200), True, path)
        for method in ("PUT", "DELETE", "OPTIONS", "TRACE", "CONNECT", "PATCH", "FOO"):
            self.assertEqual(self.it.request(method, "/")[0], 501, method)

    def test_headers(self):
        for path in ("/", "/page.css", "/page.js", "/none"):
            _, headers, _ = self.it.request("GET", path)
            self.assertIn("default-src 'none'", headers["Content-Security-Policy"])
            self.assertNotIn("unsafe", headers["Content-Security-Policy"])
            self.assertEqual((headers["X-Content-Type-Options"], headers["Referrer-Policy"], headers["Cache-Control"]), ("nosniff", "no-referrer", "no-store"))
            self.assertNotIn("Access-Control-Allow-Origin", headers)

    def test_bodies(self):
        head = {"X-Sysu-Token": self.it.token, "Content-Type": "application/json"}
        for body, headers, status in [
            (b"", head, 400), (b"{", head, 400), (b"[]", head, 400), (b"null", head, 400), (b"\xff", head, 400), (b"[" * 100000, head, 400),
            (b'{"a":' * 50000, head, 400), (b"{}", {**head, "Content-Type": "text/plain"}, 415), (b"{}", {**head, "Content-Length": "-1"}, 411),
            (b"{}", {**head, "Content-Length": "x"}, 411), (b"{}", {**head, "Content-Length": "9" * 30}, 413), (b"{}", {**head, "Content-Length": str(9 << 20)}, 413),
            (b"0\r\n\r\n", {**head, "Content-Length": "5", "Transfer-Encoding": "chunked"}, 411),
        ]:
            self.assertEqual(self.it.request("POST", "/api/ask", body, headers)[0], status, (body[:20], headers))
        for body in ({}, {"session": None}, {"session": 1}, {"session": ["x"]}, {"session": "x" * 100000, "question": "schema"}):
            self.assertEqual(self.it.call("ask", body)[0], 410, body)
        name = self.it.call("open", {})[1]["session"]
        for question in (None, 1, ["schema"], {}, True):
            self.assertEqual(self.it.call("ask", {"session": name, "question": question})[0], 400)
        self.assertEqual(self.it.call("ask", {"session": name, "question": "x" * ((2 << 20) + 1)})[0], 413)
        self.assertEqual(self.it.call("ask", {"session": name, "question": "\ud800"})[1]["replies"][0]["kind"], "refused")
        self.assertEqual(self.it.call("ask", {"session": name, "question": "print X; \0; 'open"})[1]["replies"][2]["kind"], "refused")

    def test_broken_requests(self):
        for data in (b"\r\n\r\n", b"GET\r\n\r\n", b"\0\1\2\3\r\n\r\n", b"GET / HTTP/9.9\r\n\r\n", b"GET / HTTP/1.1\r\n" + b"A: b\r\n" * 200 + b"\r\n",
                     b"GET /" + b"x" * 70000 + b" HTTP/1.1\r\n\r\n", b"GET / HTTP/1.1\r\nHost" + b"y" * 70000 + b"\r\n\r\n"):
            said = self.it.raw(data + b"" if data.endswith(b"\r\n\r\n") else data)
            self.assertNotIn(b" 200 ", said.split(b"\r\n")[0], data[:30])

    def test_clients_that_go_away(self):
        name = self.it.call("open", {})[1]["session"]
        body = json.dumps({"session": name, "question": "schema; schema"}).encode()
        head = (f"POST /api/ask HTTP/1.1\r\nHost: {self.it.host}\r\nX-Sysu-Token: {self.it.token}\r\nContent-Type: application/json\r\n"
                f"Content-Length: {len(body)}\r\n\r\n").encode()
        for data in (head, head + body[:5], head + body, head[:20]):
            for _ in range(5):
                self.it.raw(data, wait=False)
        idle = [socket.create_connection(("127.0.0.1", self.it.port)) for _ in range(50)]
        self.assertEqual(self.it.call("ask", {"session": name, "question": "closure ()"})[0], 200)
        for link in idle:
            link.close()

    def test_loads_stay_in_their_folder(self):
        name = self.it.call("open", {})[1]["session"]
        self.it.call("set_up", {"session": name, "schema": "attribute A text; relation R (A text); object O (A) from R (A)", "data": ""})
        for path in ("/etc/passwd", "../../etc/passwd", "../memory.db", "/proc/self/environ", "examples/../../files/examples/bank/balances.csv"):
            found = self.it.call("ask", {"session": name, "question": f"load R from '{path}'"})[1]["replies"]
            self.assertEqual((found[0]["kind"], found[0]["text"]), ("refused", f"can't read {path}\n"))
        found = self.it.call("ask", {"session": name, "question": "load R from 'examples/bank/balances.csv'"})[1]["replies"]
        self.assertEqual(found[0]["text"], "refused: header\n")

    @unittest.skipUnless(keeps_files(), "this shell keeps no file")
    def test_limits(self):
        name = self.it.call("open", {})[1]["session"]
        rows = "".join(f"insert BA ('B{i}', {i}); insert AC ({i}, 'C{i}');" for i in range(100, 100 + ROWS))
        self.it.call("set_up", {"session": name, "schema": example("bank/schema.su").decode(), "data": rows})
        begun = time.monotonic()
        for _ in range(2):
            found = self.it.call("ask", {"session": name, "question": "print AC;" + "retrieve (a.ACCT, b.ACCT, c.ACCT, d.ACCT); print BA;" * 2})
            kinds = [it["kind"] for it in found[1]["replies"]]
            if "stopped" in kinds:
                self.assertEqual(kinds, ["rows", "stopped"])
                self.assertIn("was opened again", found[1]["replies"][1]["text"])
            else:
                # a fast machine comes to the limit of an answer
                self.assertIn("limit answer", found[1]["replies"][1]["text"])
        self.assertLess(time.monotonic() - begun, SECONDS)
        found = self.it.call("ask", {"session": name, "question": "print AC"})
        self.assertEqual(found[1]["replies"][0]["answer"]["count"], ROWS)


class Sessions(unittest.TestCase):
    def test_the_oldest_is_closed(self):
        it = Server("--sessions", "3")
        try:
            names = [it.call("open", {})[1]["session"] for _ in range(3)]
            self.assertEqual(it.call("ask", {"session": names[0], "question": "schema"})[0], 200)
            names.append(it.call("open", {})[1]["session"])
            self.assertEqual([it.call("ask", {"session": name, "question": "schema"})[0] for name in names], [200, 410, 200, 200])
        finally:
            self.assertEqual(it.close(), 0)

    def test_sessions_are_apart(self):
        it = Server()
        try:
            one, other = (it.call("open", {})[1]["session"] for _ in range(2))
            self.assertGreater(len(one), 20)
            it.call("set_up", {"session": one, "schema": "attribute A int", "data": ""})
            self.assertEqual(it.call("ask", {"session": one, "question": "closure (A)"})[1]["replies"][0]["text"], "closure A\n")
            self.assertEqual(it.call("ask", {"session": other, "question": "closure (A)"})[1]["replies"][0]["kind"], "refused")
            found = it.call("set_up", {"session": one, "schema": "attribute B int", "data": "insert X (1);"})[1]
            self.assertEqual((found["attributes"], found["data"][0]["fault"]["cause"]), (["B"], "unknown relation X"))
        finally:
            it.close()

    @unittest.skipUnless(keeps_files(), "this shell keeps no file")
    def test_a_file_is_shared(self):
        with tempfile.TemporaryDirectory() as room:
            path = os.path.join(room, "a.db")
            it = Server(path)
            try:
                names = {it.call("open", {})[1]["session"] for _ in range(3)}
                self.assertEqual(names, {"shared"})
                it.call("set_up", {"session": "shared", "schema": "attribute A int; relation R (A int); object O (A) from R (A)", "data": "insert R (1)"})
                it.call("set_up", {"session": "shared", "schema": "", "data": "insert R (2)"})
                wrong = []

                def work():
                    if it.call("ask", {"session": "shared", "question": "retrieve (A)"})[1]["replies"][0]["answer"]["rows"] != [["1"], ["2"]]:
                        wrong.append(1)
                workers = [threading.Thread(target=work) for _ in range(8)]
                for each in workers:
                    each.start()
                for each in workers:
                    each.join()
                self.assertEqual(wrong, [])
            finally:
                it.close()
            it = Server(path)
            try:
                self.assertEqual(it.call("open", {})[1]["attributes"], ["A"])
                self.assertEqual(it.call("ask", {"session": "shared", "question": "print R"})[1]["replies"][0]["answer"]["count"], 2)
            finally:
                it.close()

    def test_nothing_is_left(self):
        with tempfile.TemporaryDirectory() as room:
            kept = os.environ.get("TMPDIR")
            os.environ["TMPDIR"] = room
            try:
                it = Server()
                it.call("open", {})
                self.assertNotEqual(os.listdir(room), [])
                it.close()
                self.assertEqual(os.listdir(room), [])
            finally:
                os.environ.pop("TMPDIR")
                if kept:
                    os.environ["TMPDIR"] = kept


class Material(unittest.TestCase):
    def test_examples(self):
        found = material.examples()
        self.assertEqual(found[0]["name"], "bank")
        self.assertEqual(sorted(it["name"] for it in found), sorted(it for it in os.listdir(os.path.join(TOP, "examples")) if os.path.isdir(os.path.join(TOP, "examples", it))))
        for it in found:
            script = example(f"{it['name']}/script.su").decode("utf-8-sig")
            self.assertEqual(it["data"] + it["question"], script)

    def test_exercises(self):
        found = material.exercises()
        with open(os.path.join(TOP, "docs", "EXERCISES.md"), encoding="utf-8") as file:
            page = file.read()
        self.assertEqual(len({it["name"].partition(" (")[0] for it in found}), page.count("\n## "))
        for it in found:
            self.assertTrue(all(it[key] for key in ("name", "about", "schema", "question", "solution")), it["name"])
            self.assertNotIn("fd LOAN -> BANK", it["about"])


@unittest.skipUnless(browser.is_there(), "no Chromium is installed")
class InTheBrowser(unittest.TestCase):
    @classmethod
    def setUpClass(cls):
        cls.server = Server()
        cls.it = Browser()

    @classmethod
    def tearDownClass(cls):
        cls.it.close()
        cls.server.close()

    def setUp(self):
        self.it.go(self.server.address)
        self.it.run("sessionStorage.clear()")
        self.it.go("about:blank")
        self.it.go(self.server.address)
        self.it.wait("return document.body.dataset.ready")

    def tearDown(self):
        self.assertEqual(self.it.complaints(), [])

    def picture(self, name, whole=False):
        if PICTURES:
            self.it.picture(os.path.join(PICTURES, f"page-{name}.png"), whole)

    def asked(self, count):
        """Once so many replies are there, and the page is at rest."""
        self.it.wait("return document.querySelectorAll('.reply').length === arguments[0] && !document.querySelector('#ask').disabled", count)

    def ask(self, question, count=1):
        self.it.write("#question", question)
        self.it.click("#ask")
        self.asked(count)

    def test_the_first_page(self):
        self.picture("first")
        self.assertIn("attribute BANK text", self.it.run("return document.querySelector('#schema').value"))
        self.assertEqual(self.it.run("return location.href"), f"http://{self.server.host}/")
        self.assertEqual(self.it.run("return performance.getEntriesByType('resource').filter((it) => !it.name.startsWith(location.origin)).length"), 0)

    def test_an_answer(self):
        self.ask("retrieve (BANK, ADDR) where CUST = 'Jones';")
        self.assertEqual(self.it.run("return [...document.querySelectorAll('.reply td')].map((it) => it.textContent)"), ["B1", "Main", "B3", "Main"])
        self.it.wait("return document.querySelector('#picture svg')")
        self.picture("answer", True)
        self.assertEqual(self.it.run("return document.querySelectorAll('#lines .row.kept').length"), 6)
        self.assertEqual(self.it.run("return document.querySelectorAll('#lines .row').length"), 8)
        titles = self.it.run("return [...document.querySelectorAll('#lines .row')].map((it) => it.title)")
        self.assertEqual(titles[:3], ["row 0 is kept, and read from BANK_ACCT", "row 1 is kept, and read from ACCT_CUST", "row 2 folds to row 0"])
        drawn = self.it.run("return [...document.querySelectorAll('#picture [data-row=\"1.3\"] title')].map((it) => it.textContent)")
        self.assertEqual(set(drawn), {"row 3 is kept, and read from CUST_ADDR"})
        self.assertIn("union", self.it.run("return document.querySelector('#sql').textContent"))
        for name, colour in (("ground", "rgb(255, 255, 255)"), ("c1", "rgb(11, 79, 158)")):
            self.assertEqual(self.it.run("return getComputedStyle(document.querySelector('#picture .' + arguments[0])).fill", name), colour)
        self.it.run("document.querySelector('#lines .row').focus()")
        self.assertTrue(self.it.run("return document.querySelector('#picture [data-row=\"0.0\"]').classList.contains('lit')"))

    def test_a_fault(self):
        self.ask("-- who lives where, ä and 日本\nretrieve (CUST, ADDR)\n  where CUST like 'J%';\nretrieve (BANKK);", 2)
        self.picture("fault")
        self.assertEqual(self.it.run("return [...document.querySelectorAll('#question').values()][0].previousElementSibling.querySelector('.fault').textContent"), "like")
        said = self.it.text("#replies")
        self.assertIn("      where CUST like 'J%';\n                 ^", said)
        self.assertIn("there are no patterns", said)
        self.assertIn("did you mean `BANK`?", said)
        self.it.click(".refused button")
        self.assertEqual(self.it.run("const it = document.activeElement; return it.id + it.value.slice(it.selectionStart, it.selectionStart + 4)"), "questionlike")
        self.it.write("#question", "retrieve (CUST")
        self.assertEqual(self.it.run("return document.querySelectorAll('.editor .fault').length"), 0)
        self.ask("retrieve (CUST")
        self.assertEqual(self.it.run("return document.querySelectorAll('.editor .fault').length"), 1)

    def test_faults_of_schema_and_data(self):
        self.it.write("#schema", "attribute A int; relation R (A int) object O (A) from R (A);")
        self.it.write("#data", "insert R ('x');")
        self.ask("retrieve (A);")
        self.assertIn("here could stand", self.it.text("#schema_faults"))
        self.assertIn("unknown relation R", self.it.text("#data_faults"))
        self.assertEqual(self.it.run("return document.querySelector('#schema').previousElementSibling.querySelector('.fault').textContent"), "object")

    def test_a_comparison(self):
        self.it.write("#question", "retrieve (BANK) where CUST = 'Jones';\nretrieve (BANK) -- all\n;")
        self.it.click("#compare")
        self.it.wait("return document.querySelector('.within')")
        self.asked(1)
        self.picture("comparison")
        self.assertEqual(self.it.run("return [...document.querySelectorAll('.within .yes, .within .no')].map((it) => it.textContent)"), ["yes", "no"])
        self.assertEqual(self.it.run("return document.querySelectorAll('.tables table').length"), 2)
        self.it.write("#question", "retrieve (BANK)")
        self.it.click("#compare")
        self.it.wait("return document.querySelector('#notice').textContent.includes('write two queries')")
        self.it.write("#question", "retrieve (BANK); -- ä\nretrieve (CUST)\nwhere CUST like 'J';")
        self.it.click("#compare")
        self.it.wait("return document.querySelector('.refused')")
        self.asked(1)
        self.assertIn("where CUST like 'J';\n", self.it.text("#replies"))
        self.it.click(".refused button")
        self.assertEqual(self.it.run("const it = document.activeElement; return it.id + it.value.slice(it.selectionStart, it.selectionStart + 4)"), "questionlike")

    def test_attributes(self):
        self.ask("retrieve (CUST);")
        for name in ("CUST", "BANK"):
            self.it.click(f"#chips input[value={name}]")
        self.it.click(".of[data-form=window]")
        self.it.wait("return document.querySelector('.asked').textContent === 'window (BANK, CUST)' && !document.querySelector('#ask').disabled")
        self.assertIn("B3\tJones", self.it.text("#replies table"))
        self.it.click(".of[data-form=closure]")
        self.it.wait("return document.querySelector('.asked').textContent === 'closure (BANK, CUST)' && !document.querySelector('#ask').disabled")
        self.assertIn("by CUST -> ADDR", self.it.text("#replies"))

    def test_what_was_typed_is_put_back(self):
        question = "return document.querySelector('#question').value"
        self.ask("retrieve (CUST); -- typed")
        self.it.click("#chips input[value=BANK]")
        for word in ("window", "closure"):
            self.it.click(f".of[data-form={word}]")
            self.it.wait("return document.querySelector('.asked').textContent === arguments[0] && !document.querySelector('#ask').disabled", f"{word} (BANK)")
        self.it.click("#back")
        self.assertEqual(self.it.run(question), "retrieve (CUST); -- typed")
        self.it.run("const it = document.querySelector('#examples'); it.value = '1'; it.dispatchEvent(new Event('change'))")
        self.assertNotEqual(self.it.run(question), "retrieve (CUST); -- typed")
        self.it.write("#question", "schema -- typed later")
        self.it.click("#back")
        self.assertEqual(self.it.run(question), "retrieve (CUST); -- typed")
        self.it.click("#back")
        self.assertEqual(self.it.run(question), "schema -- typed later")

    def test_markup_stays_text(self):
        evil = "<img src=x onerror=alert(1)><script>alert(2)</script>"
        self.it.write("#schema", "attribute A text; relation R (A text); object O (A) from R (A);")
        self.it.write("#data", f"insert R ('{evil}');")
        self.ask(f"retrieve (A) where A = '{evil}'; print R; retrieve (A) where '{evil}' like;", 3)
        self.assertIn(evil, self.it.text("#replies"))
        self.it.wait("return document.querySelector('#picture svg')")
        self.assertEqual(self.it.run("return document.querySelectorAll('main img, main script, #picture script').length"), 0)

    def test_a_link(self):
        self.it.write("#schema", "attribute A text; -- ä日本\U0001f600")
        self.it.write("#data", "")
        self.it.write("#question", "insert X ('never run');")
        link = self.it.run("return `${location.origin}/#text=${encode(Object.fromEntries(EDITORS.map((id) => [id, $(id).value])))}`")
        self.assertNotIn(self.server.token, link)
        self.it.go("about:blank")
        self.it.go(link)
        self.it.wait("return document.body.dataset.ready")
        self.assertEqual(self.it.run("return EDITORS.map((id) => $(id).value)"), ["attribute A text; -- ä日本\U0001f600", "", "insert X ('never run');"])
        self.assertEqual(self.it.run("return document.querySelectorAll('.reply').length"), 0)
        self.assertEqual(self.it.run("return built"), None)
        for bad in ("#text=%%%", "#text=e30", "#text=bnVsbA", "#text=" + "A" * 1001):
            self.it.go("about:blank")
            self.it.go(f"http://{self.server.host}/{bad}")
            self.it.wait("return document.body.dataset.ready")
            self.assertIn("attribute A text", self.it.run("return $('schema').value"))

    def test_exercises(self):
        self.it.run("const it = $('exercises'); it.value = '0'; it.dispatchEvent(new Event('change'))")
        self.assertIn("does the closure have every attribute", self.it.text("#exercise"))
        self.assertNotIn("nothing less", self.it.text("#exercise"))
        self.it.click("#show")
        self.assertIn("nothing less", self.it.text("#exercise"))
        self.it.click("#ask")
        self.asked(4)
        self.assertIn("by HOUR, STUDENT -> ROOM", self.it.text("#replies"))

    def test_by_keyboard(self):
        self.assertEqual(self.it.run("return document.activeElement.id"), "question")
        self.it.press((CONTROL, "a"))
        self.it.press(*"print BA;")
        self.it.press((CONTROL, ENTER))
        self.asked(1)
        self.assertEqual(self.it.run("return [...document.querySelectorAll('.reply td')].map((it) => it.textContent)"), ["B1", "1", "B2", "2"])
        seen = set()
        for _ in range(40):
            self.it.press(TAB)
            seen.add(self.it.run("const it = document.activeElement; return it.id || it.dataset.form || it.value || it.tagName"))
        self.assertTrue({"schema", "data", "question", "ask", "compare", "set_up", "link", "theme", "examples", "exercises", "window", "closure", "BANK"} <= seen, seen)

    def test_light_and_dark(self):
        grounds = []
        for _ in range(3):
            grounds.append(self.it.run("return [$('theme').textContent, getComputedStyle(document.documentElement).backgroundColor]"))
            self.it.click("#theme")
        self.assertEqual(len({it[0] for it in grounds}), 3)
        self.assertEqual(len({it[1] for it in grounds}), 2)

    def test_without_the_token(self):
        self.it.run("localStorage.clear()")
        self.it.go("about:blank")
        self.it.go(f"http://{self.server.host}/")
        self.it.wait("return document.querySelector('#notice').textContent.includes('open the address that ./page told')")
        self.it.go("about:blank")
        self.it.go(f"http://{self.server.host}/#token=wrong")
        self.it.wait("return document.querySelector('#notice').textContent.includes('this address is not that of')")
        self.it.complaints()

    def test_a_session_that_was_closed(self):
        self.ask("print BA;")
        self.it.run("session = 'gone'")
        self.ask("print BA; print AC;", 2)
        self.assertIn("made anew", self.it.text("#notice"))
        self.assertEqual(self.it.run("return document.querySelectorAll('.reply td').length"), 8)
        self.it.complaints()


@unittest.skipUnless(browser.is_there() and keeps_files(), "no Chromium is installed, or this shell keeps no file")
class AFileInTheBrowser(unittest.TestCase):
    def test_it(self):
        with tempfile.TemporaryDirectory() as room:
            server = Server(os.path.join(room, "a.db"))
            it = Browser()
            try:
                it.go(server.address)
                it.wait("return document.body.dataset.ready")
                self.assertIn("a.db, shared by all tabs", it.text("header"))
                it.write("#schema", "attribute A int; relation R (A int); object O (A) from R (A);")
                it.write("#data", "insert R (1); insert R ('x');")
                it.click("#set_up")
                it.wait("return document.querySelector('#data_faults').textContent.includes('kind of column A')")
                it.wait("return document.querySelector('#schema').readOnly && !document.querySelector('#ask').disabled")
                it.write("#question", "insert R (2); retrieve (A);")
                it.click("#ask")
                it.wait("return [...document.querySelectorAll('.reply td')].map((it) => it.textContent).join() === '1,2'")
                it.go("about:blank")
                it.go(server.address)
                it.wait("return document.body.dataset.ready")
                self.assertIn("relation R (A int);", it.run("return $('schema').value"))
                self.assertTrue(it.run("return $('schema').readOnly && $('examples').disabled"))
                it.run("sessionStorage.clear()")
                it.go("about:blank")
                it.go(server.address)
                it.wait("return document.body.dataset.ready")
                self.assertEqual(it.run("return $('data').value + $('question').value"), "")
                self.assertEqual(it.complaints(), [])
            finally:
                it.close()
                server.close()


if __name__ == "__main__":
    if "--pictures" in sys.argv:
        at = sys.argv.index("--pictures")
        PICTURES = sys.argv[at + 1]
        del sys.argv[at:at + 2]
    unittest.main()
