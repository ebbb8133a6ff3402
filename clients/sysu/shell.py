"""The program sysu_shell behind a pipe, and the frames of its replies (docs/SHELL.md)."""
import os
import selectors
import signal
import subprocess
import tempfile
import time
from typing import Callable, List, NamedTuple, Optional, Sequence, Tuple

from . import programs
from .errors import Ended, Error
from .hints import Fault

#: stands in front of a statement's text: it keeps a byte order mark in its place; a line feed behind the text ends a comment
FRONT = b"\n"
#: what is sent of a statement's text at once
CHUNK = 1 << 16
#: seconds in which it ends once its input has ended
PATIENCE = 10.0
#: seconds between two looks at its memory
LOOK = 0.05

WHY = {
    2: "it doesn't take these words",
    4: "its input can't be read",
    5: "a reply couldn't be written",
    6: "a statement is longer than 16 MiB",
    7: "no memory was found",
    8: "the file couldn't keep a change",
    9: "the file can't be opened as a database of sysu",
}


class Frame(NamedTuple):
    """A reply: its bytes, whether the statement was accepted, and where the text of a refused one goes wrong."""

    text: bytes
    accepted: bool
    fault: Optional[Fault] = None


def fault_of(words: Sequence[bytes], begin: int) -> Optional[Fault]:
    """The fault that stands behind a frame's `refused`, as `at PLACE expected KIND ..`, in a text that begins there."""
    if len(words) < 3 or words[0] != b"at":
        return None
    return Fault(int(words[1]) - begin, tuple(it.decode() for it in words[3:]))


class TimeOut(Exception):
    """No reply came for so many seconds."""


class Swollen(Exception):
    """It took more memory than it may."""


def resident(pid: int) -> int:
    """How many bytes of memory a process holds; 0 where that isn't told."""
    try:
        with open(f"/proc/{pid}/statm", "rb") as file:
            return int(file.read().split()[1]) * os.sysconf("SC_PAGE_SIZE")
    except (OSError, ValueError, IndexError):
        return 0


class Shell:
    """One run of the program. Each statement that is sent gets one reply."""

    def __init__(self, path: Optional[str], schema: Optional[str] = None, files: Optional[str] = None,
                 workers: Optional[int] = None, memory: Optional[int] = None):
        words = [programs.need("sysu_shell"), *([path] if path else []), "--frames"]
        words += ["--schema", schema] if schema else []
        words += ["--files", files] if files else []
        words += ["--workers", str(workers)] if workers else []
        self._errors = tempfile.TemporaryFile()
        # a session of its own, so that Ctrl-C on a terminal reaches the client alone; until it has one Ctrl-C waits, which would end it
        before = signal.pthread_sigmask(signal.SIG_BLOCK, [signal.SIGINT])
        try:
            self._run = subprocess.Popen(words, stdin=subprocess.PIPE, stdout=subprocess.PIPE, stderr=self._errors, bufsize=0,
                                         start_new_session=True)
        finally:
            signal.pthread_sigmask(signal.SIG_SETMASK, before)
        self._memory = memory
        assert self._run.stdin and self._run.stdout
        self._in, self._out = self._run.stdin.fileno(), self._run.stdout.fileno()
        os.set_blocking(self._in, False)
        os.set_blocking(self._out, False)
        self._told = bytearray()
        self._sent = 0
        self._number = 0

    @property
    def pid(self) -> int:
        return self._run.pid

    def ask(self, texts: Sequence[bytes], seconds: Optional[float] = None,
            on_reply: Optional[Callable[[Frame], None]] = None) -> List[Frame]:
        """The replies to statements, each without its `;`, in which no quote is open.

        Raises Ended where the program ended before the last reply, TimeOut where none comes for these seconds, Swollen where
        it takes more memory than it may; what came before that is told by on_reply.
        """
        spans: List[Tuple[int, int]] = []
        data = bytearray()
        for text in texts:
            begin = self._sent + len(data)
            data += FRONT + text + b"\n;"
            spans.append((begin, self._sent + len(data) - 1))
        self._sent += len(data)
        found: List[Frame] = []
        with selectors.DefaultSelector() as ready:
            ready.register(self._out, selectors.EVENT_READ)
            if data:
                ready.register(self._in, selectors.EVENT_WRITE)
            self._exchange(ready, memoryview(bytes(data)), spans, seconds, found, on_reply)
        return found

    def _exchange(self, ready: selectors.BaseSelector, rest: memoryview, spans: List[Tuple[int, int]], seconds: Optional[float],
                  found: List[Frame], on_reply: Optional[Callable[[Frame], None]]) -> None:
        """Writes what is left to be sent, and reads replies until there is one for each span."""
        last = time.monotonic()
        while len(found) < len(spans):
            left = None if seconds is None else last + seconds - time.monotonic()
            if left is not None and left <= 0:
                raise TimeOut
            if self._memory is not None:
                if resident(self._run.pid) > self._memory:
                    raise Swollen
                left = LOOK if left is None else min(left, LOOK)
            events = ready.select(left)
            for key, _ in events:
                if key.fd == self._in:
                    rest = self._write(rest, ready)
                    continue
                more = os.read(self._out, 1 << 20)
                if not more:
                    raise self.ended(found)
                self._told += more
                for frame in self._frames(spans, len(found)):
                    last = time.monotonic()
                    found.append(frame)
                    if on_reply:
                        on_reply(frame)

    def _write(self, rest: memoryview, ready: selectors.BaseSelector) -> memoryview:
        """Writes a piece of what is left, and gives what is left behind it."""
        try:
            rest = rest[os.write(self._in, rest[:CHUNK]):]
        except BlockingIOError:
            return rest
        except BrokenPipeError:
            # what it said before it ended is still to be read
            rest = rest[:0]
        if not rest:
            ready.unregister(self._in)
        return rest

    def _frames(self, spans: List[Tuple[int, int]], at: int) -> List[Frame]:
        """The frames that have come as a whole; held against the spans of the statements from this one on."""
        found: List[Frame] = []
        begin = 0
        while True:
            end = self._told.find(b"\n", begin)
            if end < 0:
                break
            words = bytes(self._told[begin:end]).split(b" ")
            if len(words) < 6 or words[0] != b"reply" or words[5] not in (b"accepted", b"refused"):
                raise self.confused()
            number, start, stop, length = map(int, words[1:5])
            if len(self._told) < end + 1 + length:
                break
            k = at + len(found)
            if number != self._number or k >= len(spans) or (start, stop) != spans[k]:
                raise self.confused()
            fault = fault_of(words[6:], start + len(FRONT))
            found.append(Frame(bytes(self._told[end + 1:end + 1 + length]), words[5] == b"accepted", fault))
            self._number += 1
            begin = end + 1 + length
        del self._told[:begin]
        return found

    def confused(self) -> Error:
        """The program doesn't speak in frames that are right."""
        self.kill()
        return Ended("the program's frames are not those of the statements that were sent")

    def ended(self, found: Sequence[Frame] = ()) -> Ended:
        """How it ended, which it has or is about to."""
        try:
            status = self._run.wait(PATIENCE)
        except subprocess.TimeoutExpired:
            self.kill()
            status = self._run.returncode
        self._errors.seek(0)
        said = self._errors.read(4096).decode("utf-8", "replace").strip()
        why = said or WHY.get(status, "a signal ended it" if status < 0 else f"it ended with status {status}")
        self._shut()
        return Ended(why, status)

    def close(self, seconds: float = PATIENCE) -> Optional[int]:
        """Ends its input, and waits until it has ended; kills it past these seconds. Its status."""
        if self._run.stdin:
            self._run.stdin.close()
        try:
            self._run.wait(seconds)
        except subprocess.TimeoutExpired:
            pass
        self.kill()
        return self._run.returncode

    def kill(self) -> None:
        """Ends it at once, as a crash does."""
        if self._run.poll() is None:
            self._run.kill()
            self._run.wait()
        self._shut()

    def _shut(self) -> None:
        for it in (self._run.stdin, self._run.stdout, self._errors):
            if it:
                it.close()
