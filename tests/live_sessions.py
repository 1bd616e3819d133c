"""Live sessions: the program answers the lines of its standard input, or of a named pipe, as they come.

Whatever waits gives up after five minutes, which nothing takes on a busy machine: a program that has not ended by then
is ended, so that nobody waits for its pipes either.
"""

from __future__ import annotations

import errno
import json
import os
import pathlib
import re
import select
import subprocess
import tempfile
import threading
import time
from typing import IO

from tests import model
from tests.cases import EXAMPLE, HERE, Case
from tests.whole_maps import ON_OSDS, map_of, osds_of, pool_of, rule_of

Process = subprocess.Popen[bytes]
SECONDS = 300


def limited(process: Process) -> Process:
    """A process that is ended after five minutes, so that whoever waits for it then goes on."""
    timer = threading.Timer(SECONDS, process.kill)
    timer.daemon = True
    timer.start()
    return process


class Lines:
    """The lines that come out of a pipe."""

    def __init__(self, pipe: int) -> None:
        self.pipe, self.left = pipe, b""

    def next(self, seconds: float = SECONDS) -> str | None:
        """The next line; None where there is none within some seconds, or the pipe has ended."""
        end = time.monotonic() + seconds
        while b"\n" not in self.left:
            ready, _, _ = select.select([self.pipe], [], [], max(0, end - time.monotonic()))
            more = os.read(self.pipe, 1 << 20) if ready else b""
            if not more:
                return None
            self.left += more
        line, self.left = self.left.split(b"\n", 1)
        return line.decode()


class Live:
    """A run of the program with a live session, and its two pipes."""

    def __init__(
        self, program: pathlib.Path, *words: object, stdin: int | None = subprocess.PIPE, close: bool = False
    ) -> None:
        started = ["sh", "-c", 'exec "$0" "$@" <&-'] * close + [*map(str, [program, *(words or (EXAMPLE, "-"))])]
        self.process = limited(subprocess.Popen(started, stdin=stdin, stdout=subprocess.PIPE, stderr=subprocess.PIPE))
        self.lines = Lines(self.out.fileno())

    @property
    def out(self) -> IO[bytes]:
        """The pipe of its answers."""
        assert self.process.stdout
        return self.process.stdout

    def put(self, text: bytes) -> None:
        """Puts bytes to it."""
        assert self.process.stdin
        self.process.stdin.write(text)
        self.process.stdin.flush()

    def line(self, seconds: float = SECONDS) -> str | None:
        """The next line that it puts out."""
        return self.lines.next(seconds)

    def ask(self, line: str) -> str:
        """The answer of a line."""
        self.put(line.encode() + b"\n")
        return self.line() or "no answer"

    def memory(self) -> int:
        """The bytes that it has in memory."""
        text = pathlib.Path(f"/proc/{self.process.pid}/status").read_text("utf-8")
        return 1024 * int(re.findall(r"^VmRSS:\s+(\d+) kB", text, re.M)[0])

    def settled_memory(self, most: int, seconds: float = 60) -> int:
        """The bytes that it has in memory, once these are fewer than so many, or some time has gone by."""
        end = time.monotonic() + seconds
        while self.memory() >= most and time.monotonic() < end:
            time.sleep(0.01)
        return self.memory()

    def left_error(self) -> bytes:
        """What it has told on standard error; its other pipes are closed."""
        assert self.process.stderr and self.process.stdin
        with self.process.stderr, self.process.stdin:
            return self.process.stderr.read()

    def end(self) -> tuple[int, str, str]:
        """Its status, what it still puts out, and what it tells on standard error, once the input has ended."""
        output, error = self.process.communicate(timeout=SECONDS)
        return self.process.returncode, (self.lines.left + output).decode(), error.decode()


def ran(program: pathlib.Path, folder: pathlib.Path, *words: object, text: bytes = b"") -> tuple[int, str, str]:
    """Status, output and error of a run in a folder."""
    done = subprocess.run(
        [str(word) for word in (program, EXAMPLE, *words)],
        cwd=folder,
        input=text,
        capture_output=True,
        timeout=SECONDS,
        check=False,
    )
    return done.returncode, done.stdout.decode(), done.stderr.decode()


class Client:
    """A client of two named pipes, which opens the one for its lines first."""

    def __init__(self, lines: pathlib.Path, answers: pathlib.Path) -> None:
        self.pipe = opened(lines)
        self.lines = Lines(os.open(answers, os.O_RDONLY | os.O_NONBLOCK))

    def ask(self, line: str) -> str:
        """The answer of a line."""
        os.write(self.pipe, line.encode() + b"\n")
        return self.lines.next() or "no answer"

    def close(self) -> str | None:
        """Ends the lines, and answers what then still comes."""
        os.close(self.pipe)
        left = self.lines.next()
        os.close(self.lines.pipe)
        return left


def opened(path: pathlib.Path) -> int:
    """A named pipe to write into, once somebody reads it."""
    end = time.monotonic() + SECONDS
    while True:
        try:
            return os.open(path, os.O_WRONLY | os.O_NONBLOCK)
        except OSError as fault:
            if fault.errno != errno.ENXIO or time.monotonic() > end:
                raise
        time.sleep(0.001)


def fill(pipe: int, line: bytes, seconds: float = 1) -> None:
    """Puts a line into a pipe again and again, until nobody has taken one for some time."""
    end = time.monotonic() + SECONDS
    while select.select([], [pipe], [], seconds)[1]:
        assert time.monotonic() < end, "the program takes lines without an end"
        try:
            os.write(pipe, line * (select.PIPE_BUF // len(line)))
        except BlockingIOError:
            time.sleep(0.001)


class LiveSessions(Case):
    """Sessions over standard input, over files, and over named pipes."""

    is_alone = True

    def test_dialogue(self) -> None:
        """Each line depends on the answer before: every change is made at the epoch that was told last."""
        live = Live(self.program)
        self.assertEqual(live.line(), "session 1")
        for turn in range(100):
            base = int(live.ask("epoch").split(" ")[1])
            self.assertEqual(
                live.ask(f'change {{"base":{base},"{"up" if turn % 2 else "down"}":[2]}}'), f"ok {base + 1} evals 0"
            )
            self.assertEqual(live.ask("up 1.0"), f"up {base + 1} 1.0 {'[3,2,0] 3' if turn % 2 else '[3,0] 3'}")
        self.assertEqual(live.end(), (0, "", ""))

    def test_half_a_line(self) -> None:
        """Nothing is answered before a line has ended, and what stands behind the last newline is a line."""
        live = Live(self.program)
        self.assertEqual(live.line(), "session 1")
        live.put(b"epoch\nep")
        self.assertEqual(live.line(), "epoch 1")
        self.assertEqual(live.line(0.3), None)
        live.put(b"och\n\nup 1")
        self.assertEqual(live.line(), "epoch 1")
        self.assertEqual(live.line(0.3), None)
        live.put(b".0")
        self.assertEqual(live.end(), (0, "up 1 1.0 [3,2,0] 3\n", ""))

    def test_reader_gone(self) -> None:
        """Where the reader of the answers has gone, nothing more is read: status 3 and `output`, however many were
        read."""
        for count in range(20):
            live = Live(self.program)
            self.assertEqual(live.line(), "session 1")
            for _ in range(count):
                self.assertEqual(live.ask("epoch"), "epoch 1")
            live.out.close()
            live.put(b"epoch\n")
            self.assertEqual(live.process.wait(SECONDS), 3)
            self.assertEqual(live.left_error(), b"output\n")

    def test_beside_scripts(self) -> None:
        """A live session between two scripts awaits what they change, and they what it does; their texts follow."""
        with tempfile.TemporaryDirectory() as folder:
            one, two = pathlib.Path(folder) / "one", pathlib.Path(folder) / "two"
            one.write_text('change {"base":1,"down":[2]}\nawait 4\nepoch\n')
            two.write_text('await 2\nchange {"base":2,"up":[2]}\nawait 4\nup 1.0')
            live = Live(self.program, EXAMPLE, one, "-", two)
            self.assertEqual(live.line(), "session 2")
            self.assertEqual(live.ask("await 3"), "epoch 3")
            self.assertEqual(live.ask("up 1.0"), "up 3 1.0 [3,2,0] 3")
            self.assertEqual(live.ask('change {"base":3,"down":[3]}'), "ok 4 evals 0")
            self.assertEqual(
                live.end(),
                (
                    0,
                    "session 1\nok 2 evals 0\nepoch 4\nepoch 4\n"
                    "session 3\nepoch 2\nok 3 evals 0\nepoch 4\nup 4 1.0 [2,0] 2\n",
                    "",
                ),
            )

    def test_fails_beside_scripts(self) -> None:
        """Where a live session fails, the others are played to their ends and put out."""
        with tempfile.TemporaryDirectory() as folder:
            one = pathlib.Path(folder) / "one"
            one.write_text('change {"base":1,"down":[2]}\nup 1.0')
            told = "session 2\nsession 1\nok 2 evals 0\nup 2 1.0 [3,0] 3\n"
            self.assertEqual(Live(self.program, EXAMPLE, one, "-", stdin=None, close=True).end(), (3, told, "input\n"))

    def test_bad_input(self) -> None:
        """No UTF-8, a line of 100 MB, an input that is a folder or closed, and two inputs."""
        live = Live(self.program)
        live.put(b"\xff\xfe\nepoch\n")
        self.assertEqual([live.line(), live.line(), live.line()], ["session 1", "err 33 BadCommand", "epoch 1"])
        for _ in range(100):
            live.put(b"x" * 1_000_000)
        live.put(b"\nup 1.0\n")
        self.assertEqual([live.line(), live.line()], ["err 33 BadCommand", "up 1 1.0 [3,2,0] 3"])
        self.assertEqual(live.end(), (0, "", ""))
        folder = os.open(HERE, os.O_RDONLY)
        self.assertEqual(Live(self.program, stdin=folder).end(), (3, "session 1\n", "input\n"))
        os.close(folder)
        self.assertEqual(Live(self.program, stdin=None, close=True).end(), (3, "session 1\n", "input\n"))
        self.assertEqual(Live(self.program, EXAMPLE, "-", "-").end(), (1, "", "standard input is given twice\n"))
        self.assertEqual(Live(self.program, HERE / "run.py", "-").end(), (2, "", "map: BadJson\n"))

    def test_many_lines(self) -> None:
        """100,000 lines through a pipe at once, and a long answer."""
        lines = b"up 1.0\nepoch\n" * 50_000
        done = subprocess.run(
            [self.program, EXAMPLE, "-"], input=lines + b"dump\n", capture_output=True, timeout=SECONDS, check=True
        )
        dump = model.Cluster(json.loads(EXAMPLE.read_text())).written()
        answers = done.stdout.split(b"\n")
        self.assertEqual(answers[1:100_001], [b"up 1 1.0 [3,2,0] 3", b"epoch 1"] * 50_000)
        self.assertEqual(answers[100_001], b"dump " + dump.encode())

    def test_memory_goes_back(self) -> None:
        """What a long line, change and answer take of memory the process has no more once the answer is out. A program
        with checks in place of proofs keeps what is given back."""
        if self.program.suffix == ".checked":
            self.skipTest("the program has checks in place of proofs")
        bucket = {"id": -1, "kind": "straw2", "type": 10, "items": [[osd, 65536] for osd in range(8)]}
        stated = map_of([bucket], [rule_of(ON_OSDS)], [pool_of(1, 65536, 3)], osds_of(8), version=2)
        with tempfile.TemporaryDirectory() as name:
            path = pathlib.Path(name) / "map"
            path.write_text(json.dumps(stated))
            live = Live(self.program, "--stock", path, "-")
            self.assertEqual((live.line(), live.ask("epoch")), ("session 1", "epoch 1"))
            before = live.memory()
            self.assertEqual(live.ask("x" * (8 << 20)), "err 33 BadCommand")
            self.assertEqual(live.ask(f'change {{"x":"{"x" * (8 << 20)}"}}'), "err 11 BadField")
            answer = live.ask("ups 1")
            self.assertEqual((answer[:8], answer.count("[")), ("ups 1 1 ", 65536))
            self.assertLess(live.settled_memory(before + (2 << 20)) - before, 2 << 20)
            self.assertEqual(live.end(), (0, "", ""))

    def test_answers_to_files(self) -> None:
        """Each script's answers go to a file of its own, with its heading; standard input and output may be among them,
        once each."""
        with tempfile.TemporaryDirectory() as name:
            folder = pathlib.Path(name)
            (folder / "a").write_text('up 1.0\nchange {"base":1,"down":[2]}\nawait 3\nup 1.0')
            (folder / "b").write_text('await 2\nchange {"base":2,"up":[2]}\n')
            (folder / "old").write_text("x" * 1000)
            first, second = (
                "session 1\nup 1 1.0 [3,2,0] 3\nok 2 evals 0\nepoch 3\nup 3 1.0 [3,2,0] 3\n",
                "session 2\nepoch 2\nok 3 evals 0\n",
            )
            self.assertEqual(ran(self.program, folder, "a", "b", "--to", "old", "--to", "new"), (0, "", ""))
            self.assertEqual([(folder / "old").read_text(), (folder / "new").read_text()], [first, second])
            self.assertEqual(ran(self.program, folder, "--to", "-", "a", "--to", "new", "b"), (0, first, ""))
            self.assertEqual((folder / "new").read_text(), second)
            text = (folder / "b").read_bytes()
            self.assertEqual(
                ran(self.program, folder, "a", "-", "--to", "old", "--to", "-", text=text), (0, second, "")
            )
            self.assertEqual(ran(self.program, folder, "--to=old", "--to=new", "a", "-", text=text), (0, "", ""))
            self.assertEqual([(folder / "old").read_text(), (folder / "new").read_text()], [first, second])
            self.assertEqual(
                ran(self.program, folder, "-", "--to", "-", text=b"epoch"),
                ran(self.program, folder, "-", text=b"epoch"),
            )

    def test_files_that_fail(self) -> None:
        """A session whose files fail tells it and ends; the others go on, and the status is 3."""
        with tempfile.TemporaryDirectory() as name:
            folder = pathlib.Path(name)
            (folder / "a").write_text("epoch\n" * 3)
            whole = "session {}\nepoch 1\nepoch 1\nepoch 1\n"
            for script, answers, told in (
                ("none", "x", "none"),
                ("a", "no/where", "no/where"),
                ("a", "/dev/full", "/dev/full"),
                (".", "x", "."),
                ("a", ".", "."),
            ):
                self.assertEqual(
                    ran(self.program, folder, script, "a", "--to", answers, "--to", "y"), (3, "", f"file: {told}\n")
                )
                self.assertEqual((folder / "y").read_text(), whole.format(2))
                self.assertEqual(
                    ran(self.program, folder, "a", script, "--to", "y", "--to", answers), (3, "", f"file: {told}\n")
                )
                self.assertEqual((folder / "y").read_text(), whole.format(1))
            status, output, error = ran(self.program, folder, "none", "a", ".", "--to", "x", "--to", "-", "--to", "z")
            self.assertEqual(
                (status, output, sorted(error.splitlines())), (3, whole.format(2), ["file: .", "file: none"])
            )
            self.assertEqual(ran(self.program, folder, "a", "a", "--to", "x"), (1, "", "not as many --to as scripts\n"))
            self.assertEqual(
                ran(self.program, folder, "a", "--to", "x", "--to", "y"), (1, "", "not as many --to as scripts\n")
            )
            self.assertEqual(
                ran(self.program, folder, "a", "a", "--to", "-", "--to", "-"),
                (1, "", "standard output is given twice\n"),
            )
            self.assertEqual(
                ran(self.program, folder, "-", "-", "--to", "x", "--to", "y"),
                (1, "", "standard input is given twice\n"),
            )

    def test_named_pipes(self) -> None:
        """Two clients over named pipes, the second there before the first: each line is answered before the next is
        put."""
        with tempfile.TemporaryDirectory() as name:
            folder = pathlib.Path(name)
            for pipe in "abcd":
                os.mkfifo(folder / pipe)
            process = limited(subprocess.Popen([self.program, EXAMPLE, "a", "b", "--to", "c", "--to", "d"], cwd=folder))
            two, one = Client(folder / "b", folder / "d"), Client(folder / "a", folder / "c")
            self.assertEqual([one.lines.next(), two.lines.next()], ["session 1", "session 2"])
            for turn in range(50):
                who, other = (one, two) if turn % 2 else (two, one)
                base = int(other.ask("epoch").split(" ")[1])
                self.assertEqual(
                    who.ask(f'change {{"base":{base},"{"up" if turn % 2 else "down"}":[2]}}'), f"ok {base + 1} evals 0"
                )
                self.assertEqual(other.ask("up 1.0"), f"up {base + 1} 1.0 {'[3,2,0] 3' if turn % 2 else '[3,0] 3'}")
            self.assertEqual(two.close(), None)
            self.assertEqual(one.ask("epoch"), "epoch 51")
            self.assertEqual(one.close(), None)
            self.assertEqual(process.wait(SECONDS), 0)

    def test_a_client_that_does_not_read(self) -> None:
        """While one client's answers wait in a full pipe, of each kind of question, the other commits and asks."""
        with tempfile.TemporaryDirectory() as name:
            folder, value = pathlib.Path(name), json.loads(EXAMPLE.read_text())
            (folder / "map").write_text(
                json.dumps({**value, "osds": [{**osd, "weight": 65536} for osd in value["osds"]]})
            )
            for pipe in "abcd":
                os.mkfifo(folder / pipe)
            for question in ("dump", "groups 0", "up 1.0", "count 0", "epoch", "fdump"):
                process = limited(
                    subprocess.Popen([self.program, "map", "a", "b", "--to", "c", "--to", "d"], cwd=folder)
                )
                deaf, other = Client(folder / "a", folder / "c"), Client(folder / "b", folder / "d")
                self.assertEqual(other.lines.next(), "session 2")
                fill(deaf.pipe, question.encode() + b"\n")
                self.assertEqual(other.ask('change {"base":1,"down":[2]}'), "ok 2 evals 0")
                self.assertEqual(other.ask("up 1.0"), "up 2 1.0 [3,0] 3")
                process.kill()
                process.wait(SECONDS)
                for client in (deaf, other):
                    os.close(client.pipe)
                    os.close(client.lines.pipe)
