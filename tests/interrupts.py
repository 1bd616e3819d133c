"""Commands of the tools that are interrupted, also in the shell, and a shell whose program goes."""

from __future__ import annotations

import json
import os
import pathlib
import signal
import subprocess
import sys
import time

from rekhuso import Monitor

from tests.cases import EXAMPLE, example
from tests.terminals import Terminal
from tests.tool_cases import AS_MONITOR, TOOLS, ToolCase
from tests.tool_errors import SECONDS

# Has Ctrl-C come exactly when a program has been started and before who has started it knows it; tells the program's
# number, and what came.
STARTED = """
import signal, subprocess, sys, threading
sys.path.insert(0, sys.argv[1])
from rekhuso import Monitor

class Started(subprocess.Popen):
    def __init__(self, *words, **more):
        super().__init__(*words, **more)
        if "--version" in words[0]:
            return
        print(self.pid, flush=True)
        if sys.argv[4] == "here":
            signal.raise_signal(signal.SIGINT)
        else:
            other = threading.Thread(target=lambda: signal.pthread_kill(threading.get_ident(), signal.SIGINT))
            other.start()
            other.join()

subprocess.Popen = Started
before = signal.getsignal(signal.SIGINT)
try:
    Monitor("{}", sys.argv[2], sessions=int(sys.argv[3]))
except KeyboardInterrupt:
    print("interrupted", signal.getsignal(signal.SIGINT) is before)
"""

# Runs a command, and has Ctrl-C come at an import by its number, the first of which are what is part of Python.
BROUGHT_IN = """
import builtins, runpy, signal, sys
tools, wanted, sys.argv = sys.argv[1], int(sys.argv[2]), ["rekhuso", *sys.argv[3:]]
brought, count, is_ours = builtins.__import__, 0, False

def counted(*words, **more):
    global count, is_ours
    is_ours = is_ours or words[0] == "_signal"
    count += is_ours and words[0] != "_signal"
    if count == wanted:
        signal.raise_signal(signal.SIGINT)
    return brought(*words, **more)

builtins.__import__ = counted
runpy.run_path(tools, run_name="__main__")
"""


class Interrupts(ToolCase):
    """Ctrl-C, and the end of a program beside its tool."""

    def setUp(self) -> None:
        super().setUp()
        # In the background of a shell Ctrl-C is ignored, which what is started from there would take over.
        self.addCleanup(signal.signal, signal.SIGINT, signal.signal(signal.SIGINT, signal.default_int_handler))
        self.addCleanup(signal.signal, signal.SIGHUP, signal.signal(signal.SIGHUP, signal.SIG_DFL))

    def test_shell_whose_program_goes(self) -> None:
        """Where the program is ended beside the shell, the shell says so and has failed."""
        pipe = subprocess.PIPE
        words = self.tools.words("shell", EXAMPLE)
        shell = subprocess.Popen(words, stdin=pipe, stdout=pipe, stderr=pipe, text=True)
        assert shell.stdin and shell.stdout
        shell.stdin.write("epoch\n")
        shell.stdin.flush()
        self.assertEqual(shell.stdout.readline(), "epoch 1\n")
        child = subprocess.run(
            ["ps", "-o", "pid=", "--ppid", str(shell.pid)], capture_output=True, text=True, check=True
        ).stdout
        os.kill(int(child), signal.SIGKILL)
        output, error = shell.communicate("epoch\nepoch\n", timeout=SECONDS)
        self.is_told((shell.returncode, output, error), 2, "the program ended", "killed")

    def test_interrupts(self) -> None:
        """A command that is interrupted ends at once in one line and by the signal, and its program with it."""
        self.tools.put(
            "slow", AS_MONITOR + 'echo $$ > pid.new; mv pid.new "$PIDFILE"; echo session 1; exec sleep 60\n'
        ).chmod(0o755)
        pid = self.tools.folder / "pid"
        words = [sys.executable, "-B", str(TOOLS), "df", str(EXAMPLE), "--program", str(self.tools.folder / "slow")]
        done = subprocess.Popen(
            words, stdout=subprocess.PIPE, stderr=subprocess.PIPE, text=True, env=os.environ | {"PIDFILE": str(pid)}
        )
        begin = time.monotonic()
        while not pid.exists() and time.monotonic() < begin + SECONDS:
            time.sleep(0.05)
        # The tool waits for an answer then: on a busy machine it may come back from starting the program late.
        time.sleep(2)
        begin = time.monotonic()
        done.send_signal(signal.SIGINT)
        output, error = done.communicate(timeout=SECONDS)
        self.is_told((done.returncode, output, error), -signal.SIGINT, "interrupted", "df")
        gone = subprocess.run(
            ["ps", "-o", "stat,args", "-p", pid.read_text()], capture_output=True, text=True, check=False
        ).stdout
        self.assertLess(time.monotonic(), begin + 30, (time.monotonic() - begin, gone))
        self.assertNotIn("sleep", gone, (time.monotonic() - begin, gone))

    def test_interrupts_of_loops(self) -> None:
        """The loop of a shell ends with the command that Ctrl-C ends, as it does with any program."""
        words = [sys.executable, "-B", str(TOOLS), "df", str(EXAMPLE), "--program", str(self.tools.folder / "slow")]
        loop = 'for k in 1 2 3; do echo "$k"; "$@"; done; echo behind'
        pipe, begun = subprocess.PIPE, self.tools.folder / "begun"
        self.tools.put("slow", f"{AS_MONITOR}echo session 1\ntouch {begun}\nexec sleep 60\n").chmod(0o755)
        shell = subprocess.Popen(
            ["bash", "-c", loop, "sh", *words], stdout=pipe, stderr=pipe, text=True, start_new_session=True
        )
        while not begun.exists() and shell.poll() is None:
            time.sleep(0.05)
        time.sleep(1)
        # As a terminal has it: the signal comes to all of its group, the shell too.
        os.killpg(shell.pid, signal.SIGINT)
        output, error = shell.communicate(timeout=SECONDS)
        self.assertEqual((shell.returncode, output, error), (-signal.SIGINT, "1\n", "interrupted\n"))

    def test_interrupts_while_modules_come_in(self) -> None:
        """Ctrl-C before the command has begun ends it by the signal, in silence or in a line, whichever module is being
        brought in."""
        for count in (1, 2, 5, 20, 60, 150, 300, 500):
            with self.subTest(count=count):
                words = [sys.executable, "-B", "-c", BROUGHT_IN, str(TOOLS), str(count), "df", str(EXAMPLE)]
                words += ["--program", str(self.tools.program)]
                done = subprocess.run(words, capture_output=True, text=True, timeout=SECONDS)
                self.assertIn((done.returncode, done.stderr), [(-2, ""), (-2, "interrupted\n")])

    def test_interrupts_by_time(self) -> None:
        """Ctrl-C at any time ends the command by the signal, once the tools have their first word, or is too late.
        What Python tells that it ends before has no line of theirs."""
        words = [sys.executable, "-B", str(TOOLS), "df", str(EXAMPLE), "--program", str(self.tools.program)]
        for after in range(0, 300, 5):
            with self.subTest(after=after):
                done = subprocess.Popen(words, stdout=subprocess.PIPE, stderr=subprocess.PIPE, text=True)
                time.sleep(after / 1000)
                done.send_signal(signal.SIGINT)
                output, error = done.communicate(timeout=SECONDS)
                if "KeyboardInterrupt" in error:
                    self.assertNotIn(f'File "{TOOLS}', error)
                else:
                    self.assertIn((done.returncode, error), [(-2, ""), (-2, "interrupted\n"), (0, "")], output)

    def test_ends_from_outside(self) -> None:
        """A command or a shell that SIGTERM or SIGHUP ends tells nothing, and leaves no program and no folder
        behind; under nohup a shell goes on."""
        folder = self.tools.folder / "temporary"
        folder.mkdir()
        for number in (signal.SIGTERM, signal.SIGHUP):
            with self.subTest(number=number):
                shell = subprocess.Popen(
                    self.tools.words("shell", EXAMPLE),
                    stdin=subprocess.PIPE,
                    stdout=subprocess.PIPE,
                    stderr=subprocess.PIPE,
                    text=True,
                    env=os.environ | {"TMPDIR": str(folder)},
                )
                assert shell.stdin and shell.stdout
                shell.stdin.write("epoch\n")
                shell.stdin.flush()
                self.assertEqual((shell.stdout.readline(), len(list(folder.iterdir()))), ("epoch 1\n", 1))
                program = subprocess.run(
                    ["ps", "-o", "pid=", "--ppid", str(shell.pid)], capture_output=True, text=True, check=True
                ).stdout.strip()
                shell.send_signal(number)
                output, error = shell.communicate(timeout=SECONDS)
                self.assertEqual((shell.returncode, output, error), (128 + number, "", ""))
                self.assertEqual(list(folder.iterdir()), [])
                self.assertFalse(os.path.exists(f"/proc/{program}"))
        nohup = subprocess.Popen(
            ["nohup", *self.tools.words("shell", EXAMPLE)],
            stdin=subprocess.PIPE,
            stdout=subprocess.PIPE,
            stderr=subprocess.PIPE,
            text=True,
        )
        assert nohup.stdin and nohup.stdout
        nohup.stdin.write("epoch\n")
        nohup.stdin.flush()
        self.assertEqual(nohup.stdout.readline(), "epoch 1\n")
        nohup.send_signal(signal.SIGHUP)
        self.assertEqual(nohup.communicate("epoch\n", timeout=SECONDS), ("epoch 1\n", ""))

    def test_interrupts_at_the_start(self) -> None:
        """Ctrl-C that comes while a program is being started ends it too, whichever thread takes it, and comes
        through."""
        slow = self.tools.put("slow", f"{AS_MONITOR}exec sleep 60\n")
        slow.chmod(0o755)
        for sessions in (1, 2):
            with self.subTest(sessions=sessions):
                for thread in ("here", "other"):
                    words = [sys.executable, "-B", "-c", STARTED, *map(str, [TOOLS.parent, slow, sessions, thread])]
                    done = subprocess.run(words, capture_output=True, text=True, timeout=SECONDS, check=False)
                    pid, told = done.stdout.split("\n", 1)
                    left = subprocess.run(
                        ["ps", "-o", "args=", "-p", pid], capture_output=True, text=True, check=False
                    ).stdout
                    if left:
                        os.kill(int(pid), signal.SIGKILL)
                    self.assertEqual(
                        (told, done.stderr, left), ("interrupted True\n", "", ""), (sessions, thread, done, left)
                    )
        with Monitor(example(), self.tools.program) as monitor:
            blocked = next(
                line
                for line in pathlib.Path(f"/proc/{monitor._process.pid}/status").read_text().splitlines()
                if line.startswith("SigBlk")
            )
            self.assertEqual(int(blocked.split()[1], 16) >> (signal.SIGINT - 1) & 1, 0)

    def test_interrupts_in_the_shell(self) -> None:
        """Ctrl-C in the shell drops the line that is typed and nothing else, also while an answer is made."""
        value, prompt = self.tools.map("001-built"), "osdmap> "
        shell, epoch = (
            Terminal(self.tools.words("shell", self.tools.put("m", value)), self.tools.folder),
            value["epoch"],
        )
        shell.type("", prompt)
        change = {"base": epoch, "down": [2]}
        self.assertIn(f"\r\nok {epoch + 1} evals 0\r\n", shell.type(f"change {json.dumps(change)}\n", prompt))
        for _ in range(
            10
        ):  # At once behind a key that is shown, and behind the prompt: before the shell waits for the next key.
            shell.type("up 1.ff", "up 1.ff")
            shell.type("\x03", prompt)
            shell.type("\x03", prompt)
            self.assertIn(f"\r\nepoch {epoch + 1}\r\n", shell.type("epoch\n", prompt))
        self.assertIn(f" epoch {epoch + 2}\r\n", shell.type("balance 1 1024\n", prompt))
        # Half a second and more goes by until this is answered, and Ctrl-C comes meanwhile. Beside an answer that may
        # be there already, a line that is typed next could be dropped with what Ctrl-C drops.
        shell.type("await 99\n", "await 99\r\n")
        time.sleep(0.2)
        shell.type("\x03", "err 34 AwaitSpent\r\n")
        shell.type("", prompt)
        shell.type("\x03", prompt)
        for line, answer in (("epoch", f"epoch {epoch + 2}"), ("count 2", f"count {epoch + 2} 2 0")):
            with self.subTest(line=line):
                self.assertIn(f"\r\n{answer}\r\n", shell.type(f"{line}\n", prompt))
        self.assertEqual(shell.close(), 0)
