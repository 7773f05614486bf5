"""Long calls that are interrupted, as by Ctrl-C."""

import os
import pathlib
import signal
import subprocess
import sys
import threading
import time
import unittest

from unittest import mock

from fowlyore import InvalidMarker, Marker, SpecifierSet, _native, normal
from fowlyore.__main__ import main

PYTHON = pathlib.Path(__file__).resolve().parents[1]
# A marker whose tree is exponentially larger, so that making it takes longer than any machine has.
MANY = " or ".join(f"extra == 'a{it}' and extra == 'b{it}'" for it in range(60))
# What each process begins with: a process that was started in the background ignores the signal, and a call that goes on all the
# same is ended after so many seconds of the processor, before it has taken all memory.
FRONT = """
import resource, signal, sys, fowlyore
signal.signal(signal.SIGINT, signal.default_int_handler)
resource.setrlimit(resource.RLIMIT_CPU, (30, 30))
fowlyore.bounds.nodes = None
"""
CODE = f"""{FRONT}
try:
    print("began", flush=True)
    fowlyore.Marker(sys.stdin.read()).is_true()
except KeyboardInterrupt:
    print("interrupted", flush=True)
"""
# A process that sends itself the signal just before its main thread waits: between the two no line of Python runs, in which the
# signal would be handled.
JUST_BEFORE = f"""{FRONT}
import _thread, ctypes, functools, operator, os, types
from fowlyore import _native
kill = functools.partial(ctypes.PyDLL(None).kill, os.getpid(), signal.SIGINT)
class Lock:
    def __init__(self):
        self.lock, self.before = _thread.allocate_lock(), [[kill], []]
        self.release = self.lock.release
    def acquire(self, *given, **named):
        before = self.before.pop() if self.before else []
        calls = [*before, functools.partial(self.lock.acquire, *given, **named)]
        return list(map(operator.methodcaller("__call__"), calls))[-1]
_native._thread = types.SimpleNamespace(allocate_lock=Lock, start_new_thread=_thread.start_new_thread)
try:
    fowlyore.Marker(sys.stdin.read()).is_true()
except KeyboardInterrupt:
    print("interrupted", flush=True)
"""
# A command of a process, whose words follow, that has printed something which is still kept.
COMMAND = f"""{FRONT}
from fowlyore import __main__ as command
def run(words, usual=command.run_normal):
    print("began", flush=True)
    print("kept")
    return usual(words)
command.RUNS["normal"] = run
sys.exit(command.main())
"""
# After so many seconds what doesn't end is ended.
MOST = 300


def await_sleep(process):
    """Waits until the main thread of a process sleeps: where it reads, or has another thread call the library; or has ended."""
    stat = pathlib.Path(f"/proc/{process.pid}/stat")
    while stat.read_text().rpartition(")")[2].split()[0] in "RD":
        time.sleep(0.01)


class Interrupted(unittest.TestCase):
    def interrupted(self, code, words, given, is_all):
        """How a process ends that is interrupted once it sleeps, and what it writes then. `is_all` says if its input ends."""
        how = {"cwd": PYTHON, "env": {**os.environ, "PYTHONUNBUFFERED": ""}}
        how.update(dict.fromkeys(("stdin", "stdout", "stderr"), subprocess.PIPE))
        with subprocess.Popen([sys.executable, "-c", code, *words], **how) as process:
            last = threading.Timer(MOST, process.kill)
            last.start()
            try:
                process.stdin.write(given)
                process.stdin.flush()
                if is_all:
                    process.stdin.close()
                self.assertEqual(process.stdout.readline(), b"began\n")
                await_sleep(process)
                process.send_signal(signal.SIGINT)
                said = process.stdout.read(), process.stderr.read()
                return (process.wait(), *said)
            finally:
                last.cancel()
                process.kill()

    def test_a_signal(self):
        self.assertEqual(self.interrupted(CODE, [], MANY.encode(), True), (0, b"interrupted\n", b""))

    def test_a_signal_just_before_the_waiting(self):
        pipes = {"stdout": subprocess.PIPE, "stderr": subprocess.STDOUT}
        ran = subprocess.run([sys.executable, "-c", JUST_BEFORE], cwd=PYTHON, input=MANY.encode(), timeout=MOST, **pipes)
        self.assertEqual((ran.returncode, ran.stdout), (0, b"interrupted\n"))

    def test_a_command(self):
        """The process ends by the signal, says nothing, and writes no more; also in a call of the library's."""
        for word, given, is_all in (("-", b"foo\n", False), ("/dev/fd/0", f"foo ; {MANY}\n".encode(), True)):
            with self.subTest(word):
                self.assertEqual(self.interrupted(COMMAND, ["normal", word], given, is_all), (-signal.SIGINT, b"", b""))

    def test_a_command_of_a_caller(self):
        """Whoever calls it with words is told."""
        with mock.patch("fowlyore.__main__.run", side_effect=KeyboardInterrupt), self.assertRaises(KeyboardInterrupt):
            main(["normal", "-"])

    def test_a_handler_that_returns(self):
        """The call goes on, and the handler may call too."""
        found = []
        before = signal.signal(signal.SIGALRM, lambda *_: found.append(str(Marker("os_name == 'nt'"))))
        try:
            signal.setitimer(signal.ITIMER_REAL, 0.01, 0.01)
            texts = [f"{it}.{other}" for it in range(400) for other in range(400)]
            for _ in range(20):
                self.assertEqual(len(list(SpecifierSet(">=200").filter(texts))), 80_000)
        finally:
            signal.setitimer(signal.ITIMER_REAL, 0)
            signal.signal(signal.SIGALRM, before)
        self.assertEqual(set(found), {"os_name == 'nt'"})

    def test_what_is_raised(self):
        """As in a thread of the caller's, which makes the calls itself."""
        raised = []

        def ask():
            for call in (lambda: Marker("os_name == 'nt' and " * 30), lambda: normal("a\n" * 30_000 + "b=1")):
                try:
                    call()
                except ValueError as error:
                    raised.append((type(error), str(error), error.start, error.line))

        ask()
        thread = threading.Thread(target=ask)
        thread.start()
        thread.join()
        self.assertEqual(len(raised), 4)
        self.assertEqual((raised[:2], raised[0][0]), (raised[2:], InvalidMarker))

    def test_no_more_threads(self):
        """The call is then made where it is asked for, as it is where threads have small stacks."""
        threads = []
        usual = _native._thread.start_new_thread

        def refuse(*_):
            threads.append(1)
            raise RuntimeError("can't start new thread")

        text = " and ".join(["os_name == 'nt'"] * 30)
        size = threading.stack_size()
        try:
            _native._thread.start_new_thread = refuse
            self.assertFalse(Marker(text).is_true())
            self.assertEqual(threads, [1])
            threading.stack_size(1 << 17)
            self.assertFalse(Marker(text).is_true())
            self.assertEqual(threads, [1])
        finally:
            threading.stack_size(size)
            _native._thread.start_new_thread = usual

    @unittest.skipUnless(hasattr(os, "fork"), "there is no fork")
    def test_in_a_forked_child(self):
        text = " and ".join(["os_name == 'nt'"] * 30)
        child = os.fork()
        if not child:
            signal.alarm(MOST)
            try:
                holds = Marker(text).is_true()
            except BaseException:
                holds = None
            os._exit(0 if holds is False else 1)
        self.assertEqual(os.waitpid(child, 0)[1], 0)
