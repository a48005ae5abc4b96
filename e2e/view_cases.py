"""The view of live flows, in a terminal of tmux: what it shows, and what its keys do."""
import os
import shlex
import shutil
import subprocess
import sys
import time

from operator_cases import Operated, Operator, body_of, sender
from tools import TOP, ORIGIN, Skipped, get, same, wait_for

WIDTH, HEIGHT = 100, 20


class Terminal:
    """A terminal in which the view runs, with this editor."""

    def __init__(self, editor="vi"):
        self.editor = editor

    def __enter__(self):
        if shutil.which("tmux") is None:
            raise Skipped("tmux is missing")
        self.name = f"mitm-e2e-{os.getpid()}"
        view = f"exec env {shlex.quote('EDITOR=' + self.editor)} {sys.executable} {os.path.join(TOP, 'examples', 'operator_view.py')}"
        try:
            self.ask("-f", "/dev/null", "new-session", "-d", "-x", str(WIDTH), "-y", str(HEIGHT), view)
        except subprocess.CalledProcessError as why:
            raise Skipped(f"tmux does not run here: {why.stderr.strip()}") from None
        return self

    def __exit__(self, *_):
        subprocess.run(["tmux", "-L", self.name, "kill-server"], capture_output=True)

    def ask(self, *words):
        done = subprocess.run(["tmux", "-L", self.name, *words], capture_output=True, check=True, text=True, timeout=20)
        return done.stdout

    def press(self, key):
        self.ask("send-keys", key)

    def screen(self):
        return [line.rstrip() for line in self.ask("capture-pane", "-p").splitlines()]

    def shows(self, what):
        """Waits until some line holds each of these words."""
        def there():
            seen.clear()
            seen.extend(self.screen())
            return any(all(word in line.split() for word in what) for line in seen)

        seen = []
        try:
            wait_for(there, f"{what} in view", 8)
        except AssertionError as error:
            raise AssertionError(f"{error}: {seen}") from None


def at(path):
    return f"http://127.0.0.1:{ORIGIN}{path}"


def case_view_in_a_terminal():
    """It lists flows with method, URL and time; a mark shows at once; all are let go on at their requests and their responses; and who is finished stays a
    moment."""
    with Operated("~u /held"), sender(get("/held/1")) as one, sender(get("/held/2")) as other, Operator() as operator:
        first, second = operator.held(2)
        with Terminal() as terminal:
            terminal.shows([">", first, "waiting", "0:01", "GET", at("/held/1")])
            terminal.press("j")
            terminal.shows([">", second, "waiting", at("/held/2")])
            terminal.press("m")
            terminal.shows([">", second, "waiting", "*", at("/held/2")])
            terminal.press("?")
            terminal.shows(["kills", "the", "flow", "cursor"])
            terminal.press("?")
            terminal.shows([second])
            terminal.press("A")
            same([body_of(client) for client in (one, other)], [b"/held/1\n", b"/held/2\n"])
            terminal.shows([first, "finished"])
            time.sleep(3.5)
            terminal.shows(["0", "live,", "0", "waiting"])
            assert not any(second in line.split() for line in terminal.screen()), "it stays in view"
            with sender(get("/held/3")) as client:
                name, = operator.held()
                terminal.shows([">", name, "waiting", at("/held/3")])
                terminal.press("X")
                same(client.recv(1), b"")
                terminal.shows(["kill", f"{name}:", "ok"])
            terminal.press("q")
        same(operator.flows(), {})


VIEW_CASES = [case_view_in_a_terminal]
