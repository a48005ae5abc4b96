"""Tries what the README, docs/operator.md, docs/howto.md and the comments of the options files in examples/ say: the commands behind `$`, each
in a terminal of its own, and the lines that they show. Servers are started where they stand, and what `mitm` shows is compared when it is ended;
what a command with `&` behind it shows, when all others have ended."""
import glob
import os
import re
import shlex
import shutil
import subprocess
import sys
import tempfile
import time

from page_cases import BROWSERS, HEADLESS, shown_by
from tools import MITM, PROXY, TOP, Skipped, Started, connected, lines_of, listens, same, wait_for

# Commands that change nothing, and so are asked again until they show their lines: what they ask about may take a moment.
ASKING = ("echo list |", "echo show ", "seq -f 'entry ", "./mitm flows ")
# What the tasks of docs/howto.md make beside what all examples make.
MADE = ("try.toml", "other.toml", "one.flows", "again.sh", "saved.har")


class Server(Started):
    """A command that serves until it is stopped."""

    def __init__(self, words, port):
        self.words, self.port = words, port

    def start(self):
        self.shown, self.noted = tempfile.TemporaryFile(), tempfile.TemporaryFile()
        self.process = subprocess.Popen(self.words, cwd=TOP, stdin=subprocess.DEVNULL, stdout=self.shown, stderr=self.noted)
        wait_for(lambda: listens(self.port) or self.process.poll() is not None, f"port {self.port}")
        if self.process.poll() is not None:
            raise AssertionError(f"{self.words} ended: {self.lines()}")

    def lines(self):
        return lines_of(self.noted) + lines_of(self.shown)


class Behind(Started):
    """A command that ends when another one has it end. A client's connection is there once it is started, so that connections are numbered in
    this order."""

    def __init__(self, command, shown):
        self.command, self.shown = command, shown

    def start(self):
        before = connected(PROXY[1])
        self.out = tempfile.TemporaryFile()
        self.process = subprocess.Popen(["bash", "-c", self.command], cwd=TOP, stdin=subprocess.DEVNULL, stdout=self.out)
        wait_for(lambda: connected(PROXY[1]) > before or self.process.poll() is not None, f"{self.command} to connect")

    def end(self):
        """Compares what it has shown, once it has ended."""
        wait_for(lambda: self.process.poll() is not None, f"the end of {self.command}")
        same((self.command, lines_of(self.out)), (self.command, self.shown))


def commands(text, margin):
    """The commands of a text, each with the lines that it shows."""
    found, empty = [("", [])], 0
    for written in text.splitlines():
        if written.startswith(margin + "$ "):
            found.append((written[len(margin) + 2:], []))
        elif written.startswith(margin):
            found[-1][1].extend([""] * empty + [written[len(margin):]])
        elif written == "":
            # (what is shown may have empty lines, and goes on where a line of it follows)
            empty += 1
            continue
        else:
            found.append(("", []))
        empty = 0
    return [(command, shown) for command, shown in found if command]


def server_of(command):
    """The server that a command starts, or none."""
    words = shlex.split(command)
    if words[:3] == ["python3", "-m", "http.server"]:
        return Server([sys.executable, *words[1:]], int(words[3]))
    if words[:2] in (["python3", "e2e/origin.py"], ["python3", "examples/to_tls.py"]):
        return Server([sys.executable, *words[1:]], int(words[2]))
    if words[:2] == ["./mitm", "serve"]:
        return Server([MITM, *words[1:]], PROXY[1])
    return None


def try_commands(text, margin):
    """Starts the servers, runs the other commands in turn, and compares what is shown. A `mitm` is ended where the next one is started."""
    if shutil.which("curl") is None:
        raise Skipped("curl is missing")
    if "$ chromium " in text:
        need_browser()
    if " nc -N " in text and not has_nc():
        raise Skipped("nc with -N is missing (the package netcat-openbsd of Debian)")
    started, behind, tried = [], [], 0
    try:
        for command, shown in commands(text, margin):
            server = server_of(command)
            if command.endswith(" &"):
                behind.append(Behind(command.removesuffix(" &"), shown))
                behind[-1].start()
                continue
            if server is None:
                same((command, run_command(command, shown)), (command, shown))
                continue
            if server.words[0] == MITM:
                tried += 1
                end_mitm(started)
            started.append((server, shown))
            server.start()
        assert tried > 0, "no command starts mitm"
        for one in behind:
            one.end()
        end_mitm(started)
    finally:
        for one in behind:
            one.stop()
        for server, _ in reversed(started):
            server.stop()


def need_browser():
    """Skips a case where no browser runs here."""
    browser = next((path for path in map(shutil.which, BROWSERS) if path), None)
    if browser is None:
        raise Skipped("there is no browser (the package chromium of Debian)")
    with tempfile.TemporaryDirectory() as home:
        if "<p>here</p>" not in shown_by(browser, home, "data:text/html,<p>here</p>"):
            raise Skipped(f"{browser} does not run here")


def has_nc():
    """Whether there is an nc that closes its side at the end of its input."""
    if shutil.which("nc") is None:
        return False
    told = subprocess.run(["nc", "-h"], stdin=subprocess.DEVNULL, capture_output=True)
    return re.search(rb"\[-\w*N|-N\b", told.stdout + told.stderr) is not None


def end_mitm(started):
    """Ends each `mitm` that was started, once it has shown its lines, and takes it out."""
    for server, shown in [one for one in started if one[0].words[0] == MITM]:
        wait_for(lambda server=server, shown=shown: has_all(server.lines(), shown), f"{shown} among {server.lines()}", 5)
        time.sleep(0.1)
        server.stop()
        started.remove((server, shown))


def run_command(command, wanted):
    """The lines that a command shows, where `./mitm` is the program under test."""
    words = re.sub(r"^\./mitm ", lambda _: shlex.quote(MITM) + " ", command)
    if command.startswith("chromium "):
        return run_browser(shlex.split(command)[1:])
    end = time.time() + 5
    while True:
        done = subprocess.run(["bash", "-c", words], cwd=TOP, stdin=subprocess.DEVNULL, capture_output=True, timeout=60)
        shown = [line.rstrip("\r") for line in done.stdout.decode().splitlines()]
        if shown == wanted or not command.startswith(ASKING) or time.time() > end:
            return shown
        time.sleep(0.1)


def run_browser(words):
    """The lines that a browser without a window shows with these words, none: it is ended once it has loaded the page."""
    browser = next(path for path in map(shutil.which, BROWSERS) if path)
    with tempfile.TemporaryDirectory() as home:
        subprocess.run([browser, *HEADLESS, f"--user-data-dir={home}", "--dump-dom", *words], cwd=home, env={**os.environ, "HOME": home},
                       stdin=subprocess.DEVNULL, capture_output=True, timeout=60)
    return []


def has_all(lines, wanted):
    """Whether each wanted line is among the lines; one that begins with a method stands for it behind any two numbers."""
    bare = {re.sub(r"^\d+\.\d+ ", "", line) for line in lines}
    return all(line in lines or (re.match(r"[A-Z]+ ", line) and line in bare) for line in wanted)


def try_task(text):
    """Tries a task, with its options in `try.toml` where it has some."""
    options = re.search(r"(?ms)^```toml\n(.*?)^```$", text)
    try:
        if options is not None:
            with open(os.path.join(TOP, "try.toml"), "x", encoding="utf-8") as file:
                file.write(options.group(1))
        try_commands(text, "    ")
    finally:
        for name in MADE:
            if os.path.exists(os.path.join(TOP, name)):
                os.remove(os.path.join(TOP, name))


def examples():
    """The cases: a name and what tries it."""
    found = []
    for path in sorted(glob.glob(os.path.join(TOP, "examples", "*.toml"))):
        found.append((f"example {os.path.basename(path).removesuffix('.toml')}", lambda path=path: try_commands(text_of(path), "#     ")))
    for name, title in (("the README's first use", "Run it"), ("the README's saved flows", "Save flows"), ("the README's held flow", "Hold flows")):
        found.append((name, lambda title=title: try_commands(part_of_readme(title), "    ")))
    for title, task in re.findall(r"(?ms)^## (.*?)$(.*?)(?=^## |\Z)", text_of(os.path.join(TOP, "docs", "howto.md"))):
        found.append((f"how to {title.replace('`', '').lower()}", lambda task=task: try_task(task)))
    found.append(("an operator's walk", lambda: try_commands(text_of(os.path.join(TOP, "docs", "operator.md")), "    ")))
    return found


def text_of(path):
    with open(path, encoding="utf-8") as file:
        return file.read()


def part_of_readme(title):
    """What the README says under this title."""
    return re.search(rf"(?ms)^## {title}$.*?(?=^## )", text_of(os.path.join(TOP, "README.md"))).group(0)
