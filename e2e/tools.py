"""What the end-to-end cases share: an origin, `mitm` with an options file, and clients; all on 127.0.0.1.

The program is crates/mitm/out/mitm, or MITM where that is set."""
import fcntl
import os
import re
import resource
import shutil
import socket
import struct
import subprocess
import sys
import tempfile
import time

PROXY = ("127.0.0.1", 8080)
ORIGIN = 9000
HERE = os.path.dirname(os.path.abspath(__file__))
TOP = os.path.dirname(HERE)
MITM = os.path.abspath(os.environ.get("MITM", os.path.join(TOP, "crates", "mitm", "out", "mitm")))
sys.path.append(os.path.join(TOP, "examples"))
MODE = f'mode = "reverse:http://127.0.0.1:{ORIGIN}"\n'


class Skipped(Exception):
    """Why a case is not tried here."""


def raise_loopback():
    """Has this network namespace's loopback carry packets, where that is ours to do."""
    with socket.socket(socket.AF_INET, socket.SOCK_DGRAM) as any_socket:
        try:
            ask = fcntl.ioctl(any_socket, 0x8913, struct.pack("16sh14x", b"lo", 0))
            flags = struct.unpack("16sh14x", ask)[1]
            fcntl.ioctl(any_socket, 0x8914, struct.pack("16sh14x", b"lo", flags | 1))
        except OSError:
            pass


def raise_limit():
    """Allows as many descriptors as the system lets this user have, here and in what is started."""
    _, most = resource.getrlimit(resource.RLIMIT_NOFILE)
    resource.setrlimit(resource.RLIMIT_NOFILE, (most, most))


def listens(port, host="127.0.0.1"):
    """Whether a socket listens at this port of an address, by the system's list."""
    return count_sockets(port, "0A", host) > 0


def connected(port):
    """How many sockets of this port of 127.0.0.1 are connected, whether the program accepted them yet or not."""
    return count_sockets(port, "01")


def count_sockets(port, state, host="127.0.0.1"):
    family, name = (socket.AF_INET6, "tcp6") if ":" in host else (socket.AF_INET, "tcp")
    words = struct.unpack("<%dI" % (4 if ":" in host else 1), socket.inet_pton(family, host))
    wanted = "".join("%08X" % word for word in words) + ":%04X" % port
    with open(f"/proc/net/{name}") as table:
        rows = [line.split() for line in table]
    return sum(row[1] == wanted and row[3] == state for row in rows)


def wait_for(test, what, seconds=10):
    end = time.time() + seconds
    while not test():
        if time.time() > end:
            raise AssertionError(f"waited in vain for {what}")
        time.sleep(0.02)


class Started:
    """A process that was started here, and is ended by its pid."""

    process = None

    def stop(self):
        if self.process is not None:
            self.process.kill()
            self.process.wait()

    def __enter__(self):
        self.start()
        return self

    def __exit__(self, *_):
        self.stop()


class Origin(Started):
    def __init__(self, port=ORIGIN):
        self.port = port

    def start(self):
        self.process = subprocess.Popen([sys.executable, os.path.join(HERE, "origin.py"), str(self.port)])
        wait_for(lambda: listens(self.port), "the origin")


class Mitm(Started):
    """`mitm serve FILE`, in a folder of its own in which FILE has these options. Words in front of the program's name run it. Its
    standard output is a file, or the descriptor that is given."""

    def __init__(self, options="", port=PROXY[1], files=(), user=None, in_front=(), mode=MODE, out=None, at=PROXY[0]):
        self.options, self.port, self.files, self.user, self.in_front = mode + options, port, dict(files), user, in_front
        self.out, self.at = out, at

    def start(self):
        self.folder = tempfile.TemporaryDirectory()
        home = self.folder.name
        os.chmod(home, 0o755)
        for name, content in {"options": self.options.encode(), **self.files}.items():
            os.makedirs(os.path.join(home, os.path.dirname(name)), exist_ok=True)
            with open(os.path.join(home, name), "wb") as file:
                file.write(content)
        self.printed, self.noted = tempfile.TemporaryFile(), tempfile.TemporaryFile()
        for file in (self.printed, self.noted):
            # (whoever reads it here moves the place that the program would write at)
            fcntl.fcntl(file, fcntl.F_SETFL, fcntl.fcntl(file, fcntl.F_GETFL) | os.O_APPEND)
        self.process = start_program(["serve", "options"], home, self.user, self.out or self.printed, self.noted, self.in_front)
        self.seen = 0
        wait_for(lambda: listens(self.port, self.at) or self.process.poll() is not None, "mitm")
        if self.process.poll() is not None:
            raise AssertionError(f"mitm ended with {self.process.returncode}: {self.lines() + self.notes()}")

    def stop(self):
        super().stop()
        self.folder.cleanup()

    def path(self, name):
        return os.path.join(self.folder.name, name)

    def lines(self):
        return lines_of(self.printed)

    def notes(self):
        """The lines on standard error."""
        return lines_of(self.noted)

    def new_lines(self, count):
        """The lines that it printed since, so many at least, without the numbers of conversations."""
        wait_for(lambda: len(self.lines()) >= self.seen + count, f"{count} printed lines")
        new = self.lines()[self.seen:]
        self.seen += len(new)
        return [re.sub(r"^\d+\.", ".", line) for line in new]

    def sockets(self):
        """How many descriptors it has open."""
        return len(os.listdir(f"/proc/{self.process.pid}/fd"))


def lines_of(file):
    file.seek(0)
    return file.read().decode().splitlines()


def start_program(words, folder, user, out, err, in_front=()):
    """Starts mitm with these words in this folder, as this user where one is named, by the words in front."""
    program, names = MITM, {}
    if user is not None:
        program = shutil.copy(MITM, os.path.join(folder, "mitm"))
        names = {"user": user, "group": user, "extra_groups": []}
    return subprocess.Popen([*in_front, program, *words], cwd=folder, stdin=subprocess.DEVNULL, stdout=out, stderr=err, **names)


def run_program(*words, options=None, user=None):
    """Runs mitm with these words to its end, beside a file `options`: its status, and the lines of both its outputs."""
    with tempfile.TemporaryDirectory() as folder, tempfile.TemporaryFile() as out, tempfile.TemporaryFile() as err:
        os.chmod(folder, 0o755)
        if options is not None:
            with open(os.path.join(folder, "options"), "wb") as file:
                file.write(options.encode() if isinstance(options, str) else options)
        process = start_program(words, folder, user, out, err)
        try:
            status = process.wait(60)
        except subprocess.TimeoutExpired:
            raise AssertionError("it did not end") from None
        finally:
            process.kill()
            process.wait()
        return status, lines_of(out), lines_of(err)


def talk(sent, pieces=None, to=PROXY):
    """Sends bytes, whole or in pieces of so many bytes, and gives all that comes until the close."""
    with socket.create_connection(to, timeout=20) as client:
        client.setsockopt(socket.IPPROTO_TCP, socket.TCP_NODELAY, 1)
        if pieces is None:
            client.sendall(sent)
        else:
            for at in range(0, len(sent), pieces):
                client.sendall(sent[at:at + pieces])
        return read_all(client)


def read_all(client):
    got = b""
    while True:
        piece = client.recv(65536)
        if not piece:
            return got
        got += piece


def read_answers(client, count):
    """So many whole answers with a length, as they come."""
    stream = client.makefile("rb")
    answers = []
    for _ in range(count):
        head = b""
        while not head.endswith(b"\r\n\r\n"):
            line = stream.readline()
            if not line:
                raise AssertionError("the answer ended early")
            head += line
        length = int(re.search(rb"(?i)content-length: (\d+)", head).group(1))
        answers.append((head, stream.read(length)))
    return answers


def curl(*words, data=None):
    status, out, err = run_curl(*words, data=data)
    if status != 0:
        raise AssertionError(f"curl ended with {status}: {err.decode().strip()}")
    return out


def run_curl(*words, data=None):
    """The status of curl, and both its outputs."""
    if shutil.which("curl") is None:
        raise Skipped("curl is missing")
    done = subprocess.run(["curl", "-sS", "--max-time", "60", *words], input=data, capture_output=True)
    return done.returncode, done.stdout, done.stderr


def get(path, *fields):
    lines = [f"GET {path} HTTP/1.1", f"Host: 127.0.0.1:{ORIGIN}", *fields, "", ""]
    return "\r\n".join(lines).encode()


def url(path):
    return f"http://127.0.0.1:8080{path}"


def same(got, wanted):
    if got != wanted:
        raise AssertionError(f"got {got!r:.300}, wanted {wanted!r:.300}")


def line(method, path, code, size, error=None, index=0, port=ORIGIN):
    shown = f".{index} {method} http://127.0.0.1:{port}{path} {code} {size}"
    return shown if error is None else f"{shown} error: {error}"


class Tally:
    """Tries cases, prints a line for each, and counts."""

    passed = failed = 0

    def __init__(self, names):
        self.names = names

    def is_wanted(self, name):
        return not self.names or name.replace(" ", "_") in self.names

    def try_case(self, name, case):
        """Whether it passed or was left out."""
        if not self.is_wanted(name):
            return True
        try:
            case()
        except Skipped as why:
            print(f"e2e: {name}: skipped, {why}", flush=True)
            self.failed += str(why) == "curl is missing" and os.environ.get("CI") == "true"
            return True
        except (AssertionError, OSError, subprocess.SubprocessError, ValueError) as error:
            print(f"e2e: {name}: failed: {error}", flush=True)
            self.failed += 1
            return False
        print(f"e2e: {name}: passed", flush=True)
        self.passed += 1
        return True
