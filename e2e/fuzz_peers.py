"""Who talks to the program in a round: fuzzed clients and servers, operators, and the honest client. Each is a thread and keeps what it sent and got."""
import os
import re
import socket
import struct
import subprocess
import threading
import time
import zlib

from fuzz_parse import Cut, Wrong, read_request, unmasked, wrong_answers
from fuzz_socks import HELLO, SPOKEN, STANDS, WELCOME, has_ipv6, places, request
from fuzz_talks import ESTABLISHED, edit_of, operator_text, random_of, server_steps, websocket_steps
from fuzz_texts import AGREES, ASKS, BY_PATH, CONTROL, PATH, PROXY, SERVER, SPEAKER, SWITCHES, exchange, frame, is_streamed, lines, pieces, target_of, websocket

# Seconds: those behind which a mutated side gives up; those in which an honest client is served; those behind which nothing comes any more, on a machine that has time for it.
IDLE, LATEST, PATIENCE = 1.2, 2, int(os.environ.get("PATIENCE", "40"))
MOST_GOT = 3_000_000


class Machine(threading.Thread):
    """How long this machine has had its threads wait in all: a thread that would wake every 20 ms tells by how much it was late, and the system for how long the
    program waited for a processor. What is late by that much is not the program's doing."""

    def __init__(self, pid):
        super().__init__(daemon=True, name="machine")
        self.pid, self.late, self.stops = pid, 0.0, threading.Event()

    def run(self):
        while not self.stops.is_set():
            start = time.time()
            time.sleep(0.02)
            self.late += max(time.time() - start - 0.03, 0)

    def waited(self):
        try:
            with open(f"/proc/{self.pid}/schedstat") as file:
                delay = int(file.read().split()[1]) / 1e9
        except OSError:
            delay = 0
        # (a client's and a server's thread waited so)
        return delay + 2 * self.late


def reset(connection):
    connection.setsockopt(socket.SOL_SOCKET, socket.SO_LINGER, struct.pack("ii", 1, 0))
    connection.close()


def connected(to, seconds=10):
    connection = socket.create_connection(to, timeout=seconds)
    connection.setsockopt(socket.IPPROTO_TCP, socket.TCP_NODELAY, 1)
    return connection


class Peer(threading.Thread):
    """One side of a connection that goes through the steps of a talk."""

    def __init__(self, name):
        super().__init__(daemon=True, name=name)
        self.got, self.ended, self.is_eof, self.went_wrong, self.early = bytearray(), None, False, None, b""

    def read(self, connection, seconds, until=None):
        """Reads until so many bytes are there, the peer closes, or nothing comes for so long."""
        connection.settimeout(seconds)
        while until is None or len(self.got) < until:
            try:
                piece = connection.recv(65536)
            except TimeoutError:
                return False
            if not piece:
                self.is_eof = True
                return False
            if len(self.got) < MOST_GOT:
                self.got += piece
        return True

    def play(self, connection, steps, seconds):
        for verb, what in steps:
            if verb == "send":
                connection.settimeout(seconds)
                connection.sendall(what)
            elif verb == "pause":
                time.sleep(what / 1000)
            elif verb == "await":
                self.read(connection, seconds, what)
            elif verb == "quiet":
                self.read(connection, 0.03, what + 1)
                self.early += self.got[what:]
            elif verb == "body":
                self.whole_request(connection, seconds)
            else:
                self.end(connection, verb, seconds)
                return

    def whole_request(self, connection, seconds):
        """(of a server: waits until its last request is whole)"""
        end = time.time() + seconds
        while time.time() < end and not self.is_eof:
            try:
                if is_whole(bytes(self.got), self.at):
                    return
            except (Wrong, Cut):
                pass
            self.read(connection, 0.1, len(self.got) + 1)

    def end(self, connection, verb, seconds):
        self.ended = verb
        if verb == "reset":
            reset(connection)
            return
        if verb == "half":
            connection.shutdown(socket.SHUT_WR)
        if verb == "brief":
            self.read(connection, 0.05)
        if verb in ("read", "half"):
            self.read(connection, seconds)


def is_whole(text, at):
    """Whether a request stands here and is whole (a cut one is told to end with the text)."""
    method, _, end = read_request(text, at)
    return end < len(text) or read_request(text + b"x", at)[2] == len(text)


class Client(Peer):
    def __init__(self, number, talk, delay):
        super().__init__(f"client {number}")
        self.number, self.talk, self.delay = number, talk, delay

    def run(self):
        time.sleep(self.delay)
        try:
            with connected(PROXY) as connection:
                self.play(connection, self.talk.steps, PATIENCE if self.talk.exact else IDLE)
        except OSError as error:
            self.went_wrong = error
            self.ended = self.ended or "broken"


class ServedConnection(Peer):
    def __init__(self, servers, connection, port, count):
        super().__init__(f"server {port} {count}{' of IPv6' if connection.family == socket.AF_INET6 else ''}")
        self.servers, self.connection, self.port, self.count = servers, connection, port, count
        self.at, self.is_raw_from, self.is_over, self.frames = 0, None, False, None
        self.is_proxy, self.spoke_first = servers.mode == "upstream", False
        self.may_be_raw, self.may_be_cut = servers.mode != "reverse", False

    def run(self):
        try:
            with self.connection:
                self.serve()
        except (OSError, Wrong) as error:
            self.went_wrong = error
        self.may_be_cut = self.may_be_cut or not self.is_eof
        self.is_over = True

    def serve(self):
        connection = self.connection
        connection.setsockopt(socket.IPPROTO_TCP, socket.TCP_NODELAY, 1)
        if self.port == SPEAKER and self.count % 3 == 0:
            self.spoke_first, self.is_raw_from = True, 0
            connection.sendall(SPOKEN)
        while not self.is_eof and self.read(connection, PATIENCE, self.at + 1):
            if not self.answer():
                return

    def goes_raw(self, start):
        """From here on nothing is read as HTTP; where it spoke first, nothing was."""
        if self.is_raw_from is None:
            self.is_raw_from = start

    def answer(self):
        """Answers what stands at `at`; whether it goes on."""
        start = self.at
        if self.got.startswith(b"RAW ", start) or start + 4 > len(self.got) and b"RAW ".startswith(self.got[start:]):
            return self.echo(start)
        while b"\r\n\r\n" not in self.got[self.at:]:
            if not self.read(self.connection, PATIENCE, len(self.got) + 1):
                return False
        head = bytes(self.got[start:]).split(b"\r\n\r\n", 1)[0]
        method, target = (head.split(b" ") + [b"", b""])[:2]
        if method == b"CONNECT" and self.is_proxy:
            return self.tunnel(start + len(head) + 4, target)
        return self.play_for(method, target)

    def tunnel(self, end, target):
        number = zlib.crc32(target + b"%d" % self.count)
        self.at = end
        if target.endswith(b":9202") or target.endswith(b":9201") or number % 3:
            self.connection.sendall(ESTABLISHED if number % 2 else b"HTTP/1.0 200 \r\nX: y\r\n\r\n")
            return True
        self.connection.sendall((b"HTTP/1.1 407 \r\nContent-Length: 5\r\n\r\nhello", b"HTTP/1.1 103 x\r\n\r\n", b"nonsense\r\n\r\n")[number % 7 % 3])
        return False

    def echo(self, start):
        """Sends back what is said to come behind a line `RAW LENGTH`, and closes."""
        self.goes_raw(start)
        if not self.read(self.connection, PATIENCE, start + 13):
            return False
        try:
            size = int(bytes(self.got[start + 4:start + 12]), 16)
        except ValueError:
            return False
        self.read(self.connection, PATIENCE, start + 13 + min(size, 1_000_000))
        self.connection.sendall(self.got[start + 13:start + 13 + size])
        return False

    def play_for(self, method, target):
        honest, found, servers = re.search(rb"/honest/(\w+)", target), PATH.search(target), self.servers
        if honest:
            return self.serve_honest(honest[1])
        kind, number, index = ("m", zlib.crc32(target) % 1000, 0) if not found else (found[1].decode(), int(found[2]), int(found[3]))
        if target.endswith(b"/raw"):
            end = self.at + self.got[self.at:].find(b"\r\n\r\n") + 4
            self.goes_raw(end)
            self.connection.sendall(SWITCHES)
            return self.echo(end) if kind == "x" else self.read(self.connection, IDLE)
        if target.endswith(b"/ws"):
            return self.serve_websocket(kind, number, index)
        made = exchange(servers.seed, kind, number, index, servers.mode)
        if kind == "m":
            self.may_be_cut = True
            steps = server_steps(servers.seed, number, index, made)
            if b" 101" in b"".join(what for verb, what in steps if verb == "send"):
                self.goes_raw(self.at + 1)
            self.play(self.connection, steps, IDLE)
            return False
        return self.serve_exact(kind, number, index)

    def serve_exact(self, kind, number, index):
        """Of an exact talk the last exchange is another one: it closes. Its field says which it is."""
        self.whole_request(self.connection, PATIENCE)
        text = bytes(self.got[self.at:])
        last = b"\r\nConnection: close\r\n" in text.split(b"\r\n\r\n", 1)[0] + b"\r\n"
        made = exchange(self.servers.seed, kind, number, index, self.servers.mode, last)
        self.servers.asked.setdefault(made.path, []).append((self, self.at, made))
        _, _, self.at = read_request(bytes(self.got), self.at)
        self.connection.sendall(made.response)
        return made.kind != "close"

    def serve_websocket(self, kind, number, index):
        end = self.at + self.got[self.at:].find(b"\r\n\r\n") + 4
        self.goes_raw(end)
        made = websocket(self.servers.seed, kind, number, index, self.servers.mode)
        if kind == "m":
            self.play(self.connection, websocket_steps(self.servers.seed, number, made), IDLE)
            return False
        self.servers.asked.setdefault(made.path, []).append((self, self.at, made))
        self.connection.sendall(made.response)
        self.await_frames(end, lambda frames: (1, b"over", True) in frames)
        self.connection.sendall(made.said)
        self.await_frames(end, lambda frames: frames and frames[-1][0] == 8)
        self.frames = frames_of(self.got[end:])
        return False

    def await_frames(self, end, wanted):
        last = time.time() + PATIENCE
        while time.time() < last and not wanted(frames_of(self.got[end:])):
            if not self.read(self.connection, PATIENCE, len(self.got) + 1):
                return

    def serve_honest(self, name):
        start = self.at
        end = start + self.got[start:].find(b"\r\n\r\n") + 4
        if name.startswith(b"ws"):
            self.goes_raw(end)
            self.connection.sendall(AGREES)
            self.await_frames(end, lambda _: len(messages_in(self.got[end:])) > 1)
            frames = messages_in(self.got[end:])
            if frames[:2] == [(1, b"half ", False), (0, name, True)]:
                self.connection.sendall(frame(1, b"heard " + name) + frame(8, b"\x03\xe8"))
            self.read(self.connection, IDLE)
            return False
        self.whole_request(self.connection, PATIENCE)
        body = bytes(self.got[end:])
        _, _, self.at = read_request(bytes(self.got), start)
        self.connection.sendall(honest_answer(name, body if name.startswith(b"post") else b""))
        return True


def frames_of(text):
    """The whole frames that stand here (a cut one is looked for again when more is there)."""
    text, whole = bytes(text), []
    try:
        return unmasked(text)
    except Cut:
        pass
    except Wrong as wrong:
        return [(-1, str(wrong).encode(), True)]
    at = 0
    while at + 6 <= len(text):
        size = text[at + 1] & 127
        more = {126: 2, 127: 8}.get(size, 0)
        size = int.from_bytes(text[at + 2:at + 2 + more], "big") if more else size
        end = at + 6 + more + size
        if end > len(text):
            break
        whole += unmasked(text[at:end])
        at = end
    return whole


def messages_in(text):
    """The frames of messages, without pings and the like."""
    return [part for part in frames_of(text) if part[0] < 8]


def honest_answer(name, body):
    body = b"honest " + name + b"\n" + body
    return lines(b"HTTP/1.1 200 OK", b"X-Honest: " + name, b"Content-Length: %d" % len(body)) + body


class Servers:
    """The servers of a round, in one listener a port."""

    def __init__(self, seed, mode):
        self.seed, self.mode, self.connections, self.asked, self.listeners, self.doors = seed, mode, [], {}, [], []

    def start(self):
        families = [("127.0.0.1", socket.AF_INET)] + ([("::1", socket.AF_INET6)] if self.mode == "socks5" and has_ipv6() else [])
        for port, (host, family) in ((port, one) for port in (SERVER, SPEAKER) for one in families):
            listener = socket.create_server((host, port), family=family, backlog=512)
            self.listeners.append(listener)
            self.doors.append(threading.Thread(target=self.accept, args=(listener, port), daemon=True))
            self.doors[-1].start()

    def accept(self, listener, port):
        count = 0
        while True:
            try:
                connection, _ = listener.accept()
            except OSError:
                return
            count += 1
            served = ServedConnection(self, connection, port, count)
            served.start()
            self.connections.append(served)

    def stop(self):
        for listener in self.listeners:
            listener.shutdown(socket.SHUT_RDWR)
            listener.close()
        self.listeners = []
        for thread in self.doors + self.connections:
            thread.join(PATIENCE)


class Honest(threading.Thread):
    """A client that has to be served exactly, and within two seconds, again and again."""

    def __init__(self, run):
        super().__init__(daemon=True, name="honest")
        self.run_of, self.stops, self.wrong, self.count, self.slowest, self.machine = run, threading.Event(), [], 0, 0, Machine(run.process.pid)

    def run(self):
        kinds = [self.get, self.post, self.two, self.upgraded] + ([] if self.run_of.mode == "reverse" else [self.raw])
        self.machine.start()
        while not self.stops.is_set():
            self.count += 1
            kind = kinds[self.count % len(kinds)]
            start, waited = time.time(), self.machine.waited()
            try:
                why = kind(b"%d" % self.count)
            except OSError as error:
                why = f"{kind.__name__}: {error!r}"
            took, waited = time.time() - start, self.machine.waited() - waited
            self.slowest = max(self.slowest, took - waited)
            if why and self.has_ended():
                break
            if why or took - waited > LATEST:
                self.wrong.append(f"{why or kind.__name__}, which took {took:.2f} s, of which the machine had {waited:.2f} s")
            self.stops.wait(0.03)
        self.machine.stops.set()

    def has_ended(self, seconds=1):
        """Whether the run is at its end (its sockets are closed a moment before)."""
        try:
            self.run_of.process.wait(seconds)
        except subprocess.TimeoutExpired:
            return False
        return True

    def ask(self, method, name, *more):
        return lines(method + b" " + target_of(self.run_of.mode, b"/honest/" + name)[0] + b" HTTP/1.1", b"Host: x", *more)

    def compare(self, connection, wanted):
        """Reads to the close, for as long as the tool is patient; what is wrong with what came."""
        got, end = b"", time.time() + PATIENCE
        while True:
            connection.settimeout(max(end - time.time(), 0.001))
            piece = connection.recv(65536)
            if not piece:
                break
            got += piece
        return None if got == wanted else f"honest client: got {got[:400]!r}, wanted {wanted[:400]!r}"

    def talk(self, sent, wanted):
        """Sends it, in mode `socks5` behind what a client says there first, in one piece or when that was answered; what is wrong with what comes to the close."""
        front, told = self.entry()
        with connected(PROXY, PATIENCE) as connection:
            if front and self.count % 2:
                for text, size in ((front[:len(HELLO)], len(WELCOME)), (front[len(HELLO):], len(STANDS))):
                    connection.sendall(text)
                    got = b""
                    while len(got) < size and (piece := connection.recv(size - len(got))):
                        got += piece
                    if got != told[:size]:
                        return f"honest client: got {got!r}, wanted {told[:size]!r}"
                    told = told[size:]
                front = b""
            connection.sendall(front + sent)
            return self.compare(connection, told + wanted)

    def entry(self):
        """What it says first, and what it is told."""
        if self.run_of.mode != "socks5":
            return b"", b""
        ways = places(self.run_of.looks_up)
        return HELLO + request(ways[self.count // 2 % len(ways)][0], SERVER), WELCOME + STANDS

    def get(self, number):
        return self.talk(self.ask(b"GET", b"get" + number, b"Connection: close"), honest_answer(b"get" + number, b""))

    def post(self, number):
        chunks = b"2\r\nab\r\n1\r\nc" if is_streamed(b"abc", self.run_of.most) else b"3\r\nabc"
        return self.talk(self.ask(b"POST", b"post" + number, b"Connection: close", b"Transfer-Encoding: chunked") + b"2;x\r\nab\r\n1\r\nc\r\n0\r\n\r\n",
                         honest_answer(b"post" + number, chunks + b"\r\n0\r\n\r\n"))

    def two(self, number):
        return self.talk(self.ask(b"GET", b"one" + number) + self.ask(b"GET", b"two" + number, b"Connection: close"),
                         honest_answer(b"one" + number, b"") + honest_answer(b"two" + number, b""))

    def upgraded(self, number):
        name = b"ws" + number
        return self.talk(self.ask(b"GET", name, *ASKS) + frame(1, b"half ", b"\1\2\3\4", False) + frame(0, name, b"\5\6\7\0"), AGREES + frame(1, b"heard " + name) + frame(8, b"\x03\xe8"))

    def raw(self, number):
        body = b"raw " * 20 + number
        asks, told = (b"", b"") if self.run_of.mode in BY_PATH else (lines(b"CONNECT 127.0.0.1:%d HTTP/1.1" % SERVER, b"Host: x"), ESTABLISHED)
        return self.talk(asks + b"RAW %08x\n" % len(body) + body, told + body)


class Steady(threading.Thread):
    """The operator who looks at what waits, marks, changes, lets go on, or kills; and drains at the end."""

    def __init__(self, seed):
        super().__init__(daemon=True, name="operator")
        self.rng, self.stops, self.wrong, self.count = random_of(seed, "steady"), threading.Event(), [], 0
        self.connection, self.text = None, b""

    def say(self, line):
        """The answer to a line, without its last line feed."""
        self.connection.sendall(line + b"\n")
        self.count += 1
        got = b""
        while not got.endswith(b"\n") or line == b"list" and not (got == b"end\n" or got.endswith(b"\nend\n")):
            piece = self.connection.recv(65536)
            if not piece:
                raise OSError(f"closed behind {line!r}, {got!r}")
            got += piece
        why = wrong_answers(line + b"\n", got, True)
        if why:
            self.wrong.append(why)
        return got

    def turn(self, patient):
        """How many flows are live, once each that waits was decided on (a patient one leaves some for later)."""
        live = self.say(b"list").split(b"\n")[:-2]
        for flow in live:
            name, word = flow.split(b" ")
            if word == b"waiting" and not (patient and self.rng.random() < 0.5):
                for verb in self.rng.choice(((b"resume",), (b"show", b"resume"), (b"mark", b"show", b"resume"), (b"kill",), (b"edit", b"resume"), (b"edit",) * 5 + (b"show", b"resume"), (b"edit", b"kill"))):
                    self.say(edit_of(self.rng, name) if verb == b"edit" else verb + b" " + name)
        return len(live)

    def run(self):
        try:
            self.connection = connected(CONTROL, PATIENCE)
            while not self.stops.is_set():
                self.turn(True)
                self.stops.wait(0.05)
        except OSError as error:
            self.wrong.append(f"the operator: {error!r}")

    def drain(self, seconds):
        """Whether no flow is live within so many seconds."""
        end = time.time() + seconds
        while self.turn(False):
            if time.time() > end:
                return False
            time.sleep(0.02)
        return True


class Operator(Peer):
    """One that says mutated lines."""

    def __init__(self, seed, number, delay):
        super().__init__(f"operator {number}")
        self.rng, self.delay, self.is_long = random_of(seed, "operator", number), delay, number % 7 == 0
        self.text = operator_text(self.rng, range(40))
        if self.is_long:
            self.text = b"list\n" * 3000
        self.way = self.rng.choice(("half", "half", "half", "close", "reset"))

    def run(self):
        time.sleep(self.delay)
        try:
            with connected(CONTROL) as connection:
                for piece, pause in pieces(self.rng, self.text):
                    connection.settimeout(PATIENCE)
                    connection.sendall(piece)
                    time.sleep(pause / 1000)
                self.end(connection, self.way, PATIENCE)
        except OSError as error:
            self.went_wrong, self.ended = error, "broken"

    def wrong(self, is_whole):
        return wrong_answers(self.text, bytes(self.got), is_whole and self.ended == "half" and self.is_eof)
