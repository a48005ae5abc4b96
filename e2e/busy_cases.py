"""Nobody is kept waiting: one who uploads without a pause, many who connect at once; servers that reset behind their answer; a reader of
standard output who goes away."""
import os
import re
import select
import socket
import struct
import threading
import time

from tools import ORIGIN, PROXY, Mitm, curl, get, line, read_all, same, talk, url, wait_for

CLIENTS = 500
TRIES = 20
UPLOAD = 4_000_000
RESETTING = 9002
PIECE = bytes(65_536)
# An upload that nobody else is answered beside ends behind so many pieces.
MOST_PIECES = 6_000


class Uploader(threading.Thread):
    """Uploads without a pause until it is told to stop, or behind so many pieces; then it closes."""

    def __init__(self):
        super().__init__(daemon=True)
        self.has_begun, self.stops = threading.Event(), threading.Event()
        self.is_over = False

    def run(self):
        with socket.create_connection(PROXY, timeout=60) as client:
            client.sendall(f"POST /echo HTTP/1.1\r\nHost: 127.0.0.1:{ORIGIN}\r\nContent-Length: 1000000000\r\n\r\n".encode())
            for sent in range(MOST_PIECES):
                if self.stops.is_set():
                    return
                client.sendall(PIECE)
                if sent == 64:
                    self.has_begun.set()
            self.is_over = True
            self.stops.wait()


def case_answered_beside_an_upload():
    """Another client is answered before an upload without a pause is over, again and again."""
    with Mitm() as mitm:
        uploader = Uploader()
        uploader.start()
        try:
            assert uploader.has_begun.wait(60), "the upload did not begin"
            for number in range(3):
                same(curl(url(f"/{number}")), f"/{number}\n".encode())
                assert not uploader.is_over, "it was answered behind the upload"
        finally:
            uploader.stops.set()
            uploader.join()
        wanted = [line("GET", f"/{number}", 200, 3) for number in range(3)]
        same(mitm.new_lines(4), wanted + [line("POST", "/echo", "-", "-", "client closed")])


def connect_at_once(count, to=PROXY):
    """So many sockets that all connect before one of them is waited for."""
    clients = [socket.socket() for _ in range(count)]
    for client in clients:
        client.setblocking(False)
        client.connect_ex(to)
    return clients


def answers_of(clients):
    """What each gets until its close, once all have sent their requests."""
    for number, client in enumerate(clients):
        client.setblocking(True)
        client.settimeout(60)
        select.select([], [client], [], 60)
        client.sendall(get(f"/{number}", "Connection: close"))
    return [read_all(client) for client in clients]


def case_five_hundred_connect_at_once():
    with Mitm() as mitm:
        clients = connect_at_once(CLIENTS)
        try:
            for number, got in enumerate(answers_of(clients)):
                assert got.endswith(f"\r\n\r\n/{number}\n".encode()), (number, got)
        finally:
            for client in clients:
                client.close()
        wanted = [line("GET", f"/{number}", 200, len(f"/{number}\n")) for number in range(CLIENTS)]
        same(sorted(mitm.new_lines(CLIENTS)), sorted(wanted))


class Resetting(threading.Thread):
    """A server that answers whoever connects at once with 413, reads nothing and resets the connection."""

    def __init__(self):
        super().__init__(daemon=True)
        self.listener = socket.create_server(("127.0.0.1", RESETTING), backlog=64)

    def run(self):
        while True:
            try:
                client, _ = self.listener.accept()
            except OSError:
                return
            with client:
                client.sendall(b"HTTP/1.1 413 Content Too Large\r\nContent-Length: 9\r\nConnection: close\r\n\r\ntoo large")
                client.setsockopt(socket.SOL_SOCKET, socket.SO_LINGER, struct.pack("ii", 1, 0))

    def __enter__(self):
        self.start()
        return self

    def __exit__(self, *_):
        self.listener.shutdown(socket.SHUT_RDWR)
        self.listener.close()
        self.join()


def upload(path="/up", size=UPLOAD):
    """What an upload of so many bytes is answered."""
    head = f"POST {path} HTTP/1.1\r\nHost: h\r\nConnection: close\r\nContent-Length: {size}\r\n\r\n"
    return talk(head.encode() + bytes(size))


def is_too_large(got):
    return got.startswith(b"HTTP/1.1 413 ") and got.endswith(b"\r\n\r\ntoo large")


def case_server_answers_and_resets_at_once():
    """It was connected, though its reset is there before the program looks; its answer gets through."""
    with Resetting(), Mitm(mode=f'mode = "reverse:http://127.0.0.1:{RESETTING}"\n') as mitm:
        for number in range(TRIES):
            got = upload()
            assert is_too_large(got), f"upload {number}: {got[:300]}"
        same(mitm.new_lines(TRIES), [line("POST", "/up", 413, 9, port=RESETTING)] * TRIES)


def case_server_answers_the_head_and_resets():
    with Mitm() as mitm:
        for number in range(TRIES):
            got = upload("/unread")
            assert is_too_large(got), f"upload {number}: {got[:300]}"
        same(mitm.new_lines(TRIES), [line("POST", "/unread", 413, 9)] * TRIES)


def read_line(descriptor):
    got = b""
    while not got.endswith(b"\n"):
        piece = os.read(descriptor, 1)
        assert piece, "standard output was closed"
        got += piece
    return got.decode()


def case_reader_of_standard_output_goes_away():
    """The run goes on to serve. At its end, by its events, the line could not be printed: the status tells of that end."""
    reads, writes = os.pipe()
    try:
        with Mitm("events = 100\n", out=writes) as mitm:
            os.close(writes)
            writes = None
            same(curl(url("/1")), b"/1\n")
            same(re.sub(r"^\d+", "", read_line(reads)).rstrip("\n"), line("GET", "/1", 200, 3))
            os.close(reads)
            reads = None
            for number in range(2, 7):
                same(curl(url(f"/{number}")), f"/{number}\n".encode())
            assert mitm.process.poll() is None, f"it ended with {mitm.process.returncode}"
            spend_events(mitm)
            same(mitm.process.wait(1), 6)
    finally:
        for descriptor in (reads, writes):
            if descriptor is not None:
                os.close(descriptor)


def spend_events(mitm):
    """Connects until the events of its run are spent."""
    def ends():
        try:
            socket.create_connection(PROXY, timeout=20).close()
        except OSError:
            pass
        return mitm.process.poll() is not None

    wait_for(ends, "its end")


BUSY_CASES = [
    case_answered_beside_an_upload, case_five_hundred_connect_at_once, case_server_answers_and_resets_at_once,
    case_server_answers_the_head_and_resets, case_reader_of_standard_output_goes_away,
]
