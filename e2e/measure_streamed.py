"""Measures streamed downloads of `mitm` against nginx with `proxy_buffering off`, both in front of one nginx as the origin, and streamed uploads against
nginx with `proxy_request_buffering off`, both in front of a server that reads all; prints a table in Markdown.

unshare -n python3 -B e2e/measure_streamed.py [MEGABYTES]: how large the large file is (1,000)."""
import multiprocessing
import os
import signal
import socket
import subprocess
import sys
import tempfile
import threading
import time

from measure import BIG, PROXY as BUFFERED, ORIGIN, Proxy, start_nginx, worker_of
from tools import Mitm, raise_limit, raise_loopback, read_all

PROXY = BUFFERED.replace("location / {", "location / { proxy_buffering off;")
OPTION = "stream_large_bodies = 0\n"
EVENTS, BETWEEN = 200, 0.02
# Where the server of uploads listens, and how it is reached through nginx.
SINK = 9004
TO_SINK = f'mode = "reverse:http://127.0.0.1:{SINK}"\n'
UP = "location ~ ^/(up|pieces)$ { proxy_pass http://127.0.0.1:%d; proxy_http_version 1.1; proxy_request_buffering off; } " % SINK


def download(proxy, path, size):
    """Megabytes a second, what a megabyte costs, and the most memory so far."""
    request = f"GET {path} HTTP/1.1\r\nHost: h\r\nConnection: close\r\n\r\n".encode()
    before, began, got = proxy.cpu_seconds(), time.time(), 0
    room = bytearray(1 << 20)
    with proxy.connect() as client:
        client.sendall(request)
        while count := client.recv_into(room):
            got += count
    seconds, megabytes = time.time() - began, got / 1e6
    assert got > size, (got, size)
    each = 1e6 * (proxy.cpu_seconds() - before) / megabytes
    return f"{megabytes / seconds:.0f} MB a second, {each:.0f} µs of CPU for each MB, {proxy.peak_megabytes():.1f} MB of memory at most"


def downloads(proxy, path, size, times):
    """The best of some."""
    return max((download(proxy, path, size) for _ in range(times)), key=lambda text: int(text.split(" ")[0]))


class Events:
    """A server whose answer is an event each few milliseconds, in a chunk of its own that tells when it was sent."""

    def __init__(self, port):
        self.listener = socket.create_server(("127.0.0.1", port), backlog=64)
        threading.Thread(target=self.accept, daemon=True).start()

    def accept(self):
        while True:
            try:
                client, _ = self.listener.accept()
            except OSError:
                return
            threading.Thread(target=self.serve, args=(client,), daemon=True).start()

    def serve(self, client):
        with client:
            client.setsockopt(socket.IPPROTO_TCP, socket.TCP_NODELAY, 1)
            client.recv(65536)
            client.sendall(b"HTTP/1.1 200 OK\r\nContent-Type: text/event-stream\r\nTransfer-Encoding: chunked\r\nConnection: close\r\n\r\n")
            for _ in range(EVENTS):
                time.sleep(BETWEEN)
                text = b"data: %.6f\n\n" % time.time()
                client.sendall(b"%x\r\n%s\r\n" % (len(text), text))
            client.sendall(b"0\r\n\r\n")


def events(proxy):
    """How late events come beside a load of 64 connections, at the middle and at most, in milliseconds."""
    loading = subprocess.Popen(["wrk", "-t1", "-c64", "-d30s", f"http://127.0.0.1:{proxy.port}/small"], stdout=subprocess.DEVNULL)
    late = []
    try:
        time.sleep(1)
        with proxy.connect() as client:
            client.sendall(b"GET /events HTTP/1.1\r\nHost: h\r\nConnection: close\r\n\r\n")
            rest = b""
            while piece := client.recv(65536):
                now = time.time()
                rest += piece
                while b"data: " in rest and b"\n\n" in rest.split(b"data: ", 1)[1]:
                    told, rest = rest.split(b"data: ", 1)[1].split(b"\n\n", 1)
                    late.append(1e3 * (now - float(told)))
    finally:
        loading.terminate()
        loading.wait()
    late.sort()
    assert len(late) == EVENTS, len(late)
    return f"{late[len(late) // 2]:.2f} ms, {late[-1]:.1f} ms at most"


def swallow(listener):
    """A server, of one connection at a time, that reads the body of a request and then answers: with nothing, or how late its pieces were."""
    room = bytearray(1 << 20)
    while True:
        client, _ = listener.accept()
        with client:
            head = b""
            while not head.endswith(b"\r\n\r\n"):
                head += client.recv(1)
            if b" /pieces " in head:
                answer = late_pieces(client)
            else:
                left, answer = int(head.lower().split(b"content-length: ")[1].split(b"\r\n")[0]), b""
                while left > 0:
                    count = client.recv_into(room, min(left, len(room)))
                    if count == 0:
                        break
                    left -= count
            client.sendall(b"HTTP/1.1 200 OK\r\nConnection: close\r\nContent-Length: %d\r\n\r\n%s" % (len(answer), answer))


def late_pieces(client):
    """How late the chunks of a request come, each of which tells when it was sent, as a text."""
    rest, late = b"", []
    while not rest.endswith(b"\r\n0\r\n\r\n"):
        piece = client.recv(65536)
        if not piece:
            break
        now = time.time()
        rest += piece
        while b"sent: " in rest and b"\n" in rest.split(b"sent: ", 1)[1]:
            told, rest = rest.split(b"sent: ", 1)[1].split(b"\n", 1)
            late.append(1e3 * (now - float(told)))
    late.sort()
    return b"%d of %d: %.2f ms, %.1f ms at most" % (len(late), EVENTS, late[len(late) // 2], late[-1])


def upload(proxy, size):
    """Megabytes a second until the answer is there, what a megabyte costs, and the most memory so far."""
    before, began, piece = proxy.cpu_seconds(), time.time(), bytes(1000000)
    with proxy.connect() as client:
        client.sendall(f"POST /up HTTP/1.1\r\nHost: h\r\nConnection: close\r\nContent-Length: {size}\r\n\r\n".encode())
        for _ in range(size // len(piece)):
            client.sendall(piece)
        client.sendall(piece[:size % len(piece)])
        got = read_all(client)
    assert got.startswith(b"HTTP/1.1 200 "), got
    seconds, megabytes = time.time() - began, size / 1e6
    each = 1e6 * (proxy.cpu_seconds() - before) / megabytes
    return f"{megabytes / seconds:.0f} MB a second, {each:.0f} µs of CPU for each MB, {proxy.peak_megabytes():.1f} MB of memory at most"


def uploads(proxy, size, times):
    """The best of some."""
    return max((upload(proxy, size) for _ in range(times)), key=lambda text: int(text.split(" ")[0]))


def pieces(proxy):
    """How late the pieces of an upload come, in milliseconds."""
    with proxy.connect() as client:
        client.setsockopt(socket.IPPROTO_TCP, socket.TCP_NODELAY, 1)
        client.sendall(b"POST /pieces HTTP/1.1\r\nHost: h\r\nConnection: close\r\nTransfer-Encoding: chunked\r\n\r\n")
        for _ in range(EVENTS):
            time.sleep(BETWEEN)
            text = b"sent: %.6f\n" % time.time()
            client.sendall(b"%x\r\n%s\r\n" % (len(text), text))
        client.sendall(b"0\r\n\r\n")
        got = read_all(client)
    assert got.startswith(b"HTTP/1.1 200 "), got
    return got.split(b"\r\n\r\n", 1)[1].decode()


def take_uploads(mitm, nginx, large):
    for title, row in (
        ("an upload of 10 MB, the best of five", lambda proxy: uploads(proxy, BIG, 5)),
        (f"one of {large // 1000000:,} MB, the best of three", lambda proxy: uploads(proxy, large, 3)),
        ("pieces of an upload, how late", pieces),
    ):
        print(f"| {title} | {row(mitm)} | {row(nginx)} |", flush=True)


def take(mitm, nginx, large):
    print("| | `mitm` | nginx |\n|---|---|---|")
    for title, row in (
        ("10 MB, the best of five", lambda proxy: downloads(proxy, "/big", BIG, 5)),
        (f"{large // 1000000:,} MB, the best of three", lambda proxy: downloads(proxy, "/large", large, 3)),
        (f"{EVENTS} events beside 64 connections, how late", events),
    ):
        print(f"| {title} | {row(mitm)} | {row(nginx)} |", flush=True)


def main():
    raise_loopback()
    raise_limit()
    large = 1_000_000 * (int(sys.argv[1]) if len(sys.argv) > 1 else 1000)
    started = []
    events = "location = /events { proxy_pass http://127.0.0.1:9003; proxy_http_version 1.1; proxy_buffering off; } "
    with tempfile.TemporaryDirectory() as home:
        os.chmod(home, 0o755)
        with open(os.path.join(home, "big"), "wb") as big:
            big.write(os.urandom(BIG))
        with open(os.path.join(home, "large"), "wb") as file:
            file.truncate(large)
        sink = multiprocessing.Process(target=swallow, args=(socket.create_server(("127.0.0.1", SINK), backlog=64),), daemon=True)
        try:
            sink.start()
            Events(9003)
            started.append(start_nginx(home, "origin", ORIGIN.replace("location = /small", events + "location = /small"), 9000))
            started.append(start_nginx(home, "proxy", PROXY.replace("location /", "location = /events { proxy_pass http://127.0.0.1:9003; proxy_http_version 1.1; proxy_buffering off; } " + UP + "location /", 1), 8081))
            with Mitm(OPTION) as mitm:
                take(Proxy(mitm.process.pid, 8080), Proxy(worker_of(started[1]), 8081), large)
            with Mitm(OPTION, mode=TO_SINK) as mitm:
                take_uploads(Proxy(mitm.process.pid, 8080), Proxy(worker_of(started[1]), 8081), large)
        finally:
            sink.terminate()
            for process in reversed(started):
                process.send_signal(signal.SIGTERM)
            for process in started:
                process.wait()
            time.sleep(0.1)


if __name__ == "__main__":
    main()
