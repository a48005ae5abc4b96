"""Measures `mitm` against nginx with a dial for each request, both in front of one nginx as the origin; prints tables in Markdown.

MITM names another program to be measured, such as one of before. Words name the tables to take; none: all."""
import os
import re
import shutil
import signal
import socket
import subprocess
import sys
import tempfile
import threading
import time

from tools import Mitm, listens, raise_limit, raise_loopback, read_all, read_answers, wait_for

SECONDS = 5
BIG = 10 * 1024 * 1024
IDLE = 1000
UPLOAD = 200 * 1024 * 1024
TRIES = 500
ASKED = 200
TICK = os.sysconf("SC_CLK_TCK")
HEAD = b"GET /small HTTP/1.1\r\nHost: h\r\n\r\n"
LAST = b"GET /small HTTP/1.1\r\nHost: h\r\nConnection: close\r\n\r\n"

SHARED = """
worker_processes 1; daemon off; pid %(home)s/%(name)s.pid; error_log %(home)s/%(name)s.errors; worker_rlimit_nofile 16384;
events { worker_connections 8192; }
http {
  client_body_temp_path %(home)s; proxy_temp_path %(home)s; fastcgi_temp_path %(home)s; uwsgi_temp_path %(home)s; scgi_temp_path %(home)s;
  client_max_body_size 0; keepalive_requests 10000000;
"""
ORIGIN = SHARED + """  access_log off;
  server { listen 127.0.0.1:9000 backlog=4096; root %(home)s; location = /small { return 200 "hello\\n"; } location = /up { return 200 "hello\\n"; } }
}
"""
PROXY = SHARED + """  access_log %(home)s/lines;
  server { listen 127.0.0.1:8081 backlog=4096; location / { proxy_pass http://127.0.0.1:9000; }
           location = /refused { proxy_pass http://127.0.0.1:9002; } }
}
"""


class Proxy:
    """A proxy that is measured: the process that does its work, and its port."""

    def __init__(self, pid, port):
        self.pid, self.port = pid, port

    def connect(self):
        return socket.create_connection(("127.0.0.1", self.port), timeout=120)

    def cpu_seconds(self):
        with open(f"/proc/{self.pid}/stat") as stat:
            fields = stat.read().rsplit(")", 1)[1].split()
        return (int(fields[11]) + int(fields[12])) / TICK

    def peak_megabytes(self):
        with open(f"/proc/{self.pid}/status") as status:
            return int(re.search(r"VmHWM:\s+(\d+)", status.read()).group(1)) / 1000


def start_nginx(home, name, text, port):
    path = os.path.join(home, name + ".conf")
    with open(path, "w") as conf:
        conf.write(text % {"home": home, "name": name})
    process = subprocess.Popen(["nginx", "-p", home, "-e", os.path.join(home, name + ".errors"), "-c", path])
    wait_for(lambda: listens(port), name)
    return process


def children_of(process):
    with open(f"/proc/{process.pid}/task/{process.pid}/children") as children:
        return [int(pid) for pid in children.read().split()]


def worker_of(process):
    """The process that does the work: nginx's only child."""
    wait_for(lambda: children_of(process), "nginx's worker")
    return children_of(process)[0]


def load(port, path, connections):
    """Requests and errors of a load, and the seconds that it took."""
    done = subprocess.run(
        ["wrk", "-t1", f"-c{connections}", f"-d{SECONDS}s", f"http://127.0.0.1:{port}{path}"],
        capture_output=True, text=True, check=True)
    count, seconds = re.search(r"(\d+) requests in ([\d.]+)s", done.stdout).groups()
    errors = re.search(r"Socket errors:.*|Non-2xx.*", done.stdout)
    return int(count), float(seconds), " " + errors.group(0) if errors else ""


def small(proxy, connections):
    """How many small requests a second, and what each costs."""
    before = proxy.cpu_seconds()
    count, seconds, errors = load(proxy.port, "/small", connections)
    each = 1e6 * (proxy.cpu_seconds() - before) / max(count, 1)
    return f"{count / seconds:.0f} requests a second, {each:.0f} µs of CPU each{errors}"


def ask(client, count):
    """So many small requests on this connection, each behind the answer of the one before."""
    for _ in range(count):
        client.sendall(HEAD)
        read_answers(client, 1)


def system_calls(proxy):
    """The system calls for a small request of one client that keeps its connection."""
    if shutil.which("strace") is None:
        return "strace is missing"
    with tempfile.NamedTemporaryFile("r") as told, proxy.connect() as client:
        ask(client, 10)
        tracer = subprocess.Popen(["strace", "-f", "-c", "-o", told.name, "-p", str(proxy.pid)], stderr=subprocess.DEVNULL)
        wait_for(lambda: is_traced(proxy.pid), "strace")
        ask(client, ASKED)
        tracer.send_signal(signal.SIGINT)
        tracer.wait()
        calls = told.read().splitlines()[-1].split()[3]
    return f"{int(calls) / ASKED:.1f}"


def is_traced(pid):
    with open(f"/proc/{pid}/status") as status:
        return re.search(r"TracerPid:\s+(\d+)", status.read()).group(1) != "0"


def beside_idle(proxy):
    """The same over 64 connections, while others are open and idle."""
    idle = [proxy.connect() for _ in range(IDLE)]
    try:
        return small(proxy, 64)
    finally:
        for client in idle:
            client.close()


def large(proxy):
    count, seconds, errors = load(proxy.port, "/big", 1)
    return f"{count * BIG / seconds / 1e6:.0f} MB a second{errors}"


def peak(proxy):
    return f"{proxy.peak_megabytes():.1f} MB"


def pipelined(proxy, count):
    """The seconds until so many requests, sent in one piece, are all answered, and those of the processor."""
    before, began = proxy.cpu_seconds(), time.time()
    with proxy.connect() as client:
        sender = threading.Thread(target=client.sendall, args=(HEAD * (count - 1) + LAST,))
        sender.start()
        got = read_all(client)
        sender.join()
    answers = got.count(b"HTTP/1.1 200 ")
    return f"{time.time() - began:.2f} s, {proxy.cpu_seconds() - before:.2f} s of CPU" + ("" if answers == count else f", {answers} answered")


class Uploader(threading.Thread):
    """Uploads without a pause, in bodies of this size one behind the other, and notes how long that took."""

    def __init__(self, proxy, size):
        super().__init__()
        self.proxy, self.size, self.seconds, self.has_begun = proxy, size, None, threading.Event()

    def run(self):
        piece, began = bytes(65536), time.time()
        with self.proxy.connect() as client:
            for _ in range(UPLOAD // self.size):
                client.sendall(f"POST /up HTTP/1.1\r\nHost: h\r\nContent-Length: {self.size}\r\n\r\n".encode())
                for _ in range(self.size // len(piece)):
                    client.sendall(piece)
                    self.has_begun.set()
                read_answers(client, 1)
        self.seconds = time.time() - began


def beside_upload(proxy, size):
    """How long uploads of so much in all take, and how long another client waits meanwhile, at the middle and at most."""
    uploader, waits = Uploader(proxy, size), []
    uploader.start()
    uploader.has_begun.wait()
    while uploader.is_alive():
        began = time.time()
        with proxy.connect() as client:
            client.sendall(LAST)
            read_all(client)
        waits.append(1e3 * (time.time() - began))
    uploader.join()
    waits.sort()
    return f"{uploader.seconds:.2f} s; {len(waits)} others, {waits[len(waits) // 2]:.1f} ms each, {waits[-1]:.0f} ms at most"


def answer_and_reset(listener):
    """Answers whoever connects with 413, reads nothing and resets."""
    while True:
        client, _ = listener.accept()
        with client:
            client.sendall(b"HTTP/1.1 413 Content Too Large\r\nContent-Length: 9\r\nConnection: close\r\n\r\ntoo large")
            client.setsockopt(socket.SOL_SOCKET, socket.SO_LINGER, b"\1\0\0\0\0\0\0\0")


def refused_uploads(proxy):
    """How many of many uploads get the answer of a server that resets behind it."""
    sent = b"POST /refused HTTP/1.1\r\nHost: h\r\nConnection: close\r\nContent-Length: 100000\r\n\r\n" + bytes(100_000)
    answered = 0
    for _ in range(TRIES):
        with proxy.connect() as client:
            client.sendall(sent)
            answered += read_all(client).startswith(b"HTTP/1.1 413 ")
    return f"{answered} of {TRIES}"


ROWS = {
    "calls": ("system calls for a small request", system_calls),
    "1": ("1 connection", lambda proxy: small(proxy, 1)),
    "64": ("64 connections", lambda proxy: small(proxy, 64)),
    "peak": ("peak memory with those", peak),
    "1000": ("1,000 connections", lambda proxy: small(proxy, 1000)),
    "idle": (f"64 connections beside {IDLE:,} idle ones", beside_idle),
    "many": ("peak memory with those", peak),
    "big": ("bodies of 10 MB, 1 connection", large),
    "bodies": ("peak memory with those", peak),
    "1000_pipelined": ("1,000 requests in one piece", lambda proxy: pipelined(proxy, 1000)),
    "10000_pipelined": ("10,000 requests in one piece", lambda proxy: pipelined(proxy, 10000)),
    "uploads": ("20 uploads of 10 MB, and another client meanwhile", lambda proxy: beside_upload(proxy, BIG)),
    "upload": ("an upload of 200 MB, and another client meanwhile", lambda proxy: beside_upload(proxy, UPLOAD)),
}
REFUSED = f"answers of {TRIES} servers that answer 413 and reset"


def take(wanted, mitm, nginx):
    print("| | `mitm` | nginx |\n|---|---|---|")
    for name, (title, row) in ROWS.items():
        if not wanted or name in wanted:
            print(f"| {title} | {row(mitm)} | {row(nginx)} |", flush=True)


def measure(wanted, nginx):
    with Mitm() as mitm:
        take(wanted, Proxy(mitm.process.pid, 8080), nginx)
    if not wanted or "refused" in wanted:
        with socket.create_server(("127.0.0.1", 9002), backlog=512) as listener:
            threading.Thread(target=answer_and_reset, args=(listener,), daemon=True).start()
            with Mitm(mode='mode = "reverse:http://127.0.0.1:9002"\n') as mitm:
                print(f"| {REFUSED} | {refused_uploads(Proxy(mitm.process.pid, 8080))} | {refused_uploads(nginx)} |", flush=True)


def main():
    raise_loopback()
    raise_limit()
    started = []
    with tempfile.TemporaryDirectory() as home:
        os.chmod(home, 0o755)
        with open(os.path.join(home, "big"), "wb") as big:
            big.write(os.urandom(BIG))
        try:
            started.append(start_nginx(home, "origin", ORIGIN, 9000))
            started.append(start_nginx(home, "proxy", PROXY, 8081))
            measure(sys.argv[1:], Proxy(worker_of(started[1]), 8081))
        finally:
            for process in reversed(started):
                process.send_signal(signal.SIGTERM)
            for process in started:
                process.wait()
            time.sleep(0.1)


if __name__ == "__main__":
    main()
