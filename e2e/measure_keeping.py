"""Measures requests on kept connections: small ones at many clients' connections, and how often one meets a server that closed; through `mitm`, nginx with
kept connections to its upstreams, and haproxy where there is one. Prints tables in Markdown.

e2e/measure keeping [--seconds N] [--tried N] [--each N] [ROW..]: each load takes so many seconds (5), so many requests are tried beside each server that closes
(2,000), and each of the 100 clients that compare their answers asks so many times (100).
Rows are named 1, 64, 1000, calls, numbers, 1ms, 100ms and 5s; none: all. MITM names another program to be measured."""
import argparse
import asyncio
import multiprocessing
import os
import random
import re
import resource
import shutil
import signal
import socket
import subprocess
import tempfile
import time

import measure
from measure import ORIGIN, SHARED, Proxy, small, start_nginx, system_calls, worker_of
from tools import Mitm, listens, raise_limit, raise_loopback, wait_for

CLOSING = 9003
NGINX, HAPROXY = 8081, 8082
CLIENTS = 100
LEFT = 200
CLOSES = b"\r\nconnection: close\r\n"

COUNTED = ORIGIN.replace("root %(home)s;", "root %(home)s; location = /count { stub_status; }")
KEEPING = SHARED + """  access_log %(home)s/lines;
  upstream origin { server 127.0.0.1:9000; keepalive 4096; keepalive_requests 10000000; }
  upstream closing { server 127.0.0.1:9003; keepalive 4096; keepalive_requests 10000000; }
  server { listen 127.0.0.1:8081 backlog=4096; proxy_http_version 1.1; proxy_set_header Connection "";
           location / { proxy_pass http://origin; } location /closing/ { proxy_pass http://closing; } }
}
"""
BALANCER = """
global
  nbthread 1
  maxconn 8192
defaults
  mode http
  timeout connect 10s
  timeout client 60s
  timeout server 60s
frontend clients
  bind 127.0.0.1:8082
  use_backend closing if { path_beg /closing/ }
  default_backend origin
backend origin
  server origin 127.0.0.1:9000
backend closing
  server closing 127.0.0.1:9003
"""


def serve_closing(keeps, dialled):
    """The origin that closes a connection on which nothing came for so many seconds behind an answer, which has its request's path. It counts its connections."""
    async def answer(reader, writer):
        with dialled.get_lock():
            dialled.value += 1
        waits = 60
        try:
            while True:
                head = await asyncio.wait_for(reader.readuntil(b"\r\n\r\n"), waits)
                path, waits = head.split(b" ", 2)[1], keeps
                writer.write(b"HTTP/1.1 200 OK\r\nContent-Length: %d\r\n\r\n%s" % (len(path), path))
        except (asyncio.IncompleteReadError, asyncio.TimeoutError, ConnectionError):
            writer.close()

    async def run():
        server = await asyncio.start_server(answer, "127.0.0.1", CLOSING, backlog=1024)
        await server.serve_forever()

    signal.signal(signal.SIGTERM, signal.SIG_DFL)
    asyncio.run(run())


class Closing:
    """That origin, as a process."""

    def __init__(self, keeps):
        self.dialled = multiprocessing.Value("q", 0)
        self.process = multiprocessing.Process(target=serve_closing, args=(keeps, self.dialled), daemon=True)

    def __enter__(self):
        self.process.start()
        wait_for(lambda: listens(CLOSING), "the origin")
        return self

    def __exit__(self, *_):
        self.process.kill()
        self.process.join()


class Tally:
    """What many clients were answered: their own path, that a server closed early, another failure, or what is another's."""

    def __init__(self):
        self.own = self.early = self.failed = 0
        self.wrong = []

    def add(self, path, status, body):
        if status == 200 and body == path:
            self.own += 1
        elif status == 200:
            self.wrong.append((path, body))
        elif status == 502 and b"closed early" in body:
            self.early += 1
        else:
            self.failed += 1

    def shown(self):
        count = self.own + self.early + self.failed + len(self.wrong)
        told = [f"{self.early} of {count:,} told that it closed early"]
        told += [f"{self.failed} answered with another code or not"] if self.failed else []
        return ", ".join(told + ([f"{len(self.wrong)} WRONG"] if self.wrong else []))


async def one_client(port, number, count, pause, tally):
    """So many requests with pauses between, on one connection, or on another one where that was closed."""
    reader = writer = None
    for place in range(count):
        path = b"/closing/%d/%d" % (number, place)
        if writer is None:
            reader, writer = await asyncio.open_connection("127.0.0.1", port)
        writer.write(b"GET %s HTTP/1.1\r\nHost: h\r\n\r\n" % path)
        try:
            head = await reader.readuntil(b"\r\n\r\n")
            length = int(re.search(rb"(?i)content-length: (\d+)", head)[1])
            tally.add(path, int(head.split(b" ")[1]), await reader.readexactly(length))
        except (asyncio.IncompleteReadError, ConnectionError):
            tally.failed, head = tally.failed + 1, CLOSES
        if CLOSES in head.lower():
            writer.close()
            writer = None
        await asyncio.sleep(pause())
    if writer is not None:
        writer.close()


def many_clients(port, clients, count, pause):
    """What so many clients at once were answered to so many requests each."""
    tally = Tally()

    async def run():
        await asyncio.gather(*(one_client(port, number, count, pause, tally) for number in range(clients)))

    asyncio.run(run())
    return tally


def numbers(port, each):
    """Many requests of many clients at once, each of which wants its own answer."""
    with Closing(60) as origin:
        tally = many_clients(port, CLIENTS, each, lambda: 0)
        return f"{tally.own:,} of {CLIENTS * each:,} by {origin.dialled.value} connections" + (f", {len(tally.wrong)} WRONG" if tally.wrong else "")


def beside_closing(port, keeps, tried, spread):
    """How many requests met a server that closed: each comes behind a pause, up to twice what the server keeps a connection, or within a millisecond of that."""
    draws = random.Random(1)
    low, high = (0, 2 * keeps) if spread else (max(0, keeps - 0.0005), keeps + 0.0005)
    clients = min(tried, max(20, min(CLIENTS * 4, int(tried * keeps / 20))))
    with Closing(keeps) as origin:
        tally = many_clients(port, clients, -(-tried // clients), lambda: draws.uniform(low, high))
        return f"{tally.shown()}, {origin.dialled.value:,} connections"


def accepted():
    """The connections that the counting origin took, and its requests."""
    with socket.create_connection(("127.0.0.1", 9000)) as client:
        client.sendall(b"GET /count HTTP/1.1\r\nHost: h\r\nConnection: close\r\n\r\n")
        told = b"".join(iter(lambda: client.recv(65536), b""))
    counts = re.search(rb"requests\s+(\d+) (\d+) (\d+)", told)
    return int(counts[1]), int(counts[3])


def load(proxy, connections):
    """Small requests, and by how many connections of the origin they went."""
    if resource.getrlimit(resource.RLIMIT_NOFILE)[0] < 2 * connections + LEFT:
        return "too few descriptors are allowed"
    before = accepted()
    shown = small(proxy, connections)
    after = accepted()
    return f"{shown}, {after[0] - before[0] - 1:,} connections"


ROWS = {"1": "1 connection", "64": "64 connections", "1000": "1,000 connections", "calls": "system calls for a small request",
        "numbers": f"requests of {CLIENTS} clients that got their own answer"}
KEPT = {"1ms": 0.001, "100ms": 0.1, "5s": 5}


def rows(asked, name, proxy):
    if name == "calls":
        return system_calls(proxy)
    return numbers(proxy.port, asked.each) if name == "numbers" else load(proxy, int(name))


def measured(asked, work):
    """What this gives of each program: `mitm` before the origin, or before the one that closes, and the others, which go to either by the path."""
    def of_mitm(port):
        with Mitm(mode=f'mode = "reverse:http://127.0.0.1:{port}"\n') as mitm:
            return work(Proxy(mitm.process.pid, mitm.port))
    return [of_mitm(asked.port)] + [work(proxy) for proxy in asked.others]


def take(asked):
    print("| | " + " | ".join(asked.names) + " |\n|" + "---|" * (len(asked.names) + 1), flush=True)
    for name, title in ROWS.items():
        if not asked.rows or name in asked.rows:
            asked.port = CLOSING if name == "numbers" else 9000
            print(f"| {title} | " + " | ".join(measured(asked, lambda proxy: rows(asked, name, proxy))) + " |", flush=True)
    asked.port = CLOSING
    for name, keeps in KEPT.items():
        if not asked.rows or name in asked.rows:
            for spread, title in ((True, "requests behind any pauses"), (False, "requests at its very end")):
                shown = measured(asked, lambda proxy: beside_closing(proxy.port, keeps, asked.tried, spread))
                print(f"| a server that keeps for {name}, {title} | " + " | ".join(shown) + " |", flush=True)


def start_all(home, started, asked):
    """The origin and the others that are measured."""
    started.append(start_nginx(home, "origin", COUNTED, 9000))
    started.append(start_nginx(home, "proxy", KEEPING, NGINX))
    asked.names, asked.others = ["`mitm`", "nginx"], [Proxy(worker_of(started[1]), NGINX)]
    if shutil.which("haproxy") is not None:
        path = os.path.join(home, "haproxy.cfg")
        with open(path, "w") as config:
            config.write(BALANCER)
        started.append(subprocess.Popen(["haproxy", "-q", "-f", path]))
        wait_for(lambda: listens(HAPROXY), "haproxy")
        asked.names.append("haproxy")
        asked.others.append(Proxy(started[2].pid, HAPROXY))


def main():
    parser = argparse.ArgumentParser(prog="e2e/measure keeping", description="Measures requests on kept connections.")
    parser.add_argument("--seconds", type=int, default=measure.SECONDS)
    parser.add_argument("--tried", type=int, default=2000)
    parser.add_argument("--each", type=int, default=100)
    parser.add_argument("rows", nargs="*", choices=[[], *ROWS, *KEPT])
    asked = parser.parse_args()
    measure.SECONDS = asked.seconds
    raise_loopback()
    raise_limit()
    started = []
    with tempfile.TemporaryDirectory() as home:
        os.chmod(home, 0o755)
        try:
            start_all(home, started, asked)
            take(asked)
        finally:
            for process in reversed(started):
                process.send_signal(signal.SIGTERM)
            for process in started:
                process.wait()
            time.sleep(0.1)


if __name__ == "__main__":
    main()
