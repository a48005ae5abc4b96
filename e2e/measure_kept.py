#!/usr/bin/env python3
"""Measures what kept cookies and authorizations cost: what a request costs `mitm serve`, with its answer, behind cookies and authorizations of so many
places, and what setting them cost. Prints a table in Markdown. Times are of a processor, of `mitm` alone; memory is the process's at its most.

Hosts are addresses of 127.0.0.0/8, so that no name is looked up. Words name the rows to take; none: all. MITM names another program to be measured."""
import re
import socket
import sys
import threading

from measure import Proxy
from tools import Mitm, listens, raise_limit, raise_loopback, wait_for

PORT = 9000
OWN, OTHER = "127.0.0.1", "127.0.0.2"
MANY, HOSTS, LARGE = 100_000, 10_000, 60_000
# (a head has at most 100 fields, and 65,536 bytes)
IN_ONE = 90
ASKED = 1000
BOTH = 'stickycookie = "~all"\nstickyauth = "~all"\n'


def head_of(stream):
    """The lines of a head, or none behind the last one."""
    lines = []
    while True:
        line = stream.readline()
        if not line:
            return None
        if line == b"\r\n":
            return lines
        lines.append(line)


def answer(client):
    """Answers requests until the client closes. `/set?FIRST.COUNT.BYTES?PATH` sets so many cookies, with numbers from FIRST on, of values of so many bytes, for
    that path."""
    with client, client.makefile("rb") as stream:
        while (lines := head_of(stream)) is not None:
            target = lines[0].split(b" ")[1].decode()
            sent = sum(len(line) for line in lines if line.lower().startswith((b"cookie:", b"authorization:")))
            set_by = b""
            if target.startswith("/set?"):
                numbers, path = target.removeprefix("/set?").split("?")
                first, count, size = map(int, numbers.split("."))
                set_by = b"".join(b"Set-Cookie: c%d=%s; Path=%s\r\n" % (number, b"v" * size, path.encode()) for number in range(first, first + count))
            body = b"%d" % sent
            client.sendall(b"HTTP/1.1 200 OK\r\n%sContent-Length: %d\r\n\r\n%s" % (set_by, len(body), body))


def serve(listener):
    while True:
        client, _ = listener.accept()
        client.setsockopt(socket.IPPROTO_TCP, socket.TCP_NODELAY, 1)
        threading.Thread(target=answer, args=(client,), daemon=True).start()


def ask(stream, host, path, field=b""):
    """One request, and how many bytes of cookies and authorization the server got with it."""
    client, answers = stream
    client.sendall(b"GET http://%s:%d%s HTTP/1.1\r\nHost: h\r\n%s\r\n" % (host.encode(), PORT, path.encode(), field))
    length = 0
    while (line := answers.readline()) != b"\r\n":
        assert line, "closed early"
        found = re.match(rb"(?i)content-length: (\d+)", line)
        length = int(found.group(1)) if found else length
    return int(answers.read(length))


def each(proxy, asks):
    """What each of these requests costs, in microseconds of CPU, and the bytes of the last answer."""
    before, got = proxy.cpu_seconds(), 0
    with proxy.connect() as client, client.makefile("rb") as answers:
        for one in asks:
            got = ask((client, answers), *one)
    return 1e6 * (proxy.cpu_seconds() - before) / max(len(asks), 1), got


def sets(host, count, size=1, path="/other"):
    """Requests that have a host set so many cookies."""
    return [(host, f"/set?{first}.{min(IN_ONE, count - first)}.{size}?{path}") for first in range(0, count, IN_ONE)]


def host_of(number):
    return f"127.1.{number // 250}.{number % 250 + 1}"


def of_hosts():
    return [(host_of(number), "/set?0.1.1?/", b"Authorization: Basic QQ==\r\n") for number in range(HOSTS)]


ROWS = {
    "nothing": ("nothing", []),
    "other": (f"{MANY:,} cookies of another host", sets(OTHER, MANY)),
    "paths": (f"{MANY:,} cookies of its own host, for another path", sets(OWN, MANY)),
    "own": (f"{MANY:,} cookies of its own host, all for it", sets(OWN, MANY, path="/to")),
    "thousand": ("1,000 cookies of its own host, all for it", sets(OWN, 1000, path="/to")),
    "large": ("a cookie of 60 kB", [(OWN, f"/set?0.1.{LARGE}?/to")]),
    "large_of_other": ("1,000 cookies of 60 kB of another host", [(OTHER, f"/set?{number}.1.{LARGE}?/other") for number in range(1000)]),
    "hosts": (f"a cookie and an authorization of each of {HOSTS:,} hosts", of_hosts()),
    "again": (f"{IN_ONE} cookies of its own host, each set {MANY // IN_ONE:,} times", sets(OWN, IN_ONE, path="/to") * (MANY // IN_ONE)),
}


def take(title, asks, host):
    with Mitm(BOTH, mode="") as mitm:
        proxy = Proxy(mitm.process.pid, mitm.port)
        setting, _ = each(proxy, asks)
        cost, got = each(proxy, [(host, "/to/them")] * ASKED)
        print(f"| {title} | {len(asks):,} | {setting:.0f} µs | {cost:.0f} µs | {got:,} | {proxy.peak_megabytes():.1f} |", flush=True)


def main():
    raise_loopback()
    raise_limit()
    with socket.create_server(("0.0.0.0", PORT), backlog=512) as listener:
        threading.Thread(target=serve, args=(listener,), daemon=True).start()
        wait_for(lambda: listens(PORT, "0.0.0.0"), "the origin")
        print("| kept before | requests that set it | each of these | a request behind them | bytes of `Cookie` and `Authorization` in it | peak, MB |\n|---|---|---|---|---|---|", flush=True)
        for name, (title, asks) in ROWS.items():
            if not sys.argv[1:] or name in sys.argv[1:]:
                take(title, asks, host_of(HOSTS - 1) if name == "hosts" else OWN)


if __name__ == "__main__":
    main()
