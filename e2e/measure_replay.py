#!/usr/bin/env python3
"""Measures what a recorded list costs: `mitm serve` with a file of so many flows, each asked for once, in order and from the last one on;
and what `mitm flows FILE '!~all'` takes on that file, which reads it and prints nothing. Prints a table in Markdown. Times are of a processor.

MITM names another program to be measured."""
import os
import subprocess
import tempfile

from measure import Proxy
from measure_flows import flow
from tools import MITM, Mitm, raise_loopback
from write_flows import written

OPTIONS = 'server_replay = ["recorded"]\nserver_replay_extra = "404"\n'
COUNTS = (2000, 20_000, 200_000)
AT_ONCE = 100


def request(number):
    return b"GET /item/%d HTTP/1.1\r\nHost: 127.0.0.1:8080\r\n\r\n" % number


def asked(proxy, numbers):
    """Microseconds of CPU for each of these requests, some of them in one piece."""
    before = proxy.cpu_seconds()
    with proxy.connect() as client:
        for at in range(0, len(numbers), AT_ONCE):
            some = numbers[at:at + AT_ONCE]
            client.sendall(b"".join(map(request, some)))
            got = b""
            while got.count(b"HTTP/1.1 ") < len(some) or not got.endswith(b"text"):
                piece = client.recv(1 << 16)
                assert piece, "closed early"
                got += piece
    return 1e6 * (proxy.cpu_seconds() - before) / len(numbers)


def read(recorded):
    """The seconds of `flows` on a file of this text."""
    with tempfile.NamedTemporaryFile() as file:
        file.write(recorded)
        file.flush()
        before = os.times()
        subprocess.run([MITM, "flows", file.name, "!~all"], check=True)
        after = os.times()
    return after.children_user + after.children_system - before.children_user - before.children_system


def main():
    raise_loopback()
    print("| flows in the list | megabytes | `flows`, s | start, s | peak, MB | a request, in order | a request, from the last on |\n|---|---|---|---|---|---|---|", flush=True)
    for count in COUNTS:
        recorded = b"".join(written(flow(number, b"a body of text")) for number in range(count))
        took, costs = read(recorded), []
        for numbers in (list(range(count)), list(range(count - 1, -1, -1))):
            with Mitm(OPTIONS, files={"recorded": recorded}) as mitm:
                proxy = Proxy(mitm.process.pid, mitm.port)
                start = proxy.cpu_seconds()
                costs.append(asked(proxy, numbers))
                peak = proxy.peak_megabytes()
        print(f"| {count:,} | {len(recorded) / 1e6:.1f} | {took:.2f} | {start:.2f} | {peak:.1f} | {costs[0]:.0f} µs | {costs[1]:.0f} µs |", flush=True)


main()
