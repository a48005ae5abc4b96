#!/usr/bin/env python3
"""Measures what an operator's lines cost while many flows are held, each on a connection of its own; prints a table in Markdown. It needs
twice as many descriptors (`ulimit -n`).

MITM names another program to be measured."""
import random
import socket
import time

from measure import Proxy
from operator_cases import Operated, Operator
from tools import PROXY, Origin, get, raise_limit, raise_loopback, wait_for

COUNTS = (100, 1000, 10_000)
TRIED = 1000
AT_ONCE = 50


def hold(operator, count):
    """So many clients whose requests are held, and the IDs of their flows. What is asked between has the program let some clients in first."""
    clients = []
    while len(clients) < count:
        for _ in range(min(AT_ONCE, count - len(clients))):
            client = socket.create_connection(PROXY, timeout=120)
            client.sendall(get(f"/{len(clients)}", "Connection: close"))
            clients.append(client)
        operator.ask("show 0.0")
    return clients, operator.held(count)


def each(operator, word, names, wanted):
    """Microseconds from a line to its answer, for each of these flows."""
    began = time.perf_counter()
    for name in names:
        answer = operator.ask(f"{word} {name}")
        assert answer == wanted or wanted is None, answer
    return 1e6 * (time.perf_counter() - began) / max(len(names), 1)


def listing(operator):
    """Milliseconds of a list."""
    began = time.perf_counter()
    operator.flows()
    return 1e3 * (time.perf_counter() - began)


def measure(count):
    """A row: the costs with so many flows held; what is let go on and killed is chosen at random, a twentieth of the flows each; then all others are killed."""
    with Operated("~q") as mitm, Operator() as operator:
        proxy = Proxy(mitm.process.pid, mitm.port)
        before = proxy.peak_megabytes()
        clients, names = hold(operator, count)
        peak = proxy.peak_megabytes() - before
        took = listing(operator)
        random.Random(1).shuffle(names)
        some = max(count // 20, 5)
        shown = each(operator, "show", names[:TRIED], None)
        resumed = each(operator, "resume", names[:some], "ok")
        killed = each(operator, "kill", names[some:2 * some], "ok")
        began = proxy.cpu_seconds()
        rest = each(operator, "kill", names[2 * some:], "ok")
        wait_for(lambda: operator.flows() == {}, "all flows to end", 120)
        cpu = 1e6 * (proxy.cpu_seconds() - began) / (count - 2 * some)
        for client in clients:
            client.close()
    return (f"| {count:,} | {took:.2f} ms | {shown:.0f} µs | {resumed:.0f} µs | {killed:.0f} µs | {rest:.0f} µs | {cpu:.0f} µs | {1000 * peak / count:.1f} kB |")


def main():
    raise_loopback()
    raise_limit()
    print("| flows held | `list` | `show` | `resume` | `kill` | `kill` of all others | CPU for each of these, with its flow | memory for each |")
    print("|---|---|---|---|---|---|---|---|", flush=True)
    for count in COUNTS:
        with Origin():
            print(measure(count), flush=True)


main()
