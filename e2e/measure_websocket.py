"""Measures what a message of a WebSocket costs in `mitm` and in mitmproxy, between a client and a server by hand; prints a table in Markdown.

  e2e/measure_websocket.py [COUNT..]   so many messages there and back on one connection (20,000); mitmproxy, where it is installed, with the first count alone

MITM names another program to be measured."""
import os
import shutil
import socket
import subprocess
import sys
import tempfile
import threading

from measure import Proxy
from tools import Mitm, listens, raise_loopback, wait_for
from tunnel_cases import Peer, read_head
from websocket_cases import AGREES, ASKS, PEER, REVERSE, TEXT, frame

ABOVE = 8082
PAYLOAD = b"a message of about one thousand bytes " * 27
FEW, MANY = 200, [20_000]


def serve(connection):
    """Agrees, and sends back as many bytes as come, in frames of the same size."""
    read_head(connection)
    connection.sendall(AGREES)
    connection.setsockopt(socket.IPPROTO_TCP, socket.TCP_NODELAY, 1)
    size, come = len(frame(TEXT, PAYLOAD, True)), 0
    while piece := connection.recv(1 << 16):
        come += len(piece)
        connection.sendall(frame(TEXT, PAYLOAD) * (come // size))
        come %= size


def send(client, count, at_once=20):
    """So many messages there and back, some at once."""
    there, back = frame(TEXT, PAYLOAD, True) * at_once, len(frame(TEXT, PAYLOAD)) * at_once
    for _ in range(count // at_once):
        client.sendall(there)
        left = back
        while left > 0:
            got = client.recv(min(left, 1 << 16))
            assert got, "closed early"
            left -= len(got)


def cost(proxy, count):
    """Microseconds of CPU for each of so many messages that are relayed, one there and one back."""
    with proxy.connect() as client:
        client.sendall(ASKS)
        read_head(client)
        send(client, FEW)
        before = proxy.cpu_seconds()
        send(client, count)
        return 1e6 * (proxy.cpu_seconds() - before) / (2 * count)


def main():
    counts = [int(it) for it in sys.argv[1:]] or MANY
    raise_loopback()
    print("| | messages of 1 kB | CPU for each, µs | peak, MB |\n|---|---|---|---|", flush=True)
    with Peer(serve, PEER), tempfile.TemporaryDirectory() as home:
        for count in counts * 2:
            with Mitm(mode=REVERSE) as mitm:
                proxy = Proxy(mitm.process.pid, mitm.port)
                print(f"| mitm | {2 * count:,} | {cost(proxy, count):.1f} | {proxy.peak_megabytes():.1f} |", flush=True)
        program = shutil.which("mitmdump")
        if program is None:
            sys.exit("measure: mitmdump is missing: mitm alone was measured")
        words = [program, "-q", "--mode", f"reverse:http://127.0.0.1:{PEER}", "--listen-host", "127.0.0.1", "-p", str(ABOVE), "--set", f"confdir={home}"]
        process = subprocess.Popen(words)
        try:
            wait_for(lambda: listens(ABOVE), "mitmdump", 60)
            proxy = Proxy(process.pid, ABOVE)
            print(f"| mitmdump | {2 * counts[0]:,} | {cost(proxy, counts[0]):.1f} | {proxy.peak_megabytes():.1f} |", flush=True)
        finally:
            process.kill()
            process.wait()


if __name__ == "__main__":
    main()
