"""Measures tunnels of `mitm` against haproxy in TCP mode without splicing, between one client and one server; prints a table in Markdown.

MITM names another program to be measured."""
import os
import shutil
import socket
import subprocess
import sys
import tempfile
import threading

from measure import Proxy
from tools import Mitm, listens, raise_loopback, wait_for
from tunnel_cases import connect

PEER = 9002
ABOVE = 8082
BYTES = 1 << 30
BLOCK = bytes(range(256)) * 1024

HAPROXY = """
global
  nbthread 1
defaults
  mode tcp
  timeout connect 10s
  timeout client 60s
  timeout server 60s
listen tunnel
  bind 127.0.0.1:%d
  server peer 127.0.0.1:%d
""" % (ABOVE, PEER)


def send_all(connection, count):
    while count > 0:
        count -= connection.send(BLOCK[:min(len(BLOCK), count)])


def read_all(connection, count):
    room = memoryview(bytearray(1 << 20))
    while count > 0:
        got = connection.recv_into(room)
        assert got > 0, "closed early"
        count -= got


def move(one, other, count):
    """So many bytes from the one connection to the other."""
    sender = threading.Thread(target=send_all, args=(one, count), daemon=True)
    sender.start()
    read_all(other, count)
    sender.join()


def costs(proxy, client, server):
    """Nanoseconds of CPU for each kilobyte, up, down, and both ways at once."""
    shown = []
    for ways in ([(client, server)], [(server, client)], [(client, server), (server, client)]):
        before = proxy.cpu_seconds()
        moving = [threading.Thread(target=move, args=(one, other, BYTES)) for one, other in ways]
        for one in moving:
            one.start()
        for one in moving:
            one.join()
        shown.append(1e9 * (proxy.cpu_seconds() - before) / (len(ways) * BYTES / 1000))
    return shown


def row(name, shown, megabytes):
    print(f"| {name} | " + " | ".join(f"{cost:.0f}" for cost in shown) + f" | {megabytes:.1f} |", flush=True)


def main():
    raise_loopback()
    if shutil.which("haproxy") is None:
        sys.exit("measure: haproxy is missing")
    print("| tunnel | up, ns for a kB | down | both ways | peak, MB |\n|---|---|---|---|---|", flush=True)
    with socket.create_server(("127.0.0.1", PEER)) as listener, tempfile.NamedTemporaryFile("w", suffix=".cfg") as config:
        for _ in range(2):
            with Mitm(mode="") as mitm:
                proxy = Proxy(mitm.process.pid, mitm.port)
                with connect(PEER, b"\0") as client:
                    server, _ = listener.accept()
                    with server:
                        read_all(server, 1)
                        row("mitm", costs(proxy, client, server), proxy.peak_megabytes())
            config.seek(0)
            config.write(HAPROXY)
            config.flush()
            process = subprocess.Popen(["haproxy", "-q", "-f", config.name])
            try:
                wait_for(lambda: listens(ABOVE), "haproxy")
                proxy = Proxy(process.pid, ABOVE)
                with proxy.connect() as client:
                    server, _ = listener.accept()
                    with server:
                        row("haproxy", costs(proxy, client, server), proxy.peak_megabytes())
            finally:
                process.kill()
                process.wait()


if __name__ == "__main__":
    main()
