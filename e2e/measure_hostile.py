"""What hostile bytes cost: processor time and peak memory of the program for each, beside what was heard of it; prints a table in Markdown.

unshare -n python3 -B e2e/measure_hostile.py [SCALE]: each row has SCALE times its count (1), so that two scales tell whether it grows in proportion."""
import os
import re
import socket
import sys
import threading
import time

from fuzz_texts import AGREES, ASKS, frame, lines
from tools import PROXY, Mitm, raise_limit, raise_loopback
from tunnel_cases import PEER

REVERSE = f'mode = "reverse:http://127.0.0.1:{PEER}"\ncontrol = "127.0.0.1:8081"\n'
KEY = b"abcd"
TICK = os.sysconf("SC_CLK_TCK")
UPGRADE = lines(b"GET /ws HTTP/1.1", b"Host: x", *ASKS)
OK = b"HTTP/1.1 200 OK\r\nContent-Length: 2\r\n\r\nok"
MOST = 65_536


class Server:
    """It answers the first head of each connection by some bytes, and then reads on where it is to."""

    def __init__(self, answer, reads=True):
        self.answer, self.reads, self.listener = answer, reads, socket.create_server(("127.0.0.1", PEER), backlog=64)
        self.got, self.sent = 0, 0
        threading.Thread(target=self.accept, daemon=True).start()

    def accept(self):
        while True:
            try:
                connection, _ = self.listener.accept()
            except OSError:
                return
            threading.Thread(target=self.serve, args=(connection,), daemon=True).start()

    def serve(self, connection):
        try:
            with connection:
                connection.recv(65_536)
                for at in range(0, len(self.answer), 65_536):
                    connection.sendall(self.answer[at:at + 65_536])
                    self.sent = at + 65_536
                while self.reads and (piece := connection.recv(1 << 20)):
                    self.got += len(piece)
                time.sleep(1000)
        except OSError:
            pass

    def stop(self):
        self.listener.shutdown(socket.SHUT_RDWR)
        self.listener.close()


def used(mitm):
    """Seconds of a processor, peak and present kilobytes."""
    with open(f"/proc/{mitm.process.pid}/stat") as stat:
        fields = stat.read().rsplit(")", 1)[1].split()
    with open(f"/proc/{mitm.process.pid}/status") as status:
        text = status.read()
    return (int(fields[11]) + int(fields[12])) / TICK, *(int(re.search(name + r":\s+(\d+)", text)[1]) for name in ("VmHWM", "VmRSS"))


def settle(mitm, seconds=1.0):
    """Waits until the program has slept for a while: one that waits for a processor does not."""
    last, since = used(mitm)[0], time.time()
    while time.time() - since < seconds:
        time.sleep(0.02)
        with open(f"/proc/{mitm.process.pid}/stat") as stat:
            sleeps = stat.read().rsplit(")", 1)[1].split()[0] == "S"
        now = used(mitm)[0]
        if now != last or not sleeps:
            last, since = now, time.time()


def unheard():
    """The bytes that the system holds of what was sent to the program."""
    held = 0
    with open("/proc/net/tcp") as table:
        for row in (line.split() for line in table):
            to_program = row[2][-5:] in (":1F90", ":1F91") or row[1][-5:] == ":%04X" % PEER
            of_program = row[1][-5:] in (":1F90", ":1F91") or row[2][-5:] == ":%04X" % PEER
            if row[3] == "01":
                held += int(row[4].split(":")[0], 16) * to_program + int(row[4].split(":")[1], 16) * of_program
    return held


def put(connection, text, piece=65_536):
    """Sends as much as is taken; how much that was."""
    sent = 0
    connection.settimeout(3)
    try:
        while sent < len(text):
            sent += connection.send(text[sent:sent + piece])
    except OSError:
        pass
    return sent


def measure(name, text, answer=b"", piece=65_536, reads=True, to=PROXY, front=b""):
    """A row: the text is sent behind what comes in front, and nothing that comes back is read."""
    server = Server(answer, reads)
    try:
        with Mitm(mode=REVERSE) as mitm, socket.create_connection(to, timeout=60) as client:
            client.setsockopt(socket.IPPROTO_TCP, socket.TCP_NODELAY, 1)
            if front:
                client.sendall(front)
                time.sleep(0.3)
            settle(mitm)
            before = used(mitm)
            sent = put(client, text, piece)
            settle(mitm)
            after = used(mitm)
            heard = max(sent + min(server.sent, len(answer)) * (len(answer) > 1000) - unheard(), 1)
            client.close()
            settle(mitm)
            left = used(mitm)[2]
    finally:
        server.stop()
    took, grown = after[0] - before[0], (after[1] - before[2]) * 1024
    print(f"| {name} | {heard:,} | {took:.2f} s | {took * 1e9 / heard:,.0f} ns | {grown / 1e6:.1f} MB | {grown / heard:.1f} | {(left - before[2]) / 1000:.1f} MB |", flush=True)


def main():
    scale = float(sys.argv[1]) if sys.argv[1:] else 1
    raise_loopback()
    raise_limit()
    many = round(200_000 * scale)
    post = lines(b"POST /a HTTP/1.1", b"Host: h", b"Transfer-Encoding: chunked")
    get = lines(b"GET /a HTTP/1.1", b"Host: h")
    head = b"GET /a HTTP/1.1\r\nX: " + b"x" * (MOST - 23) + b"\r\n\r\n"
    print("| | bytes heard | CPU | for each byte | memory more, at its peak | for each byte | more behind it |\n|---|---|---|---|---|---|---|", flush=True)
    measure("a head of 65,536 bytes, in bytes", head, OK, 1)
    measure("32,000 empty lines in front of a head, in bytes", b"\r\n" * 32_000 + get, OK, 1)
    measure("a body in chunks of a byte", post + b"1\r\nx\r\n" * many + b"0\r\n\r\n", OK)
    measure("a response in chunks of a byte", get, lines(b"HTTP/1.1 200 OK", b"Transfer-Encoding: chunked") + b"1\r\nx\r\n" * many + b"0\r\n\r\n")
    measure("interim responses without an end", get, b"HTTP/1.1 100 Continue\r\n\r\n" * many)
    measure("empty fragments without an end", frame(1, b"", KEY, False) + frame(0, b"", KEY, False) * many, AGREES, front=UPGRADE)
    measure("a message in fragments of a byte", frame(2, b"x", KEY, False) + frame(0, b"x", KEY, False) * many + frame(0, b"x", KEY), AGREES, front=UPGRADE)
    measure("messages of a byte", frame(2, b"x", KEY) * many, AGREES, front=UPGRADE)
    measure("empty messages", frame(2, b"", KEY) * many, AGREES, front=UPGRADE)
    measure("pings that nobody reads", frame(9, b"?", KEY) * many, AGREES, reads=False, front=UPGRADE)
    measure("an operator's lines, whose answers nobody reads", b"list\n" * many, to=("127.0.0.1", 8081))


if __name__ == "__main__":
    main()
