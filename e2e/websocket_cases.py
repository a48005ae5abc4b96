"""Cases of WebSockets: frames by hand, a library in both roles, a page in a browser, and whoever vanishes."""
import base64
import hashlib
import os
import shutil
import socket
import subprocess
import tempfile
import threading
import time

from page_cases import BROWSERS, shown_by
from tools import ORIGIN, PROXY, Mitm, Skipped, line, same, wait_for
from tunnel_cases import PEER, Peer, close, read_head, reset

REVERSE = f'mode = "reverse:http://127.0.0.1:{PEER}"\n'
ASKS = (b"GET /chat HTTP/1.1\r\nHost: x\r\nUpgrade: websocket\r\nConnection: Upgrade\r\nSec-WebSocket-Version: 13\r\n"
        b"Sec-WebSocket-Key: dGhlIHNhbXBsZSBub25jZQ==\r\n\r\n")
AGREES = (b"HTTP/1.1 101 Switching Protocols\r\nUpgrade: websocket\r\nConnection: Upgrade\r\n"
          b"Sec-WebSocket-Accept: s3pPLMBiTxaQ9kYGzzhZRbK+xOo=\r\n\r\n")
TEXT, BINARY, CLOSES, PING, PONG = 1, 2, 8, 9, 10

# What Debian's package python3-websockets is run with: a server that echoes, and a client that checks what comes back.
PYTHON = "/usr/bin/python3"
ECHO = """
import asyncio, websockets
async def echo(websocket, path):
    async for message in websocket:
        await websocket.send(message)
async def main():
    async with websockets.serve(echo, "127.0.0.1", %d, compression=%r, max_size=None, ping_interval=None):
        print("ready", flush=True)
        await asyncio.Future()
asyncio.run(main())
"""
CLIENT = """
import asyncio, websockets
async def main():
    async with websockets.connect("ws://127.0.0.1:%d/chat", compression=%r, max_size=None, ping_interval=None) as websocket:
        %s
asyncio.run(main())
"""


def frame(opcode, payload, masked=False, fin=True):
    """A frame as it is sent, under a key of zeros where it is masked."""
    size, mask = len(payload), 128 if masked else 0
    head = bytes([opcode | (128 if fin else 0)])
    if size < 126:
        head += bytes([mask | size])
    elif size < 65536:
        head += bytes([mask | 126]) + size.to_bytes(2, "big")
    else:
        head += bytes([mask | 127]) + size.to_bytes(8, "big")
    return head + (bytes(4) if masked else b"") + payload


def read_exactly(connection, count):
    got = b""
    while len(got) < count:
        piece = connection.recv(count - len(got))
        assert piece, f"closed after {got!r}"
        got += piece
    return got


def read_frame(connection):
    """The first byte of a frame, and its payload without the mask."""
    first, second = read_exactly(connection, 2)
    size = second & 127
    if size > 125:
        size = int.from_bytes(read_exactly(connection, 2 if size == 126 else 8), "big")
    key = read_exactly(connection, 4) if second & 128 else bytes(4)
    return first, bytes(byte ^ key[at % 4] for at, byte in enumerate(read_exactly(connection, size)))


def upgraded():
    """A client whose connection is a WebSocket."""
    client = socket.create_connection(PROXY, timeout=20)
    client.sendall(ASKS)
    same(read_head(client), AGREES)
    return client


def agreeing(serve):
    """A server that agrees, and then goes on so."""
    def go_on(connection):
        read_head(connection)
        connection.sendall(AGREES)
        serve(connection)
    return go_on


def case_messages_are_seen():
    """A rule changes them in both directions, and fragments stay; a ping goes on before the message that it stands in; a Close goes both ways."""
    def serve(connection):
        same(read_frame(connection), (0x80 | PING, b"?"))
        same([read_frame(connection) for _ in range(2)], [(TEXT, b"the new"), (0x80, b" word")])
        connection.sendall(frame(PONG, b"?") + frame(TEXT, b"an old word"))
        same(read_frame(connection), (0x80 | CLOSES, b"\x03\xe8"))
        same(connection.recv(1), b"")

    with Peer(agreeing(serve), PEER) as peer, Mitm('modify_body = ["/old word/new word"]\n', mode=REVERSE) as mitm:
        with upgraded() as client:
            client.sendall(frame(TEXT, b"the old", True, False) + frame(PING, b"?", True) + frame(0, b" word", True))
            same(read_frame(client), (0x80 | PONG, b"?"))
            same(read_frame(client), (0x80 | TEXT, b"an new word"))
            client.sendall(frame(CLOSES, b"\x03\xe8", True))
            same(read_frame(client), (0x80 | CLOSES, b"\x03\xe8"))
            same(client.recv(1), b"")
        same(peer.went_wrong, [])
        same(mitm.new_lines(1), [line("GET", "/chat", 101, 0, port=PEER)])


def case_frames_that_are_at_fault():
    """Both sides are told by a Close with code 1002, or 1007 for a text that is no UTF-8."""
    for sent, code in ((frame(TEXT, b"x"), 1002), (frame(3, b"", True), 1002), (frame(TEXT, b"\xff", True), 1007)):
        def serve(connection):
            same(read_frame(connection), (0x80 | CLOSES, code.to_bytes(2, "big")))
            same(connection.recv(1), b"")

        with Peer(agreeing(serve), PEER) as peer, Mitm(mode=REVERSE):
            with upgraded() as client:
                client.sendall(sent)
                same(read_frame(client), (0x80 | CLOSES, code.to_bytes(2, "big")))
                same(client.recv(1), b"")
            same(peer.went_wrong, [])


def with_library(work, compression=None, options=""):
    """Has the library's client do this work through the proxy, before the library's server; the lines that were printed."""
    if subprocess.run([PYTHON, "-c", "import websockets"], capture_output=True).returncode != 0:
        raise Skipped("the package python3-websockets of Debian is missing")
    server = subprocess.Popen([PYTHON, "-c", ECHO % (PEER, compression)], stdout=subprocess.PIPE)
    try:
        same(server.stdout.readline(), b"ready\n")
        with Mitm(options, mode=REVERSE) as mitm:
            done = subprocess.run([PYTHON, "-c", CLIENT % (PROXY[1], compression, work)], capture_output=True, timeout=120)
            assert done.returncode == 0, done.stderr.decode()[-300:]
            return mitm.new_lines(1)
    finally:
        server.kill()
        server.wait()


def case_library_and_many_messages():
    """10,000 messages each way, and one of 16 MB."""
    shown = with_library("""for n in range(10000):
            await websocket.send("message %d" % n)
            assert await websocket.recv() == "message %d" % n
        most = bytes(range(256)) * 65536
        await websocket.send(most)
        assert await websocket.recv() == most""")
    same(shown, [line("GET", "/chat", 101, 0, port=PEER)])


def case_library_and_pings():
    """Each of 2,000 pings gets its pong."""
    with_library("""for n in range(2000):
            await (await websocket.ping())""")


def case_library_and_an_extension():
    """What the two agree on goes through unread, so no rule changes it; without the client's field there is no extension."""
    work = """await websocket.send("the old word" * 20)
        assert await websocket.recv() == "the %s word" * 20"""
    rules = 'modify_body = ["/old/new"]\n'
    with_library(work % "old", "deflate", rules)
    with_library(work % "new", "deflate", rules + 'modify_headers = ["/~q/Sec-WebSocket-Extensions/"]\n')


PAGE = (b"<!doctype html><p id=\"text\">waits</p><script>const socket = new WebSocket('ws://' + location.host + '/chat');"
        b"socket.onopen = () => socket.send('hel' + 'lo'); socket.onmessage = message => { document.getElementById('text').textContent = message.data; };</script>")


def page_of(_):
    """The page that opens a WebSocket, as an answer."""
    return b"HTTP/1.1 200 OK\r\nContent-Type: text/html\r\nContent-Length: %d\r\n\r\n" % len(PAGE) + PAGE


def accept_of(head):
    """The answer that makes a browser's connection a WebSocket, without an extension."""
    key = next(one for one in head.split(b"\r\n") if one.lower().startswith(b"sec-websocket-key:")).split(b":")[1].strip()
    accept = base64.b64encode(hashlib.sha1(key + b"258EAFA5-E914-47DA-95CA-C5AB0DC85B11").digest())
    assert b"permessage-deflate" not in head, head
    return b"HTTP/1.1 101 Switching Protocols\r\nUpgrade: websocket\r\nConnection: Upgrade\r\nSec-WebSocket-Accept: " + accept + b"\r\n\r\n"


def case_page_with_a_websocket_in_a_browser():
    """Its messages are changed where the line stands that keeps the browser from asking for an extension."""
    browser = next((path for path in map(shutil.which, BROWSERS) if path), None)
    if browser is None:
        raise Skipped("there is no browser (the package chromium of Debian)")

    def serve(connection):
        while True:
            head = read_head(connection)
            if b"GET /chat" not in head:
                connection.sendall(page_of(head))
                continue
            connection.sendall(accept_of(head))
            first, payload = read_frame(connection)
            connection.sendall(frame(TEXT, b"heard " + payload))
            connection.recv(1)

    options = 'modify_headers = ["/~q/Sec-WebSocket-Extensions/"]\nmodify_body = ["/hello/good day", "/heard/read"]\n'
    with tempfile.TemporaryDirectory() as home, Peer(serve, PEER), Mitm(options, mode=REVERSE):
        if "<p>here</p>" not in shown_by(browser, home, "data:text/html,<p>here</p>"):
            raise Skipped(f"{browser} does not run here")
        # (its time runs on while a message is awaited, so a browser on a busy machine may be done too early)
        for budget in (3_000, 10_000, 30_000, 100_000):
            shown = shown_by(browser, home, f"http://127.0.0.1:{PROXY[1]}/page", f"--virtual-time-budget={budget}")
            if '<p id="text">read good day</p>' in shown:
                return
        raise AssertionError(shown)


def case_who_vanishes_from_a_websocket():
    """The client or the server closes or resets, between frames and within one: all is let go of, and the flow's line is printed."""
    held = []

    def hold(connection):
        read_head(connection)
        connection.sendall(AGREES)
        held.append(connection.dup())

    with Peer(hold, PEER), Mitm(mode=REVERSE) as mitm:
        before = mitm.sockets()
        count = 0
        for leave in (close, reset):
            for sent in (b"", b"\x81", frame(TEXT, b"He", True, False)):
                for who in ("client", "server"):
                    client = upgraded()
                    client.sendall(sent)
                    wait_for(lambda: len(held) > 0, "the server")
                    time.sleep(0.05)
                    leave(client if who == "client" else held[0])
                    if who == "client":
                        leave(held.pop())
                    else:
                        held.pop()
                        client.close()
                    count += 1
        wait_for(lambda: mitm.sockets() == before, "all sockets to be let go of")
        same(len(mitm.new_lines(count)), count)


WEBSOCKET_CASES = [
    case_messages_are_seen, case_frames_that_are_at_fault, case_library_and_many_messages, case_library_and_pings, case_library_and_an_extension,
    case_page_with_a_websocket_in_a_browser, case_who_vanishes_from_a_websocket,
]
