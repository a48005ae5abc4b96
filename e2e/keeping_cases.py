"""Servers' connections that are kept behind a response, for the next request of the same client's connection that goes to the same address."""
import base64
import os
import socket
import struct
import threading
import time

from mode_cases import ABOVE, THROUGH, UPSTREAM, regular
from operator_cases import Operated, Operator
from origin import answer, read_body, read_head
from resend_cases import FIRST, flow_of, sends
from saving_cases import put, save_file
from stream_cases import read_until
from tools import ORIGIN, PROXY, Mitm, Skipped, curl, line, read_all, read_answers, same, wait_for
from tunnel_cases import CONNECTED, OTHER, PEER, Peer, close, reset
from websocket_cases import AGREES, ASKS, REVERSE, TEXT, frame, read_exactly, read_frame

HUNDRED = 100
CLIENTS, EACH = 20, 50
IDLE = 10
# How long an origin keeps an idle connection, in seconds, and how long a client waits between two requests.
KEEPS = 0.05
PAUSES = (0, 0.02, 0.04, 0.045, 0.048, 0.049, 0.05, 0.051, 0.052, 0.055, 0.06, 0.1)
SOON = 1
LARGE = 300_000
EARLY = (b"HTTP/1.1 502 Bad Gateway\r\nServer: mitm\r\nConnection: close\r\nContent-Type: text/plain\r\nContent-Length: 20\r\n\r\n"
         b"server closed early\n")


def by_path(asked):
    """The answer that has the request's target as its body."""
    return answer("200 OK", asked.target.encode())


class Asked:
    """A request that a server got: on which of its connections, and in which place there."""

    def __init__(self, connection, number, place, head, body):
        self.connection, self.number, self.place, self.body = connection, number, place, body
        self.method, self.target, self.fields, _ = head


class Keeps(Peer):
    """A server that answers each request by a function, and keeps what its connections were asked, each by itself. Where the function gives no bytes it
    has answered, and the connection is closed. A CONNECT is granted, so that it may be the proxy above."""

    def __init__(self, reply=by_path, port=PEER):
        super().__init__(self.serve, port)
        self.reply, self.asked, self.open, self.lock = reply, [], 0, threading.Lock()

    def serve(self, connection):
        connection.setsockopt(socket.IPPROTO_TCP, socket.TCP_NODELAY, 1)
        targets = []
        with self.lock:
            number = len(self.asked)
            self.asked.append(targets)
            self.open += 1
        try:
            with connection.makefile("rb") as stream:
                while self.answers(connection, stream, number, targets):
                    pass
        except (EOFError, ConnectionError, TimeoutError):
            pass
        finally:
            with self.lock:
                self.open -= 1

    def answers(self, connection, stream, number, targets):
        head = read_head(stream)
        if head[0] == "CONNECT":
            connection.sendall(b"HTTP/1.1 200 OK\r\n\r\n")
            return True
        targets.append(head[1])
        answered = self.reply(Asked(connection, number, len(targets) - 1, head, read_body(stream, head[2])))
        if answered is not None:
            connection.sendall(answered)
        return answered is not None

    def count(self):
        """How many connections it had."""
        return len(self.asked)


class Client:
    """A client of the proxy that asks for one thing behind the other on one connection, and makes another one only where that was closed."""

    def __init__(self, to=""):
        """Targets have this in front."""
        self.to, self.socket, self.count = to, None, 0

    def __enter__(self):
        return self

    def __exit__(self, *_):
        self.leave()

    def leave(self):
        if self.socket is not None:
            self.socket.close()
            self.socket = None

    def send(self, sent):
        if self.socket is None:
            self.socket = socket.create_connection(PROXY, timeout=30)
            self.socket.setsockopt(socket.IPPROTO_TCP, socket.TCP_NODELAY, 1)
            self.count += 1
        self.socket.sendall(sent)

    def ask(self, path, *fields, method="GET", body=b""):
        """The head of the answer, and its body, by its length. Behind one that says close the next request has a connection of its own."""
        length = [f"Content-Length: {len(body)}"] if body else []
        self.send("\r\n".join([f"{method} {self.to}{path} HTTP/1.1", "Host: h", *fields, *length, "", ""]).encode() + body)
        head, got = read_answers(self.socket, 1)[0]
        if b"\r\nConnection: close\r\n" in head:
            same(self.socket.recv(1), b"")
            self.leave()
        return head, got

    def tunnels(self, port=PEER):
        """Has its connection be a tunnel to there."""
        self.send(b"CONNECT 127.0.0.1:%d HTTP/1.1\r\n\r\n" % port)
        same(read_exactly(self.socket, len(CONNECTED)), CONNECTED)
        return self


def asks_many(client, count=HUNDRED):
    """So many requests, one behind the other, and as many in one piece: each is answered by itself."""
    for number in range(count):
        same(client.ask(f"/{number}")[1], f"{client.to}/{number}".encode())
    client.send(b"".join(f"GET {client.to}/{number} HTTP/1.1\r\nHost: h\r\n\r\n".encode() for number in range(count)))
    same([body for _, body in read_answers(client.socket, count)], [f"{client.to}/{number}".encode() for number in range(count)])
    same(client.count, 1)
    return [f"{client.to}/{number}" for number in range(count)] * 2


def case_one_connection_for_a_hundred_requests():
    """A reverse proxy's server sees one connection of a client's, and the client's close on it."""
    with Keeps() as server, Mitm(mode=REVERSE) as mitm:
        with Client() as client:
            wanted = asks_many(client)
            same((server.asked, server.open), ([wanted], 1))
        wait_for(lambda: server.open == 0, "its close", SOON)
        same(len(mitm.new_lines(2 * HUNDRED)), 2 * HUNDRED)
        same(server.went_wrong, [])


def case_one_connection_in_regular_mode():
    with Keeps() as server, regular(), Client(f"http://127.0.0.1:{PEER}") as client:
        for number in range(HUNDRED):
            same(client.ask(f"/{number}")[1], f"/{number}".encode())
        same(server.asked, [[f"/{number}" for number in range(HUNDRED)]])


def case_one_connection_to_another_proxy():
    """It is kept for requests to any host, since the proxy is what is dialled."""
    with Keeps(port=ABOVE) as above, Mitm(mode=UPSTREAM):
        with Client("http://a.example") as client:
            wanted = asks_many(client)
            for host in ("http://b.example", "http://a.example:81"):
                client.to = host
                same(client.ask("/")[1], host.encode() + b"/")
                wanted.append(host + "/")
            same((above.asked, client.count), ([wanted], 1))


def case_one_connection_in_a_tunnel():
    """The one that the CONNECT made, straight and through another proxy, of which one tunnel is asked then."""
    for mode, port in (("", PEER), (UPSTREAM, ABOVE)):
        with Keeps(port=port) as server, Mitm(mode=mode):
            with Client() as client:
                wanted = asks_many(client.tunnels())
                same((server.asked, server.open), ([wanted], 1))
            wait_for(lambda: server.open == 0, "its close", SOON)


def case_another_host_in_between():
    """It is dialled, and the server of before is closed behind that: so the next request to that one dials too. Names are compared byte by byte."""
    with Keeps() as one, Keeps(port=OTHER) as other, regular(), Client() as client:
        for server, host, port, count in ((one, "127.0.0.1", PEER, 1), (one, "127.0.0.1", PEER, 1), (other, "127.0.0.1", OTHER, 1), (one, "127.0.0.1", PEER, 2),
                                          (one, "localhost", PEER, 3), (one, "localhost", PEER, 3), (one, "LOCALHOST", PEER, 4)):
            same(client.ask(f"http://{host}:{port}/a")[1], b"/a")
            same((host, port, server.count()), (host, port, count))
            away = one if server is other else other
            wait_for(lambda: (server.open, away.open) == (1, 0), "one open connection", SOON)
        same((client.count, one.asked, other.asked), (1, [["/a"] * 2, ["/a"], ["/a"] * 2, ["/a"]], [["/a"]]))


# ---- logins that hang on their connection

def login():
    """A server that answers 401 until the same connection has shown what it was asked to show there, as NTLM does it in two steps."""
    challenges, known = {}, set()

    def reply(asked):
        shown = asked.fields.get("authorization", "")
        if shown == "NTLM hello":
            challenges[asked.number] = base64.b64encode(os.urandom(9)).decode()
            return answer("401 Unauthorized", b"", f"WWW-Authenticate: NTLM {challenges[asked.number]}")
        if shown.startswith("NTLM ") and shown == f"NTLM by {challenges.pop(asked.number, None)}":
            known.add(asked.number)
        if asked.number in known:
            return by_path(asked)
        return answer("401 Unauthorized", b"", "WWW-Authenticate: NTLM")

    return Keeps(reply)


def logs_in(client):
    """The two steps, and a request behind them that shows nothing."""
    assert client.ask("/a")[0].startswith(b"HTTP/1.1 401 ")
    head, _ = client.ask("/a", "Authorization: NTLM hello")
    challenge = head.split(b"WWW-Authenticate: NTLM ")[1].split(b"\r\n")[0].decode()
    return [client.ask("/a", f"Authorization: NTLM by {challenge}")[1], client.ask("/b")[1]]


def case_login_that_hangs_on_its_connection():
    """It works, straight and in a tunnel; and nobody else is logged in by it."""
    for mode, tunnels in ((REVERSE, False), ("", True)):
        with login(), Mitm(mode=mode), Client() as client, Client() as other:
            for one in (client, other) if tunnels else ():
                one.tunnels()
            assert other.ask("/a")[0].startswith(b"HTTP/1.1 401 ")
            same(logs_in(client), [b"/a", b"/b"])
            assert other.ask("/a")[0].startswith(b"HTTP/1.1 401 "), "another client is logged in"
            same(client.ask("/c")[1], b"/c")


def case_login_by_curl():
    """NTLM as curl has it: the third message is taken where the connection is that of the second one."""
    if b"NTLM" not in curl("-V"):
        raise Skipped("curl has no NTLM")
    told, challenged = b"NTLMSSP\0" + struct.pack("<IHHII", 2, 0, 0, 32, 0x8201) + b"12345678", set()

    def reply(asked):
        words = asked.fields.get("authorization", "").split(" ")
        step = base64.b64decode(words[1])[8] if words[0] == "NTLM" else 0
        if step == 1:
            challenged.add(asked.number)
            return answer("401 Unauthorized", b"", "WWW-Authenticate: NTLM " + base64.b64encode(told).decode())
        if step == 3 and asked.number in challenged:
            return by_path(asked)
        return answer("401 Unauthorized", b"", "WWW-Authenticate: NTLM")

    with Keeps(reply) as server, regular():
        same(curl(*THROUGH, "--ntlm", "-u", "me:secret", f"http://127.0.0.1:{PEER}/a"), b"/a")
        same(server.asked, [["/a", "/a"]])


# ---- servers that close

def own_or_early(client, path, *more, **others):
    """Whether this request was answered by the server, with what is its own; else it was told that the server closed early."""
    head, got = client.ask(path, *more, **others)
    if head.startswith(b"HTTP/1.1 502 "):
        same(head + got, EARLY)
        return False
    same((head.split(b"\r\n")[0], got), (b"HTTP/1.1 200 OK", path.encode()))
    return True


def case_server_that_says_close():
    """It is dialled for each request, also where a rule hides that from the client; and so it is where a rule has the request say so."""
    def reply(asked):
        asked.connection.sendall(answer("200 OK", asked.target.encode(), "Connection: close"))

    for rules, count in (("", 10), ('modify_headers = ["/~s/Connection/"]\n', 1)):
        with Keeps(reply) as server, Mitm(rules, mode=REVERSE), Client() as client:
            same([client.ask(f"/{number}")[1] for number in range(10)], [f"/{number}".encode() for number in range(10)])
            same((server.asked, client.count), ([[f"/{number}"] for number in range(10)], count))
            wait_for(lambda: server.open == 0, "its close", SOON)
    with Keeps() as server, Mitm('modify_headers = ["/~q/Connection/close"]\n', mode=REVERSE), Client() as client:
        for count in range(1, 4):
            same(client.ask("/a")[1], b"/a")
            same(read_all(client.socket), b"")
            client.leave()
            wait_for(lambda: (server.asked, server.open) == ([["/a"]] * count, 0), "its close", SOON)


def case_server_that_closes_behind_each_answer():
    """It does not say so. Each request gets its own answer, or is told that its server closed early; and where the close had time to be heard the answer."""
    def reply(asked):
        asked.connection.sendall(by_path(asked))

    with Keeps(reply) as server, Mitm(mode=REVERSE), Client() as client:
        got = [own_or_early(client, f"/{number}") for number in range(HUNDRED)]
        same([targets for targets in server.asked if len(targets) > 1], [])
        for number in range(10):
            time.sleep(0.3)
            assert own_or_early(client, f"/later/{number}"), f"{number}: the close was there"
        # (a server that never answers would be told so each time)
        assert any(got), got


def case_server_that_keeps_for_fifty_milliseconds():
    """Requests come before, behind and beside its close: each gets its own answer, or is told that its server closed early."""
    def serve(connection):
        connection.settimeout(KEEPS)
        kept(connection)

    server = Keeps()
    kept, server.serve = server.serve, serve
    with server, Mitm(mode=REVERSE) as mitm, Client() as client:
        early = 0
        for number in range(5 * len(PAUSES)):
            time.sleep(PAUSES[number % len(PAUSES)])
            early += not own_or_early(client, f"/{number}")
        assert early < 5 * len(PAUSES), "none was answered"
        same(sum(one.endswith(" error: server closed early") for one in mitm.new_lines(5 * len(PAUSES))), early)


def closes_in(place, how):
    """A server that answers what comes first on a connection, and of the next request hears so many bytes; then it closes or resets."""
    def serve(connection):
        if read_until(connection, b"\r\n\r\n").startswith(b"GET /first "):
            connection.sendall(answer("200 OK", b"first"))
            read_exactly(connection, place)
            how(connection)
        else:
            connection.sendall(answer("200 OK", b"second"))
            connection.recv(1)

    return Peer(serve, PEER)


def case_server_that_closes_in_a_request():
    """That one is told so, streamed or not; it is not sent again, and the next one is dialled."""
    for options in ("", "stream_large_bodies = 1000\n"):
        for place, body in ((1, b""), (10, b""), (20, bytes(100)), (100, bytes(LARGE)), (LARGE // 2, bytes(LARGE))):
            for how in (close, reset):
                with closes_in(place, how), Mitm(options, mode=REVERSE) as mitm, Client() as client:
                    same(client.ask("/first")[1], b"first")
                    head, got = client.ask("/up", method="POST" if body else "GET", body=body)
                    same((place, head + got), (place, EARLY))
                    same(client.ask("/second")[1], b"second")
                    shown = mitm.new_lines(3)
                    same(shown[1], line("POST" if body else "GET", "/up", "-", "-", "server closed early", index=1, port=PEER))


def case_server_that_closes_in_a_response():
    """No part of it is sent on, or the part that came where it is streamed; and nothing of it goes to another request."""
    whole = answer("200 OK", b"second" * 10)

    def half(asked):
        if asked.place == 0:
            return answer("200 OK", b"first")
        asked.connection.sendall(whole[:cut])

    for cut in (1, 10, len(whole) - 60, len(whole) - 59, len(whole) - 1):
        with Keeps(half) as server, Mitm(mode=REVERSE), Client() as client:
            for number in range(3):
                same(client.ask(f"/{number}")[1], b"first")
                head, got = client.ask("/half")
                same((cut, head + got), (cut, EARLY))
            same(server.asked, [[f"/{number}", "/half"] for number in range(3)])
    cut = len(whole) - 1
    with Keeps(half), Mitm("stream_large_bodies = 10\n", mode=REVERSE) as mitm, Client() as client:
        same(client.ask("/first")[1], b"first")
        client.send(b"GET /half HTTP/1.1\r\n\r\n")
        same(read_all(client.socket), whole[:cut])
        same(mitm.new_lines(2)[1], line("GET", "/half", 200, "streamed", "server closed early", index=1, port=PEER))


def case_server_that_speaks_unasked():
    """A second answer, in one piece with the first or later, is no request's: the connection is closed, and the next request is dialled."""
    stray = answer("200 OK", b"stray")

    def at_once(asked):
        return by_path(asked) + (stray if asked.place == 0 else b"")

    def later(asked):
        asked.connection.sendall(by_path(asked))
        time.sleep(0.05)
        return b"HTTP/1.1 408 Request Timeout\r\nContent-Length: 0\r\nConnection: close\r\n\r\n"

    for reply in (at_once, later):
        with Keeps(reply) as server, Mitm(mode=REVERSE) as mitm, Client() as client:
            for number in range(5):
                same(client.ask(f"/{number}")[1], f"/{number}".encode())
                wait_for(lambda: server.open == 0, "the close of the one that spoke")
            same((server.asked, client.count), ([[f"/{number}"] for number in range(5)], 1))
            same(mitm.new_lines(5), [line("GET", f"/{number}", 200, 2, index=number, port=PEER) for number in range(5)])


def case_server_that_closes_while_a_request_is_held():
    """The close is heard behind the request, which an operator let go on: it is told so. The next one is dialled."""
    closes = threading.Event()

    def reply(asked):
        if asked.number > 0:
            return by_path(asked)
        asked.connection.sendall(by_path(asked))
        assert closes.wait(20)
        return None

    with Keeps(reply) as server, Operated("~q & ~u /held", mode=REVERSE) as mitm, Operator() as operator, Client() as client:
        same(client.ask("/a")[1], b"/a")
        client.send(b"GET /held HTTP/1.1\r\n\r\n")
        held = operator.held()
        closes.set()
        wait_for(lambda: server.open == 0, "the server's close")
        time.sleep(0.2)
        same(operator.ask(f"resume {held[0]}"), "ok")
        same(read_all(client.socket), EARLY)
        client.leave()
        same(client.ask("/b")[1], b"/b")
        same(mitm.new_lines(3)[1], line("GET", "/held", "-", "-", "server closed early", index=1, port=PEER))


# ---- what goes through a kept connection

def all_kinds(asked):
    """Answers of all kinds, by their paths."""
    if asked.method == "HEAD":
        return b"HTTP/1.1 200 OK\r\nContent-Length: 5\r\n\r\n"
    if asked.method == "POST":
        return answer("200 OK", asked.body)
    if asked.target == "/204":
        return b"HTTP/1.1 204 No Content\r\n\r\n"
    if asked.target == "/304":
        return b"HTTP/1.1 304 Not Modified\r\nContent-Length: 5\r\n\r\n"
    if asked.target == "/chunked":
        return b"HTTP/1.1 200 OK\r\nTransfer-Encoding: chunked\r\n\r\n5\r\nhello\r\n0\r\nX-Sum: 5\r\n\r\n"
    if asked.target == "/early":
        return b"HTTP/1.1 103 Early Hints\r\nLink: </a.css>\r\n\r\n" + answer("200 OK", b"late")
    if asked.target == "/large":
        return answer("200 OK", bytes(LARGE))
    if asked.target == "/chat":
        asked.connection.sendall(AGREES)
        while (got := read_frame(asked.connection))[0] == 0x80 | TEXT:
            asked.connection.sendall(frame(TEXT, b"heard " + got[1]))
        return None
    return by_path(asked)


NO_BODY = {b"/204": b"HTTP/1.1 204 No Content\r\n\r\n", b"/304": b"HTTP/1.1 304 Not Modified\r\nContent-Length: 5\r\n\r\n"}


def asks_all_kinds(client):
    """Each kind, with a request by its path in between, and each two kinds in one piece."""
    body = os.urandom(LARGE)
    kinds = [
        (b"GET /a HTTP/1.1\r\n\r\n", answer("200 OK", b"/a")),
        (b"HEAD /b HTTP/1.1\r\n\r\n", b"HTTP/1.1 200 OK\r\nContent-Length: 5\r\n\r\n"),
        *((b"GET %s HTTP/1.1\r\n\r\n" % path, whole) for path, whole in NO_BODY.items()),
        (b"GET /chunked HTTP/1.1\r\n\r\n", b"HTTP/1.1 200 OK\r\nTransfer-Encoding: chunked\r\n\r\n5\r\nhello\r\n0\r\nX-Sum: 5\r\n\r\n"),
        (b"GET /early HTTP/1.1\r\n\r\n", b"HTTP/1.1 103 Early Hints\r\nLink: </a.css>\r\n\r\n" + answer("200 OK", b"late")),
        (b"GET /large HTTP/1.1\r\n\r\n", answer("200 OK", bytes(LARGE))),
        (b"POST /up HTTP/1.1\r\nContent-Length: %d\r\n\r\n%s" % (LARGE, body), answer("200 OK", body)),
        (b"POST /up HTTP/1.1\r\nTransfer-Encoding: chunked\r\n\r\n3\r\nabc\r\n0\r\n\r\n", answer("200 OK", b"abc")),
        (b"POST /up HTTP/1.1\r\nTransfer-Encoding: chunked\r\n\r\n%x\r\n%s\r\n0\r\n\r\n" % (LARGE, body), answer("200 OK", body)),
    ]
    for sent, wanted in kinds:
        for more in (b"GET /next HTTP/1.1\r\n\r\n", kinds[1][0], kinds[4][0]):
            behind = next((whole for request, whole in kinds if request == more), answer("200 OK", b"/next"))
            client.send(sent)
            same(read_exactly(client.socket, len(wanted)), wanted)
            client.send(sent + more)
            same(read_exactly(client.socket, len(wanted + behind)), wanted + behind)


def case_answers_of_all_kinds_on_one_connection():
    """HEAD, codes without a body, chunks, interim responses, and bodies both ways, whole and streamed; at last a WebSocket, whose end is that of both."""
    for options in ("", "stream_large_bodies = 1000\n", "stream_large_bodies = 0\n"):
        with Keeps(all_kinds) as server, Mitm(options, mode=REVERSE):
            with Client() as client:
                asks_all_kinds(client)
                client.send(ASKS)
                same(read_exactly(client.socket, len(AGREES)), AGREES)
                for number in range(5):
                    client.send(frame(TEXT, b"%d" % number, True))
                    same(read_frame(client.socket), (0x80 | TEXT, b"heard %d" % number))
                same((server.count(), server.open, client.count), (1, 1, 1))
            wait_for(lambda: server.open == 0, "its close", SOON)


def case_many_clients_with_kept_servers():
    """Each is answered what it asked for, on a server's connection of its own."""
    failed = []

    def one(number):
        try:
            with Client() as client:
                for place in range(EACH):
                    same(client.ask(f"/{number}/{place}")[1], f"/{number}/{place}".encode())
                same(client.count, 1)
        except (AssertionError, OSError) as error:
            failed.append(f"{number}: {error}")

    with Keeps() as server, Mitm(mode=REVERSE) as mitm:
        before = mitm.sockets()
        threads = [threading.Thread(target=one, args=(number,)) for number in range(CLIENTS)]
        for thread in threads:
            thread.start()
        for thread in threads:
            thread.join()
        assert not failed, failed[:3]
        same(sorted(server.asked), sorted([[f"/{number}/{place}" for place in range(EACH)] for number in range(CLIENTS)]))
        same(len(mitm.new_lines(CLIENTS * EACH)), CLIENTS * EACH)
        wait_for(lambda: (server.open, mitm.sockets()) == (0, before), "all sockets to be let go of")


# ---- how long it is kept

def case_client_that_leaves_a_kept_server():
    """Its close or its reset closes the server's connection, between requests and in a part of one; so does the run's end."""
    for leave in (close, reset):
        for part in (b"", b"GET /b HT", b"POST /b HTTP/1.1\r\nContent-Length: 5\r\n\r\nhe"):
            with Keeps() as server, Mitm(mode=REVERSE) as mitm, Client() as client:
                before = mitm.sockets()
                same(client.ask("/a")[1], b"/a")
                client.send(part)
                same(server.open, 1)
                leave(client.socket)
                wait_for(lambda: server.open == 0, "the server's close", SOON)
                wait_for(lambda: mitm.sockets() == before, "its sockets to be closed")
                client.leave()


def case_request_at_fault_behind_a_kept_server():
    """The client is told, and both are closed."""
    with Keeps() as server, Mitm(mode=REVERSE), Client() as client:
        same(client.ask("/a")[1], b"/a")
        client.send(b"GET / HTTP/1.1\r\nHost : x\r\n\r\n")
        assert read_all(client.socket).endswith(b"malformed head\n")
        wait_for(lambda: server.open == 0, "the server's close", SOON)
        same(server.asked, [["/a"]])


def case_client_replay_keeps_no_server():
    """Each request that is sent again has a connection of its own, which is closed behind its flow, while the run goes on."""
    with save_file() as path:
        put(path, b"".join(flow_of(f"/{place}", port=PEER) for place in range(10)))
        with Keeps() as server, Operated("~q", sends(path)) as mitm, Operator() as operator:
            for place in range(10):
                same(operator.held(), [f"{FIRST + place}.0"])
                wait_for(lambda: server.open == 0, "the close behind the flow before", SOON)
                same(operator.ask(f"resume {FIRST + place}.0"), "ok")
            same(len(mitm.new_lines(10)), 10)
            wait_for(lambda: server.open == 0, "the last one's close", SOON)
            same(server.asked, [[f"/{place}"] for place in range(10)])


def case_descriptors_of_idle_clients():
    """One with a kept server holds two; where the server closed, or was closed, one."""
    with Keeps() as server, Mitm(mode=REVERSE) as mitm:
        before = mitm.sockets()
        clients = [Client() for _ in range(IDLE)]
        for number, client in enumerate(clients):
            same(client.ask(f"/{number}")[1], f"/{number}".encode())
        same((server.open, mitm.sockets()), (IDLE, before + 2 * IDLE))
        for client in clients:
            client.leave()
        wait_for(lambda: mitm.sockets() == before, "its sockets to be closed")

    def keeps_no_more(asked):
        asked.connection.sendall(by_path(asked))

    with Keeps(keeps_no_more) as server, Mitm(mode=REVERSE) as mitm:
        before = mitm.sockets()
        clients = [Client() for _ in range(IDLE)]
        for number, client in enumerate(clients):
            same(client.ask(f"/{number}")[1], f"/{number}".encode())
        wait_for(lambda: mitm.sockets() == before + IDLE, "what the server closed to be let go of")
        for client in clients:
            client.leave()


KEEPING_CASES = [
    case_one_connection_for_a_hundred_requests, case_one_connection_in_regular_mode, case_one_connection_to_another_proxy, case_one_connection_in_a_tunnel,
    case_another_host_in_between, case_login_that_hangs_on_its_connection, case_login_by_curl, case_server_that_says_close,
    case_server_that_closes_behind_each_answer, case_server_that_keeps_for_fifty_milliseconds, case_server_that_closes_in_a_request,
    case_server_that_closes_in_a_response, case_server_that_speaks_unasked, case_server_that_closes_while_a_request_is_held,
    case_answers_of_all_kinds_on_one_connection, case_many_clients_with_kept_servers, case_client_that_leaves_a_kept_server,
    case_request_at_fault_behind_a_kept_server, case_client_replay_keeps_no_server, case_descriptors_of_idle_clients,
]
