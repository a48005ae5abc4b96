"""Cases of the two doors: the program dials neither of its own; a page is no operator; lines are worked off one by one; clients wait before descriptors
run out; and sockets whose peers never close are let go of."""
import contextlib
import resource
import socket
import threading
import time

from mode_cases import BAD_TARGET
from operator_cases import CONTROL, DOOR, REQUESTS, Operated, Operator, ended, goes_through, resident, sender
from tools import ORIGIN, PROXY, Mitm, Skipped, get, line, read_all, read_answers, same, talk, wait_for
from tunnel_cases import Peer

CANNOT = b"cannot connect\n"
METHODS = ("GET", "HEAD", "POST", "PUT", "DELETE", "OPTIONS", "TRACE", "PATCH")
# So many flows are live while so many lines come at once; then this is the longest that anybody else waits, and the most memory that it takes.
LIVE, LINES = 200, 5_000
MOST_SECONDS, MOST_GROWN = 1.0, 8_000_000
# How long a socket that was shut is kept, at least and at most, with and without bytes of its peer.
QUIET, LONGEST, SLACK = 5, 30, 4


def asked(host, port, method="GET", body=b""):
    """The answer to a request of a regular proxy for this server."""
    head = f"{method} http://{host}:{port}/ HTTP/1.1\r\nHost: x\r\nConnection: close\r\nContent-Length: {len(body)}\r\n\r\n"
    return talk(head.encode() + body)


def tunnel(host, port):
    return talk(f"CONNECT {host}:{port} HTTP/1.1\r\nHost: x\r\n\r\n".encode())


def refuses(host, port):
    """Nobody is connected to there, neither by a request nor by a tunnel."""
    for got in (asked(host, port, "POST", b"quit\n"), tunnel(host, port)):
        assert got.startswith(b"HTTP/1.1 502 ") and got.endswith(CANNOT), (host, port, got)


def lives(mitm):
    same(asked("127.0.0.1", ORIGIN).split(b"\r\n\r\n")[1], b"/\n")
    assert mitm.process.poll() is None, f"it ended with {mitm.process.returncode}"


def has_ipv6():
    try:
        socket.create_server(("::1", 0), family=socket.AF_INET6).close()
    except OSError:
        return False
    return True


def case_own_doors_are_not_dialled():
    """By any name that they have: a page that uses the proxy, and whoever reaches it, say nothing at the operators' door through it."""
    with Operated(REQUESTS, mode="") as mitm:
        for port in (PROXY[1], DOOR[1]):
            for host in ("127.0.0.1", "localhost", "0.0.0.0", "[::ffff:127.0.0.1]", "[::ffff:7f00:1]"):
                refuses(host, port)
        # (these are not where it listens)
        with Peer(lambda connection: connection.sendall(b"HTTP/1.1 200 OK\r\nContent-Length: 3\r\n\r\nhi\n"), DOOR[1], "127.0.0.2"):
            assert asked("127.0.0.2", DOOR[1]).endswith(b"\r\n\r\nhi\n"), "another address's server was not asked"
        lives(mitm)


def case_own_doors_that_listen_everywhere():
    """Each address of this machine is a door's then, and its ports alone are."""
    everywhere = 'listen = "0.0.0.0:8080"\ncontrol = "0.0.0.0:8081"\n'
    with Mitm(everywhere, mode="", port=PROXY[1], at="0.0.0.0") as mitm:
        for port in (PROXY[1], DOOR[1]):
            for host in ("127.0.0.1", "127.0.0.2", "127.1.2.3", "localhost", "0.0.0.0", "[::ffff:127.9.9.9]"):
                refuses(host, port)
        lives(mitm)
    if not has_ipv6():
        raise Skipped("there is no IPv6 here")
    with Mitm('listen = "[::]:8080"\n', mode="", at="::") as mitm:
        for host in ("[::1]", "[::]", "127.0.0.1", "127.0.0.2", "[::ffff:127.0.0.1]"):
            refuses(host, PROXY[1])
        lives(mitm)


def case_proxies_of_themselves():
    """A reverse proxy whose server is itself, and one that is its own proxy above, ask nobody."""
    for kind in ("reverse", "upstream"):
        with Mitm(mode=f'mode = "{kind}:http://127.0.0.1:{PROXY[1]}"\n') as mitm:
            got = asked("127.0.0.1", ORIGIN)
            assert got.startswith(b"HTTP/1.1 502 ") and got.endswith(CANNOT), got
            same(len(mitm.new_lines(1)), 1)


def case_regular_proxy_asked_for_itself():
    with Mitm(mode="") as mitm:
        assert asked(*PROXY).endswith(CANNOT), "it was asked"
        same(mitm.new_lines(1), [line("GET", "/", "-", "-", "cannot connect", port=PROXY[1])])
        same(talk(get("/")), BAD_TARGET)


def said_at_the_door(pieces):
    """What comes at the operators' door behind these pieces, until it is closed."""
    with Operator() as operator:
        with contextlib.suppress(ConnectionError):
            for piece in pieces:
                operator.say(piece)
                time.sleep(0.01 if len(pieces) > 1 else 0)
        return ended(operator.socket)


def case_request_at_the_operators_door():
    """A connection that begins with a request is shut, and none of its lines is heard; the words of operators begin otherwise."""
    with Operated() as mitm, Operator() as operator:
        # (an operator who was answered was let in)
        same(operator.flows(), {})
        before = mitm.sockets()
        for method in METHODS:
            text = f"{method} / HTTP/1.1\r\nHost: x\r\n\r\nlist\nquit\n"
            for pieces in ([text], list(text[:len(method) + 1]) + [text[len(method) + 1:]], [text[:2], text[2:]]):
                same((method, said_at_the_door(pieces)), (method, b""))
        for text in ("GET\n", "get / HTTP/1.1\n", "POSTAL x\n", " GET /\n", "CONNECT x HTTP/1.1\n", "\nGET / HTTP/1.1\n"):
            with Operator() as other:
                same((text, other.ask(text.removesuffix("\n"))), (text, "unknown command"))
        with Operator() as other:
            other.say("PO")
            other.socket.shutdown(socket.SHUT_WR)
            same(read_all(other.socket), b"")
        same(operator.flows(), {})
        goes_through()
        assert mitm.process.poll() is None, f"it ended with {mitm.process.returncode}"
        wait_for(lambda: mitm.sockets() <= before, "their sockets to be closed")


def case_many_lines_at_once():
    """Others are served between them, and the answers are made as they are taken."""
    with Operated(REQUESTS) as mitm, Operator() as operator:
        clients = [sender(get(f"/held/{number}")) for number in range(LIVE)]
        names = operator.held(LIVE)
        memory = resident(mitm)
        with Operator() as flooding:
            sending = threading.Thread(target=lambda: flooding.say("list\n" * LINES), daemon=True)
            sending.start()
            longest = 0
            for number in range(20):
                began = time.monotonic()
                goes_through(f"/free/{number}")
                longest = max(longest, time.monotonic() - began)
            assert longest < MOST_SECONDS, f"others waited for {longest:.2f} s"
            assert resident(mitm) - memory < MOST_GROWN, f"it grew by {resident(mitm) - memory} bytes"
            for _ in range(LINES):
                # (one of those that are free may be live just then)
                found = flooding.read_flows()
                assert set(names) <= set(found) and len(found) <= len(names) + 1, sorted(set(found) ^ set(names))
            sending.join()
        for client in clients:
            client.close()


def case_lines_are_events():
    """Each line of an operator is one of the things that are heard, however many come at once: so a run with few ends among them. What it has
    answered by then is not lost over those that nobody read."""
    with Operated(options="events = 20\n") as mitm, Operator() as operator:
        operator.say("list\n" * 100)
        answers = operator.stream.read().decode().splitlines()
        same(mitm.process.wait(10), 6)
        assert 0 < len(answers) < 20 and set(answers) == {"end"}, answers


def case_waits_at_the_door_while_few_descriptors_are_free():
    """None is let in while fewer than a tenth of them are free, or than 16: these are for operators, files and servers. Who waits is let in once some are."""
    with Peer(lambda connection: connection.recv(1)) as server, Operated(mode="") as mitm:
        own, most = mitm.sockets(), 60
        resource.prlimit(mitm.process.pid, resource.RLIMIT_NOFILE, (most, most))
        clients = [socket.create_connection(PROXY, timeout=20) for _ in range(most)]
        wait_for(lambda: mitm.sockets() >= most - 17, "the clients to be let in")
        time.sleep(0.3)
        inside = mitm.sockets()
        assert most - 17 <= inside <= most - 15, f"{inside} descriptors are in use of {most}, and it had {own}"
        with Operator() as operator:
            same(operator.flows(), {})
            clients[0].sendall(b"CONNECT 127.0.0.1:%d HTTP/1.1\r\n\r\n" % server.port)
            assert clients[0].recv(1000).startswith(b"HTTP/1.1 200 "), "no server was dialled"
        late = clients[-1]
        late.sendall(f"GET http://127.0.0.1:{ORIGIN}/late HTTP/1.1\r\nHost: x\r\n\r\n".encode())
        late.settimeout(0.3)
        with contextlib.suppress(TimeoutError):
            raise AssertionError(f"it was let in, and got {late.recv(100)!r}")
        for client in clients[:most // 2]:
            client.close()
        late.settimeout(20)
        same([body for _, body in read_answers(late, 1)], [b"/late\n"])
        for client in clients:
            client.close()
        wait_for(lambda: mitm.sockets() <= own, "all sockets to be let go of")


class Lasting(threading.Thread):
    """A client that was answered to its end, and goes on to send, and never closes."""

    def __init__(self, sends):
        super().__init__(daemon=True)
        self.client, self.sends, self.stops = socket.create_connection(PROXY, timeout=20), sends, threading.Event()
        self.client.sendall(get("/a", "Connection: close"))
        assert read_all(self.client).endswith(b"/a\n"), "it was not answered"
        self.start()

    def run(self):
        with contextlib.suppress(OSError):
            while not self.stops.wait(0.5):
                if self.sends:
                    self.client.send(b"x")

    def end(self):
        self.stops.set()
        self.join()
        self.client.close()


def case_peers_that_never_close():
    """Behind its answer a client keeps its socket, and a descriptor here for some seconds; one that goes on to send for half a minute at most."""
    with Mitm() as mitm:
        before = mitm.sockets()
        began = time.monotonic()
        ones = [Lasting(False), Lasting(True)]
        time.sleep(QUIET - 2)
        assert mitm.sockets() >= before + 2, "their sockets were closed at once"
        wait_for(lambda: mitm.sockets() <= before + 1, "the quiet one to be let go of", SLACK + 2)
        wait_for(lambda: mitm.sockets() <= before, "the other to be let go of", LONGEST + SLACK)
        took = time.monotonic() - began
        for one in ones:
            one.end()
        assert LONGEST - 2 <= took <= LONGEST + SLACK, f"the other was let go of behind {took:.0f} s"


DOOR_CASES = [
    case_own_doors_are_not_dialled, case_own_doors_that_listen_everywhere, case_proxies_of_themselves, case_regular_proxy_asked_for_itself,
    case_request_at_the_operators_door, case_many_lines_at_once, case_lines_are_events, case_waits_at_the_door_while_few_descriptors_are_free,
    case_peers_that_never_close,
]
