"""Cases of mode `socks5`: curl and a browser as its clients, addresses of each type, refusals, and clients of other protocols."""
import shutil
import socket
import tempfile
import time

from door_cases import has_ipv6
from operator_cases import DOOR
from page_cases import BROWSERS, shown_by
from tools import ORIGIN, PROXY, Mitm, Origin, Skipped, curl, line, read_all, run_curl, same, talk, wait_for
from tunnel_cases import NOBODY, OTHER, PEER, Peer, Secured, close, read_head, reset
from websocket_cases import TEXT, accept_of, frame, page_of, read_frame

PLACE = f"127.0.0.1:{PROXY[1]}"
BY_ADDRESS, BY_NAME = ("--socks5", PLACE), ("--socks5-hostname", PLACE)
HELLO = b"\x05\x01\x00"
WELCOME = b"\x05\x00"
FREE = bytes((0, 1, 0, 0, 0, 0, 0, 0))
STANDS, FAILED, NO_COMMAND, NO_TYPE = (bytes((5, code)) + FREE for code in (0, 1, 7, 8))


def socks(options="", **others):
    return Mitm(options, mode='mode = "socks5"\n', **others)


def named(host, port):
    """A request to connect to a host by its name."""
    return b"\x05\x01\x00\x03" + bytes((len(host),)) + host + port.to_bytes(2, "big")


def connect(port=PEER, behind=b""):
    """A client whose server is connected."""
    client = socket.create_connection(PROXY, timeout=20)
    client.sendall(HELLO + named(b"127.0.0.1", port) + behind)
    got = b""
    while len(got) < len(WELCOME + STANDS):
        piece = client.recv(len(WELCOME + STANDS) - len(got))
        assert piece, got
        got += piece
    same(got, WELCOME + STANDS)
    return client


def case_curl_by_address_and_by_name():
    """Where curl looks the name up the line has an address, and else the name. Two requests go on one connection at both ends."""
    with socks("modify_headers = [\"/~q/X-Seen/yes\"]\n") as mitm:
        same(mitm.notes(), [f"listening at {PLACE}, for clients of SOCKS5"])
        same(curl(*BY_ADDRESS, f"http://127.0.0.1:{ORIGIN}/a", f"http://127.0.0.1:{ORIGIN}/b"), b"/a\n/b\n")
        same(mitm.new_lines(2), [line("GET", "/a", 200, 3), line("GET", "/b", 200, 3, index=1)])
        got = curl(*BY_NAME, f"http://localhost:{ORIGIN}/head")
        assert b"X-Seen: yes\n" in got, got
        shown = mitm.new_lines(1)
        assert shown[0].startswith(f".0 GET http://localhost:{ORIGIN}/head 200 "), shown


def case_bodies_both_ways():
    body = bytes(range(256)) * 4000
    with socks() as mitm:
        same(curl(*BY_ADDRESS, "--data-binary", "@-", f"http://127.0.0.1:{ORIGIN}/echo", data=body), body)
        same(mitm.new_lines(1), [line("POST", "/echo", 200, len(body))])


def case_curl_that_has_a_password():
    """It offers both methods, and goes on without."""
    with socks() as mitm:
        same(curl("-x", f"socks5://user:word@{PLACE}", f"http://127.0.0.1:{ORIGIN}/a"), b"/a\n")
        same(mitm.new_lines(1), [line("GET", "/a", 200, 3)])


def case_server_of_ipv6():
    """An address of sixteen bytes stands in full in the line."""
    if not has_ipv6():
        raise Skipped("there is no IPv6 here")

    def serve(connection):
        read_head(connection)
        connection.sendall(b"HTTP/1.1 200 OK\r\nContent-Length: 3\r\nConnection: close\r\n\r\nsix")

    with Peer(serve, PEER, "::1", socket.AF_INET6), socks() as mitm:
        same(curl("-g", *BY_ADDRESS, f"http://[::1]:{PEER}/a"), b"six")
        same(mitm.new_lines(1), [f".0 GET http://[0:0:0:0:0:0:0:1]:{PEER}/a 200 3"])


def case_https_goes_through_unread():
    with Secured() as secured, socks() as mitm:
        same(curl(*BY_ADDRESS, "--cacert", secured.certificate, f"https://127.0.0.1:{PEER}/a"), b"/a\n")
        same(mitm.lines(), [])


def case_server_that_speaks_first():
    with Peer(lambda connection: connection.sendall(b"220 here\r\n")), socks() as mitm:
        with connect() as client:
            same(read_all(client), b"220 here\r\n")
        same(mitm.lines(), [])


def case_nobody_there():
    with socks() as mitm:
        for words in (BY_ADDRESS, BY_NAME):
            status, _, err = run_curl(*words, f"http://127.0.0.1:{NOBODY}/")
            assert status == 97, (status, err)
        same(talk(HELLO + named(b"127.0.0.1", NOBODY) + b"GET / HTTP/1.1\r\n\r\n"), WELCOME + FAILED)
        same(talk(HELLO + named(b"no.such.name.invalid", 80)), WELCOME + FAILED)
        same(mitm.lines(), [])


def case_own_doors_are_not_dialled():
    """Neither where clients connect nor where operators do."""
    with socks(f'control = "127.0.0.1:{DOOR[1]}"\n') as mitm:
        for host in (b"127.0.0.1", b"localhost"):
            for port in (PROXY[1], DOOR[1]):
                same(talk(HELLO + named(host, port) + b"quit\n"), WELCOME + FAILED)
        assert mitm.process.poll() is None, "it ended"


def case_refused_by_a_byte():
    """Each is answered and closed as soon as its byte is there, though its client waits."""
    cases = (
        (b"\x05\x02\x01\x02", b"\x05\xff"), (b"\x05\x00", b"\x05\xff"), (HELLO + b"\x04", WELCOME + FAILED), (HELLO + b"\x05\x02", WELCOME + NO_COMMAND),
        (HELLO + b"\x05\x03", WELCOME + NO_COMMAND), (HELLO + b"\x05\x01\x07", WELCOME + FAILED), (HELLO + b"\x05\x01\x00\x02", WELCOME + NO_TYPE),
        (HELLO + named(b"", 80), WELCOME + FAILED), (HELLO + named(b"h", 0), WELCOME + FAILED), (HELLO + named(b"a b", 80), WELCOME + FAILED),
    )
    with socks() as mitm:
        for sent, wanted in cases:
            began = time.time()
            same((sent, talk(sent)), (sent, wanted))
            same((sent, talk(sent, 1)), (sent, wanted))
            assert time.time() - began < 2, sent
        same(mitm.lines(), [])


def case_clients_of_other_protocols():
    """HTTP, TLS and SOCKS4 are closed at their first byte, and nothing is said."""
    with socks() as mitm:
        for sent in (b"GET http://h/ HTTP/1.1\r\nHost: h\r\n\r\n", b"\x16\x03\x01\x02\x00\x01", b"\x04\x01\x00P\x7f\x00\x00\x01\x00", b"\x00"):
            began = time.time()
            with socket.create_connection(PROXY, timeout=20) as client:
                client.sendall(sent)
                try:
                    same((sent, read_all(client)), (sent, b""))
                except ConnectionResetError:
                    pass
            assert time.time() - began < 2, sent
        same(curl(*BY_ADDRESS, f"http://127.0.0.1:{ORIGIN}/a"), b"/a\n")
        same(mitm.new_lines(1), [line("GET", "/a", 200, 3)])


def case_who_vanishes():
    """A client or a server that closes or resets, at each place of what is said first and behind it: all is let go of."""
    held = []

    def hold(connection):
        held.append(connection.dup())
        connection.recv(1)

    with Peer(hold), socks() as mitm:
        before = mitm.sockets()
        whole = HELLO + named(b"127.0.0.1", PEER)
        for leave in (close, reset):
            for size in range(len(whole) + 1):
                client = socket.create_connection(PROXY)
                client.sendall(whole[:size])
                leave(client)
            for behind in (b"", b"GE", b"\x16", b"GET / HTTP/1.1\r\n"):
                leave(connect(behind=behind))
                with connect(behind=behind):
                    wait_for(lambda: len(held) > 0, "the server")
                    while held:
                        leave(held.pop())
                    time.sleep(0.05)
        while held:
            held.pop().close()
        wait_for(lambda: mitm.sockets() == before, "all sockets to be let go of")
        same(mitm.lines(), [])


def case_page_in_a_browser():
    """A page with its style sheet and its picture from a host by its address and from one by its name, changed; and one whose WebSocket's messages are."""
    browser = next((path for path in map(shutil.which, BROWSERS) if path), None)
    if browser is None:
        raise Skipped("there is no browser (the package chromium of Debian)")
    through = (f"--proxy-server=socks5://{PLACE}", "--proxy-bypass-list=<-loopback>")
    rules = 'modify_body = ["|~ts html|the old word|the new word", "/hello/good day", "/heard/read"]\nmodify_headers = ["/~q/Sec-WebSocket-Extensions/"]\n'

    def serve(connection):
        while True:
            head = read_head(connection)
            if b"GET /chat" not in head:
                connection.sendall(page_of(head))
                continue
            connection.sendall(accept_of(head))
            _, payload = read_frame(connection)
            connection.sendall(frame(TEXT, b"heard " + payload))
            connection.recv(1)

    with tempfile.TemporaryDirectory() as home, Origin(OTHER), Peer(serve), socks(rules) as mitm:
        if "<p>here</p>" not in shown_by(browser, home, "data:text/html,<p>here</p>"):
            raise Skipped(f"{browser} does not run here")
        for place in (f"127.0.0.1:{ORIGIN}", f"localhost:{OTHER}"):
            shown = shown_by(browser, home, f"http://{place}/page", *through)
            assert '<p id="text">the new word</p>' in shown and '<p id="rule">p { color: rgb(1, 2, 3); }</p>' in shown, shown
            lines = mitm.new_lines(3)
            for path in ("/page", "/page.css", "/dot.png"):
                assert any(f" GET http://{place}{path} 200 " in one for one in lines), (place, path, lines)
        # (its time runs on while a message is awaited, so a browser on a busy machine may be done too early)
        for budget in (3_000, 10_000, 30_000, 100_000):
            shown = shown_by(browser, home, f"http://127.0.0.1:{PEER}/page", f"--virtual-time-budget={budget}", *through)
            if '<p id="text">read good day</p>' in shown:
                return
        raise AssertionError(shown)


SOCKS_CASES = [
    case_curl_by_address_and_by_name, case_bodies_both_ways, case_curl_that_has_a_password, case_server_of_ipv6, case_https_goes_through_unread,
    case_server_that_speaks_first, case_nobody_there, case_own_doors_are_not_dialled, case_refused_by_a_byte, case_clients_of_other_protocols, case_who_vanishes,
    case_page_in_a_browser,
]
