"""Cases of CONNECT, tunnels and answers of code 101: `https` unread, HTTP in a tunnel seen, many bytes both ways, and whoever vanishes."""
import hashlib
import os
import shutil
import socket
import ssl
import subprocess
import tempfile
import threading
import time

from page_cases import BROWSERS, shown_by
from tools import ORIGIN, PROXY, Mitm, Origin, Skipped, curl, line, run_curl, same, wait_for

OTHER = 9001
PEER = 9002
NOBODY = 9
THROUGH = ("-x", f"http://127.0.0.1:{PROXY[1]}")
CONNECTED = b"HTTP/1.1 200 Connection established\r\n\r\n"
MANY = 100 * 1024 * 1024


def regular(options=""):
    return Mitm(options, mode="")


def connect(port=PEER, behind=b""):
    """A client of the proxy whose tunnel stands."""
    client = socket.create_connection(PROXY, timeout=20)
    client.setsockopt(socket.IPPROTO_TCP, socket.TCP_NODELAY, 1)
    client.sendall(b"CONNECT 127.0.0.1:%d HTTP/1.1\r\n\r\n" % port + behind)
    got = b""
    while len(got) < len(CONNECTED):
        piece = client.recv(len(CONNECTED) - len(got))
        assert piece, got
        got += piece
    same(got, CONNECTED)
    return client


class Peer:
    """A server that hands each connection to a function, in a thread."""

    def __init__(self, serve, port=PEER, host="127.0.0.1", family=socket.AF_INET):
        self.serve, self.port, self.host, self.family, self.went_wrong = serve, port, host, family, []

    def __enter__(self):
        self.listener = socket.create_server((self.host, self.port), family=self.family)
        threading.Thread(target=self.accept, daemon=True).start()
        return self

    def accept(self):
        while True:
            try:
                connection, _ = self.listener.accept()
            except OSError:
                return
            threading.Thread(target=self.one, args=(connection,), daemon=True).start()

    def one(self, connection):
        try:
            with connection:
                self.serve(connection)
        except (OSError, AssertionError) as why:
            self.went_wrong.append(why)

    def __exit__(self, *_):
        self.listener.shutdown(socket.SHUT_RDWR)
        self.listener.close()


class Secured:
    """The origin behind TLS, with a certificate of its own."""

    def __enter__(self):
        if shutil.which("openssl") is None:
            raise Skipped("openssl is missing")
        self.folder = tempfile.TemporaryDirectory()
        self.certificate = os.path.join(self.folder.name, "certificate")
        key = os.path.join(self.folder.name, "key")
        subprocess.run(["openssl", "req", "-x509", "-newkey", "rsa:2048", "-nodes", "-days", "2", "-subj", "/CN=127.0.0.1", "-addext",
                        "subjectAltName=IP:127.0.0.1", "-keyout", key, "-out", self.certificate], check=True, capture_output=True)
        self.context = ssl.SSLContext(ssl.PROTOCOL_TLS_SERVER)
        self.context.load_cert_chain(self.certificate, key)
        self.peer = Peer(self.serve)
        self.peer.__enter__()
        return self

    def serve(self, connection):
        """Between a client and the origin, TLS taken off."""
        with self.context.wrap_socket(connection, server_side=True) as client, socket.create_connection(("127.0.0.1", ORIGIN)) as origin:
            back = threading.Thread(target=copy, args=(origin, client), daemon=True)
            back.start()
            copy(client, origin)
            back.join(10)

    def __exit__(self, *_):
        self.peer.__exit__()
        self.folder.cleanup()


def copy(source, target):
    try:
        while piece := source.recv(65536):
            target.sendall(piece)
        target.shutdown(socket.SHUT_WR)
    except OSError:
        pass


def case_https_goes_through_unread():
    """A tunnel is no flow: no line of it is printed, and the origin's certificate is the client's to check."""
    with Secured() as secured, regular() as mitm:
        same(curl(*THROUGH, "--cacert", secured.certificate, f"https://127.0.0.1:{PEER}/a"), b"/a\n")
        body = bytes(range(256)) * 4000
        same(curl(*THROUGH, "--cacert", secured.certificate, "--data-binary", "@-", f"https://127.0.0.1:{PEER}/echo", data=body), body)
        status, _, _ = run_curl(*THROUGH, f"https://127.0.0.1:{PEER}/a")
        assert status == 60, status
        same(mitm.lines(), [])


def case_http_in_a_tunnel_is_seen():
    """Its requests go to the server that is connected."""
    with regular("modify_headers = [\"/~q/X-Seen/yes\"]\n") as mitm:
        got = curl(*THROUGH, "-p", f"http://127.0.0.1:{ORIGIN}/head", f"http://127.0.0.1:{ORIGIN}/a")
        assert b"X-Seen: yes\n" in got and got.endswith(b"/a\n"), got
        shown = [one.rsplit(" ", 1)[0] for one in mitm.new_lines(2)]
        same(shown, [line("GET", "/head", 200, "").rstrip(), line("GET", "/a", 200, "", index=1).rstrip()])


def case_tunnel_to_nobody():
    with regular() as mitm:
        status, _, err = run_curl(*THROUGH, f"https://127.0.0.1:{NOBODY}/")
        assert status == 56 and b"502" in err, (status, err)
        same(mitm.lines(), [])


def case_tunnel_in_reverse_mode():
    """A reverse proxy's client may not ask for a tunnel."""
    with Mitm() as mitm:
        status, _, err = run_curl(*THROUGH, f"https://127.0.0.1:{ORIGIN}/")
        assert status == 56 and b"400" in err, (status, err)
        same(mitm.lines(), [])


def stream_of(seed, size):
    """So many bytes, in pieces of odd sizes, and their sum."""
    sizes, summed, pieces = (1, 4096, 70001, 333, 65536), hashlib.sha256(), []
    block = hashlib.sha512(seed).digest() * 2048
    at = 0
    while at < size:
        piece = block[:min(sizes[len(pieces) % len(sizes)], size - at)]
        summed.update(piece)
        pieces.append(piece)
        at += len(piece)
    return pieces, summed.hexdigest()


def both_ways(connection, sent, wanted, size):
    """Sends pieces in a thread while it reads so many bytes, whose sum has to be this."""
    sender = threading.Thread(target=lambda: [connection.sendall(piece) for piece in sent], daemon=True)
    sender.start()
    summed, got = hashlib.sha256(), 0
    while got < size:
        piece = connection.recv(1 << 18)
        assert piece, f"closed after {got} bytes"
        summed.update(piece)
        got += len(piece)
    sender.join(60)
    same((summed.hexdigest(), sender.is_alive()), (wanted, False))


def case_many_bytes_both_ways_at_once():
    """100 MB each way, in pieces that cross."""
    up, up_sum = stream_of(b"up", MANY)
    down, down_sum = stream_of(b"down", MANY)
    done = threading.Event()

    def serve(connection):
        same(connection.recv(1), b"\0")
        both_ways(connection, down, up_sum, MANY)
        done.set()
        connection.recv(1)

    with Peer(serve) as peer, regular() as mitm:
        with connect(behind=b"\0") as client:
            both_ways(client, up, down_sum, MANY)
            assert done.wait(30), peer.went_wrong
        same(mitm.lines(), [])


def case_response_of_code_101():
    """Behind it bytes go both ways, at once, and the line of the flow is printed when they end."""
    up, up_sum = stream_of(b"up", MANY)
    down, down_sum = stream_of(b"down", MANY)
    switched = b"HTTP/1.1 101 Switching Protocols\r\nUpgrade: chat\r\nConnection: upgrade\r\n\r\n"
    done = threading.Event()

    def serve(connection):
        read_head(connection)
        connection.sendall(switched)
        both_ways(connection, down, up_sum, MANY)
        done.set()
        connection.recv(1)

    with Peer(serve) as peer, Mitm(mode=f'mode = "reverse:http://127.0.0.1:{PEER}"\n') as mitm:
        with socket.create_connection(PROXY, timeout=20) as client:
            client.sendall(b"GET /chat HTTP/1.1\r\nUpgrade: chat\r\nConnection: upgrade\r\n\r\n")
            same(read_head(client), switched)
            both_ways(client, up, down_sum, MANY)
            assert done.wait(30), peer.went_wrong
            same(mitm.lines(), [])
        same(mitm.new_lines(1), [line("GET", "/chat", 101, 0, port=PEER)])


def read_head(connection):
    """A head, a byte at a time, so that nothing behind it is read."""
    head = b""
    while not head.endswith(b"\r\n\r\n"):
        byte = connection.recv(1)
        assert byte, head
        head += byte
    return head


def close(one):
    one.close()


def reset(one):
    one.setsockopt(socket.SOL_SOCKET, socket.SO_LINGER, b"\1\0\0\0\0\0\0\0")
    one.close()


def case_who_vanishes():
    """A client or a server that closes or resets, before the dial is answered, behind it and while bytes go: each time all is let go of."""
    held = []

    def hold(connection):
        held.append(connection.dup())
        connection.recv(1)

    with Peer(hold), regular() as mitm:
        before = mitm.sockets()
        for leave in (close, reset):
            client = socket.create_connection(PROXY)
            client.sendall(b"CONNECT 127.0.0.1:%d HTTP/1.1\r\n\r\n" % PEER)
            leave(client)
            for behind in (b"", b"GE", b"\x16", b"GET / HTTP/1.1\r\n"):
                leave(connect(behind=behind))
                with connect(behind=behind):
                    wait_for(lambda: len(held) > 0, "the server")
                    while held:
                        leave(held.pop())
                    time.sleep(0.05)
        while held:
            held.pop().close()
        wait_for(lambda: mitm.sockets() == before, "all sockets to be let go of")
        same(mitm.lines(), [])


def case_page_of_two_hosts_in_a_browser():
    """A browser with the proxy set: a page and its style sheet from two hosts, seen; and the same page by `https`, unread."""
    browser = next((path for path in map(shutil.which, BROWSERS) if path), None)
    if browser is None:
        raise Skipped("there is no browser (the package chromium of Debian)")
    through = (f"--proxy-server=http://127.0.0.1:{PROXY[1]}", "--proxy-bypass-list=<-loopback>", "--ignore-certificate-errors")
    page = f'modify_body = ["|~ts html|/page.css|http://localhost:{OTHER}/page.css", "|~ts html|the old word|the new word"]\n'
    with tempfile.TemporaryDirectory() as home, Origin(OTHER), Secured(), regular(page) as mitm:
        if "<p>here</p>" not in shown_by(browser, home, "data:text/html,<p>here</p>"):
            raise Skipped(f"{browser} does not run here")
        shown = shown_by(browser, home, f"http://127.0.0.1:{ORIGIN}/page", *through)
        assert '<p id="text">the new word</p>' in shown and "the old word" not in shown, shown
        lines = mitm.new_lines(2)
        assert any(f" GET http://127.0.0.1:{ORIGIN}/page 200 " in one for one in lines), lines
        assert any(f" GET http://localhost:{OTHER}/page.css 200 " in one for one in lines), lines
        shown = shown_by(browser, home, f"https://127.0.0.1:{PEER}/page", *through)
        assert '<p id="text">the old word</p>' in shown, shown


TUNNEL_CASES = [
    case_https_goes_through_unread, case_http_in_a_tunnel_is_seen, case_tunnel_to_nobody, case_tunnel_in_reverse_mode,
    case_many_bytes_both_ways_at_once, case_response_of_code_101, case_who_vanishes,
    case_page_of_two_hosts_in_a_browser,
]
