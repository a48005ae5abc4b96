"""Cases of tunnels through another proxy: another `mitm` or squid above, one that refuses, and whoever vanishes."""
import os
import shutil
import socket
import subprocess
import tempfile
import threading
import time

from mode_cases import ABOVE, UPSTREAM, regular
from tools import ORIGIN, PROXY, Mitm, Skipped, Started, curl, line, listens, run_curl, same, wait_for
from tunnel_cases import CONNECTED, MANY, PEER, THROUGH, Peer, Secured, both_ways, close, connect, read_head, reset, stream_of

REFUSED = (b"HTTP/1.1 502 Bad Gateway\r\nServer: mitm\r\nConnection: close\r\nContent-Type: text/plain\r\nContent-Length: 17\r\n\r\n"
           b"upstream refused\n")


def asked(port=PEER):
    """What a proxy is sent for a tunnel to this port."""
    return b"CONNECT 127.0.0.1:%d HTTP/1.1\r\nHost: 127.0.0.1:%d\r\n\r\n" % (port, port)


class Squid(Started):
    """Squid as the proxy above, with a configuration of its own."""

    def start(self):
        program = shutil.which("squid") or next((path for path in ("/usr/sbin/squid",) if os.path.exists(path)), None)
        if program is None:
            raise Skipped("squid is missing")
        self.folder = tempfile.TemporaryDirectory()
        home = self.folder.name
        os.chmod(home, 0o777)
        with open(os.path.join(home, "squid.conf"), "w") as file:
            file.write(f"http_port 127.0.0.1:{ABOVE}\nhttp_access allow all\npid_filename {home}/pid\nshutdown_lifetime 0 seconds\n"
                       f"access_log stdio:{home}/access.log\ncache_log {home}/cache.log\ncoredump_dir {home}\ncache deny all\nacl all_methods method CONNECT\n")
        self.process = subprocess.Popen([program, "-N", "-f", os.path.join(home, "squid.conf")], stdout=subprocess.DEVNULL, stderr=subprocess.DEVNULL)
        wait_for(lambda: listens(ABOVE) or self.process.poll() is not None, "squid", 30)
        if self.process.poll() is not None:
            raise Skipped("squid does not run here")

    def stop(self):
        super().stop()
        self.folder.cleanup()


def case_https_through_another_proxy():
    """A tunnel through both, which neither reads."""
    with Secured() as secured, regular(port=ABOVE) as above, Mitm(mode=UPSTREAM) as mitm:
        same(curl(*THROUGH, "--cacert", secured.certificate, f"https://127.0.0.1:{PEER}/a"), b"/a\n")
        body = bytes(range(256)) * 4000
        same(curl(*THROUGH, "--cacert", secured.certificate, "--data-binary", "@-", f"https://127.0.0.1:{PEER}/echo", data=body), body)
        same((mitm.lines(), above.lines()), ([], []))


def case_http_in_a_tunnel_through_another_proxy():
    """Both see it. The second request goes through the same tunnel, so it is the second one of a conversation of the proxy above."""
    with regular(port=ABOVE) as above, Mitm(mode=UPSTREAM) as mitm:
        same(curl(*THROUGH, "-p", f"http://127.0.0.1:{ORIGIN}/a", f"http://127.0.0.1:{ORIGIN}/b"), b"/a\n/b\n")
        same(mitm.new_lines(2), [line("GET", "/a", 200, 3), line("GET", "/b", 200, 3, index=1)])
        same(above.new_lines(2), [line("GET", "/a", 200, 3), line("GET", "/b", 200, 3, index=1)])


def case_squid_above():
    """A proxy that others keep: `https`, and `http` in a tunnel."""
    with Secured() as secured, Squid(), Mitm(mode=UPSTREAM) as mitm:
        same(curl(*THROUGH, "--cacert", secured.certificate, f"https://127.0.0.1:{PEER}/a"), b"/a\n")
        same(curl(*THROUGH, "-p", f"http://127.0.0.1:{ORIGIN}/a", f"http://127.0.0.1:{ORIGIN}/b"), b"/a\n/b\n")
        same(mitm.new_lines(2), [line("GET", "/a", 200, 3), line("GET", "/b", 200, 3, index=1)])


def case_proxy_above_that_refuses():
    """Another code than one from 200 to 299, something that is no head, or a close: the client is told, and nothing is printed."""
    for answer in (b"HTTP/1.1 407 Proxy Authentication Required\r\nContent-Length: 0\r\n\r\n", b"HTTP/1.1 302 Found\r\n\r\n", b"SSH-2.0-x\r\n\r\n", b"HTTP/1.1 2", b""):
        def serve(connection):
            same(read_head(connection), asked())
            connection.sendall(answer)
            if answer.endswith(b"\r\n\r\n"):
                same(connection.recv(1), b"")

        with Peer(serve, ABOVE) as above, Mitm(mode=UPSTREAM) as mitm:
            with socket.create_connection(PROXY, timeout=20) as client:
                client.sendall(b"CONNECT 127.0.0.1:%d HTTP/1.1\r\n\r\n" % PEER)
                got = b""
                while piece := client.recv(65536):
                    got += piece
            same(got, REFUSED)
            same((above.went_wrong, mitm.lines()), ([], []))


def case_proxy_above_that_refuses_a_request():
    """The first request in a tunnel went through, and its server said that it closes; the way of the second one is refused, and its line says so."""
    seen = []

    def serve(connection):
        same(read_head(connection), asked())
        seen.append(connection)
        if len(seen) > 1:
            connection.sendall(b"HTTP/1.1 403 Forbidden\r\n\r\n")
            return
        connection.sendall(b"HTTP/1.1 200 OK\r\n\r\n")
        read_head(connection)
        connection.sendall(b"HTTP/1.1 204 No Content\r\nConnection: close\r\n\r\n")
        connection.recv(1)

    # (so that the client's connection goes on)
    with Peer(serve, ABOVE), Mitm('modify_headers = ["/~s/Connection/"]\n', mode=UPSTREAM) as mitm:
        with connect() as client:
            client.sendall(b"GET /a HTTP/1.1\r\n\r\nGET /b HTTP/1.1\r\n\r\n")
            same(read_head(client), b"HTTP/1.1 204 No Content\r\n\r\n")
            got = b""
            while piece := client.recv(65536):
                got += piece
            same(got, REFUSED)
        same(mitm.new_lines(2), [line("GET", "/a", 204, 0, port=PEER), line("GET", "/b", "-", "-", "upstream refused", index=1, port=PEER)])


def case_bytes_behind_the_head_of_a_proxy_above():
    """They are the server's, in one piece with the head or behind it, and the head may come in any pieces."""
    head = b"HTTP/1.1 200 OK\r\nVia: 1.1 above\r\n\r\n"
    for pieces in ([head + b"hi"], [head, b"hi"], [head[at:at + 1] for at in range(len(head))] + [b"h", b"i"]):
        def serve(connection):
            connection.setsockopt(socket.IPPROTO_TCP, socket.TCP_NODELAY, 1)
            same(read_head(connection), asked())
            for piece in pieces:
                connection.sendall(piece)
                time.sleep(0.002)
            same(connection.recv(2), b"ho")

        with Peer(serve, ABOVE) as above, Mitm(mode=UPSTREAM):
            with connect() as client:
                got = client.recv(2)
                while len(got) < 2:
                    got += client.recv(2 - len(got))
                same(got, b"hi")
                client.sendall(b"ho")
                same(client.recv(1), b"")
            same(above.went_wrong, [])


def case_many_bytes_through_another_proxy():
    """100 MB each way, in pieces that cross."""
    up, up_sum = stream_of(b"up", MANY)
    down, down_sum = stream_of(b"down", MANY)
    done = threading.Event()

    def serve(connection):
        same(connection.recv(1), b"\0")
        both_ways(connection, down, up_sum, MANY)
        done.set()
        connection.recv(1)

    with Peer(serve) as peer, regular(port=ABOVE), Mitm(mode=UPSTREAM) as mitm:
        with connect(behind=b"\0") as client:
            both_ways(client, up, down_sum, MANY)
            assert done.wait(30), peer.went_wrong
        same(mitm.lines(), [])


def case_who_vanishes_while_a_proxy_is_asked():
    """The client or the proxy closes or resets before the proxy has answered, with a part of its head, and behind it: all is let go of."""
    held, answers = [], [b""]

    def hold(connection):
        read_head(connection)
        connection.sendall(answers[0])
        held.append(connection.dup())

    with Peer(hold, ABOVE), Mitm(mode=UPSTREAM) as mitm:
        before = mitm.sockets()
        for leave in (close, reset):
            for answers[0] in (b"", b"HTTP/1.1 20", b"HTTP/1.1 200 OK\r\n\r\n"):
                for who in ("client", "proxy"):
                    client = socket.create_connection(PROXY, timeout=20)
                    client.sendall(b"CONNECT 127.0.0.1:%d HTTP/1.1\r\n\r\nGE" % PEER)
                    wait_for(lambda: len(held) > 0, "the proxy above")
                    time.sleep(0.05)
                    leave(client if who == "client" else held[0])
                    if who == "client":
                        leave(held[0])
                    else:
                        got = client.recv(65536)
                        assert got.startswith((CONNECTED[:12], REFUSED[:12])), got
                        client.close()
                    held.pop()
        wait_for(lambda: mitm.sockets() == before, "all sockets to be let go of")
        same(mitm.lines(), [])


UPSTREAM_CASES = [
    case_https_through_another_proxy, case_http_in_a_tunnel_through_another_proxy, case_squid_above, case_proxy_above_that_refuses,
    case_proxy_above_that_refuses_a_request, case_bytes_behind_the_head_of_a_proxy_above, case_many_bytes_through_another_proxy,
    case_who_vanishes_while_a_proxy_is_asked,
]
