"""Hostile bytes over sockets: heads and chunks that are refused, whole and byte by byte, and each place at which a client or a server may leave."""
import socket
import threading

from tools import PROXY, Mitm, get, line, read_all, same, talk, wait_for
from tunnel_cases import PEER

REVERSE = f'mode = "reverse:http://127.0.0.1:{PEER}"\n'
HEAD = b"POST /a HTTP/1.1\r\nHost: h\r\n"
CHUNKED = HEAD + b"Transfer-Encoding: chunked\r\n\r\n"
HOSTILE = (
    (HEAD + b"Content-Length: 5\r\nContent-Length: 6\r\n\r\n", b"bad length", False),
    (HEAD + b"Transfer-Encoding: chunked, chunked\r\n\r\n", b"bad transfer coding", False),
    (HEAD + b"Transfer-Encoding: identity\r\n\r\n", b"bad transfer coding", False),
    (HEAD + b"Transfer-Encoding: chunked\r\nContent-Length: 0\r\n\r\n", b"two lengths", False),
    (HEAD + b"Transfer-Encoding : chunked\r\n\r\n", b"malformed head", False),
    (CHUNKED + b"0x5\r\n", b"bad chunk", True),
    (CHUNKED + b"00000000000000005\r\n", b"bad chunk", True),
    (CHUNKED + b"5\n", b"bad chunk", True),
    (CHUNKED + b"5\r\nabcdeX", b"bad chunk", True),
)
ASKED = b"POST / HTTP/1.1\r\nTransfer-Encoding: chunked\r\n\r\n3\r\nabc\r\n0\r\n\r\n"
ANSWER = b"HTTP/1.1 200 OK\r\nContent-Length: 2\r\n\r\nok"


def refusal(message):
    return (b"HTTP/1.1 400 Bad Request\r\nServer: mitm\r\nConnection: close\r\nContent-Type: text/plain\r\nContent-Length: %d\r\n\r\n%s\n"
            % (len(message) + 1, message))


class Cut(threading.Thread):
    """A server whose n-th connection is answered by the first n bytes of an answer, from none on, and keeps what each was sent."""

    def __init__(self, answers=True):
        super().__init__(daemon=True)
        self.listener = socket.create_server(("127.0.0.1", PEER), backlog=256)
        self.answers, self.sent, self.done = answers, [], 0

    def run(self):
        while True:
            try:
                connection, _ = self.listener.accept()
            except OSError:
                return
            with connection:
                connection.settimeout(20)
                self.sent.append(b"")
                if self.answers:
                    self.sent[-1] = connection.recv(65536)
                    connection.sendall(ANSWER[:len(self.sent) - 1])
                else:
                    self.sent[-1] = read_all(connection)
            self.done += 1

    def __enter__(self):
        self.start()
        return self

    def __exit__(self, *_):
        self.listener.shutdown(socket.SHUT_RDWR)
        self.listener.close()
        self.join()


def case_hostile_heads_and_chunks():
    """Each is refused at its last byte, however it comes, and nothing of it gets to the server; what comes behind is no request."""
    with Cut() as server, Mitm(mode=REVERSE) as mitm:
        wanted = []
        for text, message, is_flow in HOSTILE:
            for pieces, more in ((None, b""), (1, b""), (None, b"hello\r\n0\r\n\r\nGET /smuggled HTTP/1.1\r\n\r\n")):
                same((text, talk(text + more, pieces)), (text, refusal(message)))
                wanted += [line("POST", "/a", "-", "-", message.decode(), port=PEER)] * is_flow
        same(mitm.new_lines(len(wanted)), wanted)
        same(server.sent, [])


def case_client_leaves_at_each_byte():
    """A server is asked once the request is whole, and not for a part of it."""
    with Cut(answers=False) as server, Mitm(mode=REVERSE) as mitm:
        for count in range(len(ASKED)):
            with socket.create_connection(PROXY, timeout=20) as client:
                client.sendall(ASKED[:count])
        flows = len(ASKED) - ASKED.index(b"\r\n\r\n") - 4
        same(mitm.new_lines(flows), [line("POST", "/", "-", "-", "client closed", port=PEER)] * flows)
        same(server.sent, [])
        with socket.create_connection(PROXY, timeout=20) as client:
            client.sendall(ASKED)
            wait_for(lambda: server.sent, "the server to be asked")
        wait_for(lambda: server.done, "its end")
        same(server.sent, [ASKED])
        same(mitm.new_lines(1), [line("POST", "/", "-", "-", "client closed", port=PEER)])


def case_server_leaves_at_each_byte():
    """No part of a response is sent on."""
    early = b"HTTP/1.1 502 Bad Gateway\r\nServer: mitm\r\nConnection: close\r\nContent-Type: text/plain\r\nContent-Length: 20\r\n\r\nserver closed early\n"
    with Cut() as server, Mitm(mode=REVERSE) as mitm:
        for count in range(len(ANSWER)):
            same((count, talk(get(f"/{count}", "Connection: close"))), (count, early))
        same(talk(get("/whole", "Connection: close")), ANSWER)
        wanted = [line("GET", f"/{count}", "-", "-", "server closed early", port=PEER) for count in range(len(ANSWER))]
        same(mitm.new_lines(len(ANSWER) + 1), wanted + [line("GET", "/whole", 200, 2, port=PEER)])
        same(len(server.sent), len(ANSWER) + 1)


HOSTILE_CASES = [case_hostile_heads_and_chunks, case_client_leaves_at_each_byte, case_server_leaves_at_each_byte]
