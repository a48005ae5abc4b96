"""Responses and requests that are sent on as they come, by `stream_large_bodies`."""
import os
import socket
import struct
import threading
import time

from saving_cases import saved
from tools import ORIGIN, PROXY, Mitm, curl, get, line, read_all, read_answers, run_curl, same, talk, url

BIG = 10 * 1024 * 1024
# What the program has at most beside what it has when it starts, in kB, while a body goes through.
ROOM = 4096
# Where a server of a case's own listens.
OTHER = 9003
TO_OTHER = f'mode = "reverse:http://127.0.0.1:{OTHER}"\n'


def resident(mitm, name="VmRSS"):
    """How much memory it has, in kB, or had at most (`VmHWM`)."""
    with open(f"/proc/{mitm.process.pid}/status") as file:
        return next(int(line.split()[1]) for line in file if line.startswith(name + ":"))


def read_until(client, wanted):
    """All that comes until this stands at its end."""
    got = b""
    while not got.endswith(wanted):
        piece = client.recv(65536)
        if not piece:
            raise AssertionError(f"it ended with {got[-200:]!r}")
        got += piece
    return got


def case_events_come_one_by_one():
    with Mitm("stream_large_bodies = 0\n") as mitm, socket.create_connection(PROXY, timeout=10) as client:
        client.sendall(get("/events"))
        moments = []
        for number in (1, 2, 3):
            read_until(client, b"9\r\ndata: %d\n\n\r\n" % number)
            moments.append(time.time())
        read_until(client, b"0\r\n\r\n")
        assert moments[1] - moments[0] > 0.1 and moments[2] - moments[1] > 0.1, moments
        client.sendall(get("/small", "Connection: close"))
        assert read_all(client).endswith(b"one byte after the other"), "the connection goes on"
        same(mitm.new_lines(2), [line("GET", "/events", 200, "streamed"), line("GET", "/small", 200, "streamed", index=1)])


def case_events_without_the_option():
    with Mitm() as mitm:
        start = time.time()
        same(curl(url("/events")), b"data: 1\n\ndata: 2\n\ndata: 3\n\n")
        assert time.time() - start > 0.5, "it is held until it is whole"
        same(mitm.new_lines(1), [line("GET", "/events", 200, 27)])


def case_a_size_that_is_in_between():
    with Mitm("stream_large_bodies = 600000\n") as mitm:
        same(len(curl(url("/some"))), 600000)
        same(len(curl(url("/big"))), BIG)
        same(mitm.new_lines(2), [line("GET", "/some", 200, 600000), line("GET", "/big", 200, "streamed")])


def case_downloads_take_no_memory():
    with Mitm("stream_large_bodies = 100000\n") as mitm:
        curl(url("/a"))
        before = resident(mitm)
        for _ in range(5):
            same(len(curl(url("/big"))), BIG)
        assert resident(mitm, "VmHWM") < before + ROOM, (before, resident(mitm, "VmHWM"))


def case_a_client_that_reads_nothing():
    """Its server is held back, and nobody else."""
    with Mitm("stream_large_bodies = 0\n") as mitm, socket.socket() as client:
        client.setsockopt(socket.SOL_SOCKET, socket.SO_RCVBUF, 4096)
        client.settimeout(20)
        client.connect(PROXY)
        before = resident(mitm)
        client.sendall(get("/big", "Connection: close"))
        time.sleep(1)
        same(curl(url("/a")), b"/a\n")
        assert resident(mitm, "VmHWM") < before + ROOM, (before, resident(mitm, "VmHWM"))
        same(len(read_all(client).split(b"\r\n\r\n", 1)[1]), BIG)
        same(sorted(mitm.new_lines(2)), sorted([line("GET", "/a", 200, "streamed"), line("GET", "/big", 200, "streamed")]))


def case_a_streamed_response_that_ends_early():
    """Nothing is said behind what came of it."""
    with Mitm("stream_large_bodies = 0\n") as mitm:
        got = talk(get("/half"))
        assert got.endswith(b"\r\n\r\nhalf"), got
        same(mitm.new_lines(1), [line("GET", "/half", 200, "streamed", "server closed early")])


def case_a_client_that_leaves():
    with Mitm("stream_large_bodies = 0\n") as mitm:
        with socket.create_connection(PROXY, timeout=10) as client:
            client.sendall(get("/events"))
            read_until(client, b"data: 1\n\n\r\n")
            client.setsockopt(socket.SOL_SOCKET, socket.SO_LINGER, struct.pack("ii", 1, 0))
        same(mitm.new_lines(1), [line("GET", "/events", 200, "streamed", "client closed")])


def case_rules_see_the_head_alone():
    with Mitm('stream_large_bodies = 0\nmodify_headers = ["/~s/X-Proxy/mitm"]\nmodify_body = ["/data/datum"]\n'):
        status, out, _ = run_curl("-i", url("/events"))
        same(status, 0)
        head, body = out.split(b"\r\n\r\n", 1)
        assert b"X-Proxy: mitm" in head, head
        same(body, b"data: 1\n\ndata: 2\n\ndata: 3\n\n")


def case_nothing_is_streamed_where_flows_wait():
    with Mitm('stream_large_bodies = 0\nintercept = "~m PUT"\n') as mitm:
        same(len(curl(url("/some"))), 600000)
        same(mitm.new_lines(1), [line("GET", "/some", 200, 600000)])


def case_a_streamed_flow_is_saved_without_content():
    with Mitm('stream_large_bodies = 0\nsave_stream_file = "s"\n') as mitm:
        curl(url("/events"))
        same([flow["response"]["content"] for flow in saved(mitm.path("s"), 1)], [None])


def case_many_at_once():
    with Mitm("stream_large_bodies = 0\n"):
        got = []
        threads = [threading.Thread(target=lambda: got.append(len(curl(url("/big"))))) for _ in range(8)]
        for thread in threads:
            thread.start()
        for thread in threads:
            thread.join()
        same(got, [BIG] * 8)


STREAM_CASES = [
    case_events_come_one_by_one, case_events_without_the_option, case_a_size_that_is_in_between, case_downloads_take_no_memory, case_a_client_that_reads_nothing,
    case_a_streamed_response_that_ends_early, case_a_client_that_leaves, case_rules_see_the_head_alone, case_nothing_is_streamed_where_flows_wait,
    case_a_streamed_flow_is_saved_without_content, case_many_at_once,
]


# Requests that are sent on as they come.

class OneServer:
    """A server of one connection, which is served by a function; what that raises is raised at the end."""

    def __init__(self, serve):
        self.serve, self.fault = serve, None
        self.listener = socket.create_server(("127.0.0.1", OTHER))
        self.thread = threading.Thread(target=self.run, daemon=True)

    def run(self):
        try:
            client, _ = self.listener.accept()
            with client:
                client.settimeout(20)
                client.setsockopt(socket.IPPROTO_TCP, socket.TCP_NODELAY, 1)
                self.serve(client)
        except (AssertionError, OSError) as fault:
            self.fault = fault

    def __enter__(self):
        self.thread.start()
        return self

    def __exit__(self, kind, *_):
        if kind is None:
            self.thread.join(30)
        try:
            # (so that who waits at it waits no more, and its port is free)
            self.listener.shutdown(socket.SHUT_RDWR)
        except OSError:
            pass
        self.listener.close()
        if kind is None and (self.fault is not None or self.thread.is_alive()):
            raise AssertionError(f"the server: {self.fault or 'it waits'}")


def post(path, *fields):
    """The head of a request with a body."""
    return "\r\n".join([f"POST {path} HTTP/1.1", "Host: h", *fields, "", ""]).encode()


def reset_on_close(peer):
    """Its close will be a reset."""
    peer.setsockopt(socket.SOL_SOCKET, socket.SO_LINGER, struct.pack("ii", 1, 0))


def read_count(peer, count):
    """So many bytes."""
    got = bytearray()
    while len(got) < count:
        piece = peer.recv(min(65536, count - len(got)))
        if not piece:
            raise AssertionError(f"it ended behind {len(got)} bytes")
        got += piece
    return bytes(got)


def read_head(peer):
    """A head, and nothing of what is behind it."""
    got = b""
    while not got.endswith(b"\r\n\r\n"):
        got += read_count(peer, 1)
    return got


def case_uploads_take_no_memory():
    body = os.urandom(BIG)
    with Mitm("stream_large_bodies = 100000\n") as mitm:
        curl(url("/a"))
        before = resident(mitm)
        for _ in range(5):
            same(curl("--data-binary", "@-", url("/up"), data=body), b"/up\n")
        assert resident(mitm, "VmHWM") < before + ROOM, (before, resident(mitm, "VmHWM"))
        same(mitm.new_lines(6)[1:], [line("POST", "/up", 200, 4)] * 5)


def case_an_upload_is_there_byte_by_byte():
    """Its answer has all of it, and goes through as it comes too."""
    body = os.urandom(BIG)
    with Mitm("stream_large_bodies = 0\n") as mitm:
        same(curl("--data-binary", "@-", url("/echo"), data=body), body)
        same(curl("-H", "Transfer-Encoding: chunked", "--data-binary", "@-", url("/echo"), data=body), body)
        same(mitm.new_lines(2), [line("POST", "/echo", 200, "streamed")] * 2)


def case_an_upload_is_there_before_it_is_whole():
    def serve(client):
        assert read_until(client, b"\r\n\r\nhe").startswith(b"POST /up HTTP/1.1\r\n")
        heard.set()
        read_until(client, b"llo")
        client.sendall(b"HTTP/1.1 200 OK\r\nContent-Length: 2\r\n\r\nok")

    heard = threading.Event()
    with OneServer(serve), Mitm("stream_large_bodies = 4\n", mode=TO_OTHER) as mitm, socket.create_connection(PROXY, timeout=10) as client:
        client.sendall(post("/up", "Content-Length: 5") + b"he")
        assert heard.wait(10), "the server heard nothing"
        client.sendall(b"llo")
        read_until(client, b"\r\n\r\nok")
        same(mitm.new_lines(1), [line("POST", "/up", 200, 2, port=OTHER)])


def case_a_server_that_reads_nothing():
    """The client is held back, and nobody else."""
    def serve(client):
        read_head(client)
        reads.wait(20)
        read_count(client, size)
        client.sendall(b"HTTP/1.1 204 No Content\r\n\r\n")

    # (more than the system keeps of what goes through two connections)
    reads, size = threading.Event(), 8 * BIG
    with OneServer(serve), Mitm("stream_large_bodies = 0\n", mode='mode = "regular"\n') as mitm, socket.create_connection(PROXY, timeout=20) as client:
        before = resident(mitm)
        client.sendall(post(f"http://127.0.0.1:{OTHER}/up", f"Content-Length: {size}"))
        sender = threading.Thread(target=client.sendall, args=(bytes(size),))
        sender.start()
        time.sleep(1)
        try:
            assert sender.is_alive(), "the client was not held back"
            assert talk(get(f"http://127.0.0.1:{ORIGIN}/a", "Connection: close")).endswith(b"\r\n\r\n/a\n"), "another client is held back too"
            assert resident(mitm, "VmHWM") < before + ROOM, (before, resident(mitm, "VmHWM"))
        finally:
            reads.set()
        sender.join()
        read_until(client, b"204 No Content\r\n\r\n")
        same(mitm.new_lines(2), [line("GET", "/a", 200, "streamed"), line("POST", "/up", 204, 0, port=OTHER)])


def case_a_server_that_answers_first():
    """Its answer is there, and the conversation ends behind it."""
    def serve(client):
        read_until(client, b"\r\n\r\nhalf")
        client.sendall(b"HTTP/1.1 413 Content Too Large\r\nContent-Length: 9\r\n\r\ntoo large")
        same(read_all(client), b"")

    with OneServer(serve), Mitm("stream_large_bodies = 10\n", mode=TO_OTHER) as mitm:
        got = talk(post("/up", "Content-Length: 100") + b"half")
        assert got.startswith(b"HTTP/1.1 413 ") and got.endswith(b"\r\n\r\ntoo large"), got
        same(mitm.new_lines(1), [line("POST", "/up", 413, 9, port=OTHER)])


def case_chunks_both_ways():
    """Each chunk is answered by one, before the next is sent."""
    def serve(client):
        read_head(client)
        for number in range(count):
            read_until(client, b"%x\r\n%s\r\n" % (number + 1, b"a" * (number + 1)))
            head = b"HTTP/1.1 200 OK\r\nTransfer-Encoding: chunked\r\n\r\n" if number == 0 else b""
            client.sendall(head + b"%x\r\n%s\r\n" % (number + 1, b"A" * (number + 1)))
        read_until(client, b"0\r\n\r\n")
        client.sendall(b"0\r\n\r\n")

    count = 40
    with OneServer(serve), Mitm("stream_large_bodies = 0\n", mode=TO_OTHER) as mitm, socket.create_connection(PROXY, timeout=10) as client:
        client.setsockopt(socket.IPPROTO_TCP, socket.TCP_NODELAY, 1)
        client.sendall(post("/both", "Transfer-Encoding: chunked"))
        for number in range(count):
            client.sendall(b"%x\r\n%s\r\n" % (number + 1, b"a" * (number + 1)))
            read_until(client, b"%x\r\n%s\r\n" % (number + 1, b"A" * (number + 1)))
        client.sendall(b"0\r\n\r\n")
        read_until(client, b"0\r\n\r\n")
        same(mitm.new_lines(1), [line("POST", "/both", 200, "streamed", port=OTHER)])


def case_a_server_that_resets_in_an_upload():
    def serve(client):
        read_until(client, b"\r\n\r\nhalf")
        reset_on_close(client)

    with OneServer(serve), Mitm("stream_large_bodies = 0\n", mode=TO_OTHER) as mitm:
        got = talk(post("/up", "Content-Length: 100") + b"half")
        assert got.startswith(b"HTTP/1.1 502 ") and got.endswith(b"server closed early\n"), got
        same(mitm.new_lines(1), [line("POST", "/up", "-", "-", "server closed early", port=OTHER)])


def case_a_server_that_resets_in_both():
    """Nothing is said behind the first byte of its response."""
    def serve(client):
        read_until(client, b"\r\n\r\nhalf")
        client.sendall(b"HTTP/1.1 200 OK\r\nContent-Length: 100\r\n\r\nhalf")
        came.wait(20)
        reset_on_close(client)

    came = threading.Event()
    with OneServer(serve), Mitm("stream_large_bodies = 0\n", mode=TO_OTHER) as mitm, socket.create_connection(PROXY, timeout=10) as client:
        client.sendall(post("/up", "Content-Length: 100") + b"half")
        read_until(client, b"\r\n\r\nhalf")
        came.set()
        same(read_all(client), b"")
        same(mitm.new_lines(1), [line("POST", "/up", 200, "streamed", "server closed early", port=OTHER)])


def case_a_client_that_resets_in_an_upload():
    def serve(client):
        read_until(client, b"\r\n\r\nhalf")
        heard.set()
        try:
            same(client.recv(65536), b"")
        except ConnectionResetError:
            pass

    heard = threading.Event()
    with OneServer(serve), Mitm("stream_large_bodies = 0\n", mode=TO_OTHER) as mitm:
        with socket.create_connection(PROXY, timeout=10) as client:
            client.sendall(post("/up", "Content-Length: 100") + b"half")
            assert heard.wait(10), "the server heard nothing"
            reset_on_close(client)
        same(mitm.new_lines(1), [line("POST", "/up", "-", "-", "client closed", port=OTHER)])


def case_a_request_behind_an_upload():
    with Mitm("stream_large_bodies = 10\n") as mitm, socket.create_connection(PROXY, timeout=10) as client:
        client.sendall(post("/up", "Content-Length: 100000") + bytes(100_000) + get("/2"))
        same([body for _, body in read_answers(client, 2)], [b"/up\n", b"/2\n"])
        same(mitm.new_lines(2), [line("POST", "/up", 200, 4), line("GET", "/2", 200, 3, index=1)])


def case_a_bad_chunk_in_an_upload():
    """What was good of it went up, and the client is told."""
    def serve(client):
        got = read_all(client)
        assert got.endswith(b"\r\n\r\n4\r\nabcd\r\n"), got

    with OneServer(serve), Mitm("stream_large_bodies = 0\n", mode=TO_OTHER) as mitm:
        got = talk(post("/up", "Transfer-Encoding: chunked") + b"4\r\nabcd\r\nzz\r\n")
        assert got.startswith(b"HTTP/1.1 400 ") and got.endswith(b"bad chunk\n"), got
        same(mitm.new_lines(1), [line("POST", "/up", "-", "-", "bad chunk", port=OTHER)])


def case_an_upload_is_saved_without_content():
    with Mitm('stream_large_bodies = 4\nsave_stream_file = "s"\n') as mitm:
        same(curl("--data-binary", "@-", url("/up"), data=b"hello"), b"/up\n")
        same([(flow["request"]["content"], flow["response"]["content"]) for flow in saved(mitm.path("s"), 1)], [(None, b"/up\n")])


GOING_UP_CASES = [
    case_uploads_take_no_memory, case_an_upload_is_there_byte_by_byte, case_an_upload_is_there_before_it_is_whole, case_a_server_that_reads_nothing,
    case_a_server_that_answers_first, case_chunks_both_ways, case_a_server_that_resets_in_an_upload, case_a_server_that_resets_in_both,
    case_a_client_that_resets_in_an_upload, case_a_request_behind_an_upload, case_a_bad_chunk_in_an_upload, case_an_upload_is_saved_without_content,
]
