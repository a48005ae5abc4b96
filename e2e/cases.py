"""End to end: `mitm` before an origin, and clients; a line per case. Words name the cases to run; none: all.

The cases of this file share one run of the program. After each of them the next GET is served, and the program has printed the lines
that the case gives, and that GET's, and no more. Those of the other files have a run and an options file of their own."""
import os
import signal
import socket
import struct
import subprocess
import sys
import threading
import time

from busy_cases import BUSY_CASES
from door_cases import DOOR_CASES
from edit_cases import EDIT_CASES
from example_cases import examples
from export_cases import EXPORT_CASES
from file_cases import FILE_CASES
from fuzz_cases import FUZZ_CASES
from hostile_cases import HOSTILE_CASES
from keeping_cases import KEEPING_CASES
from kept_cases import KEPT_CASES
from mode_cases import MODE_CASES
from name_cases import NAME_CASES
from operator_cases import OPERATOR_CASES
from option_cases import OPTION_CASES
from page_cases import PAGE_CASES
from replay_cases import REPLAY_CASES
from resend_cases import RESEND_CASES
from rows_cases import ROWS_CASES
from saving_cases import SAVING_CASES
from show_cases import SHOW_CASES
from socks_cases import SOCKS_CASES
from start_cases import START_CASES
from stream_cases import GOING_UP_CASES, STREAM_CASES
from tools import (
    ORIGIN, PROXY, TOP, Mitm, Origin, Tally, curl, get, line, raise_limit, raise_loopback, read_all, read_answers, same, talk, url, wait_for,
)
from tunnel_cases import TUNNEL_CASES
from upstream_cases import UPSTREAM_CASES
from view_cases import VIEW_CASES
from websocket_cases import WEBSOCKET_CASES
from word_cases import WORD_CASES

BIG = 10 * 1024 * 1024
SOME = 600_000
MOST_SECONDS = 900


def case_get(origin):
    same(curl(url("/a?b=c")), b"/a?b=c\n")
    return [line("GET", "/a?b=c", 200, 7)]


def case_head(origin):
    head = curl("-I", url("/a"))
    assert head.startswith(b"HTTP/1.1 200 OK\r\n") and b"Content-Length: 5" in head, head
    return [line("HEAD", "/a", 200, 0)]


def case_post(origin):
    body = os.urandom(100_000)
    same(curl("--data-binary", "@-", url("/echo"), data=body), body)
    return [line("POST", "/echo", 200, len(body))]


def case_one_by_one(origin):
    with socket.create_connection(PROXY, timeout=20) as client:
        for index in range(3):
            client.sendall(get(f"/{index}"))
            same(read_answers(client, 1)[0][1], f"/{index}\n".encode())
    return [line("GET", f"/{i}", 200, 3, index=i) for i in range(3)]


def case_pipelined(origin):
    with socket.create_connection(PROXY, timeout=20) as client:
        client.sendall(b"".join(get(f"/{index}") for index in range(3)))
        same([body for _, body in read_answers(client, 3)], [f"/{i}\n".encode() for i in range(3)])
    return [line("GET", f"/{i}", 200, 3, index=i) for i in range(3)]


def case_chunked_upload(origin):
    body = os.urandom(70_000)
    same(curl("-H", "Transfer-Encoding: chunked", "--data-binary", "@-", url("/echo"), data=body), body)
    return [line("POST", "/echo", 200, len(body))]


def case_chunked_answer(origin):
    got = talk(get("/chunked", "Connection: close"))
    head, body = got.split(b"\r\n\r\n", 1)
    assert b"chunked" in head.lower(), head
    same(body, b"b\r\nhello world\r\n0\r\nX-Sum: 11\r\n\r\n")
    return [line("GET", "/chunked", 200, 11)]


def case_expect(origin):
    body = b"x" * 2000
    same(curl("-H", "Expect: 100-continue", "--data-binary", "@-", url("/echo"), data=body), body)
    return [line("POST", "/echo", 200, 2000)]


def case_until_the_close(origin):
    same(curl(url("/close")), b"until the close")
    return [line("GET", "/close", 200, 15)]


def case_early_hints(origin):
    got = talk(get("/early", "Connection: close"))
    assert got.startswith(b"HTTP/1.1 103 Early Hints\r\n"), got
    assert got.endswith(b"after hints"), got
    return [line("GET", "/early", 200, 11)]


def case_malformed_head(origin):
    got = talk(b"GET / HTTP/1.1\r\nHost : x\r\n\r\n")
    assert got.startswith(b"HTTP/1.1 400 Bad Request\r\n") and got.endswith(b"malformed head\n"), got
    return []


def case_dead_origin(origin):
    origin.stop()
    try:
        got = talk(get("/dead"))
        assert got.startswith(b"HTTP/1.1 502 Bad Gateway\r\n") and got.endswith(b"cannot connect\n"), got
    finally:
        origin.start()
    return [line("GET", "/dead", "-", "-", "cannot connect")]


def case_byte_by_byte(origin):
    got = talk(get("/slow", "Connection: close"), pieces=1)
    assert got.endswith(b"\r\n\r\n/slow\n"), got
    return [line("GET", "/slow", 200, 6)]


def case_closes_at_once(origin):
    socket.create_connection(PROXY, timeout=20).close()
    return []


def case_small_pieces(origin):
    same(curl(url("/small")), b"one byte after the other")
    return [line("GET", "/small", 200, 24)]


def case_origin_resets(origin):
    got = talk(get("/reset"))
    assert got.startswith(b"HTTP/1.1 502 Bad Gateway\r\n") and got.endswith(b"server closed early\n"), got
    return [line("GET", "/reset", "-", "-", "server closed early")]


def case_client_resets(origin):
    """The client resets in the middle of an answer that is written to it."""
    with socket.create_connection(PROXY, timeout=20) as client:
        client.sendall(get("/some"))
        client.recv(1000)
        client.setsockopt(socket.SOL_SOCKET, socket.SO_LINGER, struct.pack("ii", 1, 0))
    return [line("GET", "/some", 200, SOME)]


def case_unread_upload(origin):
    """The origin answers and resets before it has read the body; what it answered is sent on."""
    head = f"POST /unread HTTP/1.1\r\nHost: 127.0.0.1:{ORIGIN}\r\nContent-Length: 400000\r\n\r\n"
    got = talk(head.encode() + bytes(400_000))
    assert got.startswith(b"HTTP/1.1 413 ") and got.endswith(b"\r\n\r\ntoo large"), got
    return [line("POST", "/unread", 413, 9)]


def case_bytes_behind_the_last_request(origin):
    """Bytes that nobody reads take nothing of the answer, though its reader is slow."""
    with socket.socket() as client:
        client.settimeout(20)
        client.setsockopt(socket.SOL_SOCKET, socket.SO_RCVBUF, 4096)
        client.connect(PROXY)
        client.sendall(get("/some", "Connection: close") + b"never read" * 50)
        time.sleep(0.5)
        client.sendall(b"nor this" * 500)
        got = read_all(client)
    same(got.split(b"\r\n\r\n", 1)[1], bytes(SOME))
    return [line("GET", "/some", 200, SOME)]


def case_big_download(origin):
    same(curl(url("/big")), bytes(BIG))
    return [line("GET", "/big", 200, BIG)]


def case_big_upload(origin):
    body = os.urandom(BIG)
    same(curl("-H", "Expect:", "--data-binary", "@-", url("/echo"), data=body), body)
    return [line("POST", "/echo", 200, BIG)]


def case_many_at_once(origin):
    failed = []

    def one(number):
        try:
            got = talk(get(f"/{number}", "Connection: close"))
            assert got.endswith(f"\r\n\r\n/{number}\n".encode()), got
        except (AssertionError, OSError) as error:
            failed.append(f"{number}: {error}")

    threads = [threading.Thread(target=one, args=(number,)) for number in range(200)]
    for thread in threads:
        thread.start()
    for thread in threads:
        thread.join()
    assert not failed, failed[:3]
    return [line("GET", f"/{number}", 200, len(f"/{number}\n")) for number in range(200)]


CASES = [
    case_get, case_head, case_post, case_one_by_one, case_pipelined, case_chunked_upload, case_chunked_answer,
    case_expect, case_until_the_close, case_early_hints, case_malformed_head, case_dead_origin, case_byte_by_byte,
    case_closes_at_once, case_small_pieces, case_origin_resets, case_client_resets, case_unread_upload,
    case_bytes_behind_the_last_request, case_big_download, case_big_upload, case_many_at_once,
]

# The cases that have a run of their own.
OWN_CASES = [
    *BUSY_CASES, *OPTION_CASES, *MODE_CASES, *TUNNEL_CASES, *UPSTREAM_CASES, *SOCKS_CASES, *WEBSOCKET_CASES, *PAGE_CASES, *SAVING_CASES, *EXPORT_CASES, *SHOW_CASES, *REPLAY_CASES,
    *KEPT_CASES, *STREAM_CASES, *GOING_UP_CASES, *RESEND_CASES, *OPERATOR_CASES, *VIEW_CASES, *EDIT_CASES, *START_CASES, *DOOR_CASES, *NAME_CASES, *FILE_CASES,
    *KEEPING_CASES, *WORD_CASES, *ROWS_CASES, *HOSTILE_CASES, *FUZZ_CASES,
]

# The cases whose lines come in no order.
UNORDERED = {case_many_at_once}


def name_of(case):
    return case.__name__.removeprefix("case_").replace("_", " ")


def try_shared(case, mitm, origin):
    """The case, and a GET behind it; what was printed is compared."""
    wanted = case(origin)
    got = talk(get("/next", "Connection: close"))
    assert got.endswith(b"\r\n\r\n/next\n"), got
    printed = mitm.new_lines(len(wanted) + 1)
    if case in UNORDERED:
        wanted, printed = sorted(wanted), sorted(printed[:-1]) + printed[-1:]
    same(printed, wanted + [line("GET", "/next", 200, 6)])


def try_with_one_run(tally, origin):
    """The cases that share one run."""
    mitm = Mitm()
    try:
        mitm.start()
        before = mitm.sockets()
        for case in CASES:
            if not tally.try_case(name_of(case), lambda case=case: try_shared(case, mitm, origin)):
                mitm.stop()
                mitm.start()
        tally.try_case("closes all sockets", lambda: let_go(mitm, before))
    finally:
        mitm.stop()


def let_go(mitm, before):
    """It closes the sockets of all those clients and servers."""
    try:
        wait_for(lambda: mitm.sockets() <= before, "its sockets to be closed", 20)
    except AssertionError as error:
        raise AssertionError(f"{error}: {mitm.sockets()} are open, {before} were") from None


def unescaped(text):
    """The bytes of a text of a row (docs/rows.md)."""
    marks = {"r": b"\r", "n": b"\n", "t": b"\t", "\\": b"\\"}
    out, place = b"", 0
    while place < len(text):
        if text[place] != "\\":
            out, place = out + text[place].encode(), place + 1
        elif text[place + 1] == "x":
            out, place = out + bytes.fromhex(text[place + 2:place + 4]), place + 4
        else:
            out, place = out + marks[text[place + 1]], place + 2
    return out


FLOW_LINE = "POST http://h/a?b 200 256 -"


def flow_files():
    """Flow files go both ways: Python reads what a row proves to be written, and a row reads what Python writes."""
    with open(os.path.join(TOP, "crates", "rows", "data", "flow_files.rows"), encoding="utf-8") as rows:
        halves = [row.rstrip("\n").split("=> ", 1) for row in rows if "=> " in row]
    is_read = {unescaped(half[0]).rstrip(b" ") for half in halves}
    stored, of_version_1 = (os.path.join(TOP, "examples", name) for name in ("written.flows", "version_1.flows"))
    assert any(half[0] == "" and unescaped(half[1]) == told(stored) for half in halves), "no row writes examples/written.flows"
    assert told(of_version_1) in is_read, "no row reads examples/version_1.flows"
    for words in ([], ["1"]):
        assert run_python("write_flows.py", *words) in is_read, f"no row reads what examples/write_flows.py writes, {words}"
    same(run_python("read_flows.py", stored).decode().splitlines(), [FLOW_LINE, "    client text 'Hello'", "    server binary 00 ff dropped"])
    same(run_python("read_flows.py", of_version_1).decode().splitlines(), [FLOW_LINE])


def told(path):
    with open(path, "rb") as file:
        return file.read()


def run_python(name, *words):
    return subprocess.run([sys.executable, os.path.join(TOP, "examples", name), *words], stdout=subprocess.PIPE, check=True).stdout


def main():
    for number in (signal.SIGTERM, signal.SIGHUP, signal.SIGALRM):
        signal.signal(number, lambda number, _: sys.exit(f"e2e: ended by signal {number}"))
    signal.alarm(MOST_SECONDS)
    raise_loopback()
    raise_limit()
    tally = Tally(sys.argv[1:])
    with Origin() as origin:
        try_with_one_run(tally, origin)
        for case in OWN_CASES:
            tally.try_case(name_of(case), case)
    for name, case in examples():
        tally.try_case(name, case)
    tally.try_case("flow files, both ways", flow_files)
    print(f"e2e: {tally.passed} passed, {tally.failed} failed")
    sys.exit(tally.failed != 0)


if __name__ == "__main__":
    main()
