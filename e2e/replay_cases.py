"""Server replay: what was recorded of a server answers in its place, and the files that it is read from."""
import os
import socket

from saving_cases import ABSENT, content, put, save_file, saved, saves_to, whole_flows
from tools import MODE, ORIGIN, PROXY, Mitm, curl, get, line, read_answers, run_program, same, talk, url

DEAD_PORT = 9099
DEAD = f'mode = "reverse:http://127.0.0.1:{DEAD_PORT}"\nserver_replay_ignore_port = true\n'
ASKED = ["/a?b=1", "/chunked", "/some", "/absent"]


def replays(*paths, extra=None):
    options = f"server_replay = {list(paths)}\n"
    return options if extra is None else options + f'server_replay_extra = "{extra}"\n'


def recorded(path):
    """Records four answers of the origin and an echo: what the client got of each, head and body."""
    with Mitm(saves_to(path)):
        got = [whole(asked) for asked in ASKED] + [echoed(b"a body")]
        saved(path, len(got))
    return got


def whole(asked):
    return talk(get(asked, "Connection: close"))


def echoed(body):
    head = f"POST /echo HTTP/1.1\r\nHost: 127.0.0.1:{ORIGIN}\r\nConnection: close\r\nContent-Length: {len(body)}\r\n\r\n"
    return talk(head.encode() + body)


def case_recorded_and_replayed():
    """The same bytes, in another order of requests too, where nobody is at the server's port."""
    with save_file() as path:
        got = recorded(path)
        with Mitm(replays(path, extra="404"), mode=DEAD) as mitm:
            same([whole(asked) for asked in ASKED] + [echoed(b"a body")], got)
            assert whole(ASKED[0]).startswith(b"HTTP/1.1 404 Not Found\r\nServer: mitm\r\nContent-Length: 0\r\n"), "each answers once"
            same(mitm.new_lines(6)[-1], line("GET", ASKED[0], 404, 0, port=DEAD_PORT))
        with Mitm(replays(path, extra="kill")):
            same([whole(asked) for asked in reversed(ASKED)], got[3::-1])
            same(echoed(b"another"), b"")
            same(echoed(b"a body"), got[4])


def case_replayed_again_and_again():
    with save_file() as path:
        got = recorded(path)
        with Mitm(replays(path) + "server_replay_reuse = true\n", mode=DEAD):
            for _ in range(20):
                same(whole(ASKED[0]), got[0])


def case_what_is_not_recorded_goes_to_the_server():
    with save_file() as path:
        got = recorded(path)
        with Mitm(replays(path)) as mitm:
            same(whole(ASKED[0]), got[0])
            same(curl(url("/new")), b"/new\n")
            same(whole(ASKED[0]), got[0])
            same(mitm.new_lines(3), [line("GET", ASKED[0], 200, 7), line("GET", "/new", 200, 5), line("GET", ASKED[0], 200, 7)])


def case_replayed_on_one_connection():
    """Pipelined requests get the recorded flows in their order."""
    with save_file() as path:
        with Mitm(saves_to(path)):
            for index in range(50):
                same(curl("--data-binary", str(index), url("/echo")), str(index).encode())
            saved(path, 50)
        with Mitm(replays(path, extra="500") + "server_replay_ignore_content = true\n", mode=DEAD):
            with socket.create_connection(PROXY, timeout=20) as client:
                client.sendall(b"POST /echo HTTP/1.1\r\nHost: h\r\nContent-Length: 1\r\n\r\nx" * 51)
                answers = read_answers(client, 51)
            same([body for _, body in answers], [str(index).encode() for index in range(50)] + [b""])
            assert answers[50][0].startswith(b"HTTP/1.1 500 "), answers[50]


def case_replayed_flows_are_saved():
    """What is replayed may be saved, and be replayed again."""
    with save_file() as path, save_file() as other:
        got = recorded(path)
        with Mitm(replays(path) + saves_to(other)):
            same(whole(ASKED[1]), got[1])
            saved(other, 1)
        with Mitm(replays(other, extra="kill")):
            same(whole(ASKED[1]), got[1])
            same(whole(ASKED[0]), b"")


def refused(options, notes=()):
    """The status of a `serve` that ends before it listens, with these notes on standard error, and what it prints."""
    status, lines, told = run_program("serve", "options", options=MODE + options)
    same(told, [*notes])
    return status, lines


def case_replay_file_that_is_absent():
    with save_file() as path, save_file() as other:
        same(refused(replays(path), ABSENT), (3, [f"cannot read {path}"]))
        recorded(path)
        same(refused(replays(path, other), ABSENT), (3, [f"cannot read {other}"]))
        os.mkdir(other)
        same(refused(replays(path, other), ["it is a directory"]), (3, [f"cannot read {other}"]))


def case_replay_file_that_is_bad():
    with save_file() as path:
        recorded(path)
        data = content(path)
        places = whole_flows(data)[1]
        for bad, place in ((b"0:~", 0), (data + b"0:~", len(data)), (data[:-1], places[4]), (data[:places[2] + 20], places[2])):
            put(path, bad)
            same(refused(replays(path)), (4, [f"bad flow file {path} at {place}"]))


def case_replay_file_that_is_empty():
    with save_file() as path:
        put(path, b"")
        with Mitm(replays(path, extra="204")) as mitm:
            head = curl("-D", "-", url("/a")).decode()
            assert head.startswith("HTTP/1.1 204 No Content\r\n"), head
            same(mitm.new_lines(1), [line("GET", "/a", 204, 0)])


REPLAY_CASES = [
    case_recorded_and_replayed, case_replayed_again_and_again, case_what_is_not_recorded_goes_to_the_server, case_replayed_on_one_connection,
    case_replayed_flows_are_saved, case_replay_file_that_is_absent, case_replay_file_that_is_bad, case_replay_file_that_is_empty,
]
