"""Client replay: recorded requests are sent again, one behind the other, and the files that they are read from."""
import os
import threading

from mode_cases import ABOVE, UPSTREAM, regular
from operator_cases import Operated, Operator
from replay_cases import refused
from saving_cases import ABSENT, content, put, save_file, saved, saves_to, whole_flows
from tools import ORIGIN, Mitm, curl, get, line, same, talk, url, wait_for
from tunnel_cases import NOBODY, PEER, Peer, read_head
from websocket_cases import AGREES, ASKS, REVERSE, read_exactly
from write_flows import FLOW, written

# The numbers of conversations without a client begin here.
FIRST = 2_147_483_648
AWAY = f'mode = "reverse:http://127.0.0.1:{NOBODY}"\n'
MANY = 1000
BIG = 10 * 1024 * 1024
ASKED = [
    get("/a?b=c", "X: 1", "Connection: close"),
    b"POST /b HTTP/1.1\r\nConnection: close\r\nHost: x\r\nContent-Length: 6\r\n\r\na body",
    b"PUT /c HTTP/1.1\r\nTransfer-Encoding: chunked\r\nConnection: close\r\n\r\n6\r\na body\r\n0\r\nX-Sum: 6\r\n\r\n",
]


def sends(*paths):
    return f"client_replay = {list(paths)}\n"


def sent_line(place, *shown, **more):
    """The line of the recorded request of this place."""
    return f"{FIRST + place}" + line(*shown, **more)


def prints(mitm, wanted):
    """Waits for its lines, which are these and no more."""
    wait_for(lambda: len(mitm.lines()) >= len(wanted), f"{len(wanted)} printed lines", 30)
    same(mitm.lines(), wanted)


class Keeper(Peer):
    """A server that keeps each request as it was sent, and answers it, once it may."""

    def __init__(self):
        super().__init__(self.answer, PEER)
        self.got, self.may = [], threading.Event()
        self.may.set()

    def answer(self, connection):
        head = read_head(connection)
        fields = [field.split(b": ", 1) for field in head.split(b"\r\n")[1:-2]]
        length = sum(int(value) for name, value in fields if name == b"Content-Length")
        chunked = any(name == b"Transfer-Encoding" for name, _ in fields)
        self.got.append(head + (read_head(connection) if chunked else read_exactly(connection, length)))
        self.may.wait(20)
        connection.sendall(b"HTTP/1.1 200 OK\r\nContent-Length: 4\r\n\r\nkept")

    def recorded(self, path):
        """Records the requests in a file: what was sent here of them."""
        with Mitm(saves_to(path), mode=REVERSE):
            for asked in ASKED:
                talk(asked)
            saved(path, len(ASKED))
        got = list(self.got)
        self.got.clear()
        same(len(got), len(ASKED))
        return got


def kept_lines(places=range(3)):
    """The lines of these requests, sent again and answered."""
    asked = [("GET", "/a?b=c"), ("POST", "/b"), ("PUT", "/c")]
    return [sent_line(place, *asked[place], 200, 4, port=PEER) for place in places]


def flow_of(path, method=b"GET", body=b"", port=ORIGIN):
    """A flow of a file, of this request."""
    fields = [[b"Host", b"x"]] + ([[b"Content-Length", b"%d" % len(body)]] if body else [])
    request = dict(FLOW["request"], headers=fields, content=body, trailers=None, host=b"127.0.0.1", port=port, method=method, path=path.encode())
    return written(dict(FLOW, request=request, response=None, error=None, is_replay=None, marked=False, websocket=None))


def case_recorded_and_sent_again():
    """The same bytes come to the same server, whatever the mode's server is, and again in the next run."""
    with save_file() as path, Keeper() as keeper:
        got = keeper.recorded(path)
        for mode in (AWAY, ""):
            with Mitm(sends(path), mode=mode) as mitm:
                prints(mitm, kept_lines())
                same(keeper.got, got)
            keeper.got.clear()


def case_sent_again_one_behind_the_other():
    """The next is sent once the flow before it is finished. Clients are served meanwhile."""
    with save_file() as path, Keeper() as keeper:
        got = keeper.recorded(path)
        keeper.may.clear()
        with Mitm(sends(path)) as mitm:
            wait_for(lambda: keeper.got == got[:1], "the first request")
            same(curl(url("/a")), b"/a\n")
            same(curl(url("/b")), b"/b\n")
            same((keeper.got, len(mitm.new_lines(2))), (got[:1], 2))
            keeper.may.set()
            wait_for(lambda: keeper.got == got, "the others")
            wait_for(lambda: mitm.lines()[2:] == kept_lines(), "their lines")
            same(curl(url("/c")), b"/c\n")


def case_sent_again_after_a_server_that_is_down():
    """One that cannot be dialled says so, and the next is sent."""
    with save_file() as path:
        put(path, flow_of("/a") + flow_of("/b", port=NOBODY) + flow_of("/c"))
        with Mitm(sends(path)) as mitm:
            prints(mitm, [sent_line(0, "GET", "/a", 200, 3), sent_line(1, "GET", "/b", "-", "-", "cannot connect", port=NOBODY), sent_line(2, "GET", "/c", 200, 3)])
            same(curl(url("/d")), b"/d\n")


def case_sent_again_after_answers_of_all_kinds():
    """A server that resets, a body that runs to the close, interim responses, chunks, and HEAD."""
    asked = [("GET", "/reset"), ("GET", "/close"), ("GET", "/early"), ("GET", "/chunked"), ("HEAD", "/a"), ("POST", "/echo")]
    answers = [("-", "-", "server closed early"), (200, 15), (200, 11), (200, 11), (200, 0), (200, 6)]
    with save_file() as path:
        put(path, b"".join(flow_of(to, method.encode(), b"a body" if method == "POST" else b"") for method, to in asked))
        with Mitm(sends(path)) as mitm:
            prints(mitm, [sent_line(place, *one, *answers[place]) for place, one in enumerate(asked)])


def case_many_are_sent_again():
    """All in their order; behind them it has no more descriptors open than one that sends nothing."""
    with Mitm() as idle:
        before = idle.sockets()
    with save_file() as path:
        put(path, b"".join(flow_of(f"/{place}") for place in range(MANY)))
        with Mitm(sends(path)) as mitm:
            prints(mitm, [sent_line(place, "GET", f"/{place}", 200, 2 + len(str(place))) for place in range(MANY)])
            wait_for(lambda: mitm.sockets() <= before, "its sockets to be closed")
            same(curl(url("/a")), b"/a\n")


def case_many_are_answered_at_once():
    """A rule answers each as it begins, so all are finished before anything is heard."""
    with save_file() as path:
        put(path, b"".join(flow_of(f"/{place}") for place in range(MANY)))
        with Mitm(sends(path) + 'block_list = ["/~replayq/403"]\n') as mitm:
            prints(mitm, [sent_line(place, "GET", f"/{place}", 403, 0) for place in range(MANY)])
            same(curl(url("/a")), b"/a\n")


def case_big_bodies_are_sent_again():
    body = os.urandom(BIG)
    with save_file() as path, save_file() as other:
        put(path, flow_of("/echo", b"POST", body) + flow_of("/a"))
        with Mitm(sends(path) + saves_to(other)) as mitm:
            prints(mitm, [sent_line(0, "POST", "/echo", 200, BIG), sent_line(1, "GET", "/a", 200, 3)])
            same([flow["response"]["content"] for flow in saved(other, 2)], [body, b"/a\n"])


def case_sent_again_and_saved():
    """What is sent again may be saved, also at the end of the file that it was read from; then all are sent in the next run."""
    with save_file() as path, Keeper() as keeper:
        got = keeper.recorded(path)
        before = content(path)
        with Mitm(sends(path) + saves_to(path, "~replayq")) as mitm:
            prints(mitm, kept_lines())
            flows = saved(path, 6)[3:]
        assert content(path).startswith(before), "what was read is still there"
        same([(flow["id"], flow["is_replay"], flow["client_conn"]) for flow in flows], [(f"{FIRST + place}.0", "request", None) for place in range(3)])
        same([flow["request"]["content"] for flow in flows], [flow["request"]["content"] for flow in whole_flows(before)[0]])
        keeper.got.clear()
        with Mitm(sends(path)):
            wait_for(lambda: keeper.got == got * 2, "the requests of the first run and of the second")


def case_held_and_sent_again():
    """An operator lists them by their numbers, kills the first, and lets the second go on; the third waits behind it."""
    with save_file() as path, Keeper() as keeper:
        got = keeper.recorded(path)
        with Operated("~replayq & ~q", sends(path)) as mitm, Operator() as operator:
            same(operator.held(), [f"{FIRST}.0"])
            same(operator.about(f"{FIRST}.0")["url"], f"http://127.0.0.1:{PEER}/a?b=c")
            same(curl(url("/free")), b"/free\n")
            same((keeper.got, len(mitm.new_lines(1))), ([], 1))
            same(operator.ask(f"kill {FIRST}.0"), "ok")
            same(operator.held(), [f"{FIRST + 1}.0"])
            same(operator.ask(f"resume {FIRST + 1}.0"), "ok")
            wait_for(lambda: operator.flows() == {f"{FIRST + 2}.0": "waiting"}, "the third request")
            same(keeper.got, got[1:2])
            same(mitm.lines()[1:], [sent_line(0, "GET", "/a?b=c", "-", "-", "killed", port=PEER), *kept_lines([1])])
            same(operator.ask("quit"), "bye")
            same(mitm.process.wait(20), 0)


def case_sent_again_through_another_proxy():
    """The proxy above gets the absolute form, and the server the same bytes."""
    with save_file() as path, Keeper() as keeper:
        got = keeper.recorded(path)
        with regular(port=ABOVE) as above, Mitm(sends(path), mode=UPSTREAM) as mitm:
            prints(mitm, kept_lines())
            same(keeper.got, got)
            same(above.new_lines(3), [shown.removeprefix(f"{FIRST + place}") for place, shown in enumerate(kept_lines())])
        with Mitm(sends(path), mode=UPSTREAM) as mitm:
            wait_for(lambda: len(mitm.lines()) == 3, "three lines")
            assert all(shown.endswith(" - - error: cannot connect") for shown in mitm.lines()), mitm.lines()


def case_sent_again_by_rules():
    """Rules change them, and what clients send stays."""
    rules = 'modify_headers = ["/~replayq & ~q/X-Again/1"]\nmodify_body = ["/~replayq & ~q/body/corpus"]\n'
    with save_file() as path:
        put(path, flow_of("/head") + flow_of("/echo", b"POST", b"a body"))
        with save_file() as other, Mitm(sends(path) + rules + saves_to(other)) as mitm:
            prints(mitm, [sent_line(0, "GET", "/head", 200, len("GET /head HTTP/1.1\nHost: x\nX-Again: 1\n")), sent_line(1, "POST", "/echo", 200, 8)])
            same(saved(other, 2)[1]["response"]["content"], b"a corpus")
            same(curl("--data-binary", "a body", url("/echo")), b"a body")


def case_sent_again_and_answered_by_recorded_flows():
    """With server replay beside, recorded responses answer them, and nobody is asked."""
    with save_file() as path:
        with Keeper() as keeper:
            keeper.recorded(path)
        with Mitm(sends(path) + f"server_replay = ['{path}']\n") as mitm:
            prints(mitm, kept_lines())


def case_websocket_that_is_sent_again():
    """It is finished by the response of code 101, its server's side is closed, and the next is sent."""
    closed = threading.Event()

    def serve(connection):
        read_head(connection)
        connection.sendall(AGREES)
        same(connection.recv(1), b"")
        closed.set()

    with save_file() as path:
        fields = [field.split(b": ", 1) for field in ASKS.split(b"\r\n")[1:-2]]
        request = dict(FLOW["request"], headers=fields, content=b"", trailers=None, host=b"127.0.0.1", port=PEER, method=b"GET", path=b"/chat")
        put(path, written(dict(FLOW, request=request, response=None, error=None)) + flow_of("/a"))
        with Peer(serve, PEER) as peer, Mitm(sends(path)) as mitm:
            prints(mitm, [sent_line(0, "GET", "/chat", 101, 0, port=PEER), sent_line(1, "GET", "/a", 200, 3)])
            assert closed.wait(10), "the server's side is open"
            same(peer.went_wrong, [])


def case_resend_file_that_is_absent_or_bad():
    """They are read before it listens, behind those of server replay."""
    with save_file() as path, save_file() as other:
        same(refused(sends(path), ABSENT), (3, [f"cannot read {path}"]))
        put(path, flow_of("/a"))
        same(refused(sends(path, other), ABSENT), (3, [f"cannot read {other}"]))
        put(other, flow_of("/b")[:-1])
        same(refused(sends(path, other)), (4, [f"bad flow file {other} at 0"]))
        same(refused(sends("absent") + f"server_replay = ['{other}']\n"), (4, [f"bad flow file {other} at 0"]))
        same(refused(sends(path, ""), ['a list of paths is wanted, as ["a.flows"]']), (2, ["bad option client_replay"]))


RESEND_CASES = [
    case_recorded_and_sent_again, case_sent_again_one_behind_the_other, case_sent_again_after_a_server_that_is_down, case_sent_again_after_answers_of_all_kinds,
    case_many_are_sent_again, case_many_are_answered_at_once, case_big_bodies_are_sent_again, case_sent_again_and_saved, case_held_and_sent_again,
    case_sent_again_through_another_proxy, case_sent_again_by_rules, case_sent_again_and_answered_by_recorded_flows, case_websocket_that_is_sent_again,
    case_resend_file_that_is_absent_or_bad,
]
