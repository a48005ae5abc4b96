"""Cases of the operator's door: flows that wait are listed, shown, let go on and killed; lines in any pieces; operators who leave, flood or
never read; and pages and WebSockets that are held."""
import base64
import json
import os
import random
import shutil
import socket
import subprocess
import sys
import tempfile
import threading
import time

from page_cases import BROWSERS, page_mitm, shown_by
from tools import MITM, MODE, ORIGIN, PROXY, TOP, Mitm, Skipped, curl, get, line, listens, read_all, read_answers, run_program, same, talk, url, wait_for
from tunnel_cases import Peer, close, read_head, reset
from websocket_cases import PEER, REVERSE, TEXT, agreeing, frame, read_frame, upgraded, with_library

DOOR = ("127.0.0.1", 8081)
CONTROL = 'control = "127.0.0.1:8081"\n'
REQUESTS, RESPONSES = "~q & ~u /held", "~s & ~u /held"
OPERATORS = 1000
MANY, FEW = 200, 20
# More lines than are read of an operator who does not read, and more memory than it takes: the answers to the lines of a piece.
FLOOD = 2_000_000
MOST_GROWN = 32_000_000
# What waits for an operator's connection at most before it is not read any more, by docs/rules.md.
MARK = 262_144
# How much of an entry stands in one line at most.
PART = 65_536


class Operated(Mitm):
    """A run with a door for operators, in which the flows of this filter wait."""

    def __init__(self, intercept=None, options="", **others):
        held = "" if intercept is None else f'intercept = "{intercept}"\n'
        super().__init__(CONTROL + held + options, **others)

    def start(self):
        super().start()
        wait_for(lambda: listens(DOOR[1]), "the operators' door")


class Operator:
    """A connection at the door, with so much room for what it sends."""

    def __init__(self, room=None):
        self.socket = socket.socket()
        self.socket.settimeout(20)
        if room is not None:
            self.socket.setsockopt(socket.SOL_SOCKET, socket.SO_SNDBUF, room)
        self.socket.connect(DOOR)
        self.socket.setsockopt(socket.IPPROTO_TCP, socket.TCP_NODELAY, 1)
        self.stream = self.socket.makefile("rb")

    def __enter__(self):
        return self

    def __exit__(self, *_):
        self.stream.close()
        self.socket.close()

    def say(self, text):
        self.socket.sendall(text.encode())

    def read(self):
        """The next line; none where the connection was closed."""
        return self.stream.readline().decode().removesuffix("\n")

    def ask(self, text):
        """The first line that this one is answered."""
        self.say(text + "\n")
        return self.read()

    def flows(self):
        """The states of live flows, by their IDs in the order of the list."""
        self.say("list\n")
        return self.read_flows()

    def read_flows(self):
        found = {}
        while (answer := self.read()) != "end":
            assert answer, "the list was cut"
            name, state = answer.split(" ")
            found[name] = state
        return found

    def held(self, count=1):
        """The IDs of the flows that wait, once there are so many."""
        def are_there():
            waiting.clear()
            waiting.extend(name for name, state in self.flows().items() if state == "waiting")
            return len(waiting) >= count

        waiting = []
        wait_for(are_there, f"{count} flows that wait")
        return waiting

    def rests(self):
        """Waits until no flow is live."""
        wait_for(lambda: self.flows() == {}, "all flows to end")

    def about(self, name):
        return json.loads(self.ask(f"show {name}"))

    def part(self, name, start):
        """The part of a flow's entry from there on."""
        self.say(f"entry {name} {start}\n")
        got = self.stream.readline()
        assert got.endswith(b"\n"), got[:100]
        return got[:-1]

    def entry(self, name):
        """A flow's entry, put together from its parts."""
        whole = b""
        while (part := self.part(name, len(whole))):
            whole += part
        return whole


class Letting(threading.Thread):
    """An operator who lets every flow go on, until told to stop, and counts them."""

    def __init__(self):
        super().__init__(daemon=True)
        self.stops, self.resumed = threading.Event(), 0

    def run(self):
        while not self.stops.wait(0.01):
            try:
                with Operator() as operator:
                    self.serve(operator)
            except (OSError, AssertionError, ValueError):
                pass

    def serve(self, operator):
        while not self.stops.wait(0.002):
            for name, state in operator.flows().items():
                self.resumed += state == "waiting" and operator.ask(f"resume {name}") == "ok"

    def __enter__(self):
        self.start()
        return self

    def __exit__(self, *_):
        self.stops.set()
        self.join()


def sender(request):
    """A client that has sent this and awaits what comes."""
    client = socket.create_connection(PROXY, timeout=20)
    client.sendall(request)
    return client


def gets_nothing(client, seconds=0.2):
    """Nothing comes in that time, and no close."""
    client.settimeout(seconds)
    try:
        raise AssertionError(f"got {client.recv(1000)!r}")
    except TimeoutError:
        client.settimeout(20)


def body_of(client):
    return read_answers(client, 1)[0][1]


def goes_through(path="/free"):
    """A flow that does not wait is served."""
    same(curl(url(path)), path.encode() + b"\n")


def case_no_door_without_the_option():
    with Mitm('intercept = "~all & ~u /held"\n') as mitm:
        goes_through()
        assert not listens(DOOR[1]), "it listens for operators"
        same(mitm.notes(), [f"listening at 127.0.0.1:8080, for http://127.0.0.1:{ORIGIN}"])


def case_door_that_cannot_be_had():
    """Then nothing is served: it ends with the cause."""
    with socket.create_server(DOOR):
        got = run_program("serve", "options", options=MODE + CONTROL)
    same(got, (5, ["network fault"], ["cannot listen at 127.0.0.1:8081: address in use"]))
    same(run_program("serve", "options", options=MODE + 'control = "127.0.0.1"\n')[:2], (2, ["bad option control"]))
    same(run_program("serve", "options", options=MODE + 'intercept = "~zz"\n')[:2], (2, ["bad rule intercept 0"]))


def case_held_request():
    """curl hangs; the flow is listed and shown; once it goes on, the server gets it and curl its answer."""
    if shutil.which("curl") is None:
        raise Skipped("curl is missing")
    with Operated(REQUESTS) as mitm, Operator() as operator:
        same(operator.flows(), {})
        process = subprocess.Popen(["curl", "-sS", url("/held?a=b")], stdout=subprocess.PIPE)
        name, = operator.held()
        same(operator.flows(), {name: "waiting"})
        wanted = {"code": None, "error": None, "id": name, "marked": False, "messages": 0, "method": "GET", "url": f"http://127.0.0.1:{ORIGIN}/held?a=b"}
        answer = operator.ask(f"show {name}")
        same(answer, json.dumps(wanted, separators=(",", ":")))
        time.sleep(0.2)
        same((process.poll(), mitm.lines()), (None, []))
        same(operator.ask(f"resume {name}"), "ok")
        same(process.communicate(timeout=20)[0], b"/held?a=b\n")
        operator.rests()
        same([operator.ask(f"{word} {name}") for word in ("resume", "kill", "mark", "show")], ["no such flow"] * 4)
        same(mitm.new_lines(1), [line("GET", "/held?a=b", 200, 10)])


def case_held_response():
    with Operated(RESPONSES) as mitm, Operator() as operator, sender(get("/held", "Connection: close")) as client:
        name, = operator.held()
        same(operator.about(name)["code"], 200)
        gets_nothing(client)
        same(operator.ask(f"resume {name}"), "ok")
        assert read_all(client).endswith(b"\r\n\r\n/held\n"), "no answer"
        same(mitm.new_lines(1), [line("GET", "/held", 200, 6)])


def case_both_are_held():
    """With a filter of both, a flow waits at its request and again at its response."""
    with Operated("/held") as mitm, Operator() as operator, sender(get("/held")) as client:
        for code in (None, 200):
            name, = operator.held()
            same(operator.about(name)["code"], code)
            same(operator.ask(f"resume {name}"), "ok")
        same(body_of(client), b"/held\n")
        same(mitm.new_lines(1), [line("GET", "/held", 200, 6)])


def case_killed_flows_give_no_byte():
    """At the request the server sees nothing of it, and at the response the client does not; behind the kill there is no such flow."""
    for held, shown in ((REQUESTS, ("-", "-")), (RESPONSES, (200, 6))):
        with Operated(held) as mitm, Operator() as operator, sender(get("/held")) as client:
            name, = operator.held()
            same([operator.ask(f"kill {name}") for _ in range(2)], ["ok", "no such flow"])
            same((read_all(client), operator.flows()), (b"", {}))
            same(mitm.new_lines(1), [line("GET", "/held", *shown, "killed")])
            goes_through()


def case_resumed_in_the_other_order():
    with Operated(REQUESTS) as mitm, Operator() as operator, sender(get("/held/1")) as one:
        first, = operator.held()
        with sender(get("/held/2")) as two:
            same(operator.held(2)[0], first)
            second = operator.held(2)[1]
            same(operator.ask(f"resume {second}"), "ok")
            same(body_of(two), b"/held/2\n")
            gets_nothing(one)
            same(operator.ask(f"resume {first}"), "ok")
            same(body_of(one), b"/held/1\n")
        same(mitm.new_lines(2), [line("GET", "/held/2", 200, 8), line("GET", "/held/1", 200, 8)])


def case_many_held_and_let_go_in_any_order():
    with Operated(REQUESTS) as mitm, Operator() as operator:
        clients = [sender(get(f"/held/{number}", "Connection: close")) for number in range(MANY)]
        names = operator.held(MANY)
        same(names, sorted(names, key=lambda name: [int(part) for part in name.split(".")]))
        random.Random(1).shuffle(names)
        for name in names:
            same(operator.ask(f"resume {name}"), "ok")
        for number, client in enumerate(clients):
            with client:
                assert read_all(client).endswith(f"\r\n\r\n/held/{number}\n".encode()), number
        operator.rests()
        same(len(mitm.new_lines(MANY)), MANY)


def case_pipelined_behind_a_held_one():
    """What waits behind it in its connection waits too, whether the filter holds on it or not."""
    with Operated(REQUESTS) as mitm, Operator() as operator:
        with sender(get("/held/1") + get("/free") + get("/held/2") + get("/free")) as client:
            first, = operator.held()
            gets_nothing(client)
            same((operator.flows(), mitm.lines()), ({first: "waiting"}, []))
            same(operator.ask(f"resume {first}"), "ok")
            same([body for _, body in read_answers(client, 1)], [b"/held/1\n"])
            conv = first.split(".")[0]
            wait_for(lambda: operator.flows() == {f"{conv}.2": "waiting"}, "the third request")
            same(operator.ask(f"resume {conv}.2"), "ok")
            operator.rests()
        same(mitm.new_lines(4), [line("GET", path, 200, len(path) + 1, index=index) for index, path in enumerate(("/held/1", "/free", "/held/2", "/free"))])


def case_flow_that_does_not_wait():
    """A flow whose body is still on its way is live and goes: it is neither resumed nor killed, but marked."""
    with Operated() as mitm, Operator() as operator:
        with sender(b"POST /echo HTTP/1.1\r\nHost: h\r\nContent-Length: 4\r\n\r\nha") as client:
            wait_for(lambda: len(operator.flows()) == 1, "the flow")
            (name, state), = operator.flows().items()
            same(state, "going")
            same([operator.ask(f"{word} {name}") for word in ("resume", "kill", "mark")], ["not waiting", "not waiting", "ok"])
            client.sendall(b"lf")
            same(body_of(client), b"half")
        same(mitm.new_lines(1), [line("POST", "/echo", 200, 4)])


def case_entry_in_parts():
    """A flow's entry with a large body: each part is a line, and no longer than it may be; at its end and behind it the line is empty."""
    body = random.Random(7).randbytes(200_000)
    request = get("/held", f"Content-Length: {len(body)}", "Connection: close").replace(b"GET", b"POST", 1)
    with Operated(RESPONSES) as mitm, Operator() as operator, sender(request + body) as client:
        name, = operator.held()
        text = operator.entry(name)
        entry = json.loads(text)
        same((entry["request"]["method"], entry["request"]["postData"]["text"].encode("latin-1") == body, entry["response"]["status"]), ("POST", True, 200))
        assert len(text) > 4 * PART, len(text)
        for start in (0, 1, PART - 1, PART, 3 * PART + 7, len(text) - PART, len(text) - PART + 1, len(text) - 1, len(text), len(text) + 1, 2**32, 2**64 - 1):
            assert operator.part(name, start) == text[start:start + PART], start
        same(operator.ask(f"resume {name}"), "ok")
        operator.rests()
        same(operator.ask(f"entry {name} 0"), "no such flow")
        read_all(client)
        mitm.new_lines(1)


def case_entry_as_people_read_it():
    """examples/show.py reads the parts, and what stands behind their end."""
    with Operated(REQUESTS) as mitm, Operator() as operator, sender(get("/held", "Connection: close")) as client:
        name, = operator.held()
        operator.say("".join(f"entry {name} {start}\n" for start in (0, PART, 2 * PART)))
        said = b"".join(operator.stream.readline() for _ in range(3))
        ran = subprocess.run([sys.executable, "-B", os.path.join(TOP, "examples", "show.py")], input=said, stdout=subprocess.PIPE, timeout=60)
        lines = ran.stdout.decode().splitlines()
        same((ran.returncode, lines[1], lines[-1]), (0, f"> GET http://127.0.0.1:{ORIGIN}/held HTTP/1.1", "(there is no response)"))
        same(operator.ask(f"resume {name}"), "ok")
        read_all(client)
        mitm.new_lines(1)


def case_marks():
    """A mark shows where the flow is asked about next, and filters see it: here of what is saved."""
    options = 'save_stream_file = "saved"\nsave_stream_filter = "~marked"\n'
    with Operated("/held", options) as mitm, Operator() as operator:
        for path, marks in (("/held/1", False), ("/held/2", True)):
            with sender(get(path)) as client:
                name, = operator.held()
                if marks:
                    same(operator.ask(f"mark {name}"), "ok")
                same(operator.about(name)["marked"], False)
                same(operator.ask(f"resume {name}"), "ok")
                same(operator.held(), [name])
                same(operator.about(name)["marked"], marks)
                same(operator.ask(f"resume {name}"), "ok")
                same(body_of(client), path.encode() + b"\n")
        mitm.new_lines(2)
        done = subprocess.run([MITM, "flows", mitm.path("saved"), "~all"], capture_output=True, timeout=60)
        same(done.stdout.decode(), f"{name} GET http://127.0.0.1:{ORIGIN}/held/2 200 8\n")


def case_rules_come_first():
    """What a rule answers does not wait; the filter sees a flow as the rules left it, and it goes on so."""
    options = 'block_list = ["|~u /held/blocked|403"]\nmap_remote = ["|/moved|/held"]\n'
    with Operated(REQUESTS, options) as mitm, Operator() as operator:
        assert talk(get("/held/blocked", "Connection: close")).startswith(b"HTTP/1.1 403 "), "it was not blocked"
        with sender(get("/moved")) as client:
            name, = operator.held()
            same(operator.ask(f"resume {name}"), "ok")
            same(body_of(client), b"/held\n")
        same(mitm.new_lines(2), [line("GET", "/held/blocked", 403, 0), line("GET", "/held", 200, 6)])


def case_lines_that_are_no_orders():
    unknown, number = "unknown command", "bad number"
    answers = [
        ("", unknown), ("LIST", unknown), ("list ", unknown), (" list", unknown), ("list 0.0", unknown), ("show", unknown), ("resume", unknown),
        ("kill  0.0", unknown), ("quit now", unknown), ("drop", unknown), ("GET / HTTP/1.1", unknown), ("é", unknown),
        ("show 0", number), ("show 00.0", number), ("kill 0.00", number), ("mark +1.2", number), ("resume 0.4294967296", number), ("resume -1.0", number),
        ("mark .", number), ("show ", number), ("show 0.0.0", number),
        ("entry", unknown), ("entry 0.0", unknown), ("entry 0.0 0 0", unknown), ("entry  0.0 0", unknown), ("show 0.0 0", unknown),
        ("entry 0 0", number), ("entry 00.0 0", number), ("entry 0.0 x", number), ("entry 0.0 ", number), ("entry 0.0 00", number), ("entry 0.0 -1", number),
        (f"entry 0.0 {2**64}", number), ("entry x x", number), ("entry 0.0 0", "no such flow"), (f"entry 7.7 {2**64 - 1}", "no such flow"),
        ("show 0.0", "no such flow"), ("resume 4294967295.4294967295", "no such flow"), ("kill 7.7", "no such flow"), ("mark 7.7", "no such flow"),
        ("drop nobody", "no such addon"), ("drop ", "no such addon"),
    ]
    with Operated(), Operator() as operator:
        for end in ("\n", "\r\n"):
            for text, wanted in answers:
                operator.say(text + end)
                same((text, operator.read()), (text, wanted))
        same(operator.ask("list\r\r"), unknown)


def case_dropped_addon():
    """The program's own one, which counts requests; the rules stay."""
    with Operated(REQUESTS, 'modify_headers = ["/~s/X-Seen/1"]\n') as mitm, Operator() as operator:
        same([operator.ask("drop counter") for _ in range(2)], ["ok", "no such addon"])
        assert b"X-Seen: 1\r\n" in talk(get("/free", "Connection: close")), "the rules are gone"
        with sender(get("/held")) as client:
            name, = operator.held()
            same(operator.ask(f"resume {name}"), "ok")
            same(body_of(client), b"/held\n")
        mitm.new_lines(2)


def case_longest_line():
    """1,023 bytes and their line feed are a line. 1,024 without one are too long: that is answered, and the connection is closed, with nothing behind it
    obeyed."""
    with Operated(), Operator() as operator:
        same(operator.ask("x" * 1023), "unknown command")
        same(operator.ask("x" * 1022 + "\r"), "unknown command")
        same(operator.ask("drop " + "x" * 1018), "no such addon")
        for text in ("x" * 1024, "x" * 1024 + "\nlist\nquit\n", "x" * 1023 + "\r\nquit\n"):
            with Operator() as other:
                other.say("list\n" + text)
                same(read_all(other.socket), b"end\nline too long\n")
        same(operator.flows(), {})


def case_lines_in_any_pieces():
    """Byte by byte, and many lines in one piece, with those of another operator between."""
    text = "list\r\nshow 0.0\nlist\n\nresume 1\n" * 40
    wanted = ("end\nno such flow\nend\nunknown command\nbad number\n" * 40).encode()
    with Operated(), Operator() as one, Operator() as other:
        for at, byte in enumerate(text):
            one.say(byte)
            if at % 10 == 0:
                same(other.flows(), {})
        one.socket.shutdown(socket.SHUT_WR)
        same(one.stream.read(), wanted)
        other.say(text * 50)
        other.socket.shutdown(socket.SHUT_WR)
        same(other.stream.read(), wanted * 50)


def case_operator_closes_its_side():
    """All that it said is answered, and then it is let go; a line that was not ended is none."""
    with Operated() as mitm:
        before = mitm.sockets()
        same(talk_at_the_door("list\nmark 0.0\nquit"), b"end\nno such flow\n")
        same(talk_at_the_door(""), b"")
        if shutil.which("nc") is not None:
            done = subprocess.run(["nc", "-N", *map(str, DOOR)], input=b"list\n", capture_output=True, timeout=20)
            assert done.stdout == b"end\n" or b"invalid option" in done.stderr, done
        wait_for(lambda: mitm.sockets() == before, "their sockets to be closed")


def talk_at_the_door(text):
    with Operator() as operator:
        operator.say(text)
        operator.socket.shutdown(socket.SHUT_WR)
        return operator.stream.read()


def case_operators_leave():
    """In any way, in a line and between lines: the flow that waits is there for the next one."""
    with Operated(REQUESTS) as mitm, sender(get("/held")) as client:
        with Operator() as operator:
            name, = operator.held()
        before = mitm.sockets()
        for leave in (close, reset):
            for text in ("", "li", "list\n", f"show {name}\n" * 100, f"resume {name}"):
                operator = Operator()
                operator.say(text)
                operator.stream.close()
                leave(operator.socket)
        wait_for(lambda: mitm.sockets() <= before, "their sockets to be closed")
        with Operator() as operator:
            same(operator.flows(), {name: "waiting"})
            same(operator.ask(f"resume {name}"), "ok")
        same(body_of(client), b"/held\n")


def case_client_leaves_while_its_flow_is_held():
    """It stays, since nobody has decided on it. A request that is let go on then ends by the client's close; a response is whole."""
    for leave in (close, reset):
        with Operated(REQUESTS) as mitm, Operator() as operator:
            client = sender(get("/held"))
            name, = operator.held()
            leave(client)
            time.sleep(0.2)
            same((operator.flows(), mitm.lines()), ({name: "waiting"}, []))
            same(operator.ask(f"resume {name}"), "ok")
            operator.rests()
            same(mitm.new_lines(1), [line("GET", "/held", "-", "-", "client closed")])
        with Operated(RESPONSES) as mitm, Operator() as operator:
            client = sender(get("/held"))
            name, = operator.held()
            leave(client)
            same(operator.ask(f"resume {name}"), "ok")
            operator.rests()
            same(mitm.new_lines(1), [line("GET", "/held", 200, 6)])


def case_operator_ends_the_run():
    """With status 0; what is held is cut off, and its line is not printed. Lines behind `quit` are not answered."""
    with Operated(REQUESTS) as mitm, Operator() as operator, Operator() as other:
        goes_through()
        clients = [sender(get(f"/held/{number}")) for number in range(10)]
        operator.held(10)
        operator.say("mark 0.0\nquit\nlist\n")
        same(operator.stream.read(), b"no such flow\nbye\n")
        same(mitm.process.wait(20), 0)
        same(ended(other.socket), b"")
        for client in clients:
            with client:
                same(ended(client), b"")
        same(mitm.new_lines(1), [line("GET", "/free", 200, 6)])


def ended(client):
    """What comes until the end, be it a close or a reset."""
    try:
        return read_all(client)
    except ConnectionResetError:
        return b""


def case_operator_who_never_reads():
    """It is not read any more once much waits for it; flows go on, and others are answered. When it reads, all its answers are there, in order."""
    with Operated(REQUESTS) as mitm, Operator() as operator:
        clients = [sender(get(f"/held/{number}")) for number in range(FEW)]
        names = operator.held(FEW)
        memory = resident(mitm)
        with Operator(room=16_384) as flooding:
            count = flood(flooding.socket, b"list\n" * FLOOD)
            assert count < 5 * FLOOD, "it was read on and on"
            goes_through()
            same(operator.ask(f"kill {names[0]}"), "ok")
            same(list(operator.flows()), names[1:])
            grown = resident(mitm) - memory
            assert grown < MOST_GROWN, f"it grew by {grown} bytes"
            lists = answers_of(flooding, b"list\n"[count % 5:] if count % 5 else b"").split(b"end\n")
        before, behind = (b"".join(b"%s waiting\n" % name.encode() for name in names[first:]) for first in (0, 1))
        firsts = lists.count(before)
        assert firsts * len(before) > MARK, f"{firsts} lists were made before"
        same((len(lists), lists.count(behind)), (-(-count // 5) + 1, -(-count // 5) - firsts))
        assert lists == [before] * firsts + [behind] * (len(lists) - firsts - 1) + [b""], "they are in no order"
        for client in clients:
            client.close()


def resident(mitm):
    """How many bytes of memory it has."""
    with open(f"/proc/{mitm.process.pid}/statm", encoding="ascii") as file:
        return int(file.read().split()[1]) * os.sysconf("SC_PAGE_SIZE")


def flood(client, text):
    """Sends as much of the text as is taken, until nothing is for a while: how many bytes."""
    client.settimeout(3)
    sent = 0
    try:
        while sent < len(text):
            sent += client.send(text[sent:sent + 65_536])
    except TimeoutError:
        pass
    client.settimeout(60)
    return sent


def answers_of(operator, rest):
    """All that it is answered, once it has sent the rest too and closed its side."""
    def send():
        operator.socket.sendall(rest)
        operator.socket.shutdown(socket.SHUT_WR)

    sending = threading.Thread(target=send)
    sending.start()
    got = operator.stream.read()
    sending.join()
    return got


def case_operator_who_never_reads_and_leaves():
    """Its answers are not taken any more, though they held it back from being read: its socket is closed, and others are answered."""
    with Operated(REQUESTS) as mitm, Operator() as operator:
        clients = [sender(get(f"/held/{number}")) for number in range(FEW)]
        names = operator.held(FEW)
        before = mitm.sockets()
        for leave in (close, reset):
            flooding = Operator(room=16_384)
            flood(flooding.socket, b"list\n" * FLOOD)
            same(mitm.sockets(), before + 1)
            flooding.stream.close()
            leave(flooding.socket)
            wait_for(lambda: mitm.sockets() == before, "its socket to be closed")
            same(list(operator.flows()), names)
        for client in clients:
            client.close()


def case_a_thousand_operators():
    """All are open at once; each gets its own answers."""
    with Operated(REQUESTS) as mitm, sender(get("/held")) as client:
        with Operator() as operator:
            name, = operator.held()
            before = mitm.sockets()
        operators = [Operator() for _ in range(OPERATORS)]
        for number, operator in enumerate(operators):
            operator.say("list\n"[:number % 5])
        for number, operator in enumerate(operators):
            operator.say("list\n"[number % 5:])
        for operator in operators:
            same(operator.read_flows(), {name: "waiting"})
        goes_through()
        same(operators[500].ask(f"resume {name}"), "ok")
        same(body_of(client), b"/held\n")
        for operator in operators:
            operator.__exit__()
        wait_for(lambda: mitm.sockets() <= before, "their sockets to be closed")


def case_line_without_end():
    """Who sends on and on without a line feed is told once, and is read no more; a connection that waits within a line costs nobody anything."""
    with Operated() as mitm, Operator() as patient:
        same(patient.flows(), {})
        patient.say("x" * 1000)
        before = mitm.sockets()
        for size in (1024, 1025, 100_000):
            with Operator() as operator:
                operator.say("y" * size)
                same(ended(operator.socket), b"line too long\n")
        for _ in range(20):
            with Operator() as operator:
                try:
                    operator.say("y" * 4_000_000)
                except (ConnectionError, TimeoutError):
                    pass
        goes_through()
        same(patient.ask(""), "unknown command")
        wait_for(lambda: mitm.sockets() <= before, "their sockets to be closed")


def case_page_that_posts_to_the_door():
    """A browser's request is shut out: neither its head nor its body is lines."""
    with Operated(REQUESTS) as mitm, Operator() as operator, sender(get("/held")) as client:
        name, = operator.held()
        body = f"kill {name}\n"
        head = f"POST / HTTP/1.1\r\nHost: 127.0.0.1:8081\r\nContent-Type: text/plain\r\nContent-Length: {len(body)}\r\n\r\n"
        with Operator() as page:
            page.say(head + body)
            same(ended(page.socket), b"")
        same(operator.ask(f"resume {name}"), "ok")
        same(body_of(client), b"/held\n")
        same(mitm.new_lines(1), [line("GET", "/held", 200, 6)])


def case_held_message_of_a_websocket():
    """Messages of both sides wait, and what comes behind them on the connection; one that is killed ends the WebSocket without a byte of it."""
    def serve(connection):
        same(read_frame(connection), (0x80 | TEXT, b"hold this"))
        connection.sendall(frame(TEXT, b"hold that"))
        same(read_frame(connection), (0x80 | TEXT, b"free"))
        same(connection.recv(1), b"")

    with Peer(agreeing(serve), PEER) as peer, Operated("~websocket & ~b hold", mode=REVERSE) as mitm, Operator() as operator:
        with upgraded() as client:
            client.sendall(frame(TEXT, b"hold this", True) + frame(TEXT, b"free", True))
            name, = operator.held()
            same(operator.about(name)["code"], 101)
            text, payload = operator.entry(name).rsplit(b" ", 1)
            same((json.loads(text)["response"]["status"], base64.b64decode(payload)), (101, b"hold this"))
            same(operator.ask(f"resume {name}"), "ok")
            same(operator.held(), [name])
            same(base64.b64decode(operator.entry(name).rsplit(b" ", 1)[1]), b"hold that")
            gets_nothing(client)
            same(operator.ask(f"resume {name}"), "ok")
            same(read_frame(client), (0x80 | TEXT, b"hold that"))
            client.sendall(frame(TEXT, b"hold this too", True))
            same(operator.held(), [name])
            same(operator.ask(f"kill {name}"), "ok")
            same(read_all(client), b"")
        same(peer.went_wrong, [])
        same(mitm.new_lines(1), [line("GET", "/chat", 101, 0, "killed", port=PEER)])


def case_library_whose_messages_are_held():
    with Letting() as letting:
        with_library("""for n in range(100):
            await websocket.send("message %d" % n)
            assert await websocket.recv() == "message %d" % n""", options=CONTROL + 'intercept = "~b message"\n')
        same(letting.resumed, 200)


def browser_here(home):
    """A browser that runs here."""
    browser = next((path for path in map(shutil.which, BROWSERS) if path), None)
    if browser is None:
        raise Skipped("there is no browser (the package chromium of Debian)")
    if "<p>here</p>" not in shown_by(browser, home, "data:text/html,<p>here</p>"):
        raise Skipped(f"{browser} does not run here")
    return browser


def case_page_in_a_browser_says_nothing():
    """From whatever server it is, its script is refused at the door, and the run goes on."""
    page = b"""<!doctype html><p id="said">nothing</p><script>
        fetch('http://127.0.0.1:8081/', {method: 'POST', mode: 'no-cors', body: 'quit\\n'}).catch(() => {
          document.getElementById('said').textContent = 'refused';
        });
        </script>"""

    def serve(connection):
        read_head(connection)
        connection.sendall(b"HTTP/1.1 200 OK\r\nContent-Type: text/html\r\nConnection: close\r\nContent-Length: %d\r\n\r\n" % len(page) + page)

    with tempfile.TemporaryDirectory() as home, Peer(serve, PEER), Operated() as mitm:
        shown = shown_by(browser_here(home), home, f"http://127.0.0.1:{PEER}/", "--no-proxy-server", "--virtual-time-budget=3000")
        assert '<p id="said">refused</p>' in shown, shown
        goes_through()
        assert mitm.process.poll() is None, f"it ended with {mitm.process.returncode}"


def case_browser_is_held_and_let_go():
    """A page and what it asks for wait, at their requests and their responses; when all are let go on, it is whole."""
    with tempfile.TemporaryDirectory() as home:
        browser = browser_here(home)
        with page_mitm(CONTROL + 'intercept = "~u /page | ~u /dot"\n'), Letting() as letting:
            shown = shown_by(browser, home, url("/page"))
    assert '<p id="text">the new word</p>' in shown, shown
    assert '<p id="rule">p { color: rgb(1, 2, 3); }</p>' in shown, shown
    assert '<p id="width">7</p>' in shown, shown
    assert letting.resumed >= 5, letting.resumed


OPERATOR_CASES = [
    case_no_door_without_the_option, case_door_that_cannot_be_had, case_held_request, case_held_response, case_both_are_held, case_killed_flows_give_no_byte, case_resumed_in_the_other_order,
    case_many_held_and_let_go_in_any_order, case_pipelined_behind_a_held_one, case_flow_that_does_not_wait, case_entry_in_parts, case_entry_as_people_read_it, case_marks, case_rules_come_first,
    case_lines_that_are_no_orders, case_dropped_addon, case_longest_line, case_lines_in_any_pieces, case_operator_closes_its_side, case_operators_leave,
    case_client_leaves_while_its_flow_is_held, case_operator_ends_the_run, case_operator_who_never_reads, case_operator_who_never_reads_and_leaves,
    case_a_thousand_operators, case_line_without_end, case_page_that_posts_to_the_door, case_held_message_of_a_websocket,
    case_library_whose_messages_are_held, case_page_in_a_browser_says_nothing, case_browser_is_held_and_let_go,
]
