"""Cases of flows that an operator changes while they wait: by lines `edit`, by examples/operator_edit.py, and in the view."""
import base64
import json
import os
import random
import shlex
import subprocess
import sys
import tempfile

from operator_cases import REQUESTS, RESPONSES, Operated, Operator, body_of, gets_nothing, goes_through, sender
from origin import answer, read_body, read_head
from tools import MITM, ORIGIN, TOP, get, line, read_all, read_answers, same
from tunnel_cases import PEER, Peer
from view_cases import Terminal, at
from websocket_cases import BINARY, REVERSE, TEXT, agreeing, frame, read_frame, upgraded

import operator_edit
from operator_edit import Message, Step

EDIT = os.path.join(TOP, "examples", "operator_edit.py")
LARGE = 200_000
# The bytes that stand in a line `more` of these cases.
ROOM = 720
TRIES = 300


def coded(value):
    return base64.b64encode(value).decode()


def body_lines(value):
    """The lines, behind the ID, that give a body."""
    return ["body", *(f"more {coded(value[start:start + ROOM])}" for start in range(0, len(value), ROOM))]


def edits(operator, name, *changes):
    """What these changes of a flow are answered, all said at once."""
    operator.say("".join(f"edit {name} {change}\n" for change in changes))
    return [operator.read() for _ in changes]


def changes(operator, name, *lines):
    """Each of these changes is made."""
    same(edits(operator, name, *lines), ["ok"] * len(lines))


def goes_on(operator, name):
    same(operator.ask(f"resume {name}"), "ok")


def keeping(asked):
    """A server that keeps the heads and bodies that it is sent."""
    def serve(connection):
        stream = connection.makefile("rb")
        head = read_head(stream)
        asked.append((head[3].decode().splitlines(), read_body(stream, head[2])))
        connection.sendall(answer("200 OK", b"heard", "Connection: close"))
    return serve


def post(path, body, *fields):
    return get(path, f"Content-Length: {len(body)}", *fields).replace(b"GET", b"POST", 1) + body


# ---- by lines


def case_edited_request():
    """The server gets the method, the URL, the fields and the body that lines gave it, and before the resume nothing of that shows."""
    asked, large = [], random.Random(3).randbytes(LARGE)
    with Peer(keeping(asked)) as peer, Operated(REQUESTS) as mitm, Operator() as operator, sender(get("/held", "X-One: 1", "X-Two: 2")) as client:
        name, = operator.held()
        before = operator.about(name), operator.entry(name)
        changes(operator, name, "method PUT", f"url http://127.0.0.1:{PEER}/other?a", f"set x-one {coded(b'one')}", "remove X-TWO", f"add X-Three {coded(b'thr')}", f"more {coded(b'ee')}",
                *body_lines(large))
        same((operator.flows(), operator.about(name), operator.entry(name)), ({name: "waiting"}, *before))
        gets_nothing(client)
        same((asked, mitm.lines()), ([], []))
        goes_on(operator, name)
        same(body_of(client), b"heard")
        head = ["PUT /other?a HTTP/1.1", f"Host: 127.0.0.1:{ORIGIN}", "x-one: one", "X-Three: three", f"Content-Length: {LARGE}"]
        same((asked[0][0], asked[0][1] == large, len(asked), peer.went_wrong), (head, True, 1, []))
        same(mitm.new_lines(1), [line("PUT", "/other?a", 200, 5, port=PEER)])


def case_edited_response():
    """The client gets the status and the large body that lines gave, and they are what is saved."""
    large = random.Random(4).randbytes(LARGE)
    with Operated(RESPONSES, 'save_stream_file = "saved"\n') as mitm, Operator() as operator, sender(get("/held", "Connection: close")) as client:
        name, = operator.held()
        changes(operator, name, "status 418", *body_lines(large), "status 404", f"set content-type {coded(b'x/y')}")
        goes_on(operator, name)
        head, body = read_answers(client, 1)[0]
        same(head.decode(), f"HTTP/1.1 404 Not Found\r\ncontent-type: x/y\r\nContent-Length: {LARGE}\r\n\r\n")
        assert body == large, f"{len(body)} other bytes"
        same(mitm.new_lines(1), [line("GET", "/held", 404, LARGE)])
        # (it is saved behind its line, and before anything else is heard)
        operator.rests()
        done = subprocess.run([MITM, "har", mitm.path("saved"), "~c 404"], capture_output=True, timeout=60)
        content = json.loads(done.stdout)["log"]["entries"][0]["response"]["content"]
        same((content["mimeType"], base64.b64decode(content["text"]) == large), ("x/y", True))


def case_edited_and_killed():
    """What was changed goes nowhere: at the request the server sees nothing of it, and at the response the client does not."""
    for held, shown, changed in ((REQUESTS, ("-", "-"), ["method PUT", "body", f"more {coded(b'x')}"]), (RESPONSES, (200, 6), ["status 404", "body"])):
        with Operated(held) as mitm, Operator() as operator, sender(get("/held")) as client:
            name, = operator.held()
            changes(operator, name, *changed)
            same([operator.ask(f"kill {name}"), *edits(operator, name, "body")], ["ok", "no such flow"])
            same(read_all(client), b"")
            same(mitm.new_lines(1), [line("GET", "/held", *shown, "killed")])
            goes_through()


def case_edit_of_one_flow_alone():
    """Flows that wait beside it are as they were, whichever goes on first; and each has its own lines `more`."""
    with Operated(REQUESTS) as mitm, Operator() as operator, Operator() as other:
        with sender(post("/held/1", b"one")) as one, sender(post("/held/2", b"two")) as two:
            first, second = operator.held(2)
            if operator.about(first)["url"] != at("/held/1"):
                first, second = second, first
            changes(operator, first, f"url {at('/echo')}", "body", f"more {coded(b'ch')}")
            same(edits(other, second, f"more {coded(b'x')}"), ["not there"])
            goes_on(other, second)
            same(body_of(two), b"/held/2\n")
            changes(other, first, f"more {coded(b'anged')}")
            goes_on(operator, first)
            same(body_of(one), b"changed")
        same(mitm.new_lines(2), [line("POST", "/held/2", 200, 8), line("POST", "/echo", 200, 7)])


def case_edits_that_are_refused():
    """Then nothing is changed, at a request and at its response; late ones are told so."""
    with Operated("~u /held") as mitm, Operator() as operator, sender(get("/held", "X: 1")) as client:
        name, = operator.held()
        entry = operator.entry(name)
        same(edits(operator, name, "status 200", "more eA=="), ["not there"] * 2)
        same(edits(operator, name, "method CONNECT", "url https://h/", "set X x", "set X: eA==", "add X Cg==", "remove ("), ["bad value"] * 6)
        same(edits(operator, name, "method", "body x", "set X", "reason eA==", ""), ["unknown command"] * 5)
        same([operator.ask(words) for words in ("edit", f"edit {name}", "edit 1 body", "edit 00.0 body", "edit 77.0 body")],
             ["unknown command"] * 2 + ["bad number"] * 2 + ["no such flow"])
        same(operator.entry(name), entry)
        goes_on(operator, name)
        same(operator.held(), [name])
        asked, shown = (json.loads(text)["request"] for text in (entry, operator.entry(name)))
        same(shown, asked)
        same(edits(operator, name, "method PUT", f"url {at('/')}", "status 199", "more eA=="), ["not there", "not there", "bad value", "not there"])
        goes_on(operator, name)
        same(body_of(client), b"/held\n")
        operator.rests()
        same(edits(operator, name, "body"), ["no such flow"])
        same(mitm.new_lines(1), [line("GET", "/held", 200, 6)])


def case_edit_of_a_flow_that_goes():
    with Operated(REQUESTS) as mitm, Operator() as operator, sender(b"POST /echo HTTP/1.1\r\nHost: h\r\nContent-Length: 4\r\n\r\nha") as client:
        while not (flows := operator.flows()):
            pass
        (name, state), = flows.items()
        same((state, edits(operator, name, "body", "method CONNECT")), ("going", ["not waiting"] * 2))
        client.sendall(b"lf")
        same(body_of(client), b"half")
        same(mitm.new_lines(1), [line("POST", "/echo", 200, 4)])


def case_edits_cut_anywhere():
    """Lines of two operators who change one flow by turns, in pieces of any size."""
    rng, body = random.Random(6), random.Random(7).randbytes(20_000)
    with Operated("~q & ~u /echo") as mitm, sender(post("/echo", b"x")) as client:
        with Operator() as one, Operator() as two:
            name, = one.held()
            changes(one, name, "body")
            for start in range(0, len(body), ROOM):
                operator = rng.choice((one, two))
                text = f"edit {name} more {coded(body[start:start + ROOM])}\n"
                while text:
                    size = rng.choice((1, 2, 500, 1024))
                    operator.say(text[:size])
                    text = text[size:]
                same(operator.read(), "ok")
            two.say(f"edit {name} bo")
        with Operator() as three:
            goes_on(three, name)
        assert body_of(client) == body, "another body"
        same(mitm.new_lines(1), [line("POST", "/echo", 200, len(body))])


def case_edited_message_of_a_websocket():
    """A message gets longer than a frame has room, and one of the server is emptied."""
    large = random.Random(8).randbytes(LARGE)

    def serve(connection):
        got, first = b"", BINARY
        while len(got) < LARGE:
            opcode, payload = read_frame(connection)
            same(opcode & 15, first)
            got, first = got + payload, 0
        assert opcode & 0x80 and got == large, f"{len(got)} other bytes"
        connection.sendall(frame(TEXT, b"hold that"))
        connection.recv(1)

    with Peer(agreeing(serve)) as peer, Operated("~websocket & ~b hold", mode=REVERSE) as mitm, Operator() as operator:
        with upgraded() as client:
            client.sendall(frame(BINARY, b"hold this", True))
            name, = operator.held()
            same(edits(operator, name, "status 200", "method GET", "set X eA==", "remove X"), ["not there"] * 4)
            changes(operator, name, *body_lines(large))
            goes_on(operator, name)
            same(operator.held(), [name])
            changes(operator, name, "body")
            goes_on(operator, name)
            same(read_frame(client), (0x80 | TEXT, b""))
        same(peer.went_wrong, [])
        same(mitm.new_lines(1), [line("GET", "/chat", 101, 0, port=PEER)])


# ---- in an editor


class Editor:
    """A program in place of an editor: what stands in the file is kept, and each text is replaced by the next one of its pair; or it ends so."""

    def __init__(self, *replaced, status=0):
        self.replaced, self.status = replaced, status

    def __enter__(self):
        self.folder = tempfile.TemporaryDirectory()
        self.seen = os.path.join(self.folder.name, "seen")
        script = os.path.join(self.folder.name, "editor.py")
        with open(script, "w", encoding="utf-8") as file:
            file.write(f"""import sys
text = open(sys.argv[-1], "rb").read()
open({self.seen!r}, "wb").write(text)
for old, new in {self.replaced!r}:
    text = text.replace(old, new)
open(sys.argv[-1], "wb").write(text)
sys.exit({self.status})
""")
        self.words = shlex.join([sys.executable, "-B", script, "an option"])
        return self

    def __exit__(self, *_):
        self.folder.cleanup()

    def text(self):
        """The text that it was given last."""
        with open(self.seen, "rb") as file:
            return file.read()


def run_edit(name, *replaced, status=0):
    """What the program tells of a flow that was edited so: its status, its lines, and the text that was to be edited."""
    with Editor(*replaced, status=status) as editor:
        ran = subprocess.run([sys.executable, EDIT, name], env={**os.environ, "EDITOR": editor.words}, stdin=subprocess.DEVNULL, capture_output=True, timeout=60)
        same(ran.stderr, b"")
        return ran.returncode, ran.stdout.decode().splitlines(), editor.text() if os.path.exists(editor.seen) else None


def case_edit_in_the_editor():
    """The text is the request as it was read, and each change is told with its answer; a large body goes in many lines."""
    body, wanted = b"a word \n" * (LARGE // 8), b"another \n" * (LARGE // 8)
    with Operated("~q & ~u /echo") as mitm, Operator() as operator, sender(post("/echo", body, "X-One: 1", "X-Two: 2")) as client:
        name, = operator.held()
        status, told, text = run_edit(name, (b"POST /echo", b"POST /no"), (b"POST", b"PUT"), (b"X-One: 1", b"x-one: 2\nX-One: 3"), (b"X-Two: 2\n", b""), (b"a word ", b"another "))
        lines = -(-len(wanted) // ((1023 - len(f"edit {name} more ")) // 4 * 3)) + 1
        same((status, told), (0, [f"edit {name} {words}: ok" for words in ("method PUT", "set x-one", "add X-One", "remove X-Two", f"body, in {lines} lines")]))
        same(text, f"POST {at('/echo')} HTTP/1.1\nHost: 127.0.0.1:{ORIGIN}\nContent-Length: {len(body)}\nX-One: 1\nX-Two: 2\n\n".encode() + body + b"\n")
        goes_on(operator, name)
        assert body_of(client) == wanted, "another body"
        same(mitm.new_lines(1), [line("PUT", "/echo", 200, len(wanted))])


def case_edit_of_a_body_that_is_no_text():
    """It stays, unless something else is written in its place."""
    for replaced, told, wanted in (((b"200 OK", b"500 OK"), "status 500: ok", b"\0\xff"), ((b"(2 bytes that are no text; they stay, unless this line is replaced)", b"text"), "body, in 2 lines: ok", b"text")):
        with Operated("~s & ~u /echo") as mitm, Operator() as operator, sender(post("/echo", b"\0\xff")) as client:
            name, = operator.held()
            same(run_edit(name, replaced)[:2], (0, [f"edit {name} {told}"]))
            goes_on(operator, name)
            same(body_of(client), wanted)
            mitm.new_lines(1)


def case_edit_that_comes_to_nothing():
    """No change, an editor that fails, a text that is no request, a value that is refused, a flow that does not wait: each is told."""
    with Operated(REQUESTS) as mitm, Operator() as operator, sender(get("/held", "X: 1")) as client:
        name, = operator.held()
        same(run_edit(name)[:2], (0, ["nothing was changed"]))
        same(run_edit(name, (b"GET", b"PUT"), status=3)[:2], (1, ["nothing was changed: the editor ended with status 3"]))
        same(run_edit(name, (b"HTTP/1.1", b"HTTP/1.0"))[:2], (1, [f"no start line: GET {at('/held')} HTTP/1.0"]))
        same(run_edit(name, (b"X: 1", b"X"))[:2], (1, ["no field: X"]))
        same(run_edit(name, (b"X: 1", b"X Y: 1"))[:2], (1, [f"edit {name} remove X: ok", f"edit {name} add X Y: unknown command"]))
        same(run_edit(name, (b"GET", b"CONNECT"), (b"X: 1", b"X: 2"))[:2], (1, [f"edit {name} method CONNECT: bad value"]))
        same(run_edit("77.0"), (1, ["no such flow"], None))
        ran = subprocess.run([sys.executable, EDIT, name], env={**os.environ, "EDITOR": "/no/such/editor"}, capture_output=True, timeout=60)
        assert ran.returncode == 1 and ran.stdout.startswith(b"the editor: "), ran.stdout
        goes_on(operator, name)
        same(body_of(client), b"/held\n")
        same(mitm.new_lines(1), [line("GET", "/held", 200, 6)])


def case_edit_of_a_message_in_the_editor():
    """The text of a WebSocket's message is its payload alone."""
    def serve(connection):
        same(read_frame(connection), (0x80 | TEXT, b"held that"))
        connection.recv(1)

    with Peer(agreeing(serve)) as peer, Operated("~websocket & ~b hold", mode=REVERSE) as mitm, Operator() as operator:
        with upgraded() as client:
            client.sendall(frame(TEXT, b"hold this", True))
            name, = operator.held()
            same(run_edit(name, (b"hold this", b"held that")), (0, [f"edit {name} body, in 2 lines: ok"], b"hold this\n"))
            goes_on(operator, name)
            operator.ask("list")
        mitm.new_lines(1)
        same(peer.went_wrong, [])


def case_edit_in_the_view():
    """By the key `e` the editor has the terminal; what it changed is said, and shown with its answers. Opened again, the flow is as the first edit left it."""
    body = b"count 0\n" * (LARGE // 8)
    replaced = (b"count 1", b"count 2"), (b"count 0", b"count 1")
    with Operated("~q & ~u /echo") as mitm, Operator() as operator, sender(post("/echo", body)) as client, Editor(*replaced) as editor:
        name, = operator.held()
        with Terminal(editor.words) as terminal:
            terminal.shows([">", name, "waiting", "POST", at("/echo")])
            for wanted in (b"count 1\n", b"count 2\n"):
                terminal.press("e")
                terminal.shows(["edit", name, "body,", "ok"])
                terminal.press("m")
                terminal.shows(["mark", f"{name}:", "ok"])
            same(editor.text().split(b"\n\n", 1)[1], body.replace(b"0", b"1") + b"\n")
            terminal.press("a")
            assert body_of(client) == body.replace(b"0", b"2"), "another body"
            terminal.shows([name, "finished"])
            terminal.press("e")
            terminal.shows(["edit", f"{name}:", "not", "waiting"])
            terminal.press("q")
        same(mitm.new_lines(1), [line("POST", "/echo", 200, len(body))])


# ---- the lines for a change, without a run


def made_by(said, message):
    """What lines make of a message, as docs/rules.md says; each is one that a door takes."""
    start, fields, body, opened = list(message.start), list(message.fields), message.body, None
    for words in said:
        assert len(words) <= 1023 and words.startswith("edit 7.7 "), words
        word, *rest = words.split(" ")[2:]
        if word == "more":
            value = base64.b64decode(rest[0], validate=True)
            if opened == "body":
                body += value
            else:
                fields[opened] = fields[opened][0], fields[opened][1] + value.decode("latin-1")
            continue
        if word in ("method", "url", "status"):
            start[{"method": 0, "url": 1, "status": 1}[word]] = rest[0]
            opened = None
        elif word == "body":
            body, opened = b"", "body"
        else:
            places = [place for place, (name, _) in enumerate(fields) if name.lower() == rest[0].lower()]
            place = len(fields) if word == "add" or not places else places[0]
            if word != "remove":
                field = rest[0], base64.b64decode(rest[1], validate=True).decode("latin-1")
                fields[place:place + 1] = [field]
            gone = places if word == "remove" else places[1:] if word == "set" else []
            fields = [one for number, one in enumerate(fields) if number not in gone]
            opened = place
    return Message(message.kind, tuple(start), tuple(fields), body)


def some_message(rng, kind):
    names = ("A", "a", "B", "Content-Length", "X-" + "n" * 300)
    fields = tuple((rng.choice(names), rng.choice(("", "1", "\xe4", "v" * rng.choice((700, 1023, 5000))))) for _ in range(rng.choice((0, 1, 2, 5))))
    start = (rng.choice(("GET", "PUT")), rng.choice(("http://h/", "http://k:81/\xe4")), "HTTP/1.1") if kind == "request" else ("HTTP/1.1", rng.choice(("200", "404")), "")
    body = rng.choice((b"", b"one\n", b"one\n\n", b"\n\ntwo", b"a\r\nb", b"\0", "ä".encode(), b"\xe4", rng.randbytes(3000)))
    return Message(kind, () if kind == "message" else start, () if kind == "message" else fields, body)


def case_lines_make_what_was_written():
    """Any message becomes any other of its kind, in lines that are no longer than a line may be; a text says the message that it was made of."""
    rng = random.Random(9)
    for _ in range(TRIES):
        kind = rng.choice(("request", "response", "message"))
        before, after = some_message(rng, kind), some_message(rng, kind)
        said = [words for step in operator_edit.steps(before, after) for words in step.lines("7.7")]
        same(made_by(said, before), after)
        same(list(operator_edit.steps(before, before)), [])
        same(operator_edit.read(operator_edit.written(before), before), before)
    try:
        Step("set " + "n" * 1100, b"", before).lines("7.7")
    except operator_edit.Refused:
        return
    raise AssertionError("a line that is too long is said")


def case_edit_without_a_run():
    """Without a door it says so; with other words what to write."""
    for words, told in ((["0.0"], b"Connection refused"), (["x"], b"operator_edit.py ID [HOST:PORT]"), ([], b"operator_edit.py ID [HOST:PORT]")):
        ran = subprocess.run([sys.executable, EDIT, *words], stdin=subprocess.DEVNULL, capture_output=True, timeout=60)
        assert ran.returncode == 1 and told in ran.stdout + ran.stderr, (words, ran.stdout, ran.stderr)


EDIT_CASES = [
    case_edited_request, case_edited_response, case_edited_and_killed, case_edit_of_one_flow_alone, case_edits_that_are_refused, case_edit_of_a_flow_that_goes, case_edits_cut_anywhere,
    case_edited_message_of_a_websocket, case_edit_in_the_editor, case_edit_of_a_body_that_is_no_text, case_edit_that_comes_to_nothing, case_edit_of_a_message_in_the_editor,
    case_edit_in_the_view, case_lines_make_what_was_written, case_edit_without_a_run,
]
