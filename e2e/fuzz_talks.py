"""What a fuzzed client does, as a list of steps that follows from a seed: exact conversations, of which all is known, and mutated ones."""
import base64
import random
from dataclasses import dataclass, field

from fuzz_socks import STANDS, WELCOME, first_texts, greeting, places, refused, request
from fuzz_texts import (
    ASKS, BY_PATH, CLOSE, MOST, NOBODY, SERVER, SPEAKER, SWITCHES, Exchange, chunks_of, exchange, frame, lines, message, mutate, pieces, seeded, some_bytes, target_of, websocket,
)

ESTABLISHED = b"HTTP/1.1 200 Connection established\r\n\r\n"


@dataclass
class Talk:
    """Steps: `send` bytes, `pause` milliseconds, `await` so many bytes in all, `quiet`, for a moment, where no more than so many may come; and at the last `read` to the end, `close`, `reset` or `half`
    (closed), which reads to the end behind it. An exact talk has what its client gets, what is printed of it by the host that it asks for, and what its servers get of each path."""

    steps: list = field(default_factory=list)
    exact: bool = False
    heads: bool = False
    host: bytes = b"127.0.0.1"
    answered: bytes = b""
    printed: list = field(default_factory=list)
    asked: dict = field(default_factory=dict)

    def send(self, rng, text):
        for piece, pause in pieces(rng, text):
            self.steps.append(("send", piece))
            if pause:
                self.steps.append(("pause", pause))

    def said(self):
        """All that its client sends."""
        return b"".join(what for verb, what in self.steps if verb == "send")

    def shown(self, method, path, code, size):
        self.printed.append(b"%s http://%s:%d%s %d %s" % (method, self.host, SERVER, path, code, size))


def exact_talk(seed, number, mode, most=None, looks_up=True):
    """One of which all is known, in a run that streams what is above this size."""
    rng = seeded("talk", seed, "x", number)
    talk = Talk(exact=True, heads=True)
    kinds = ["requests", "requests", "requests", "websocket", "upgrade"]
    if mode == "socks5":
        kinds += ["raw"]
    elif mode != "reverse":
        kinds += ["requests inside", "websocket inside", "raw"]
    kind = rng.choice(kinds)
    inside = kind.endswith("inside")
    front = b""
    if mode == "socks5":
        front = exact_entry(rng, talk, looks_up)
    elif inside or kind == "raw":
        front = connect(SERVER)
        talk.answered += ESTABLISHED
        if rng.random() < 0.5:
            talk.send(rng, front)
            talk.steps.append(("await", len(talk.answered)))
            front = b""
    {"re": exact_requests, "we": exact_websocket, "ra": exact_raw, "up": exact_upgrade}[kind[:2]](rng, talk, seed, number, mode, front, inside, most)
    talk.steps.append(("read", 0))
    return talk


def exact_entry(rng, talk, looks_up):
    """What a client of SOCKS says first, in one piece or in more, of which each may wait for an answer; what of it goes with what follows is not sent yet."""
    address, talk.host = rng.choice(places(looks_up))
    front, asks = greeting(rng), request(address, SERVER)
    talk.answered += WELCOME + STANDS
    way = rng.randrange(4)
    if way == 0:
        return front + asks
    if way == 1:
        talk.send(rng, front + asks)
    else:
        in_two(rng, talk, front, 0, len(WELCOME))
        if way == 2:
            return asks
        in_two(rng, talk, asks, len(WELCOME), len(WELCOME + STANDS))
    if rng.random() < 0.5:
        talk.steps.append(("await", len(talk.answered)))
    return b""


def in_two(rng, talk, text, before, behind):
    """Sends it: no more than so many bytes come before it is whole, and so many are awaited then."""
    at = rng.randrange(1, len(text))
    talk.steps += [("send", text[:at]), ("quiet", before), ("send", text[at:]), ("await", behind)]


def refused_talk(seed, number):
    """An exact one in mode `socks5` that ends at the last byte of a greeting or a request, whatever stands behind it, and not before."""
    rng = seeded("talk", seed, "refused", number)
    front, answer, asks, last = refused(rng)
    talk, text = Talk(exact=True, answered=answer + last), front + asks
    if rng.random() < 0.5:
        talk.send(rng, text[:-1])
        so_far = len(answer) if asks else 0
        talk.steps += [("await", so_far), ("quiet", so_far)]
        text = text[-1:]
    talk.send(rng, text + rng.choice((b"", b"", b"GET / HTTP/1.1\r\n\r\n", bytes(70_000))))
    talk.steps.append(("read", 0))
    return talk


def connect(port, host=b"127.0.0.1"):
    return lines(b"CONNECT %s:%d HTTP/1.1" % (host, port), b"Host: %s:%d" % (host, port))


def exact_requests(rng, talk, seed, number, mode, front, inside, most):
    count, one_by_one = rng.choice((1, 1, 2, 4)), rng.random() < 0.5
    for index in range(count):
        made = exchange(seed, "x", number, index, mode, index == count - 1, inside, most)
        talk.answered += made.answered
        talk.shown(made.method, made.path, made.code, made.size)
        talk.asked[made.path] = made.asked
        front += made.request
        if one_by_one:
            talk.send(rng, front)
            talk.steps.append(("await", len(talk.answered)))
            front = b""
    if front:
        talk.send(rng, front)


def exact_websocket(rng, talk, seed, number, mode, front, inside, most):
    made = websocket(seed, "x", number, 0, mode, inside)
    talk.send(rng, front + made.request)
    talk.steps.append(("await", len(talk.answered + made.response)))
    talk.send(rng, made.request_frames)
    talk.answered += made.answered
    talk.shown(b"GET", made.path, 101, b"0")
    talk.asked[made.path] = made.asked


def exact_raw(rng, talk, seed, number, mode, front, inside, most):
    body = some_bytes(rng, 200_000)
    talk.send(rng, front + b"RAW %08x\n" % len(body) + body)
    talk.answered += body


def exact_upgrade(rng, talk, seed, number, mode, front, inside, most):
    """A 101 that begins no WebSocket, so what follows is echoed as it is."""
    body, path = some_bytes(rng, 50_000), b"/f/x%d/0/raw" % number
    sent, got = target_of(mode, path)
    talk.send(rng, front + lines(b"GET " + sent + b" HTTP/1.1", b"Host: x", b"Connection: Upgrade", b"Upgrade: raw") + b"RAW %08x\n" % len(body) + body)
    talk.answered += SWITCHES + body
    talk.shown(b"GET", path, 101, b"0")
    talk.asked[path] = lines(b"GET " + got + b" HTTP/1.1", b"Host: x", b"Connection: Upgrade", b"Upgrade: raw")


# Mutated ones.

def mutated_talk(seed, number, mode):
    rng = seeded("talk", seed, "m", number)
    talk = Talk()
    make = rng.choice(MAKERS)
    text = make(rng, seed, number, mode)
    if rng.random() < 0.4 and len(text) < 200_000:
        text = mutate(rng, text)
    if rng.random() < 0.08:
        text = text[:rng.randrange(len(text) + 1)]
    talk.heads = b"HEAD" in text
    if mode == "socks5":
        text = mutated_entry(seeded("entry", seed, number), talk, text)
    if make is large_head and rng.random() < 0.3:
        talk.steps += [("send", bytes([byte])) for byte in text]
    else:
        talk.send(rng, text)
    talk.steps.append((rng.choice(("read", "read", "read", "close", "reset", "half", "brief")), 0))
    return talk


def mutated_entry(rng, talk, text):
    """What a client of SOCKS says in front of its text, as it should or not; some leave within it. What goes in one piece with the text is not sent yet."""
    hello, asks = first_texts(rng)
    if rng.random() < 0.12:
        return (hello + asks)[:rng.randrange(len(hello + asks) + 1)]
    way = rng.randrange(4)
    if way > 0:
        talk.send(rng, hello)
        talk.steps.append(("await", len(WELCOME)))
        hello = b""
    if way > 1:
        talk.send(rng, asks)
        talk.steps.append(("await", len(WELCOME + STANDS)))
        asks = b""
    return hello + asks + text


def requests(rng, seed, number, mode, inside=False):
    count = rng.choice((1, 1, 2, 3, 5))
    made = [exchange(seed, "m", number, index, mode, index == count - 1 and rng.random() < 0.7, inside).request for index in range(count)]
    if rng.random() < 0.3:
        at = rng.randrange(count)
        made[at] = mutate(rng, made[at])
    return b"".join(made)


def wrapped(rng, seed, number, mode, inner):
    """The text, behind a CONNECT where the mode has them."""
    if mode in BY_PATH:
        return inner(rng, seed, number, mode)
    port = rng.choice((SERVER, SERVER, SERVER, SPEAKER, NOBODY))
    return connect(port) + inner(rng, seed, number, mode, True)


def requests_inside(rng, seed, number, mode):
    return wrapped(rng, seed, number, mode, requests)


def websocket_text(rng, seed, number, mode, inside=False):
    made = websocket(seed, "m", number, 0, mode, inside)
    frames = made.request_frames
    way = rng.randrange(8)
    if way == 0:
        frames = frame(9, b"ping", b"abcd") * rng.choice((10, 3000)) + frames
    elif way == 1:
        frames = frame(1, b"a", b"abcd", False) + frame(0, b"", b"abcd", False) * rng.choice((10, 3000)) + frames
    elif way == 2:
        frames = frames + frame(8, rng.choice((b"", b"\x03", CLOSE, b"\xff\xff\xff", b"\x03\xe8" + b"x" * 130)), b"abcd") + frames
    elif way == 3:
        frames = mutate(rng, frames, 2)
    elif way == 4:
        parts = [(opcode, body, fin) for _ in range(3) for opcode, body, fin in message(rng)]
        rng.shuffle(parts)
        frames = b"".join(frame(*part[:2], rng.choice((None, b"abcd", b"abcd")), part[2]) for part in parts)
    elif way == 5:
        frames = frames + rng.choice((b"\x81\xff\x00\x00\x00\x00\x01\x00\x00\x01abcd", b"\x81\xff\xff\xff\xff\xff\xff\xff\xff\xffabcd", b"\x82\xfe\x00\x05abcdhello"))
    return made.request + frames


def websocket_inside(rng, seed, number, mode):
    return wrapped(rng, seed, number, mode, websocket_text)


def raw_text(rng, seed, number, mode, inside=True):
    body = some_bytes(rng, 60_000)
    return (b"" if mode in BY_PATH else connect(SPEAKER)) + rng.choice((b"RAW %08x\n" % len(body), b"\x16\x03\x01\x02\x00", b"GE", b"GET", b"POST / HTTP/1.1\r\n\r\n", b"")) + body


def upgrade_text(rng, seed, number, mode, inside=False):
    path = b"/f/m%d/0/%s" % (number, rng.choice((b"raw", b"raw", b"ws", b"odd")))
    return lines(b"GET " + target_of(mode, path)[0] + b" HTTP/1.1", b"Host: x", b"Connection: Upgrade", b"Upgrade: raw") + some_bytes(rng, 70_000)


def large_head(rng, seed, number, mode, inside=False):
    """A head of about 65,536 bytes, or one without an end, or of about a hundred fields."""
    made = exchange(seed, "m", number, 0, mode)
    head, _, rest = made.request.partition(b"\r\n\r\n")
    way = rng.randrange(4)
    if way == 0:
        return head + b"\r\nX: " + b"x" * (MOST - len(head) - 9 + rng.randrange(-2, 3)) + b"\r\n\r\n" + rest
    if way == 1:
        return head + b"\r\nX: " + b"x" * rng.choice((65_000, 70_000, 300_000))
    if way == 2:
        return b"\r\n" * rng.choice((1, 100, 32_700, 33_000)) + head + b"\r\n\r\n" + rest
    fields = rng.choice((90, 99, 100, 101, 5000)) - head.count(b"\r\n")
    return head + b"\r\nx: y" * fields + b"\r\n\r\n" + rest


def many_chunks(rng, seed, number, mode, inside=False):
    made = Exchange(path=b"/f/m%d/0" % number)
    head = lines(b"POST " + target_of(mode, made.path)[0] + b" HTTP/1.1", b"Host: x", b"Transfer-Encoding: chunked")
    chunks = b"1\r\nx\r\n" * rng.choice((10, 1000, 10_000))
    return head + chunks + rng.choice((b"0\r\n\r\n", b"", b"0\r\n" + b"T: 1\r\n" * rng.choice((5, 99, 101, 20_000)) + b"\r\n", b"1" * 1025, b"0x5\r\nhello\r\n", b"5\r\nabcdeX"))


def hostile_head(rng, seed, number, mode, inside=False):
    field_lines = rng.sample(HOSTILE, rng.choice((1, 1, 2)))
    head = lines(b"POST " + target_of(mode, b"/f/m%d/0" % number)[0] + b" HTTP/1." + rng.choice((b"1", b"1", b"0")), b"Host: x", *field_lines)
    return head + rng.choice((b"hello", b"5\r\nhello\r\n0\r\n\r\n", b"0\r\n\r\n", b"0\r\n\r\nGET /smuggled HTTP/1.1\r\n\r\n", b"", b"5\nhello\n0\n\n", chunks_of(rng, b"hello"))) * 2


HOSTILE = (
    b"Content-Length: 5\r\nContent-Length: 6", b"Content-Length: 5\r\nContent-Length: 5", b"Content-Length: 5, 5", b"Content-Length: 5, 6", b"Content-Length: +5",
    b"Content-Length: 5 5", b"Content-Length: ", b"Content-Length: 18446744073709551616", b"Transfer-Encoding: chunked, chunked", b"Transfer-Encoding: identity",
    b"Transfer-Encoding: chunked\r\nContent-Length: 0", b"Transfer-Encoding : chunked", b"Transfer-Encoding: gzip, chunked", b"Transfer-Encoding: chunked, gzip",
    b"Transfer-Encoding: CHUNKED", b"transfer-encoding:chunked", b"Transfer-Encoding:\tchunked", b"Transfer-Encoding: \"chunked\"", b"Transfer-Encoding: chunked;q=1",
    b"Transfer-Encoding: gzip\r\nTransfer-Encoding: chunked", b"Transfer-Encoding: chunked\r\nTransfer-Encoding: chunked", b"Transfer-Encoding: ,chunked,,", b"Connection: close, keep-alive",
    b"Connection: Transfer-Encoding\r\nTransfer-Encoding: chunked", b"Content-Length: 5\r\n\tfolded", b"Expect: 100-continue\r\nContent-Length: 5", b"Host: a\r\nHost: b", b"Upgrade: websocket",
)


def garbage(rng, seed, number, mode, inside=False):
    return rng.choice((rng.randbytes(rng.choice((0, 1, 100, 70_000))), b"\x16\x03\x01\x02\x00\x01\x00\x01\xfc\x03\x03" + rng.randbytes(500), b"PRI * HTTP/2.0\r\n\r\nSM\r\n\r\n",
                       b"\x05\x01\x00", b"GET\r\n\r\n", b"\r\n" * 50_000, b"\n" * 70_000, b""))


def long_upload(rng, seed, number, mode, inside=False):
    """More is said to come than comes."""
    head = lines(b"PUT " + target_of(mode, b"/f/m%d/0" % number)[0] + b" HTTP/1.1", b"Host: x", b"Content-Length: 1000000000")
    return head + bytes(rng.choice((0, 1, 100_000, 1_000_000)))


MAKERS = (
    requests, requests, requests, requests_inside, requests_inside, websocket_text, websocket_inside, raw_text, upgrade_text, large_head, many_chunks, hostile_head, hostile_head, garbage,
    long_upload,
)


# What a mutated server answers.

def server_steps(seed, number, index, made):
    """What the server of a mutated exchange does once it has the head: steps as those of a talk; `body` waits for the whole request, and `echo` sends back what comes."""
    rng = seeded("server", seed, number, index)
    talk = Talk()
    if rng.random() < 0.6:
        talk.steps.append(("body", 0))
    way = rng.randrange(16)
    text = made.response
    if way < 6:
        text = mutate(rng, text)
    elif way == 6:
        text = (rng.choice((b"HTTP/1.1 100 Continue\r\n\r\n", lines(b"HTTP/1.1 103 Early Hints", b"Link: </a>"), b"HTTP/1.1 199 \r\n\r\n")) * rng.choice((3, 3000))) + rng.choice((text, b""))
    elif way == 7:
        text = b"" if rng.random() < 0.5 else text[:rng.randrange(len(text) + 1)]
    elif way == 8:
        head, _, rest = text.partition(b"\r\n\r\n")
        text = head + b"\r\nX: " + b"x" * (MOST - len(head) - 9 + rng.randrange(-2, 3)) + b"\r\n\r\n" + rest
    elif way == 9:
        text = lines(b"HTTP/1.1 200 OK", b"Transfer-Encoding: chunked") + b"1\r\nx\r\n" * rng.choice((10, 5000)) + rng.choice((b"0\r\n\r\n", b"0\r\nT: 1\r\n\r\n", b"", b"0x5\r\n", b"5\r\nabcdeX"))
    elif way == 10:
        text = lines(b"HTTP/1.1 200 OK", *rng.sample(HOSTILE, rng.choice((1, 2)))) + rng.choice((b"hello", b"5\r\nhello\r\n0\r\n\r\n", b"5\r\nhello\r\n0\r\n\r\nHTTP/1.1 200 OK\r\n\r\n"))
    elif way == 11:
        text = rng.choice((garbage(rng, seed, number, ""), b"HTTP/1.1 200 OK\r\nContent-Length: 1000000000\r\n\r\n" + bytes(300_000)))
    elif way == 12:
        text = text + rng.choice((text, b"HTTP/1.1 200 OK\r\nContent-Length: 0\r\n\r\n", b"x"))
    elif way == 13:
        text = lines(b"HTTP/1.1 101 Switching Protocols", *rng.sample(ASKS[:2] + (b"Upgrade: raw", b"Content-Length: 5", b"Sec-WebSocket-Extensions: permessage-deflate"), 2)) + some_bytes(rng, 3000)
    talk.send(rng, text)
    talk.steps.append((rng.choice(("read", "read", "close", "close", "reset", "half")), 0))
    return talk.steps


def websocket_steps(seed, number, made):
    rng = seeded("server", seed, number, "websocket")
    talk = Talk()
    said = made.said
    way = rng.randrange(6)
    if way == 0:
        said = mutate(rng, said, 2)
    elif way == 1:
        said = frame(9, b"?") * rng.choice((10, 3000)) + said
    elif way == 2:
        said = frame(2, b"", None, False) + frame(0, b"", None, False) * rng.choice((10, 5000)) + rng.choice((b"", frame(0, b"end"))) + said
    elif way == 3:
        said = frame(1, b"\xff\xfe") + said
    elif way == 4:
        said = frame(2, bytes(100_000)) * 20 + said[:rng.randrange(len(said))]
    talk.send(rng, rng.choice((made.response, made.response, made.response, mutate(rng, made.response))) + said)
    talk.steps.append((rng.choice(("read", "close", "reset", "half")), 0))
    return talk.steps


# What operators say.

def edit_of(rng, one):
    """A line that changes a flow, or tries to. No method is HEAD, whose responses have another form than the client awaits; and URLs stay with the servers here."""
    value = base64.b64encode(rng.choice((b"", b"a", b"\xff\xfe", b"chunked", b"7", b"a word, another", rng.randbytes(30), rng.randbytes(700))))
    name = rng.choice((b"X-E", b"x-e", b"Content-Length", b"Transfer-Encoding", b"Connection", b"Content-Type", b"a b", b"(", b""))
    return b"edit " + one + b" " + rng.choice((
        b"method PUT", b"method POST", b"method BREW", b"method CONNECT", b"method ", b"method G(T", b"url http://127.0.0.1:%d/f/m0/0" % SERVER, b"url http://localhost:%d" % SERVER,
        b"url http://127.0.0.1:1/f/m0/0", b"url http://127.0.0.1:0/", b"url /f/m0/0", b"url HTTP://[::1]:%d/f/m0/0?\xe4" % SERVER, b"url https://127.0.0.1/", b"url http://", b"status 200",
        b"status 204", b"status 304", b"status 404", b"status 999", b"status 101", b"status 100", b"status 0200", b"status x", b"status 200 OK", b"body", b"body", b"body ", b"more " + value,
        b"more " + value, b"more " + value, b"more !", b"more", b"set " + name + b" " + value, b"set " + name + b" " + value, b"add " + name + b" " + value, b"add " + name + b" x",
        b"remove " + name, b"remove " + name, b"reason x", b"", b" body",
    ))


def operator_text(rng, ids):
    """Lines of an operator, none of which is `quit`; and whether its first bytes are cut so that no line is whole."""
    said = []
    for _ in range(rng.choice((1, 3, 10, 200))):
        one = b"%d.%d" % (rng.choice(ids), rng.choice((0, 0, 1, 2)))
        said.append(rng.choice((
            b"list", b"list", b"show " + one, b"resume " + one, b"kill " + one, b"mark " + one, b"drop counter", b"drop ", b"drop x", b"", b" ", b"list ", b" list", b"LIST", b"show", b"show 1",
            *(edit_of(rng, one) for _ in range(6)), b"edit", b"edit " + one, b"edit 1 body", b"edit 00.0 more x", b"edit  body",
            b"entry " + one + b" 0", b"entry " + one + b" 300", b"entry " + one + b" 99999999", b"entry " + one, b"entry " + one + b" x", b"entry 1 0",
            b"resume 00.0", b"kill +1.2", b"mark 4294967296.0", b"show 4294967295.4294967295", b"show " + one + b"\r", b"list\r", b"list\r\r", b"quit now", b"quit ", b"qui", b"\xff\xfe", b"\0list",
            b"show 2147483648.0", b"resume  " + one, b"x" * 1022, b"x" * 1023, b"x" * 1024, b"x" * 5000, b"GET / HTTP/1.1", rng.randbytes(9),
        )))
    if rng.random() < 0.1:
        said.insert(0, rng.choice((b"GET / HTTP/1.1", b"POST x", b"PATC", b"OPTIONS", b"HEAD ", b"DELETE list")))
    text = b"\n".join(said) + rng.choice((b"\n", b"\n", b"", b"\nqui", b"\nlist"))
    if rng.random() < 0.2:
        text = mutate(rng, text)
    return text if not any(line in (b"quit", b"quit\r") for line in text.split(b"\n")) else b"list\n"


def random_of(seed, *words):
    return random.Random(" ".join(map(str, (seed, *words))))
