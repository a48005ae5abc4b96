"""The texts of the fuzzer: conversations from a grammar, and what mutation makes of them. All of it follows from a seed.

An exchange is a request and its response, found again by the numbers in its path: `/f/x3/1` is exchange 1 of client 3, whose texts are exact (`x`):
nobody changes them, so what comes of them is known byte for byte. Those of `/f/m3/1` are mutated (`m`), on either side."""
import random
import re
from dataclasses import dataclass, field

PROXY, CONTROL = ("127.0.0.1", 8280), ("127.0.0.1", 8281)
SERVER, SPEAKER = 9201, 9202
# Where nobody listens.
NOBODY = 9299
METHODS = (b"GET", b"HEAD", b"POST", b"PUT", b"DELETE", b"OPTIONS", b"TRACE", b"PATCH")
PATH = re.compile(rb"/f/([mx])(\d{1,6})/(\d{1,6})")
MOST = 65_536
# The modes whose clients ask for a path.
BY_PATH = ("reverse", "socks5")


@dataclass
class Exchange:
    """A request as a client sends it and as its server gets it, and a response as the server sends it and as the client gets it."""

    method: bytes = b"GET"
    path: bytes = b"/"
    request: bytes = b""
    asked: bytes = b""
    response: bytes = b""
    answered: bytes = b""
    code: int = 200
    size: bytes = b"0"
    kind: str = "plain"
    frames: list = field(default_factory=list)


def seeded(*words):
    return random.Random(" ".join(map(str, words)))


def some_bytes(rng, most, words=False):
    size = rng.choice((0, 1, 2, 5, 16, 125, 126, 1000, 4095, 70_000, rng.randrange(most + 1)))
    size = min(size, most)
    if words:
        return (b"a word, another\r\n\r\n" * (size // 19 + 1))[:size]
    return rng.randbytes(size)


def fields_of(rng):
    """Fields that mean nothing, in the form in which they are written."""
    made = []
    for number in range(rng.randrange(4)):
        name = rng.choice((b"X-A", b"Accept", b"Cookie", b"x-%d" % number, b"A!#$%&'*+-.^_`|~", b"Cache-Control"))
        made.append(name + b": " + rng.choice((b"1", b"", b"a, b;c=\"d\"", b"\xe4\xff\x80", b"GET / HTTP/1.1", b"chunked", b"x" * rng.randrange(900))))
    return made


def lines(*parts):
    return b"\r\n".join(parts) + b"\r\n\r\n"


def chunks_of(rng, body, ends=b"\r\n"):
    """The body in chunks as they may be sent, with extensions; it ends with these trailers."""
    text, place = b"", 0
    while place < len(body):
        size = rng.choice((1, 2, 7, 100, 5000, len(body))) if len(body) < 3000 else rng.choice((700, 5000, len(body)))
        piece = body[place:place + size]
        line = rng.choice((b"%x", b"%X", b"0%x", b"%x ", b"%x;a=b", b"%x\t;\"q\"")) % len(piece)
        text, place = text + line + b"\r\n" + piece + b"\r\n", place + len(piece)
    return text + rng.choice((b"0", b"000", b"0;x")) + b"\r\n" + ends


def one_chunk(body, ends=b"\r\n"):
    return (b"%x\r\n" % len(body) + body + b"\r\n" if body else b"") + b"0\r\n" + ends


def sent_on(text):
    """Chunks as they are sent on where their message is streamed: the sender's, their lines spelled anew."""
    on, place = b"", 0
    while True:
        end = text.index(b"\r\n", place)
        size = int(re.match(rb"[0-9A-Fa-f]+", text[place:end])[0], 16)
        if size == 0:
            return on + b"0" + text[end:]
        on, place = on + b"%x" % size + text[end:end + size + 4], end + size + 4


def is_streamed(body, most):
    """Whether it is above this size, where there is one."""
    return most is not None and len(body) > most


def target_of(mode, path, inside=False, port=SERVER):
    """What a client asks for, and what its server is asked for."""
    whole = b"http://127.0.0.1:%d" % port + path
    if mode in BY_PATH or inside:
        return path, path
    return whole, whole if mode == "upstream" else path


def exchange(seed, kind, client, number, mode, last=True, inside=False, most=None):
    """The exchange of these numbers; the last one of its connection closes it. Bodies above the size `most` are streamed."""
    rng = seeded("exchange", seed, kind, client, number)
    made = Exchange(path=b"/f/%s%d/%d" % (kind.encode(), client, number) + rng.choice((b"", b"?a=b&c", b"/%2e%2e/x;y", b"?\xc3\xa4")))
    made.method = rng.choice(METHODS[:6] + (b"GET", b"POST", b"POST") + ((b"FOO!",) if kind == "m" else ()))
    ask_for(rng, made, mode, last, inside, most)
    answer_to(rng, made, last, most)
    return made


def ask_for(rng, made, mode, last, inside, most):
    sent, got = target_of(mode, made.path, inside)
    extra = fields_of(rng) + ([b"Connection: close"] if last else [])
    host = [b"Host: 127.0.0.1:%d" % SERVER]
    body = some_bytes(rng, 9000, rng.random() < 0.3) if made.method in (b"POST", b"PUT", b"PATCH") else b""
    expects = body and rng.random() < 0.15
    ask = [b"Expect: 100-continue"] if expects else []
    if body and rng.random() < 0.5:
        trailer = rng.choice((b"\r\n", b"X-T: 1\r\n\r\n"))
        framing, text = [b"Transfer-Encoding: chunked"], chunks_of(rng, body, trailer)
        written = sent_on(text) if is_streamed(body, most) else one_chunk(body, trailer)
    else:
        framing = [b"Content-Length: %d" % len(body)] if body or rng.random() < 0.3 else []
        text = written = body
    made.request = lines(made.method + b" " + sent + b" HTTP/1.1", *host, *ask, *extra, *framing) + text
    made.asked = lines(made.method + b" " + got + b" HTTP/1.1", *host, *extra, *framing) + written
    made.answered = b"HTTP/1.1 100 Continue\r\n\r\n" if expects else b""


def answer_to(rng, made, last, most):
    """The response: with a length, in chunks, without a body, or to the close; interim ones may stand in front."""
    front = b"".join(lines(b"HTTP/1.1 %d %s" % choice, b"Link: </a>") for choice in
                     [rng.choice(((103, b"Early Hints"), (102, b"Processing"), (199, b""))) for _ in range(rng.choice((0, 0, 0, 1, 3)))])
    made.code = rng.choice((200, 200, 200, 204, 304, 404, 500, 999))
    extra = fields_of(rng)
    status = b"HTTP/1.1 %d %s" % (made.code, rng.choice((b"OK", b"", b"A reason \xe4")))
    body = some_bytes(rng, 30_000, rng.random() < 0.3)
    if made.method == b"HEAD" or made.code in (204, 304):
        framing = [b"Content-Length: %d" % len(body)] if made.code != 204 and rng.random() < 0.5 else []
        made.response = front + lines(status, *extra, *framing)
        made.answered += made.response
        return
    made.size = b"streamed" if is_streamed(body, most) else b"%d" % len(body)
    form = rng.choice(("length", "length", "chunks") + (("close",) if last else ()))
    if form == "chunks":
        trailer = rng.choice((b"\r\n", b"X-Sum: 11\r\nY: 2\r\n\r\n"))
        head = front + lines(status, *extra, b"Transfer-Encoding: chunked")
        text = chunks_of(rng, body, trailer)
        made.response = head + text
        made.answered += head + (sent_on(text) if is_streamed(body, most) else one_chunk(body, trailer))
    elif form == "close":
        made.kind = "close"
        made.response = front + lines(status, *extra) + body
        made.answered += made.response
    else:
        made.response = front + lines(status, *extra, b"Content-Length: %d" % len(body)) + body
        made.answered += made.response


# WebSockets.

ASKS = (b"Upgrade: websocket", b"Connection: Upgrade", b"Sec-WebSocket-Version: 13", b"Sec-WebSocket-Key: dGhlIHNhbXBsZSBub25jZQ==")
AGREES = lines(b"HTTP/1.1 101 Switching Protocols", b"Upgrade: websocket", b"Connection: Upgrade", b"Sec-WebSocket-Accept: s3pPLMBiTxaQ9kYGzzhZRbK+xOo=")
SWITCHES = lines(b"HTTP/1.1 101 Switching Protocols", b"Upgrade: raw", b"Connection: Upgrade")
CLOSE = b"\x03\xe8bye"


def frame(opcode, payload, key=None, fin=True):
    """A frame in the shortest form of its length, masked where a key is given."""
    size, mask = len(payload), 128 if key is not None else 0
    head = bytes([opcode | (128 if fin else 0)])
    if size < 126:
        head += bytes([mask | size])
    elif size < MOST:
        head += bytes([mask | 126]) + size.to_bytes(2, "big")
    else:
        head += bytes([mask | 127]) + size.to_bytes(8, "big")
    return head + (key + masked(payload, key) if mask else payload)


def masked(payload, key):
    if not payload:
        return b""
    times = (key * (len(payload) // 4 + 1))[:len(payload)]
    return (int.from_bytes(payload, "big") ^ int.from_bytes(times, "big")).to_bytes(len(payload), "big")


def message(rng):
    """A message in fragments: opcode, payload, whether it is the last."""
    text = rng.random() < 0.5
    body = (b"w\xc3\xb6rd " * rng.randrange(60))[:rng.randrange(300)] if text else some_bytes(rng, 70_000)
    if text:
        body = body.decode("utf-8", "ignore").encode()
    cuts = sorted(rng.randrange(len(body) + 1) for _ in range(rng.choice((0, 0, 1, 4))))
    parts = [body[a:b] for a, b in zip([0] + cuts, cuts + [len(body)])]
    return [(0 if at else 1 if text else 2, part, at == len(parts) - 1) for at, part in enumerate(parts)]


def websocket(seed, kind, client, number, mode, inside=False):
    """An upgrade, and the frames of either side: the client's, then the server's, whose last is a Close."""
    rng = seeded("websocket", seed, kind, client, number)
    made = Exchange(path=b"/f/%s%d/%d/ws" % (kind.encode(), client, number), code=101, kind="websocket")
    sent, got = target_of(mode, made.path, inside)
    made.request, made.asked = lines(b"GET " + sent + b" HTTP/1.1", b"Host: x", *ASKS), lines(b"GET " + got + b" HTTP/1.1", b"Host: x", *ASKS)
    heard, said = ([part for _ in range(rng.randrange(4)) for part in message(rng)] for _ in range(2))
    # (one message at least, by which the server knows when to speak)
    made.frames = heard + [(1, b"over", True)]
    made.request_frames = b"".join(frame(opcode, body, rng.randbytes(4), fin) for opcode, body, fin in made.frames)
    made.response = AGREES
    made.said = b"".join(frame(opcode, body, None, fin) for opcode, body, fin in said) + frame(8, CLOSE)
    made.answered = made.response + made.said
    return made


# Mutation.

INSERTS = (
    b"\r", b"\n", b"\0", b" ", b"\t", b":", b",", b";", b"\r\n\r\n", b"\n\n", b"\xff", b"\xc2\x85", b"\r\nTransfer-Encoding: chunked", b"\r\nContent-Length: 5",
    b"\r\nContent-Length: 5, 5", b"\r\nContent-Length: 6", b"\r\nTransfer-Encoding: chunked, chunked", b"\r\nTransfer-Encoding: identity", b"\r\nConnection: close",
    b"\r\nTransfer-Encoding : chunked", b"\r\nTransfer-Encoding:\x0bchunked", b"\r\nTransfer-Encoding: chunked, gzip", b"\r\n folded", b"\r\nExpect: 100-continue",
    b"\r\nUpgrade: websocket", b"0x5\r\n", b"5\nhello\n", b"GET /smuggled HTTP/1.1\r\nHost: x\r\n\r\n", b"0\r\n\r\n", b"HTTP/1.1 200 OK\r\nContent-Length: 0\r\n\r\n",
    b"HTTP/1.1 101 Switching Protocols\r\n\r\n", b"HTTP/1.1 100 Continue\r\n\r\n", b"HTTP/1.0", b"http://", b"CONNECT 127.0.0.1:9202 HTTP/1.1\r\n\r\n",
    b"http://127.0.0.1:8280/", b"\x16\x03\x01\x02\x00\x01\x00\x01\xfc\x03\x03", b"ffffffffffffffff\r\n", b"fffffffffffffffff\r\n", b"*",
)
NUMBERS = (b"0", b"1", b"18446744073709551615", b"18446744073709551616", b"99999999999999999999999", b"-1", b"+5", b"0x10", b"00005", b"", b"4294967296", b"65536", b"1e3")


def mutate(rng, text, most=3):
    for _ in range(rng.randrange(1, most + 1)):
        text = rng.choice(MUTATIONS)(rng, text)
    return text


def flips(rng, text):
    if not text:
        return b"\0"
    at = place_in(rng, text)
    return text[:at] + bytes([text[at % len(text)] ^ (1 << rng.randrange(8))]) + text[at + 1:]


def place_in(rng, text):
    """Mostly a place in the first lines, where more hangs on a byte."""
    return rng.randrange(min(len(text), 400) if rng.random() < 0.7 else len(text)) if text else 0


def cuts_out(rng, text):
    at = place_in(rng, text)
    return text[:at] + text[at + rng.choice((1, 2, 10, 100)):]


def doubles(rng, text):
    at, size = place_in(rng, text), rng.choice((1, 2, 20, 200))
    return text[:at + size] + text[at:]


def ends_early(rng, text):
    return text[:place_in(rng, text)]


def inserts(rng, text):
    at = place_in(rng, text)
    if rng.random() < 0.5:
        ends = [found.start() for found in re.finditer(b"\r\n", text[:2000])]
        at = rng.choice(ends) if ends else at
    return text[:at] + rng.choice(INSERTS) + text[at:]


def renumbers(rng, text):
    found = [number.span() for number in re.finditer(rb"(?<=[ :\n])[0-9a-f]+(?=[\r;, ])", text[:4000])]
    if not found:
        return flips(rng, text)
    start, end = rng.choice(found)
    number = int(text[start:end], 16)
    new = rng.choice(NUMBERS + (b"%d" % (number + 1), b"%d" % max(number - 1, 0), b"%x" % number))
    return text[:start] + new + text[end:]


def bare(rng, text):
    ends = [found.start() for found in re.finditer(b"\r\n", text[:4000])]
    if not ends:
        return flips(rng, text)
    at = rng.choice(ends)
    return text[:at] + rng.choice((b"\n", b"\r", b"\r\r\n", b"\n\r", b" \r\n", b"\r\n ", b"\r\n\t")) + text[at + 2:]


def shuffles(rng, text):
    parts = text.split(b"\r\n")
    a, b = rng.randrange(len(parts)), rng.randrange(len(parts))
    if rng.random() < 0.5:
        parts[a], parts[b] = parts[b], parts[a]
    else:
        parts.insert(a, parts[b])
    return b"\r\n".join(parts)


def recases(rng, text):
    at = place_in(rng, text)
    return text[:at] + text[at:at + 30].swapcase() + text[at + 30:]


MUTATIONS = (flips, flips, cuts_out, doubles, ends_early, inserts, inserts, inserts, renumbers, renumbers, bare, shuffles, recases)


def pieces(rng, text):
    """The text in pieces, each with the milliseconds to wait behind it."""
    way = rng.randrange(6)
    if way < 2 or not text:
        return [(text, 0)]
    if way == 2 and len(text) <= 3000:
        return [(bytes([byte]), 0) for byte in text]
    if way == 3:
        at = rng.randrange(len(text) + 1)
        return [(text[:at], rng.choice((0, 5, 30))), (text[at:], 0)]
    made, place, most = [], 0, max(20, len(text) // 30)
    while place < len(text):
        size = rng.randrange(1, most)
        made.append((text[place:place + size], rng.choice((0, 0, 0, 0, 1, 4))))
        place += size
    return made
