"""What the fuzzer checks: strict readers of requests, responses, frames, printed lines and an operator's answers. Each tells what is wrong, or None."""
import base64
import json
import re

TOKEN = rb"[!#$%&'*+\-.^_`|~0-9A-Za-z]+"
REQUEST = re.compile(rb"(" + TOKEN + rb") ([^\x00-\x20\x7f]+) HTTP/1\.[01]\Z")
STATUS = re.compile(rb"HTTP/1\.[01] (\d{3}) ([^\r\n\0]*)\Z")
FIELD = re.compile(rb"(" + TOKEN + rb"): ([^\r\n\0]*)\Z")
LINE = re.compile(
    rb"(\d+)\.(\d+) (" + TOKEN + rb") (http://[^\x00-\x20\x7f]+) (\d{3}|-) (\d+|-|streamed)"
    rb"( error: (?:cannot connect|upstream refused|server closed early|bad response|bad chunk|client closed|killed))?\Z")
METHOD = re.compile(rb"(?:GET|HEAD|POST|PUT|DELETE|OPTIONS|TRACE|PATCH) ")
CHUNK = re.compile(rb"([0-9a-f]+)\r\n")
# Whatever mitm itself answers with a text says one of these, with its code.
OWN = [(b"server", b"mitm"), (b"connection", b"close"), (b"content-type", b"text/plain")]
MESSAGES = {
    400: (b"malformed head", b"bad target", b"two lengths", b"bad length", b"bad transfer coding", b"bad chunk"), 431: (b"head too long",),
    502: (b"cannot connect", b"server closed early", b"bad response", b"upstream refused"),
}


class Wrong(Exception):
    """What is no message."""


class Cut(Exception):
    """It ends before the message does."""


def read_head(text, at):
    """The first line, the fields with names in lower case, and where the head ends."""
    end = text.find(b"\r\n\r\n", at)
    block = text[at:end if end >= 0 else len(text)]
    if re.search(rb"(?<!\r)\n|\r(?!\n|\Z)", block) or len(block) > 70_000 * 2:
        raise Wrong(f"a bare CR or LF in a head: {block[:200]!r}")
    if end < 0:
        raise Cut
    first, *fields = block.split(b"\r\n")
    read = [FIELD.match(field) for field in fields]
    if not all(read):
        raise Wrong(f"no field: {fields[read.index(None)][:200]!r}")
    return first, [(field[1].lower(), field[2].strip(b" \t")) for field in read], end + 4


def framing_of(fields, is_request):
    """None, `chunked`, or a length."""
    codings = [part.strip(b" \t").lower() for name, value in fields if name == b"transfer-encoding" for part in value.split(b",")]
    lengths = [part.strip(b" \t") for name, value in fields if name == b"content-length" for part in value.split(b",")]
    codings = [coding for coding in codings if coding]
    has_coding = any(name == b"transfer-encoding" for name, _ in fields)
    if has_coding and lengths:
        raise Wrong("Transfer-Encoding and Content-Length")
    if b"chunked" in codings:
        if codings[-1] != b"chunked" or codings.count(b"chunked") > 1:
            raise Wrong(f"codings {codings}")
        return "chunked"
    if has_coding and is_request:
        raise Wrong(f"codings {codings}")
    if lengths:
        if not all(re.fullmatch(rb"\d+", length) for length in lengths) or len({int(length) for length in lengths}) != 1:
            raise Wrong(f"lengths {lengths}")
        return int(lengths[0])
    return None


def skip_body(text, at, framing):
    if framing is None:
        return at
    if framing != "chunked":
        if at + framing > len(text):
            raise Cut
        return at + framing
    while True:
        found = CHUNK.match(text, at)
        if not found:
            if b"\n" in text[at:at + 20] or len(text) - at > 20:
                raise Wrong(f"no chunk line: {text[at:at + 30]!r}")
            raise Cut
        at, size = found.end(), int(found[1], 16)
        if size == 0:
            break
        if at + size + 2 > len(text):
            raise Cut
        at += size + 2
        if text[at - 2:at] != b"\r\n":
            raise Wrong("a chunk without its end")
    if text.startswith(b"\r\n", at):
        return at + 2
    return read_head(b"T / HTTP/1.1\r\n" + text[at:], 0)[2] - 14 + at


def read_request(text, at):
    """Method, target and where the request ends, or where it is cut."""
    first, fields, end = read_head(text, at)
    found = REQUEST.match(first)
    if not found:
        raise Wrong(f"no request line: {first[:200]!r}")
    framing = framing_of(fields, True)
    try:
        return found[1], found[2], skip_body(text, end, framing)
    except Cut:
        return found[1], found[2], len(text)


def requests_of(record):
    """The requests that a server was sent, as (method, port, path); Wrong where they are none."""
    text, at, port, found = bytes(record.got), 0, record.port, []
    while at < len(text):
        if record.is_raw_from is not None and at >= record.is_raw_from:
            break
        tunnel = re.match(rb"CONNECT ([^ \r\n]+) HTTP/1\.1\r\nHost: ([^\r\n]+)\r\n\r\n", text[at:at + 2000])
        if record.is_proxy and tunnel and tunnel[1] == tunnel[2]:
            port, at = int(tunnel[1].rsplit(b":", 1)[1]), at + tunnel.end()
            if record.spoke_first or not METHOD.match(text, at):
                break
            continue
        if record.may_be_raw and at == 0 and not METHOD.match(text):
            break
        try:
            method, target, at = read_request(text, at)
        except Cut:
            if record.may_be_cut:
                break
            raise Wrong(f"a head that was not sent whole: {text[at:at + 200]!r}") from None
        found.append((method, *place_of(target, port)))
    return found


def place_of(target, port):
    if not target.lower().startswith(b"http://"):
        return port, b"" if target == b"*" else target
    host, slash, path = target[7:].partition(b"/")
    number = re.search(rb":(\d+)\Z", host)
    return int(number[1]) if number else 80, slash + path


def wrong_responses(text, heads, may_be_cut):
    """What is wrong with what a client got, where none of its requests, or some of them (`heads`), were HEAD."""
    ways, tried, why = [0], set(), None
    while ways:
        at = ways.pop()
        if at == len(text):
            return None
        if at in tried:
            continue
        tried.add(at)
        try:
            ways += ends_of_response(text, at, heads)
        except Wrong as wrong:
            why = why or f"at {at}: {wrong}"
        except Cut:
            if may_be_cut:
                return None
            why = why or f"at {at}: cut short: {text[at:at + 200]!r}"
    return why


def ends_of_response(text, at, heads):
    """The places at which the response here may end; that of a tunnel is the end of all."""
    first, fields, end = read_head(text, at)
    found = STATUS.match(first)
    if not found:
        raise Wrong(f"no status line: {first[:200]!r}")
    code = int(found[1])
    if code == 101 or found[2] == b"Connection established":
        return [len(text)]
    if code < 200 or code in (204, 304):
        return [end]
    if fields[:3] == OWN:
        judge_own(code, fields, text[end:])
    # (a response to HEAD keeps its fields, whatever they say)
    ends = [end] if heads and (end == len(text) or text.startswith(b"HTTP/1.", end)) else []
    try:
        framing = framing_of(fields, False)
        return ends + [len(text) if framing is None else skip_body(text, end, framing)]
    except (Wrong, Cut):
        if ends:
            return ends
        raise


def judge_own(code, fields, body):
    """An error text stands at the end of what a client gets, and is one of those that are told; Wrong where it is another."""
    size = int(fields[3][1]) if [name for name, _ in fields[3:]] == [b"content-length"] else -1
    if not any(size == len(message) + 1 and (message + b"\n").startswith(body) for message in MESSAGES.get(code, ())):
        raise Wrong(f"no error text: {code} {fields} {body[:100]!r}")


def unmasked(text):
    """The frames of a client as (opcode, payload, fin); Wrong where one is none, Cut where the last is not whole."""
    at, frames = 0, []
    while at < len(text):
        if at + 2 > len(text):
            raise Cut
        first, second = text[at], text[at + 1]
        size, at = second & 127, at + 2
        if first & 0x70 or not second & 128:
            raise Wrong(f"a frame of bytes {first:02x} {second:02x}")
        more = {126: 2, 127: 8}.get(size, 0)
        if at + more + 4 > len(text):
            raise Cut
        if more:
            size = int.from_bytes(text[at:at + more], "big")
            if size < (126 if more == 2 else 65_536):
                raise Wrong("a length that a shorter form would state")
        key, at = text[at + more:at + more + 4], at + more + 4
        if at + size > len(text):
            raise Cut
        times = (key * (size // 4 + 1))[:size]
        frames.append((first & 15, (int.from_bytes(text[at:at + size], "big") ^ int.from_bytes(times, "big")).to_bytes(size, "big"), bool(first & 128)))
        at += size
    return frames


# Printed lines.

LAST = (b"event budget spent",)


def wrong_lines(printed, status):
    """What is wrong with the lines that a run printed."""
    seen, indexes = set(), {}
    for place, line in enumerate(printed):
        if line in LAST and status == 6 and place == len(printed) - 1:
            continue
        found = LINE.match(line)
        if not found:
            return f"no line: {line[:300]!r}"
        conversation, index = int(found[1]), int(found[2])
        if (conversation, index) in seen:
            return f"a number twice: {line[:300]!r}"
        seen.add((conversation, index))
        if index != indexes.get(conversation, -1) + 1:
            return f"a number out of order: {line[:300]!r} behind {indexes.get(conversation)}"
        indexes[conversation] = index
        if (found[5] == b"-") != (found[6] == b"-") or found[5] == b"-" and not found[7]:
            return f"neither a response nor an error: {line[:300]!r}"
    return None


def places_printed(printed):
    """The flows of printed lines as (method, port, path)."""
    return [(found[3], *place_of(found[4], 80)) for found in map(LINE.match, printed) if found]


# An operator's answers.

ID = re.compile(rb"(0|[1-9]\d*)\.(0|[1-9]\d*)\Z")
KEYS = ["code", "error", "id", "marked", "messages", "method", "url"]
PLACE = re.compile(rb"(0|[1-9]\d*)\Z")
PART = 65536


def lines_said(text):
    """The lines of an operator that are obeyed, and whether the last one is too long."""
    said = []
    while b"\n" in text:
        line, text = text.split(b"\n", 1)
        if len(line) >= 1024:
            return said, True
        said.append(line[:-1] if line.endswith(b"\r") else line)
    return said, len(text) >= 1024


def wrong_answers(text, got, is_whole):
    """What is wrong with the answers to an operator who said this; `is_whole` where it was heard to its end and nothing cut the run."""
    if METHOD.match(text):
        return None if not got else f"answers to HTTP: {got[:200]!r}"
    said, is_long = lines_said(text)
    answers = got.split(b"\n")
    if is_whole and answers[-1]:
        return f"an answer without its end: {answers[-1][:200]!r}"
    place, whole = 0, len(answers) - 1
    for line in [*said, *([None] if is_long else [])]:
        if place >= whole:
            return None if not is_whole else f"no answer to {line!r:.100}, behind {place} lines"
        place, why = wrong_answer(line, answers, place, whole)
        if why and not (why == "cut" and not is_whole):
            return f"{why} to {line!r:.100}: {answers[max(place - 1, 0):place + 1]!r:.300}"
        if line == b"quit":
            break
    return None if place == whole or not is_whole else f"answers too many: {answers[place:place + 3]!r:.300}"


def wrong_answer(line, answers, place, whole):
    """Behind which answer that to this line ends, and what is wrong with it."""
    wanted = wanted_answer(line)
    if wanted == "list":
        last = (-1, -1)
        while place < whole and answers[place] != b"end":
            found = re.match(rb"(\d+)\.(\d+) (waiting|going)\Z", answers[place])
            if not found or (int(found[1]), int(found[2])) <= last:
                return place, "no line of a list"
            last, place = (int(found[1]), int(found[2])), place + 1
        return (place + 1, None) if place < whole else (place, "cut")
    answer = answers[place]
    if wanted == "show" and answer != b"no such flow":
        return place + 1, wrong_shown(answer, line)
    if wanted == "show":
        return place + 1, None
    if wanted == "entry":
        return place + 1, None if len(answer) <= PART else "a part that is too long"
    return place + 1, None if answer in wanted else "a wrong answer"


def is_id(word):
    found = ID.match(word)
    return bool(found) and int(found[1]) < 1 << 32 and int(found[2]) < 1 << 32


def is_place(word):
    return bool(PLACE.match(word)) and int(word) < 1 << 64


def wanted_answer(line):
    if line is None:
        return (b"line too long",)
    words = line.split(b" ")
    if line == b"list":
        return "list"
    if line == b"quit":
        return (b"bye",)
    if words[0] == b"entry" and len(words) == 3:
        return "entry" if is_id(words[1]) and is_place(words[2]) else (b"bad number",)
    if words[0] == b"edit":
        return wanted_of_edit(words[1:])
    if len(words) != 2 or words[0] not in (b"show", b"resume", b"kill", b"mark", b"drop"):
        return (b"unknown command",)
    if words[0] == b"drop":
        return (b"ok", b"no such addon")
    if not is_id(words[1]):
        return (b"bad number",)
    if words[0] == b"show":
        return "show"
    return (b"ok", b"no such flow") + ((b"not waiting",) if words[0] != b"mark" else ())


# How many words stand behind each word that says what is changed.
CHANGES = {b"method": 1, b"url": 1, b"status": 1, b"set": 2, b"add": 2, b"remove": 1, b"body": 0, b"more": 1}


def wanted_of_edit(words):
    """The answers to an edit with these words."""
    if len(words) < 2 or CHANGES.get(words[1]) != len(words) - 2:
        return (b"unknown command",)
    if not is_id(words[0]):
        return (b"bad number",)
    may_be = (b"no such flow", b"not waiting", b"not there")
    good = is_good(*words[1:])
    return may_be + ((b"ok",) if good is not False else ()) + ((b"bad value",) if good is not True else ())


def is_good(word, *values):
    """Whether the values are of the kind that is wanted; None where more hangs on it than is judged here."""
    if word == b"method":
        return is_token(values[0]) and values[0] != b"CONNECT"
    if word == b"status":
        return bool(re.fullmatch(rb"101|[2-9][0-9]{2}", values[0]))
    if word == b"url":
        return True if re.fullmatch(rb"http://(?:[a-z]+|[0-9]+(?:\.[0-9]+){3})(?::[1-9][0-9]{0,3})?(?:/[a-z0-9/?=]*)?", values[0]) else None if re.match(rb"(?i)http://", values[0]) else False
    if word == b"more":
        value = decoded(values[0])
        return False if value is None else None if re.search(rb"[\r\n\0]", value) else True
    if word in (b"set", b"add"):
        value = decoded(values[1])
        return is_token(values[0]) and value is not None and not re.search(rb"[\r\n\0]", value)
    return word == b"body" or is_token(values[0])


def is_token(word):
    return bool(re.fullmatch(TOKEN, word))


def decoded(text):
    """The bytes for which a text of base64 stands that is written as it should be, or None."""
    try:
        value = base64.b64decode(text, validate=True)
    except ValueError:
        return None
    return value if base64.b64encode(value) == text else None


def wrong_shown(answer, line):
    try:
        shown = json.loads(answer)
    except ValueError:
        return "no JSON"
    if list(shown) != KEYS or shown["id"].encode() != line.split(b" ")[1]:
        return "other keys"
    return None
