#!/usr/bin/env python3
"""Prints an export of flows as people read it: of each entry the start lines and fields, `>` in front of a request's and `<` in front of a
response's, and the bodies: gzip and deflate are decoded, JSON is laid out, and of what is no text the front stands in hexadecimal.

With --curl it prints each request as a command of a POSIX shell that sends it again by curl.

The export is what `mitm har FILE FILTER` prints (docs/har.md), or what an operator's lines `entry ID FROM` are answered, part behind part
(docs/operator.md); there a message of a WebSocket may stand behind the entry, `*`. This program is on Python's standard library alone.
**It shows passwords, cookies and tokens**, as the export has them.

    show.py [--curl] [FILE]     without FILE it reads standard input
"""

import base64
import json
import re
import shlex
import sys
import zlib

# How much of what is no text is shown, and how much a coding is decoded to at most.
FRONT, MOST = 256, 64 << 20
# The longest body that stands in a command as a text: a word of a command has its limit.
WORD = 100_000
SPACES = re.compile(r"\s+")
TOKENS = re.compile(r'"(?:[^"\\]|\\.)*"|[\[\]{},:]|[^\s\[\]{},:"]+')


class Refused(Exception):
    """The input is no export."""


def entries_of(data: bytes) -> list[dict]:
    """The entries of an export; or the one whose parts the lines are, with the message that stands behind it."""
    # (JSON needs no line feed, and a part may end in the middle of a character)
    text = data.replace(b"\n", b"").decode("utf-8", "replace")
    try:
        tree, end = json.JSONDecoder().raw_decode(text, len(text) - len(text.lstrip()))
        entries = tree["log"]["entries"] if "log" in tree else [tree]
        for entry in entries:
            entry["request"]["headers"], entry["response"]["headers"]
        if text[end:].startswith(" ") and "log" not in tree:
            tree["message"] = base64.b64decode(text[end + 1:], validate=True)
        elif text[end:].strip():
            raise ValueError
        return entries
    except (ValueError, LookupError, TypeError, RecursionError):
        lines = data.decode("utf-8", "replace").splitlines()
        raise Refused(f"this is no export: {lines[0][:100] if text.strip() else 'nothing'}") from None


# ---- bytes of an entry


def bytes_of(text: str) -> bytes:
    """The bytes for which a text stands that has a character for each; of another export, whose texts are Unicode, those of UTF-8."""
    try:
        return text.encode("latin-1")
    except UnicodeEncodeError:
        return text.encode("utf-8", "surrogatepass")


def body_of_request(request: dict) -> bytes:
    return bytes_of(request.get("postData", {}).get("text", ""))


def body_of_response(response: dict) -> bytes:
    content = response["content"]
    text = content.get("text", "")
    return base64.b64decode(text) if content.get("encoding") == "base64" else text.encode("utf-8", "surrogatepass")


def fields_of(message: dict) -> list[tuple[str, str]]:
    return [(field["name"], field["value"]) for field in message["headers"]]


def field_of(message: dict, name: str) -> str:
    """The values of a field, joined."""
    return ", ".join(value for other, value in fields_of(message) if other.lower() == name)


# ---- what people read


def printable(text: str) -> str:
    """The text, with each character that would steer a terminal as its number."""
    return "".join(one if one.isprintable() or one in "\n\t" else numbered(ord(one)) for one in text.replace("\r\n", "\n"))


def numbered(code: int) -> str:
    return f"\\x{code:02x}" if code < 256 else f"\\u{{{code:x}}}"


def readable(text: str) -> str:
    """What stands in a head, of a text that has a character for each byte."""
    return printable(bytes_of(text).decode("utf-8", "backslashreplace"))


def decoded(body: bytes, coding: str) -> bytes:
    """The body without this coding; a ValueError where it has it not, or where it is not known here."""
    if coding in ("gzip", "x-gzip"):
        return inflated(body, 31)
    if coding == "deflate":
        try:
            return inflated(body, 15)
        except ValueError:
            return inflated(body, -15)
    raise ValueError("is not known here")


def inflated(body: bytes, bits: int) -> bytes:
    """What was deflated, one part behind the other."""
    whole = b""
    while body:
        part = zlib.decompressobj(bits)
        try:
            whole += part.decompress(body, MOST - len(whole) + 1)
        except zlib.error:
            raise ValueError("cannot be decoded") from None
        if len(whole) > MOST:
            raise ValueError(f"is more than {MOST} bytes")
        if not part.eof:
            raise ValueError("is cut")
        body = part.unused_data
    return whole


def plain(body: bytes, message: dict) -> tuple[bytes, list[str]]:
    """The body without its codings, as far as they can be taken away, and a remark for each."""
    codings = [word for word in SPACES.sub("", field_of(message, "content-encoding").lower()).split(",") if word not in ("", "identity")]
    remarks = []
    for coding in reversed(codings):
        try:
            body = decoded(body, coding)
            remarks.append(f"decoded from {coding}")
        except ValueError as why:
            remarks.append(f"{coding} {why}")
            break
    return body, remarks


def text_of(body: bytes, media: str) -> str | None:
    """The body as a text, in the charset that its media type names or in UTF-8; none where it is no text."""
    named = re.search(r'charset="?([\w.:-]+)', media, re.IGNORECASE)
    try:
        text = body.decode(named.group(1) if named else "utf-8")
    except (LookupError, ValueError):
        return None
    return None if re.search(r"[\x00-\x08\x0e-\x1a\x1c-\x1f]", text) else text


def laid_out(text: str) -> str:
    """JSON with a line for each item; each number and each text stays as it stands."""
    lines, depth, front, before = [], 0, "", ""
    for token in TOKENS.findall(text):
        if token in "]}":
            depth -= 1
            if before not in "[{":
                lines, front = lines + [front], "  " * depth
        elif before and before in "[{,":
            lines, front = lines + [front], "  " * depth
        front += ": " if token == ":" else token
        depth += token in "[{"
        before = token
    return "\n".join(lines + [front])


def is_json(text: str) -> bool:
    try:
        return isinstance(json.loads(text), (dict, list))
    except (ValueError, RecursionError):
        return False


def front_of(body: bytes) -> list[str]:
    """The front of what is no text: places, bytes in hexadecimal, and those that are of ASCII."""
    lines = []
    for place in range(0, min(len(body), FRONT), 16):
        part = body[place : min(place + 16, FRONT)]
        shown = "".join(chr(one) if 32 <= one < 127 else "." for one in part)
        lines.append(f"{place:08x}  {part.hex(' '):<47}  |{shown}|")
    return lines + ([f"({len(body) - FRONT} bytes more)"] if len(body) > FRONT else [])


def shown_body(body: bytes, message: dict) -> list[str]:
    """The lines of a body, behind an empty one."""
    if message.get("bodySize", 0) == -1 and not body:
        return ["", "(the body is not there)"]
    if not body:
        return []
    body, remarks = plain(body, message)
    return ["", *lines_of(body, field_of(message, "content-type")), *(f"({remark})" for remark in remarks)]


def lines_of(body: bytes, media: str) -> list[str]:
    """The lines of a text, or of the front of what is none."""
    text = text_of(body, media)
    if text is None:
        return front_of(body)
    lines = printable(laid_out(text) if is_json(text) else text).split("\n")
    return lines[:-1] if lines[-1] == "" else lines


def shown_message(entry: dict) -> list[str]:
    """The lines of a message of a WebSocket behind an entry."""
    if "message" not in entry:
        return []
    payload = entry["message"]
    return ["", f"* a message of {len(payload)} bytes", *([""] if payload else []), *lines_of(payload, "")]


def shown(entry: dict) -> list[str]:
    """The lines of an entry."""
    request, response = entry["request"], entry["response"]
    lines = [f"# {entry.get('startedDateTime', '')}, {entry.get('time', 0)} ms"]
    lines.append(f"> {readable(request['method'])} {readable(request['url'])} {readable(request['httpVersion'])}")
    lines += [f"> {readable(name)}: {readable(value)}" for name, value in fields_of(request)]
    lines += shown_body(body_of_request(request), request)
    lines.append("")
    if response["status"] == 0:
        return [*lines, "(there is no response)", *shown_message(entry)]
    lines.append(f"< {readable(response['httpVersion'])} {response['status']} {readable(response['statusText'])}".rstrip())
    lines += [f"< {readable(name)}: {readable(value)}" for name, value in fields_of(response)]
    return lines + shown_body(body_of_response(response), response) + shown_message(entry)


# ---- what curl sends


def commands(entry: dict) -> list[str]:
    """The lines that send the request again; each character stands for a byte."""
    request = entry["request"]
    method, url, body, fields = request["method"], request["url"], body_of_request(request), fields_of(request)
    names = {name.lower() for name, _ in fields}
    sends = body != b"" or not names.isdisjoint(("content-length", "transfer-encoding"))
    words = ["curl", "--globoff", "--path-as-is"]
    if request["httpVersion"] == "HTTP/1.0":
        words.append("--http1.0")
    if method == "HEAD" and not sends:
        words.append("--head")
    elif method != ("POST" if sends else "GET"):
        words += ["--request", method]
    if "#" in url:
        # (curl would keep what follows to itself)
        words += ["--request-target", re.sub(r"^\w+://[^/?#]*", "", url)]
    if "accept-encoding" in names:
        words.append("--compressed")
    for name, value in fields:
        if name.lower() != "content-length":
            words += ["--header", f"{name}: {value}" if value else f"{name};"]
    # (fields that curl would add)
    for name in ("Host", "User-Agent", "Accept", *(("Content-Type", "Expect") if sends else ())):
        if name.lower() not in names:
            words += ["--header", f"{name}:"]
    front = ""
    if sends and is_word(body):
        words += ["--data-raw", body.decode("latin-1")]
    elif sends:
        words += ["--data-binary", "@-"]
        front = f"printf %s {base64.b64encode(body).decode()} | base64 -d | "
    lines = ["# the body of this request was not kept"] if request.get("bodySize", 0) == -1 else []
    return [*lines, front + " ".join(quoted(bytes_of(word).decode("latin-1")) for word in [*words, url])]


def is_word(body: bytes) -> bool:
    """Whether a body is a text that stands in a command as a word."""
    text = text_of(body, "")
    return text is not None and len(body) <= WORD and printable(text) == text


def quoted(word: str) -> str:
    """The word as one of a POSIX shell: in single quotes, in which nothing but one of these has a meaning."""
    return shlex.quote(word)


def main(words: list[str]) -> int:
    curl = "--curl" in words
    names = [word for word in words if word != "--curl"]
    if len(names) > 1 or any(name.startswith("-") for name in names):
        print(__doc__.strip().rsplit("\n", 1)[-1].strip(), file=sys.stderr)
        return 1
    try:
        if names:
            with open(names[0], "rb") as file:
                data = file.read()
        else:
            data = sys.stdin.buffer.read()
        entries = entries_of(data)
    except (OSError, Refused) as why:
        print(f"show.py: {why}", file=sys.stderr)
        return 1
    for number, entry in enumerate(entries):
        if curl:
            text = "\n".join(commands(entry)).encode("latin-1")
        else:
            text = "\n".join(([""] if number else []) + shown(entry)).encode("utf-8", "backslashreplace")
        sys.stdout.buffer.write(text + b"\n")
    sys.stdout.buffer.flush()
    return 0


if __name__ == "__main__":
    try:
        sys.exit(main(sys.argv[1:]))
    except BrokenPipeError:
        # (the one who reads has read enough)
        sys.stderr.close()
