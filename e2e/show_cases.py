"""What people see of an export: examples/show.py, its commands for curl as a shell runs them, and examples/to_tls.py."""
import base64
import gzip
import json
import os
import re
import socket
import subprocess
import sys
import tempfile
import zlib

from export_cases import har
from origin import USER, answer, read_body, read_line
from saving_cases import saved, saves_to
from tools import PROXY, TOP, Mitm, curl, listens, same, url, wait_for
from tunnel_cases import PEER, Peer, Secured

import show

SHOW = os.path.join(TOP, "examples", "show.py")


def run_show(*words, data=b""):
    ran = subprocess.run([sys.executable, SHOW, *words], input=data, capture_output=True, timeout=60)
    return ran.returncode, ran.stdout, ran.stderr.decode()


def entry(body=b"", fields=(), **changed):
    """An entry of an export whose response has this body and these fields."""
    try:
        content = {"size": len(body), "mimeType": "", "text": body.decode()}
    except UnicodeDecodeError:
        content = {"size": len(body), "mimeType": "", "text": base64.b64encode(body).decode(), "encoding": "base64"}
    response = {"status": 200, "statusText": "OK", "httpVersion": "HTTP/1.1", "bodySize": len(body), "content": content,
                "headers": [{"name": name, "value": value} for name, value in fields]}
    request = {"method": "GET", "url": "http://h/a", "httpVersion": "HTTP/1.1", "bodySize": 0, "headers": [{"name": "Host", "value": "h"}]}
    return {"startedDateTime": "1970-01-01T00:00:00.000Z", "time": 5, "request": request, "response": {**response, **changed}}


def body_lines(body, *fields):
    """What is shown of a response's body."""
    lines = show.shown(entry(body, fields))
    return lines[lines.index("< HTTP/1.1 200 OK") + 2 + len(fields):]


def case_show_an_export():
    """An export from standard input and from a file, and one entry by itself."""
    log = json.dumps({"log": {"entries": [entry(b"one\n", [("A", "grün".encode().decode("latin-1"))]), entry(status=0, bodySize=-1)]}}).encode()
    wanted = ("# 1970-01-01T00:00:00.000Z, 5 ms\n> GET http://h/a HTTP/1.1\n> Host: h\n\n< HTTP/1.1 200 OK\n< A: grün\n\none\n\n"
              "# 1970-01-01T00:00:00.000Z, 5 ms\n> GET http://h/a HTTP/1.1\n> Host: h\n\n(there is no response)\n")
    same(run_show(data=log), (0, wanted.encode(), ""))
    with tempfile.NamedTemporaryFile() as file:
        file.write(log)
        file.flush()
        same(run_show(file.name), (0, wanted.encode(), ""))
    same(run_show(data=json.dumps(entry(b"one")).encode())[1].decode().splitlines()[-1], "one")
    same(show.shown(entry(bodySize=-1))[-1], "(the body is not there)")


def case_show_parts_of_an_entry():
    """Lines of an operator's `entry`, put together wherever they are cut, with a message of a WebSocket behind them."""
    text = json.dumps(entry("grün\n".encode()), ensure_ascii=False).encode()
    for size in (1, 7, 1000):
        lines = b"".join(text[start:start + size] + b"\n" for start in range(0, len(text) + 3 * size, size))
        same(run_show(data=lines)[1].decode().splitlines()[-1], "grün")
    for payload, wanted in ((b"", ["* a message of 0 bytes"]), (b"hello", ["* a message of 5 bytes", "", "hello"]), (b"\0\1", ["* a message of 2 bytes", "", "00000000  00 01" + " " * 42 + "  |..|"])):
        same(run_show(data=text + b" " + base64.b64encode(payload) + b"\n")[1].decode().splitlines()[-len(wanted):], wanted)
    same(run_show(data=text + b" !\n")[0], 1)
    same(run_show(data=b"no such flow\nno such flow\n"), (1, b"", "show.py: this is no export: no such flow\n"))


def case_show_what_is_no_export():
    same(run_show(data=b"bad filter at 0\n"), (1, b"", "show.py: this is no export: bad filter at 0\n"))
    same(run_show(data=b""), (1, b"", "show.py: this is no export: nothing\n"))
    for data in (b"[]", b"7", b"{}", b'{"log":{"entries":[{}]}}', b"[" * 100_000):
        status, out, err = run_show(data=data)
        same((status, out), (1, b""))
        assert err.startswith("show.py: this is no export: "), err
    same(run_show("/nowhere")[0], 1)
    same(run_show("a", "b")[::2], (1, "show.py [--curl] [FILE]     without FILE it reads standard input\n"))


def case_show_bodies_with_codings():
    """Each coding is taken off; what cannot be is told, and shown as it came."""
    text = b"much text " * 20
    lines = [text.decode()]
    raw = zlib.compressobj(wbits=-15)
    for coding, body in (("gzip", gzip.compress(text)), ("X-GZIP", gzip.compress(text)), ("deflate", zlib.compress(text)),
                         ("deflate", raw.compress(text) + raw.flush()), ("gzip", gzip.compress(text[:50]) + gzip.compress(text[50:]))):
        same(body_lines(body, ("Content-Encoding", coding)), [*lines, f"(decoded from {coding.lower()})"])
    twice = gzip.compress(zlib.compress(text))
    same(body_lines(twice, ("content-encoding", "deflate, gzip")), [*lines, "(decoded from gzip)", "(decoded from deflate)"])
    same(body_lines(text, ("Content-Encoding", "identity")), lines)
    same(body_lines(text, ("Content-Encoding", "gzip")), [*lines, "(gzip cannot be decoded)"])
    same(body_lines(b"\xff\xfe", ("Content-Encoding", "br")), ["00000000  ff fe" + " " * 42 + "  |..|", "(br is not known here)"])
    same(body_lines(gzip.compress(text)[:-12], ("Content-Encoding", "gzip"))[-1], "(gzip is cut)")
    same(body_lines(gzip.compress(bytes(65 << 20)), ("Content-Encoding", "gzip"))[-1], "(gzip is more than 67108864 bytes)")


def case_show_bodies_as_texts():
    """JSON is laid out with its numbers as they stand, a charset is heeded, and nothing steers the terminal."""
    same(body_lines(b'{"b":1.50,"a":[],"c":[{"d":"x, [y]: \\"z\\""},1e999],"b":{}}'), [
        "{", '  "b": 1.50,', '  "a": [],', '  "c": [', "    {", '      "d": "x, [y]: \\"z\\""', "    },", "    1e999", "  ],", '  "b": {}', "}"])
    same(body_lines(b'{"a":'), ['{"a":'])
    same(body_lines("grün".encode("latin-1"), ("Content-Type", "text/plain; charset=ISO-8859-1")), ["grün"])
    same(body_lines("grün".encode(), ("Content-Type", "text/plain; charset=none-such"))[0][:8], "00000000")
    same(body_lines("a\r\n\x1b[31mb\u202ec\n".encode()), ["a", "\\x1b[31mb\\u{202e}c"])
    same(body_lines(bytes(300))[-1], "(44 bytes more)")
    same(len(body_lines(bytes(300))), 17)
    same(show.shown(entry(fields=[("A", "\x1b[2J")]))[-1], "< A: \\x1b[2J")


class Recorder(Peer):
    """A server that keeps what it is asked: the request line, the fields, and the body."""

    def __init__(self):
        self.got = []
        super().__init__(self.keep)

    def keep(self, connection):
        stream = connection.makefile("rb")
        while True:
            try:
                lines = [read_line(stream)]
                while lines[-1]:
                    lines.append(read_line(stream))
            except EOFError:
                return
            fields = {line.split(b":")[0].lower().decode(): line.split(b":", 1)[1].strip().decode("latin-1") for line in lines[1:-1]}
            self.got.append((lines[0], sorted(line.rstrip() for line in lines[1:-1] if not line.lower().startswith(b"content-length:")), read_body(stream, fields)))
            connection.sendall(answer("200 OK", b"", length=not lines[0].startswith(b"HEAD ")))


REQUESTS = [
    b"GET /a?b=c&d='e'$(f)`g`!h HTTP/1.1\r\nHost: a.test\r\nCookie: a='b'; c=\"d\"; e=$HOME\\n\r\n\r\n",
    b"GET /[1-3]/{a,b}/../c HTTP/1.1\r\nHost: h\r\nEmpty:\r\nX-Bytes: gr\xc3\xbcn \xe9\r\nAccept: */*\r\nUser-Agent: me\r\n\r\n",
    b"GET /a#b?c HTTP/1.1\r\nHost: h\r\n\r\n",
    b"GET / HTTP/1.1\r\nHost: h\r\nTwice: 1\r\ntwice: 2\r\nAccept-Encoding: gzip\r\n\r\n",
    b"POST /t HTTP/1.1\r\nHost: h\r\nContent-Type: text/plain\r\nContent-Length: 21\r\n\r\n@/etc/passwd 'a' $b\n\n",
    b"POST /b HTTP/1.1\r\nHost: h\r\nContent-Length: 256\r\n\r\n" + bytes(range(256)),
    b"POST /long HTTP/1.1\r\nHost: h\r\nContent-Length: 400000\r\n\r\n" + b"long text " * 40_000,
    b"POST /none HTTP/1.1\r\nHost: h\r\nContent-Length: 0\r\n\r\n",
    b"POST /bare HTTP/1.1\r\nHost: h\r\n\r\n",
    b"PUT /u HTTP/1.1\r\nHost: h\r\nContent-Length: 5\r\n\r\ngr\xc3\xbc\xc3",
    b"PATCH /crlf HTTP/1.1\r\nHost: h\r\nContent-Length: 6\r\n\r\na\r\nb\r\n",
    b"DELETE /d HTTP/1.1\r\nHost: h\r\n\r\n",
    b"GET /with HTTP/1.1\r\nHost: h\r\nContent-Length: 4\r\n\r\nbody",
    b"POST /chunked HTTP/1.1\r\nHost: h\r\nTransfer-Encoding: chunked\r\n\r\n5\r\nhello\r\n0\r\n\r\n",
    b"GET /old HTTP/1.0\r\nHost: h\r\n\r\n",
    b"HEAD /head HTTP/1.1\r\nHost: h\r\n\r\n",
]


def case_show_what_curl_sends_again():
    """Each request, as the server gets it, is what a shell and curl make of its command."""
    with tempfile.TemporaryDirectory() as folder, Recorder() as server:
        path = os.path.join(folder, "a.flows")
        with Mitm(saves_to(path), mode=f'mode = "reverse:http://127.0.0.1:{PEER}"\n') as mitm:
            for request in REQUESTS:
                with socket.create_connection(PROXY, timeout=20) as client:
                    client.sendall(request)
                    assert client.recv(65536).startswith(b"HTTP/1.1 200 "), request
            saved(path, len(REQUESTS))
            mitm.new_lines(len(REQUESTS))
            text = har(path, "~all")[1]
        first, server.got[:] = list(server.got), []
        status, script, notes = run_show("--curl", data=text.encode())
        same((status, notes), (0, ""))
        for shell in ("sh", "bash"):
            ran = subprocess.run([shell, "-e"], input=script, capture_output=True, cwd=folder, timeout=60, env={"PATH": os.environ["PATH"], "LC_ALL": "C"})
            same((ran.returncode, ran.stdout.replace(b"\r\n", b"")[:15]), (0, b"HTTP/1.1 200 OK"))
            same(len(server.got), len(first))
            for wanted, got in zip(first, server.got):
                same(got, wanted)
            server.got.clear()


def case_show_a_request_whose_body_passed_by():
    one = entry()
    one["request"]["bodySize"] = -1
    same(run_show("--curl", data=json.dumps(one).encode())[1].splitlines()[0], b"# the body of this request was not kept")


def case_plain_in_front_of_tls():
    """A server of https alone is seen through a program that speaks TLS to it; one whose certificate is another's is not spoken to."""
    port = PEER + 1
    with Secured() as server, Mitm(mode=f'mode = "reverse:http://127.0.0.1:{port}"\n') as mitm:
        for words, wanted in (([server.certificate], USER), ([], b"server closed early\n")):
            relay = subprocess.Popen([sys.executable, os.path.join(TOP, "examples", "to_tls.py"), str(port), f"127.0.0.1:{PEER}", *words],
                                     stdout=subprocess.DEVNULL, stderr=subprocess.DEVNULL)
            try:
                wait_for(lambda: listens(port), "to_tls.py")
                same(curl(url("/user")), wanted)
            finally:
                relay.kill()
                relay.wait()
        same(re.sub(r"\d+\.0 ", "", mitm.lines()[0]), f"GET http://127.0.0.1:{port}/user 200 {len(USER)}")


SHOW_CASES = [
    case_show_an_export, case_show_what_is_no_export, case_show_bodies_with_codings, case_show_bodies_as_texts, case_show_what_curl_sends_again,
    case_show_parts_of_an_entry, case_show_a_request_whose_body_passed_by, case_plain_in_front_of_tls,
]
