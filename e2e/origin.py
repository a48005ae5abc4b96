"""The origin of the end-to-end run: it answers by path. usage: origin.py PORT"""
import base64
import socket
import sys
import threading
import time

BIG = 10 * 1024 * 1024
SOME = 600_000
PAGE = b"""<!DOCTYPE html>
<html><head><title>a page</title><link rel="stylesheet" href="/page.css"></head><body>
<p id="text">the old word</p><img id="dot" src="/dot.png" alt=""><p id="rule"></p><p id="width"></p>
<script>
addEventListener("load", () => {
  document.getElementById("rule").textContent = document.styleSheets[0].cssRules[0].cssText;
  document.getElementById("width").textContent = document.getElementById("dot").naturalWidth;
});
</script></body></html>
"""
SHEET = b"p { color: rgb(1, 2, 3); }\n"
USER = b'{"name":"Ada","ids":[1,2.50]}\n'
# The same with gzip, as it stands: what a library makes of it is not the same in each version.
PACKED = base64.b64decode("H4sIAAAAAAACA6tWykvMTVWyUnJMSVTSUcpMKVayijbUMdIzNYit5QIAm9XtIR4AAAA=")


def read_line(stream):
    line = stream.readline(65537)
    if not line.endswith(b"\n"):
        raise EOFError
    return line.rstrip(b"\r\n")


def read_head(stream):
    """The request line's words, the fields with names in lower case, and all lines of the head."""
    lines = [read_line(stream)]
    method, target, _ = lines[0].split(b" ")
    fields = {}
    while True:
        line = read_line(stream)
        if not line:
            return method.decode(), target.decode(), fields, b"\n".join(lines + [b""])
        lines.append(line)
        name, value = line.split(b":", 1)
        fields[name.strip().lower().decode()] = value.strip().decode()


def read_body(stream, fields):
    """The body, by its length or its chunks."""
    if fields.get("transfer-encoding", "").lower() == "chunked":
        body = b""
        while True:
            size = int(read_line(stream).split(b";")[0], 16)
            if size == 0:
                while read_line(stream):
                    pass
                return body
            body += stream.read(size)
            read_line(stream)
    return stream.read(int(fields.get("content-length", "0")))


def answer(status, body, *fields, length=True):
    lines = [f"HTTP/1.1 {status}"] + list(fields)
    if length:
        lines.append(f"Content-Length: {len(body)}")
    return "\r\n".join(lines + ["", ""]).encode() + body


def serve(connection):
    """Answers requests until the client closes, or the path has the origin close."""
    stream = connection.makefile("rb")
    while True:
        method, target, fields, head = read_head(stream)
        if target == "/unread":
            connection.sendall(answer("413 Content Too Large", b"too large", "Connection: close"))
            return
        if fields.get("expect", "").lower() == "100-continue":
            connection.sendall(b"HTTP/1.1 100 Continue\r\n\r\n")
        body = read_body(stream, fields)
        if not reply(connection, method, target, head, body):
            return


def reply(connection, method, target, head, body):
    """Answers one request, and tells whether the connection stays."""
    path = target.split("?")[0]
    if method == "HEAD":
        connection.sendall(b"HTTP/1.1 200 OK\r\nContent-Length: 5\r\n\r\n")
    elif path == "/echo":
        connection.sendall(answer("200 OK", body, "Content-Type: application/octet-stream"))
    elif path == "/head":
        connection.sendall(answer("200 OK", head, "Content-Type: text/plain", "X-Server: the origin"))
    elif path == "/set":
        connection.sendall(answer("200 OK", b"set\n", *(f"Set-Cookie: {one}" for one in target.split("?")[1].split("&"))))
    elif path == "/page":
        connection.sendall(answer("200 OK", PAGE, "Content-Type: text/html"))
    elif path == "/page.css":
        connection.sendall(answer("200 OK", SHEET, "Content-Type: text/css"))
    elif path == "/some":
        connection.sendall(answer("200 OK", bytes(SOME)))
    elif path == "/big":
        connection.sendall(answer("200 OK", bytes(BIG)))
    elif path == "/user":
        packs = b"gzip" in head.lower()
        fields = ["Content-Type: application/json"] + (["Content-Encoding: gzip"] if packs else [])
        connection.sendall(answer("200 OK", PACKED if packs else USER, *fields))
    elif path == "/absent":
        connection.sendall(answer("404 Not Found", b"absent\n", "Content-Type: text/plain"))
    elif path == "/chunked":
        connection.sendall(b"HTTP/1.1 200 OK\r\nTransfer-Encoding: chunked\r\nTrailer: X-Sum\r\n\r\n")
        connection.sendall(b"5\r\nhello\r\n6;x=y\r\n world\r\n0\r\nX-Sum: 11\r\n\r\n")
    elif path == "/events":
        connection.sendall(b"HTTP/1.1 200 OK\r\nContent-Type: text/event-stream\r\nTransfer-Encoding: chunked\r\n\r\n")
        for number in (1, 2, 3):
            connection.sendall(b"9\r\ndata: %d\n\n\r\n" % number)
            time.sleep(0.25)
        connection.sendall(b"0\r\n\r\n")
    elif path == "/close":
        connection.sendall(b"HTTP/1.1 200 OK\r\nConnection: close\r\n\r\nuntil the close")
        return False
    elif path == "/early":
        connection.sendall(b"HTTP/1.1 103 Early Hints\r\nLink: </style.css>\r\n\r\n")
        connection.sendall(answer("200 OK", b"after hints"))
    elif path == "/small":
        for byte in answer("200 OK", b"one byte after the other"):
            connection.sendall(bytes([byte]))
    elif path == "/half":
        connection.sendall(b"HTTP/1.1 200 OK\r\nContent-Length: 100\r\n\r\nhalf")
        return False
    elif path == "/reset":
        connection.sendall(b"HTTP/1.1 200 OK\r\nContent-Length: 100\r\n\r\nhalf")
        connection.setsockopt(socket.SOL_SOCKET, socket.SO_LINGER, b"\1\0\0\0\0\0\0\0")
        return False
    else:
        connection.sendall(answer("200 OK", target.encode() + b"\n", "Content-Type: text/plain"))
    return True


def keep(connection):
    try:
        serve(connection)
    except (EOFError, OSError, ValueError):
        pass
    connection.close()


def main():
    listener = socket.create_server(("127.0.0.1", int(sys.argv[1])), backlog=512)
    while True:
        connection, _ = listener.accept()
        connection.setsockopt(socket.IPPROTO_TCP, socket.TCP_NODELAY, 1)
        threading.Thread(target=keep, args=(connection,), daemon=True).start()


if __name__ == "__main__":
    main()
