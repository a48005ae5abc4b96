"""Each request for memory refused, one at a time, in runs of one thing each: see e2e/refused. It needs a C compiler.

A run with a refusal ends with status 8, or as the one without; what its client got is a beginning of what it gets then, and so are the lines that were printed."""
import argparse
import os
import subprocess
import sys
import tempfile
import time

from fuzz import is_apart
from fuzz_peers import PATIENCE, Servers, connected, honest_answer
from fuzz_refused import CLOSES, Library, ask, can_refuse, content, read
from fuzz_socks import HELLO, LOCAL, STANDS, WELCOME, request
from fuzz_texts import AGREES, ASKS, CONTROL, PROXY, SERVER, frame
from measure_flows import flow
from tools import MITM, listens, raise_limit, raise_loopback
from write_flows import written

REVERSE = f'mode = "reverse:http://127.0.0.1:{SERVER}"\n'
DOORS = f'listen = "127.0.0.1:{PROXY[1]}"\ncontrol = "127.0.0.1:{CONTROL[1]}"\n'
CHUNKS = b"2;x\r\nab\r\n1\r\nc\r\n0\r\n\r\n"
POST = ask(b"POST", b"/honest/post", CLOSES, b"Transfer-Encoding: chunked") + CHUNKS
TWO = ask(b"GET", b"/honest/one") + ask(b"GET", b"/honest/two", CLOSES)
TWO_ANSWERS = honest_answer(b"one", b"") + honest_answer(b"two", b"")
REPLAY = 'server_replay = ["answers"]\nserver_replay_ignore_host = true\nserver_replay_ignore_port = true\n'
RECORDED = b"".join(written(flow(number, b"a body of text")) for number in (1, 2, 3))
REPLAYED = b"HTTP/1.1 200 OK\r\nContent-Type: text/plain\r\nContent-Length: 14\r\n\r\na body of text"


class Run:
    """What a run is handed, what its client says, and what that gets where no memory is refused."""

    def __init__(self, options, said, wanted, files=()):
        self.options, self.said, self.wanted, self.files = options, said, wanted, dict(files)


RUNS = {
    "two GETs and a server that is kept": Run(REVERSE, TWO, TWO_ANSWERS),
    "a POST in chunks": Run(REVERSE, POST, honest_answer(b"post", b"3\r\nabc\r\n0\r\n\r\n")),
    "a POST in chunks that is streamed, as its answer is": Run(REVERSE + "stream_large_bodies = 0\n", POST, honest_answer(b"post", CHUNKS.replace(b";x", b""))),
    "a WebSocket with a ping between fragments": Run(
        REVERSE, ask(b"GET", b"/honest/ws", *ASKS) + frame(1, b"half ", b"\1\2\3\4", False) + frame(9, b"?", b"\1\2\3\4") + frame(0, b"ws", b"\5\6\7\0"),
        AGREES + frame(1, b"heard ws") + frame(8, b"\x03\xe8")),
    "server replay": Run(REVERSE + REPLAY, ask(b"GET", b"/item/1", b"Host: x") + ask(b"GET", b"/item/2", CLOSES), 2 * REPLAYED, {"answers": RECORDED}),
    "two GETs behind SOCKS5": Run('mode = "socks5"\n', HELLO + request(LOCAL[0][0], SERVER) + TWO, WELCOME + STANDS + TWO_ANSWERS),
}


def play(library, run, number=None):
    """How many requests for memory a run made, its status, its lines, and what its client got, where the request of this number is refused."""
    with tempfile.TemporaryDirectory() as folder, open(os.path.join(folder, "printed"), "wb+") as out, open(os.path.join(folder, "noted"), "wb+") as err:
        for name, text in {"options": (run.options + DOORS).encode(), **run.files}.items():
            with open(os.path.join(folder, name), "wb") as file:
                file.write(text)
        words = {"LD_PRELOAD": library.path, "COUNTED": os.path.join(folder, "counted"), **({} if number is None else {"REFUSE": str(number)})}
        process = subprocess.Popen([MITM, "serve", "options"], cwd=folder, stdin=subprocess.DEVNULL, stdout=out, stderr=err, env={**os.environ, **words})
        try:
            got = talk(process, run)
            status = process.wait(PATIENCE)
        except subprocess.TimeoutExpired:
            got, status = b"", "none: it does not end"
        finally:
            process.kill()
            process.wait()
        out.seek(0)
        err.seek(0)
        return int(content(os.path.join(folder, "counted")) or 0), status, out.read(), err.read(), got


def talk(process, run):
    """What the client got, and then an operator ends the run."""
    end = time.time() + PATIENCE
    while process.poll() is None and not listens(CONTROL[1]) and time.time() < end:
        time.sleep(0.002)
    got = b""
    try:
        with connected(PROXY, PATIENCE) as client:
            client.sendall(run.said)
            got = read(client)
        with connected(CONTROL, PATIENCE) as operator:
            operator.sendall(b"quit\n")
            read(operator)
    except OSError:
        pass
    return got


def wrong(run, whole, one, number):
    """What is wrong of a run with a refusal, against the one without."""
    _, status, printed, noted, got = one
    if status not in (0, 8) or status == 8 and not noted:
        return f"status {status}, {noted[-300:]!r}"
    if not (whole[2].startswith(printed) if status == 8 else printed == whole[2]):
        return f"status {status}, printed {printed!r:.300}"
    if not (run.wanted.startswith(got) if status == 8 else got == run.wanted):
        return f"status {status}, a client got {got!r:.300}"
    return None


def every(name, run, part, parts):
    """Refuses each request for memory of a run (or one of so many, from this one on), and tells how many: how many were wrong."""
    servers = Servers(1, "socks5" if "socks5" in run.options else "reverse")
    servers.start()
    try:
        with tempfile.TemporaryDirectory() as folder:
            library = Library(folder)
            whole = play(library, run)
            if whole[1] != 0 or whole[4] != run.wanted:
                print(f"refused: {name}: with none refused: status {whole[1]}, {whole[3]!r:.300}, {whole[4]!r:.500}", flush=True)
                return 1
            tried, found, ends = 0, 0, {}
            for number in range(part, whole[0] + 20, parts):
                one = play(library, run, number)
                why = wrong(run, whole, one, number)
                tried += 1
                ends[one[1]] = ends.get(one[1], 0) + 1
                if why is not None:
                    found += 1
                    print(f"refused: {name}: request {number} for memory: {why}", flush=True)
            print(f"refused: {name}: {whole[0]} requests for memory, {tried} refused, each in a run of its own, statuses {ends}: {found} wrong", flush=True)
            return found
    finally:
        servers.stop()


def main():
    parser = argparse.ArgumentParser(prog="e2e/refused", description="Refuses each request for memory, one at a time.")
    parser.add_argument("--part", type=int, default=0, help="from which request on (0)")
    parser.add_argument("--parts", type=int, default=1, help="and from there on one of so many (1)")
    parser.add_argument("--runs", default="", help="those whose name has this text (all)")
    asked = parser.parse_args()
    if not can_refuse():
        sys.exit("refused: it needs cc: nothing was tried")
    if not is_apart():
        sys.exit("refused: it needs a network of its own (unshare -n): nothing was tried")
    raise_loopback()
    raise_limit()
    sys.exit(sum(every(name, run, asked.part, asked.parts) for name, run in RUNS.items() if asked.runs in name) != 0)


if __name__ == "__main__":
    main()
