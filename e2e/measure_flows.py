#!/usr/bin/env python3
"""Writes a large flow file, and measures `mitm flows` on such files.

    measure_flows.py write FILE MEGABYTES BYTES    writes a file of so many megabytes, of flows whose texts have some BYTES each
    measure_flows.py run [MEGABYTES] [FILTER]      prints what `mitm flows FILE FILTER` costs on files of flows of 1 kB and 10 kB
    measure_flows.py run [MEGABYTES] [FILTER] by read_flows.py      the same of the reader in Python, for comparison

A megabyte is a million bytes. Without words, files have 100 megabytes and the filter is `~c 200`, which holds on four flows of five.
The flows of a file are those of one block of a thousand, again and again, so files are written as fast as the disk takes them. They
are read from the system's cache then. Peak memory is no less than that of this program itself, some 15 MB."""
import os
import subprocess
import sys
import tempfile
import time

from tools import MITM, TOP
from write_flows import written

BLOCK = 1000
SIZES = (1000, 10_000)


def flow(number, filler):
    """A flow with the status 404 where its number is a multiple of five, and else 200. The filler is the answer's body."""
    fields = [[b"Content-Type", b"text/plain"], [b"Content-Length", b"%d" % len(filler)]]
    moment = 1_700_000_000_000_000 + 1000 * number
    missing = number % 5 == 0
    return {
        "version": 2,
        "type": "http",
        "id": f"{number}.0",
        "client_conn": {"address": [b"127.0.0.1", 40000 + number % 20_000]},
        "server_conn": {"address": [b"127.0.0.1", 9000]},
        "request": {
            "http_version": b"HTTP/1.1",
            "headers": [[b"Host", b"127.0.0.1:8080"], [b"Accept", b"*/*"]],
            "content": b"",
            "trailers": None,
            "timestamp_start": moment,
            "timestamp_end": moment + 1,
            "host": b"127.0.0.1",
            "port": 9000,
            "method": b"GET",
            "scheme": b"http",
            "authority": b"",
            "path": b"/item/%d" % number,
        },
        "response": {
            "http_version": b"HTTP/1.1",
            "status_code": 404 if missing else 200,
            "reason": b"Not Found" if missing else b"OK",
            "headers": fields,
            "content": filler,
            "trailers": None,
            "timestamp_start": moment + 2,
            "timestamp_end": moment + 3,
        },
        "error": None,
        "is_replay": None,
        "marked": False,
        "websocket": None,
    }


def block(size):
    """A thousand flows, each with a text of some so many bytes."""
    empty = len(written(flow(BLOCK - 1, b"")))
    filler = b"x" * max(size - empty, 0)
    return b"".join(written(flow(number, filler)) for number in range(BLOCK))


def write_file(path, megabytes, size):
    """Writes whole blocks until there are so many megabytes: how many flows the file has."""
    text, count = block(size), 0
    with open(path, "wb") as file:
        while count == 0 or file.tell() < megabytes * 1_000_000:
            file.write(text)
            count += BLOCK
    return count


def write_apart(path, megabytes, size):
    """Writes the file by another process, so that its memory does not count: how many flows the file has."""
    words = [sys.executable, "-B", __file__, "write", path, str(megabytes), str(size)]
    return int(subprocess.run(words, stdout=subprocess.PIPE, check=True).stdout.split()[0])


def run(words, out):
    """Runs this to its end: its status, the seconds that it took, and what it used."""
    started = time.perf_counter()
    pid = os.posix_spawn(words[0], words, os.environ, file_actions=[(os.POSIX_SPAWN_DUP2, out.fileno(), 1)])
    _, status, used = os.wait4(pid, 0)
    return os.waitstatus_to_exitcode(status), time.perf_counter() - started, used


def measure(path, count, words):
    """Prints the figures of one run, whose lines go to a file."""
    size = os.path.getsize(path)
    with tempfile.TemporaryFile() as out:
        status, seconds, used = run(words, out)
        out.seek(0)
        lines = sum(piece.count(b"\n") for piece in iter(lambda: out.read(1 << 20), b""))
    cpu = used.ru_utime + used.ru_stime
    print(f"{count} flows, {size / 1e6:.0f} MB: status {status}, {lines} lines, {seconds:.2f} s, {count / seconds:.0f} flows and "
          f"{size / seconds / 1e6:.0f} MB a second, {1e6 * cpu / count:.1f} us of CPU a flow, peak memory {used.ru_maxrss / 1000:.0f} MB", flush=True)


def main():
    words = sys.argv[1:]
    if words[:1] == ["write"] and len(words) == 4:
        print(f"{write_file(words[1], int(words[2]), int(words[3]))} flows")
        return
    if words[:1] != ["run"]:
        sys.exit(__doc__)
    by_python = words[-2:] == ["by", "read_flows.py"]
    given = words[1:-2] if by_python else words[1:]
    megabytes = int(given[0]) if given else 100
    chosen = given[1] if len(given) > 1 else "~c 200"
    for size in SIZES:
        with tempfile.TemporaryDirectory() as folder:
            path = os.path.join(folder, "flows")
            count = write_apart(path, megabytes, size)
            if by_python:
                measure(path, count, [sys.executable, "-B", os.path.join(TOP, "examples", "read_flows.py"), path])
            else:
                measure(path, count, [MITM, "flows", path, chosen])


if __name__ == "__main__":
    main()
