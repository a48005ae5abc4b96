"""Rounds in which one request for memory is refused, or each from one on: a library that is loaded in front counts them. It needs a C compiler.

The program may end with status 8 at any of them, and what it said by then is a beginning of what it says where none is refused; it never ends by a signal."""
import os
import re
import shutil
import subprocess
import tempfile
import time
from itertools import cycle

from fuzz_files import recorded
from fuzz_parse import LINE, wrong_lines
from fuzz_peers import PATIENCE, Servers, connected, honest_answer
from fuzz_socks import FAILED, HELLO, STANDS, WELCOME, named, places, request
from fuzz_talks import random_of
from fuzz_texts import AGREES, ASKS, CONTROL, PROXY, SERVER, frame, lines
from tools import MITM, listens

SOURCE = r"""
#define _GNU_SOURCE
#include <dlfcn.h>
#include <fcntl.h>
#include <stdio.h>
#include <stdlib.h>
#include <unistd.h>
extern void *__libc_malloc(size_t);
extern void *__libc_realloc(void *, size_t);
static long count, from = -1, until;
static int refuses(void) {
  count++;
  return from >= 0 && count >= from && count < until;
}
__attribute__((constructor)) static void begin(void) {
  const char *text = getenv("REFUSE"), *last = getenv("REFUSE_UNTIL");
  from = text ? atol(text) : -1;
  until = last ? atol(last) : from + 1;
  count = 0;
}
__attribute__((destructor)) static void finish(void) {
  const char *path = getenv("COUNTED");
  char text[40];
  int size = snprintf(text, sizeof text, "%ld", count), file = path ? open(path, O_WRONLY | O_CREAT | O_TRUNC, 0644) : -1;
  if (file >= 0 && write(file, text, size)) close(file);
}
void *malloc(size_t size) { return refuses() ? NULL : __libc_malloc(size); }
void *realloc(void *old, size_t size) { return refuses() ? NULL : __libc_realloc(old, size); }
"""
MODES = {"reverse": f"reverse:http://127.0.0.1:{SERVER}", "socks5": "socks5"}
OPTIONS = f"""
listen = "127.0.0.1:{PROXY[1]}"
control = "127.0.0.1:{CONTROL[1]}"
intercept = "~u /held & ~q"
modify_headers = ["|~q & ~u /honest|X-Rule|1"]
modify_body = ["/nothing that is there/x"]
map_local = ["|//127.0.0.1:{SERVER}/local/|files/"]
server_replay = ["answers"]
client_replay = ["asked"]
save_stream_file = "saved"
"""
LOCAL = b"a local file\n" * 20
HEAD = b"HTTP/1.1 200 OK\r\nServer: mitm\r\nContent-Type: text/plain\r\nContent-Length: %d\r\n\r\n" % len(LOCAL)


def ask(method, path, *more):
    return lines(method + b" " + path + b" HTTP/1.1", b"Host: x", *more)


CLOSES = b"Connection: close"
TALKS = (
    (ask(b"GET", b"/honest/one") + ask(b"GET", b"/honest/two", CLOSES), honest_answer(b"one", b"") + honest_answer(b"two", b"")),
    (ask(b"POST", b"/honest/post", CLOSES, b"Transfer-Encoding: chunked") + b"2;x\r\nab\r\n1\r\nc\r\n0\r\n\r\n", honest_answer(b"post", b"3\r\nabc\r\n0\r\n\r\n")),
    (ask(b"GET", b"/honest/ws", *ASKS) + frame(1, b"half ", b"\1\2\3\4", False) + frame(9, b"?", b"\1\2\3\4") + frame(0, b"ws", b"\5\6\7\0"),
     AGREES + frame(1, b"heard ws") + frame(8, b"\x03\xe8")),
    (ask(b"GET", b"/local/a.txt", CLOSES), HEAD + LOCAL),
    (ask(b"GET", b"/honest/held", CLOSES), honest_answer(b"held", b"")),
)
REFUSED = (HELLO + request(named(b"a b"), SERVER), WELCOME + FAILED)


def talks(mode):
    """What each client says, and what it is told; in mode `socks5` behind what it says there first."""
    if mode != "socks5":
        return TALKS
    return [(HELLO + request(address, SERVER) + sent, WELCOME + STANDS + wanted) for (address, _), (sent, wanted) in zip(cycle(places(False)), TALKS)] + [REFUSED]


class Library:
    """The library that counts, built in a folder."""

    def __init__(self, folder):
        self.path = os.path.join(folder, "refuses.so")
        with open(os.path.join(folder, "refuses.c"), "w", encoding="ascii") as file:
            file.write(SOURCE)
        subprocess.run(["cc", "-O1", "-shared", "-fPIC", "-o", self.path, os.path.join(folder, "refuses.c"), "-ldl"], check=True, capture_output=True)


def can_refuse():
    return shutil.which("cc") is not None


def play(library, seed, mode, number=None, until=None):
    """One run, in which the requests for memory of these numbers are refused: how many there were, and what is wrong."""
    with tempfile.TemporaryDirectory() as folder, open(os.path.join(folder, "printed"), "wb+") as out, open(os.path.join(folder, "noted"), "wb+") as err:
        os.makedirs(os.path.join(folder, "files"))
        for name, text in (("options", f'mode = "{MODES[mode]}"{OPTIONS}'.encode()), ("files/a.txt", LOCAL), ("answers", recorded(seed, "answers")), ("asked", recorded(seed, "asked"))):
            with open(os.path.join(folder, name), "wb") as file:
                file.write(text)
        words = {"LD_PRELOAD": library.path, "COUNTED": os.path.join(folder, "counted"), "RES_OPTIONS": "timeout:1 attempts:1"}
        if number is not None:
            words |= {"REFUSE": str(number)} | ({"REFUSE_UNTIL": str(until)} if until else {})
        process = subprocess.Popen([MITM, "serve", "options"], cwd=folder, stdin=subprocess.DEVNULL, stdout=out, stderr=err, env={**os.environ, **words})
        try:
            got = talk(process, mode)
            return judge(process, mode, folder, got, number, out, err)
        finally:
            process.kill()
            process.wait()


def talk(process, mode):
    """What the clients got, each in its place."""
    end = time.time() + PATIENCE
    while process.poll() is None and not listens(CONTROL[1]) and time.time() < end:
        time.sleep(0.005)
    if process.poll() is not None:
        return []
    got = []
    for sent, wanted in talks(mode):
        try:
            with connected(PROXY, PATIENCE) as client:
                client.sendall(sent)
                if wanted.endswith(b"held\n"):
                    operate(process)
                got.append(read(client))
        except OSError:
            got.append(b"")
        if process.poll() is not None:
            return got
    try:
        with connected(CONTROL, PATIENCE) as operator:
            operator.sendall(b"quit\n")
            read(operator)
    except OSError:
        pass
    return got


def read(connection):
    got = b""
    try:
        while piece := connection.recv(65536):
            got += piece
    except OSError:
        pass
    return got


def operate(process):
    """An operator who lists until a flow waits, shows it, marks it and lets it go on."""
    said = b""
    with connected(CONTROL, PATIENCE) as operator:
        for _ in range(400):
            operator.sendall(b"list\n")
            said = b""
            while not said.endswith(b"end\n"):
                piece = operator.recv(65536)
                if not piece:
                    return said
                said += piece
            if b" waiting" in said:
                break
            time.sleep(0.005)
        name = said.split(b" ")[0]
        operator.sendall(b"".join(verb + b" " + name + b"\n" for verb in (b"show", b"mark", b"resume")) + b"nonsense\n")
        operator.shutdown(1)
        return read(operator)


def judge(process, mode, folder, got, number, out, err):
    wrong = []
    try:
        status = process.wait(PATIENCE)
    except subprocess.TimeoutExpired:
        return None, ["it does not end"]
    count = int(content(os.path.join(folder, "counted")) or 0)
    out.seek(0)
    err.seek(0)
    printed, notes = out.read().split(b"\n"), err.read()
    if status not in ((0,) if number is None else (0, 8)):
        wrong.append(f"status {status}, {notes[-300:]!r}")
    if printed.pop() or wrong_lines(printed, status):
        wrong.append(f"printed {printed[-2:]!r:.300}: {wrong_lines(printed, status)}")
    if status == 8 and not notes:
        wrong.append("status 8, and nothing on standard error")
    wanted = [text for _, text in talks(mode)]
    for one, whole in zip(got, wanted):
        if not (whole.startswith(one) if status == 8 else one == whole or number is not None and (b"502 Bad Gateway" in one or one == WELCOME + FAILED)):
            wrong.append(f"a client got {one[:300]!r}, and not {whole[:300]!r}, with status {status}")
    saved = os.path.join(folder, "saved")
    if os.path.exists(saved):
        done = subprocess.run([MITM, "flows", saved, "~all"], capture_output=True, timeout=60)
        listed = [line for line in done.stdout.split(b"\n") if LINE.match(line)]
        if done.returncode not in (0, 4) or listed != printed[:len(listed)] or len(listed) < len(printed) - (status == 8) or status == 0 and done.returncode:
            wrong.append(f"the save file: status {done.returncode}, {len(listed)} flows of {len(printed)} lines, with status {status}")
    return count, wrong


def content(path):
    try:
        with open(path, "rb") as file:
            return file.read()
    except OSError:
        return b""


def refused_round(seed, tries=12, every=False):
    """Refuses some of the requests for memory of a run, each in a run of its own, or `every` one: the findings, and facts."""
    if not can_refuse():
        return [], {"skipped": "cc is missing"}
    rng, findings = random_of(seed, "refused"), []
    mode = random_of(seed, "refused", "mode").choice(list(MODES))
    servers = Servers(seed, mode)
    servers.start()
    try:
        with tempfile.TemporaryDirectory() as folder:
            library = Library(folder)
            count, wrong = play(library, seed, mode)
            findings += [f"with none refused: {what}" for what in wrong]
            most = (count or 1) + 20
            numbers = range(1, most) if every else sorted(rng.sample(range(1, most), min(tries, most - 1)))
            for number in numbers:
                until = None if every or rng.random() < 0.7 else number + rng.choice((2, 10, 1_000_000))
                _, wrong = play(library, seed, mode, number, until)
                findings += [f"request {number} for memory refused (until {until}): {what}" for what in wrong]
    finally:
        servers.stop()
    return findings, {"mode": mode, "requests for memory": count, "refused": len(numbers)}
