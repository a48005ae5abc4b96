"""Load for a while, with rules and saving, beside idle clients and one that compares what it gets. See e2e/soak for the words.

A tenth of the requests is saved, so that the file stays readable. What is checked: each request that was answered has its line, and no more lines are there than
requests were sent; each line of a saved path has its flow in the file; memory and descriptors stay where they were; the one client gets the exact bytes each time."""
import argparse
import asyncio
import multiprocessing
import os
import re
import shutil
import socket
import subprocess
import sys
import tempfile
import threading
import time

from tools import MITM, ORIGIN, PROXY, Mitm, listens, raise_limit, raise_loopback, read_all, wait_for

CONTROL = 8081
OPTIONS = f"""control = "127.0.0.1:{CONTROL}"
modify_headers = ["/~s/X-Server/", "/~q/X-Rule/1"]
modify_body = ["/a word/another"]
save_stream_file = "saved"
save_stream_filter = "~u /saved"
"""
BODY = b"a word, and a word; " * 15
SCRIPT = """
local count = 0
request = function()
  count = count + 1
  if count % 10 == 0 then return wrk.format("GET", "/saved") end
  return wrk.format("GET", "/load")
end
"""
LINE = re.compile(rb"\d+\.\d+ GET http://127\.0\.0\.1:%d(/\w+)(?:/\d+)? 200 \d+\Z" % ORIGIN)
# How much more memory there may be at the end than behind the first part, in kB.
GROWTH = 30_000


def serve():
    """The origin: it answers each head with a body in which rules find something."""
    head = b"HTTP/1.1 200 OK\r\nX-Server: origin\r\nContent-Length: %d\r\n\r\n" % len(BODY)

    async def answer(reader, writer):
        try:
            while True:
                await reader.readuntil(b"\r\n\r\n")
                writer.write(head + BODY)
                await writer.drain()
        except (asyncio.IncompleteReadError, ConnectionError):
            writer.close()

    async def run():
        server = await asyncio.start_server(answer, "127.0.0.1", ORIGIN, backlog=512)
        await server.serve_forever()

    asyncio.run(run())


WANTED = b"HTTP/1.1 200 OK\r\nContent-Length: %d\r\n\r\n" % len(BODY.replace(b"a word", b"another")) + BODY.replace(b"a word", b"another")


class Exact(threading.Thread):
    """A client that compares each answer."""

    def __init__(self):
        super().__init__(daemon=True)
        self.count, self.slowest, self.wrong, self.stops = 0, 0, [], threading.Event()

    def run(self):
        while not self.stops.wait(0.05):
            start = time.time()
            try:
                with socket.create_connection(PROXY, timeout=60) as client:
                    client.sendall(b"GET /exact/%d HTTP/1.1\r\nHost: h\r\nConnection: close\r\n\r\n" % self.count)
                    got = read_all(client)
            except OSError as error:
                got = repr(error).encode()
            self.count += 1
            self.slowest = max(self.slowest, time.time() - start)
            if got != WANTED:
                self.wrong.append(got[:300])


def load_by_wrk(seconds, connections, folder):
    """The number of requests that wrk had answered."""
    path = os.path.join(folder, "load.lua")
    with open(path, "w", encoding="ascii") as file:
        file.write(SCRIPT)
    done = subprocess.run(["wrk", "-t1", f"-c{connections}", f"-d{seconds}", "--timeout", "60", "-s", path, f"http://127.0.0.1:{PROXY[1]}"], capture_output=True, text=True, check=True)
    wrong = re.findall(r"Non-2xx.*|Socket errors:.*", done.stdout)
    if [text for text in wrong if re.search(r"[1-9]", text.replace("Non-2xx or 3xx", ""))]:
        raise AssertionError(f"wrk: {wrong}")
    return int(re.search(r"(\d+) requests in", done.stdout)[1])


def load_by_python(seconds, connections, folder):
    counts, end = [], time.time() + seconds

    def one():
        count = 0
        with socket.create_connection(PROXY, timeout=60) as client:
            while time.time() < end:
                client.sendall(b"GET %s HTTP/1.1\r\nHost: h\r\n\r\n" % (b"/saved" if count % 10 == 9 else b"/load"))
                got = b""
                while len(got) < len(WANTED):
                    piece = client.recv(65536)
                    if not piece:
                        raise AssertionError("closed in an answer")
                    got += piece
                if got != WANTED:
                    raise AssertionError(f"got {got[:300]!r}")
                count += 1
        counts.append(count)

    threads = [threading.Thread(target=one) for _ in range(connections)]
    for thread in threads:
        thread.start()
    for thread in threads:
        thread.join()
    if len(counts) != connections:
        raise AssertionError(f"{connections - len(counts)} clients of {connections} failed")
    return sum(counts)


def idle_clients(count):
    """So many connections: of each two one says nothing, and one half a head."""
    clients = [socket.create_connection(PROXY, timeout=60) for _ in range(count)]
    for client in clients[::2]:
        client.sendall(b"GET /never HTTP/1.1\r\nHost:")
    return clients


def resident(mitm):
    with open(f"/proc/{mitm.process.pid}/status") as status:
        return int(re.search(r"VmRSS:\s+(\d+)", status.read())[1])


class Lines:
    """The printed lines so far, read on each time: how many there are of each path; none may be another."""

    def __init__(self, file):
        self.descriptor, self.place, self.rest, self.counts, self.wrong = file.fileno(), 0, b"", {}, []

    def read(self):
        while piece := os.pread(self.descriptor, 1 << 20, self.place):
            self.place += len(piece)
            *whole, self.rest = (self.rest + piece).split(b"\n")
            for line in whole:
                found = LINE.match(line)
                if found:
                    self.counts[found[1]] = self.counts.get(found[1], 0) + 1
                else:
                    self.wrong.append(line[:200])
        return sum(self.counts.values())


def saved_flows(mitm):
    done = subprocess.run([MITM, "flows", mitm.path("saved"), "~all"], stdout=subprocess.PIPE, timeout=600)
    return done.returncode, done.stdout.count(b"\n")


def soak(minutes, connections, idle, mitm):
    """Takes the table; what is wrong, in words."""
    load = load_by_wrk if shutil.which("wrk") else load_by_python
    exact, lines, answered, first, wrong = Exact(), Lines(mitm.printed), 0, None, []
    before = mitm.sockets()
    clients = idle_clients(idle)
    exact.start()
    parts = max(2, min(20, round(minutes * 2)))
    print(f"load by {load.__name__.split('_')[-1]}, {connections} connections, {idle} idle clients, {minutes} minutes\n")
    print("| minute | answered | lines | save file, MB | resident, kB | descriptors | slowest exact answer, s |\n|---|---|---|---|---|---|---|", flush=True)
    begun = time.time()
    for part in range(parts):
        answered += load(max(1, round(minutes * 60 / parts)), connections, mitm.folder.name)
        time.sleep(0.5)
        now = resident(mitm)
        first = first or now
        size = os.path.getsize(mitm.path("saved")) / 1e6
        print(f"| {(time.time() - begun) / 60:.1f} | {answered} | {lines.read()} | {size:.1f} | {now} | {mitm.sockets()} | {exact.slowest:.2f} |", flush=True)
    exact.stops.set()
    exact.join()
    for client in clients:
        client.close()
    return wrong + judge(mitm, exact, lines, answered, parts * connections, before, first)


def judge(mitm, exact, lines, answered, open_ends, before, first):
    wrong = []
    try:
        # (the save file stays open)
        wait_for(lambda: mitm.sockets() <= before + 1, "its sockets to be closed", 60)
    except AssertionError as error:
        wrong.append(f"{error}: {mitm.sockets()} descriptors are open, {before} were")
    if resident(mitm) > first + GROWTH:
        wrong.append(f"{resident(mitm)} kB are resident, {first} were behind the first part")
    with socket.create_connection(("127.0.0.1", CONTROL), timeout=60) as operator:
        operator.sendall(b"quit\n")
        if operator.recv(100) != b"bye\n":
            wrong.append("quit is not answered")
    if mitm.process.wait(60) != 0:
        wrong.append(f"status {mitm.process.returncode}")
    lines.read()
    wrong += [f"a line of another form: {line!r}" for line in lines.wrong[:5]]
    wrong += [f"the exact client got {got!r}" for got in exact.wrong[:5]]
    loaded = lines.counts.get(b"/load", 0) + lines.counts.get(b"/saved", 0)
    if not answered <= loaded <= answered + open_ends:
        wrong.append(f"{answered} requests were answered, and {loaded} lines are there of them")
    if lines.counts.get(b"/exact", 0) != exact.count:
        wrong.append(f"{exact.count} exact requests, and {lines.counts.get(b'/exact', 0)} lines of them")
    saved = saved_flows(mitm)
    if saved != (0, lines.counts.get(b"/saved", 0)):
        wrong.append(f"the save file: status and flows {saved}, and {lines.counts.get(b'/saved', 0)} lines of them")
    print(f"\n{answered} requests were answered to the load and {exact.count} to the exact client; {loaded} and {lines.counts.get(b'/exact', 0)} lines; {saved[1]} flows in the file")
    return wrong


def main():
    parser = argparse.ArgumentParser(prog="e2e/soak", description="Soaks mitm.")
    parser.add_argument("--minutes", type=float, default=10)
    parser.add_argument("--connections", type=int, default=50)
    parser.add_argument("--idle", type=int, default=200)
    asked = parser.parse_args()
    raise_loopback()
    raise_limit()
    origin = multiprocessing.Process(target=serve, daemon=True)
    origin.start()
    try:
        wait_for(lambda: listens(ORIGIN), "the origin", 60)
        with Mitm(OPTIONS) as mitm:
            wrong = soak(asked.minutes, asked.connections, asked.idle, mitm)
    finally:
        origin.kill()
    for what in wrong:
        print(f"soak: {what}")
    print(f"soak: {len(wrong)} found")
    sys.exit(bool(wrong))


if __name__ == "__main__":
    main()
