"""One round of the fuzzer: a run of the program, all who talk to it, and what is checked of it. A round follows from its seed."""
import os
import re
import resource
import subprocess
import tempfile
import time

from fuzz_files import recorded
from fuzz_parse import LINE, Wrong, places_printed, requests_of, wrong_lines, wrong_responses
from fuzz_peers import PATIENCE, Client, Honest, Operator, Servers, Steady, connected
from fuzz_socks import wrong_socks
from fuzz_talks import exact_talk, mutated_talk, random_of, refused_talk
from fuzz_texts import CLOSE, CONTROL, PROXY, SERVER
from tools import MITM, listens

MODES = ("regular", "reverse", "upstream", "socks5")
ENDS = ("quit", "quit", "quit", "quit", "quit", "events", "early", "memory", "descriptors")
STATUSES = {"quit": (0,), "early": (0,), "events": (6,), "memory": (0, 8), "descriptors": (0,)}
RULES = (
    'modify_headers = ["|~u /f/m|X-A|", "|~u /f/m & ~q|X-Rule|1", "|~u /f/m|Content-Length|7"]',
    'modify_headers = ["|~u /f/m & ~s|Transfer-Encoding|chunked", "|~u /f/m & ~q|Connection|close"]',
    'modify_body = ["|~u /f/m|a|bb", "|~u /f/m|word|", "|~u /f/m & ~s|^|front "]',
    'block_list = ["|~u /f/m[0-9]*3/|404", "|~u /f/m[0-9]*7/ & ~m POST|444"]',
    'map_remote = ["|~u /f/m[0-9]*4/|/f/m|/f/m9", "|~u /f/m[0-9]*5/|127.0.0.1|localhost"]',
    'map_local = ["|~u /f/m[0-9]*6/|/f/m[0-9]*/|files/"]',
    "anticache = true\nanticomp = true",
)
HELD = ("~u /f/m & ~q", "~u /f/m & ~s", "~u /f/m", "~u /f/m & ~websocket", "~u /f/m & ~m POST")
# So many kilobytes more than at the start may stay.
GROWTH = 20_000
NOTES = re.compile(rb"panicked|RUST_BACKTRACE|overflow|assert")


class Round:
    def __init__(self, seed, mode, end=None):
        self.seed, self.rng = seed, random_of(seed, "round")
        self.mode = mode
        self.end_by = end or random_of(seed, "end").choice(ENDS)
        self.findings, self.facts = [], {}
        # (where memory is short a name may have no address)
        self.looks_up = self.end_by != "memory"

    def options(self, folder):
        rng, lines = self.rng, [f'listen = "127.0.0.1:{PROXY[1]}"', f'control = "127.0.0.1:{CONTROL[1]}"']
        lines.append(f'mode = "{self.mode}"' if self.mode in ("regular", "socks5") else f'mode = "{self.mode}:http://127.0.0.1:{SERVER}"')
        lines += {rule.split(" ")[0]: rule for rule in rng.sample(RULES, rng.choice((0, 0, 1, 2, 4)))}.values()
        self.adds = b"Accept-Encoding: identity\r\n" if any("anticomp" in line for line in lines) else b""
        if rng.random() < 0.4:
            lines.append(f'intercept = "{rng.choice(HELD)}"')
        self.saves = rng.random() < 0.7
        if self.saves:
            lines.append('save_stream_file = "saved"')
        if self.end_by == "events":
            lines.append(f"events = {rng.choice((1, 10, 300, 1500, 3000))}")
        if rng.random() < 0.25:
            lines.append('client_replay = ["asked"]')
            write(folder, "asked", recorded(self.seed, "asked"))
        if rng.random() < 0.25:
            lines.append('server_replay = ["answers"]\nserver_replay_ignore_content = true' + rng.choice(("", "\nserver_replay_reuse = true")))
            write(folder, "answers", recorded(self.seed, "answers"))
        # (a message that is streamed comes in the chunks of its sender, and may be cut short; where flows are recorded or wait none is)
        self.most = None
        if random_of(self.seed, "streams").random() < 0.4:
            size = random_of(self.seed, "size").choice((0, 0, 1, 10, 100, 1000))
            self.most = None if any(line.startswith(("intercept", "server_replay")) for line in lines) else size
            lines.append(f"stream_large_bodies = {size}")
        os.makedirs(os.path.join(folder, "files"))
        write(folder, "files/0", b"a local file\n" * 300)
        write(folder, "options", "\n".join(lines).encode() + b"\n")
        return lines

    def start(self, folder):
        self.memory, self.descriptors = self.rng.choice((50_000, 200_000, 1_000_000, 3_000_000)), self.rng.choice((26, 32, 48, 64))
        self.printed, self.noted = open(os.path.join(folder, "printed"), "ab+"), open(os.path.join(folder, "noted"), "ab+")
        in_front = ["bash", "-c", f'ulimit -n {self.descriptors}; exec "$0" "$@"'] if self.end_by == "descriptors" else []
        self.process = subprocess.Popen([*in_front, MITM, "serve", "options"], cwd=folder, stdin=subprocess.DEVNULL, stdout=self.printed, stderr=self.noted,
                                        env={**os.environ, "RES_OPTIONS": "timeout:1 attempts:1"})
        end = time.time() + 10
        while not listens(CONTROL[1]) and self.process.poll() is None and time.time() < end:
            time.sleep(0.01)
        if self.end_by == "memory":
            most = self.has_now() + self.memory
            resource.prlimit(self.process.pid, resource.RLIMIT_AS, (most, most))

    def has_now(self):
        """The bytes of addresses that the program has, as `ulimit -v` counts."""
        with open(f"/proc/{self.process.pid}/statm") as file:
            return int(file.read().split()[0]) * resource.getpagesize()

    def play(self, keep=None):
        """Plays the round; what it found, in words."""
        with tempfile.TemporaryDirectory() as folder:
            self.folder, self.lines = folder, self.options(folder)
            self.servers = Servers(self.seed, self.mode)
            self.servers.start()
            self.start(folder)
            try:
                self.talk()
                self.check()
            finally:
                self.process.kill()
                self.process.wait()
                self.servers.stop()
            if self.findings and keep:
                self.keep(keep)
            self.printed.close()
            self.noted.close()
        return self.findings

    # The talks.

    def talk(self):
        rng, few = self.rng, self.end_by == "descriptors"
        span = 1.0
        exact = [] if few else [Client(number, exact_talk(self.seed, number, self.mode, self.most, self.looks_up), rng.random() * span) for number in range(rng.choice((4, 8, 12)))]
        if self.mode == "socks5" and not few:
            exact += [Client(500 + number, refused_talk(self.seed, number), number % 4 * span / 4) for number in range(12)]
        mutated = [Client(1000 + number, mutated_talk(self.seed, number, self.mode), rng.random() * span) for number in range(rng.choice((15, 30, 60)))]
        self.clients = exact + mutated
        self.operators = [Operator(self.seed, number, rng.random() * span) for number in range(rng.choice((0, 3, 8)))]
        self.honest, self.steady = Honest(self), Steady(self.seed)
        self.base = self.measure()
        for thread in [self.honest, self.steady, *self.clients, *self.operators]:
            thread.start()
        if self.end_by == "early":
            time.sleep(rng.random() * span * 1.5)
            self.quit()
        end = time.time() + 2 * PATIENCE
        for thread in self.clients + self.operators:
            thread.join(max(end - time.time(), 0.1))
            if thread.is_alive():
                self.find(f"{thread.name} does not end")
        self.steady.stops.set()
        self.steady.join(PATIENCE)
        if self.end_by in ("quit", "descriptors", "memory") and self.process.poll() is None:
            self.go_back()
        elif self.end_by == "events":
            self.spend()
        self.honest.stops.set()
        self.honest.join(PATIENCE + 5)

    def spend(self):
        """Connects until the events of the run are spent."""
        end = time.time() + 20
        while self.process.poll() is None and time.time() < end:
            try:
                connected(PROXY, 1).close()
            except OSError:
                pass

    def find(self, what):
        self.findings.append(what)

    def measure(self):
        """Descriptors, resident kilobytes (but those of its file) and processor ticks of the program; None once it has ended."""
        try:
            with open(f"/proc/{self.process.pid}/status") as file:
                resident = int(re.search(r"RssAnon:\s+(\d+)", file.read())[1])
            with open(f"/proc/{self.process.pid}/stat") as file:
                ticks = sum(map(int, file.read().rsplit(")", 1)[1].split()[11:13]))
            return len(os.listdir(f"/proc/{self.process.pid}/fd")), resident, ticks
        except (OSError, TypeError):
            return None

    def go_back(self):
        """All clients are gone: flows end, descriptors and memory go back, the program is idle; then it is asked to quit."""
        try:
            if not self.steady.drain(PATIENCE):
                self.find(f"flows that do not end: {self.steady.say(b'list')!r:.500}")
        except OSError as error:
            if self.end_by != "memory" or not self.honest.has_ended(10):
                self.find(f"the operator who drains: {error!r}")
        count = len(self.honest.wrong)
        if self.end_by == "descriptors":
            time.sleep(6)
            count = len(self.honest.wrong)
            time.sleep(0.5)
            if len(self.honest.wrong) > count:
                self.find(f"with descriptors free again: {self.honest.wrong[count:][:3]}")
        self.honest.stops.set()
        self.honest.join(PATIENCE + 5)
        self.let_go()
        self.quit()

    def let_go(self):
        if self.base is None:
            return
        # (one more for the operator, and one for the save file, which stays open)
        most = self.base[0] + 1 + self.saves
        end, now = time.time() + PATIENCE, self.measure()
        while now and now[0] > most and time.time() < end:
            time.sleep(0.05)
            now = self.measure()
        if now is None:
            return
        if now[0] > most:
            self.find(f"{now[0]} descriptors are open, and {most} may be: {self.sockets()}")
        time.sleep(0.3)
        later = self.measure()
        if later is None:
            return
        self.facts["kilobytes"] = (self.base[1], later[1])
        if later[2] - now[2] > 15:
            self.find(f"it is busy while nobody talks: {later[2] - now[2]} ticks in 0.3 s")
        if later[1] > self.base[1] + GROWTH:
            self.find(f"{later[1]} kB are resident, {self.base[1]} were")

    def sockets(self):
        """What the sockets of the program are connected to."""
        inodes = {os.readlink(f"/proc/{self.process.pid}/fd/{name}") for name in os.listdir(f"/proc/{self.process.pid}/fd")}
        rows = []
        for name in ("tcp", "tcp6"):
            with open(f"/proc/net/{name}") as table:
                rows += [line.split() for line in table]
        return [f"{int(row[1][-4:], 16)} to {int(row[2][-4:], 16)}, state {row[3]}" for row in rows if f"socket:[{row[9]}]" in inodes]

    def quit(self):
        try:
            with connected(CONTROL, PATIENCE) as connection:
                connection.sendall(b"quit\n")
                got = connection.recv(100)
                if got != b"bye\n" and self.end_by != "memory":
                    self.find(f"quit is answered {got!r}")
        except OSError as error:
            if self.end_by not in ("memory", "events"):
                self.find(f"quit: {error!r}")

    # The checks.

    def check(self):
        try:
            status = self.process.wait(PATIENCE)
        except subprocess.TimeoutExpired:
            self.find("it does not end")
            return
        self.servers.stop()
        self.status = status
        self.was_cut = self.end_by in ("early", "events") or status == 8
        if status not in STATUSES[self.end_by]:
            self.find(f"status {status}, of an end by {self.end_by}")
        printed = content(self.printed).split(b"\n")
        if printed.pop() != b"":
            self.find("the last line printed is not whole")
        notes = content(self.noted)
        if NOTES.search(notes):
            self.find(f"standard error: {notes[-500:]!r}")
        why = wrong_lines(printed, status)
        if why:
            self.find(why)
        self.check_saved([line for line in printed if LINE.match(line)])
        self.check_servers(printed)
        self.check_clients(printed)
        self.check_operators()
        self.check_honest()
        self.facts.update(lines=len(printed), status=status)

    def check_saved(self, printed):
        path = os.path.join(self.folder, "saved")
        if not self.saves or not os.path.exists(path):
            if self.saves and printed and self.status != 8:
                self.find("no flow was saved")
            return
        done = subprocess.run([MITM, "flows", path, "~all"], capture_output=True, timeout=60)
        listed = done.stdout.split(b"\n")[:-1]
        if self.status == 8 and done.returncode in (0, 4):
            listed = [line for line in listed if LINE.match(line)]
            if printed[:len(listed)] != listed or len(listed) < len(printed) - 1:
                self.find(f"{len(listed)} flows are saved of {len(printed)} printed, by the end of memory")
            return
        if done.returncode != 0 or listed != printed:
            other = next((pair for pair in zip(listed, printed) if pair[0] != pair[1]), None)
            self.find(f"the save file: status {done.returncode}, {len(listed)} flows, {len(printed)} lines printed; the first that differs: {other}")

    def check_servers(self, printed):
        left = places_printed(printed)
        counted = 0
        for served in self.servers.connections:
            if not served.is_over:
                self.find(f"{served.name} does not end")
                continue
            if self.was_cut:
                served.may_be_cut = True
            try:
                asked = requests_of(served)
            except Wrong as wrong:
                self.find(f"{served.name} was sent {bytes(served.got[:600])!r}: {wrong}")
                continue
            for request in asked:
                counted += 1
                if request in left:
                    left.remove(request)
                elif not self.was_cut:
                    self.find(f"{served.name} was sent a request of which no line is printed: {request}, in {bytes(served.got[:600])!r}")
        self.facts["requests"] = counted

    def check_clients(self, printed):
        for client in self.clients:
            got, talk = bytes(client.got), client.talk
            if talk.exact:
                self.check_exact(client, talk, got, printed)
                continue
            may_be_cut, streams = self.was_cut or client.ended != "read" or not client.is_eof, self.most is not None
            if self.mode == "socks5":
                may_fail = self.end_by in ("descriptors", "memory")
                why = wrong_socks(talk.said(), got, talk.heads, may_be_cut, streams, not may_be_cut and not may_fail, may_fail)
            else:
                why = wrong_responses(got, talk.heads, may_be_cut or streams)
            if why:
                self.find(f"{client.name} got {got[:600]!r}: {why}")

    def check_exact(self, client, talk, got, printed):
        if self.was_cut:
            if not talk.answered.startswith(got):
                self.find(f"{client.name}, exact: {difference(got, talk.answered)}")
            return
        if got != talk.answered:
            self.find(f"{client.name}, exact, ended {client.ended} {client.went_wrong!r}: {difference(got, talk.answered)}")
        if client.early:
            self.find(f"{client.name}, exact: it was told {bytes(client.early)!r:.300} too early")
        if not client.is_eof and client.went_wrong is None:
            self.find(f"{client.name}, exact: it is not closed")
        for line in talk.printed:
            count = sum(found.split(b" ", 1)[1] == line for found in printed if found.count(b" "))
            if count != 1:
                self.find(f"{client.name}, exact: printed {count} times: {line!r}")
        for path, wanted in talk.asked.items():
            wanted = wanted.replace(b"\r\n\r\n", b"\r\n" + self.adds + b"\r\n", 1)
            sent = [bytes(served.got[at:at + len(wanted)]) for served, at, _ in self.servers.asked.get(path, [])]
            sent += [bytes(served.got[:len(wanted)]) for served in self.servers.connections if path.endswith(b"/raw") and path in served.got[:200]]
            if not any(one == wanted for one in sent):
                self.find(f"{client.name}, exact: its server was sent {sent!r:.900}, and not {wanted!r:.900}")

            for served, _, made in self.servers.asked.get(path, []):
                if made.frames and served.frames != made.frames + [(8, CLOSE, True)]:
                    self.find(f"{client.name}, exact: its server was sent the frames {served.frames!r:.900}, and not {made.frames!r:.900} and a Close")
        # (all go to one server, which closes behind the last one at most)
        used = {served.name for path in talk.asked for served, _, _ in self.servers.asked.get(path, [])}
        if len(used) > 1:
            self.find(f"{client.name}, exact: its requests went on {sorted(used)}")

    def check_operators(self):
        for operator in self.operators:
            why = operator.wrong(not self.was_cut)
            if why:
                self.find(f"{operator.name}: {why}; it said {operator.text[:300]!r}")
            elif operator.ended == "half" and not operator.is_eof and not self.was_cut:
                self.find(f"{operator.name} is not let go; it said {operator.text[-300:]!r}, got {bytes(operator.got[-300:])!r}")
        if self.steady.wrong and not self.was_cut:
            self.find(f"the operator: {self.steady.wrong[:3]}")

    def check_honest(self):
        wrong = self.honest.wrong
        if self.end_by == "descriptors":
            wrong = [why for why in wrong if not re.search(r"502 Bad Gateway|timed out|took|got b''|reset|got b'(\\x05\\x00)?\\x05\\x01", why)]
        if wrong:
            self.find(f"{len(wrong)} of {self.honest.count} asks of the honest client: {wrong[:3]}")
        self.facts.update(honest=self.honest.count, slowest=round(self.honest.slowest, 2))

    def keep(self, folder):
        """Keeps what is needed to look at what was found."""
        os.makedirs(folder, exist_ok=True)
        write(folder, "findings", "\n\n".join(self.findings).encode() + b"\n")
        write(folder, "options", "\n".join(self.lines).encode() + b"\n")
        write(folder, "printed", content(self.printed))
        write(folder, "noted", content(self.noted))
        talks = [f"{peer.name} ended {peer.ended} {peer.went_wrong!r}\n  steps {[(verb, what) for verb, what in peer.talk.steps]!r}\n  got {bytes(peer.got)!r}\n" for peer in self.clients]
        talks += [f"{peer.name} ended {peer.ended}\n  said {peer.text!r}\n  got {bytes(peer.got)!r}\n" for peer in self.operators]
        talks += [f"{served.name} ended {served.ended} {served.went_wrong!r}\n  got {bytes(served.got)!r}\n" for served in self.servers.connections]
        write(folder, "talks", "\n".join(talks).encode())


def difference(got, wanted):
    at = next((place for place, (a, b) in enumerate(zip(got, wanted)) if a != b), min(len(got), len(wanted)))
    return f"{len(got)} bytes came of {len(wanted)}, which differ at {at}: got {got[max(at - 60, 0):at + 100]!r}, wanted {wanted[max(at - 60, 0):at + 100]!r}"


def write(folder, name, text):
    with open(os.path.join(folder, name), "wb") as file:
        file.write(text)


def content(file):
    file.seek(0)
    return file.read()
