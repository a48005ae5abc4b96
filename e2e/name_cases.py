"""Cases of names of hosts, with a name server of their own that the program alone asks: one that never answers, and one that knows a name."""
import os
import socket
import struct
import subprocess
import tempfile
import threading
import time

from mode_cases import THROUGH
from tools import ORIGIN, Mitm, Skipped, run_curl, same

# What is set by the starting script, and what the program sees of names.
RES_OPTIONS = "timeout:1 attempts:1"
ASK_HERE = "mount --bind resolv.conf /etc/resolv.conf && mount --bind nsswitch.conf /etc/nsswitch.conf && exec \"$@\""
FILES = {"resolv.conf": b"nameserver 127.0.0.1\n", "nsswitch.conf": b"hosts: files dns\n"}
KNOWN = b"known.test"
REMEMBERED = 10


class NameServer(threading.Thread):
    """Answers for one name with 127.0.0.1, and that there is no other; or nothing at all. It counts what it was asked by name."""

    def __init__(self, answers):
        super().__init__(daemon=True)
        self.answers, self.asked = answers, {}
        try:
            self.socket = socket.socket(socket.AF_INET, socket.SOCK_DGRAM)
            self.socket.bind(("127.0.0.1", 53))
        except PermissionError:
            raise Skipped("no name server may be run here") from None

    def run(self):
        while True:
            try:
                text, peer = self.socket.recvfrom(1000)
            except OSError:
                return
            if not text:
                return
            name, kind = self.read(text)
            self.asked[name] = self.asked.get(name, 0) + 1
            if self.answers:
                self.socket.sendto(answer(text, name == KNOWN and kind == 1, name == KNOWN), peer)

    def read(self, text):
        """The name and the type of the one question (RFC 1035 section 4.1.2)."""
        labels, at = [], 12
        while text[at]:
            labels.append(text[at + 1:at + 1 + text[at]])
            at += 1 + text[at]
        return b".".join(labels), struct.unpack_from(">H", text, at + 1)[0]

    def __enter__(self):
        self.start()
        return self

    def __exit__(self, *_):
        with socket.socket(socket.AF_INET, socket.SOCK_DGRAM) as end:
            end.sendto(b"", ("127.0.0.1", 53))
        self.join()
        self.socket.close()


def answer(text, has_address, is_known):
    """The answer to a question, with the address 127.0.0.1 or without any (RFC 1035 section 4.1)."""
    end = text.index(b"\0", 12) + 5
    head = text[:2] + struct.pack(">HHHHH", 0x8180 if is_known else 0x8183, 1, has_address, 0, 0)
    found = b"\xc0\x0c" + struct.pack(">HHIH", 1, 1, 60, 4) + bytes([127, 0, 0, 1])
    return head + text[12:end] + (found if has_address else b"")


def in_front():
    """The words that run the program with this name server."""
    as_root = [] if os.geteuid() == 0 else ["-r"]
    words = ["unshare", *as_root, "-m", "env", f"RES_OPTIONS={RES_OPTIONS}", "sh", "-c", ASK_HERE, "sh"]
    with tempfile.TemporaryDirectory() as folder:
        for name, content in FILES.items():
            with open(os.path.join(folder, name), "wb") as file:
                file.write(content)
        if subprocess.run([*words, "true"], cwd=folder, capture_output=True).returncode != 0:
            raise Skipped("no file can be mounted here")
    return words


def asking():
    return Mitm(mode="", files=FILES, in_front=in_front())


def goes_to(name):
    """How a request for this host is answered, and in how many seconds."""
    began = time.monotonic()
    _, got, _ = run_curl(*THROUGH, f"http://{name}:{ORIGIN}/a")
    return got, time.monotonic() - began


def case_names_that_fail_are_remembered():
    """For ten seconds; those that have addresses for thirty, and none of these makes room for one that failed."""
    with NameServer(True) as server, asking():
        same(goes_to(KNOWN.decode())[0], b"/a\n")
        asked = server.asked[KNOWN]
        for _ in range(3):
            same(goes_to("nowhere.test")[0], b"cannot connect\n")
        first = server.asked[b"nowhere.test"]
        for number in range(80):
            same(goes_to(f"nowhere{number}.test")[0], b"cannot connect\n")
        same(goes_to(KNOWN.decode())[0], b"/a\n")
        same(server.asked[KNOWN], asked)
        assert first <= 2, f"it was asked {first} times for a name that failed"
        time.sleep(REMEMBERED + 0.5)
        same(goes_to("nowhere.test")[0], b"cannot connect\n")
        assert server.asked[b"nowhere.test"] > first, "it was not asked again"


def case_dead_name_server():
    """The first name waits for it; then all others fail at once for ten seconds, but for the machine's own."""
    with NameServer(False) as server, asking():
        same(goes_to("localhost")[0], b"/a\n")
        got, took = goes_to("one.test")
        same(got, b"cannot connect\n")
        assert 0.9 <= took <= 5, f"it took {took:.1f} s"
        asked, began = dict(server.asked), time.monotonic()
        for number in range(50):
            same(goes_to(f"other{number}.test")[0], b"cannot connect\n")
            same(goes_to("localhost")[0], b"/a\n")
            if time.monotonic() - began > REMEMBERED / 2:
                break
        took = time.monotonic() - began
        same(server.asked, asked)
        time.sleep(max(0, REMEMBERED + 0.5 - took))
        assert goes_to("late.test")[1] >= 0.9 and b"late.test" in server.asked, "it was not asked again"


NAME_CASES = [case_names_that_fail_are_remembered, case_dead_name_server]
