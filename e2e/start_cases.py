"""Cases of the script that finds the program and starts it: what it answers by itself, what it hands on, and what it sets for the program."""
import os
import subprocess

from file_cases import is_told
from saving_cases import content, saves_to
from tools import MITM, TOP, Mitm, Skipped, curl, line, same, url

LARGEST = 64 * 1024
RES_OPTIONS = "timeout:1 attempts:1"
TUNABLES = "glibc.malloc.hugetlb=1"


def started(*words):
    return subprocess.run([os.path.join(TOP, "mitm"), *words], capture_output=True, text=True, timeout=60)


def started_here(limits=":"):
    """The words that run the program that ./mitm starts, within these limits of the shell."""
    if subprocess.run([os.path.join(TOP, "dist", "sources"), "mitm", "find", MITM], capture_output=True).returncode != 0:
        raise Skipped(f"{MITM} is not built from these sources")
    return ("bash", "-c", f'{limits}; shift; exec "$0" "$@"', os.path.join(TOP, "mitm"))


def case_version_of_what_is_started():
    """The revision, the checksum of the sources, and the toolchain."""
    done = started("--version")
    sources = subprocess.run([os.path.join(TOP, "dist", "sources"), "mitm"], capture_output=True, text=True, check=True).stdout.strip()
    told = done.stdout.splitlines()
    same((done.returncode, done.stderr, [one.split(" ", 1)[0] for one in told]), (0, "", ["mitm,", "sources", "toolchain"]))
    same(told[1], f"sources {sources}")


def case_words_through_the_starting_script():
    """It hands them on as they are, with the program's status."""
    started_here()
    done = started("gen", "0")
    same((done.returncode, done.stdout.splitlines()[0]), (0, "flows 0"))
    same(started("flows", "a b", "~zz *").returncode, 2)
    same(started("--version", "--version").returncode, 1)


def case_what_the_starting_script_sets():
    """How long a name server is waited for and that memory comes in large pages, unless the user says that; and a write beyond the limit of a file's size ends nothing."""
    sets = {b"RES_OPTIONS": RES_OPTIONS, b"GLIBC_TUNABLES": TUNABLES}
    for given in ({}, {b"RES_OPTIONS": "ndots:2", b"GLIBC_TUNABLES": "glibc.malloc.mmap_max=1000"}, {b"RES_OPTIONS": "", b"GLIBC_TUNABLES": ""}):
        says = [f"{name.decode()}={value}" for name, value in given.items()]
        with Mitm(in_front=(*(("env", *says) if says else ()), *started_here())) as mitm:
            with open(f"/proc/{mitm.process.pid}/environ", "rb") as file:
                names = dict(one.partition(b"=")[::2] for one in file.read().split(b"\0"))
            same({name: names[name].decode() for name in sets}, {**sets, **given})
            with open(f"/proc/{mitm.process.pid}/status") as file:
                ignored, = (int(one.split()[1], 16) for one in file if one.startswith("SigIgn:"))
            assert ignored >> 24 & 1, f"{ignored:x}: the signal of a file that is too large is not ignored"


def case_file_that_grows_beyond_the_limit():
    """With `ulimit -f` the append fails, and the program serves on."""
    with Mitm(saves_to("flows"), in_front=started_here(f"ulimit -f {LARGEST // 1024}")) as mitm:
        body = bytes(LARGEST)
        for _ in range(3):
            same(curl("--data-binary", "@-", url("/echo"), data=body), body)
        same(mitm.new_lines(1), [line("POST", "/echo", 200, len(body))])
        same(len(content(mitm.path("flows"))), LARGEST)
        is_told(mitm, "flows", "large")
        same(curl(url("/a")), b"/a\n")


START_CASES = [
    case_version_of_what_is_started, case_words_through_the_starting_script, case_what_the_starting_script_sets, case_file_that_grows_beyond_the_limit,
]
