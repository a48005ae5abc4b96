"""Cases of files and streams that are no plain ones: pipes, devices and directories, files that are too large, limits, a save file that is moved away, and
standard output that takes nothing for a while; and what people are told of it."""
import os
import re
import resource
import socket
import subprocess
import tempfile
import threading
import time

from saving_cases import content, saved, saves_to, serves_on, whole_flows
from tools import MITM, MODE, ORIGIN, PROXY, Mitm, curl, get, line, run_program, same, talk, url, wait_for
from write_flows import written

# What is read of a file that the options name, at most.
MOST = 1_000_000_000
NOTHING_MORE = "nothing more is printed or saved in this run"


def with_odd_files(mitm):
    """Beside the options a pipe that nobody writes to, a file that is too large, and a directory."""
    os.makedirs(mitm.path("files/folder"))
    os.mkfifo(mitm.path("files/pipe"))
    for name, size in (("large", MOST + 1), ("plain", 5)):
        with open(mitm.path(f"files/{name}"), "wb") as file:
            file.truncate(size)


def code_of(path):
    return curl("-o", "/dev/null", "-w", "%{http_code}", url(path)).decode()


def case_local_files_that_are_none():
    """A pipe is not waited for, and what is too large is not read; where there is no file it is 404."""
    with Mitm('map_local = ["|/s/|files/", "|/d/|/dev/"]\n') as mitm:
        with_odd_files(mitm)
        for path, code in (("pipe", 500), ("large", 500), ("folder", 404), ("plain/below", 404), ("x" * 300, 404), ("y/" * 3000 + "z", 404), ("plain", 200)):
            same((path[:20], code_of("/s/" + path)), (path[:20], str(code)))
        same(code_of("/d/null"), "500")
        same(curl(url("/free")), b"/free\n")


def case_recorded_files_that_are_none():
    with tempfile.TemporaryDirectory() as folder:
        pipe = os.path.join(folder, "pipe")
        os.mkfifo(pipe)
        for key in ("server_replay", "client_replay"):
            for path, why in ((pipe, "it is no regular file"), (".", "it is a directory"), ("options/x", "not a directory")):
                got = run_program("serve", "options", options=MODE + f'{key} = ["{path}"]\n')
                same(got[:2], (3, [f"cannot read {path}"]))
                assert len(got[2]) == 1 and got[2][0].lower().startswith(why), got[2]


def case_files_of_the_words_may_be_pipes():
    """The options, by `serve <(..)`, and a file of flows, by `flows /dev/stdin`."""
    with Mitm(saves_to("flows")) as mitm:
        same(curl(url("/a")), b"/a\n")
        saved(mitm.path("flows"), 1)
        flows = content(mitm.path("flows"))
    done = subprocess.run([MITM, "flows", "/dev/stdin", "~all"], input=flows, capture_output=True, timeout=20)
    same((done.returncode, re.sub(rb"^\d+", b"", done.stdout)), (0, line("GET", "/a", 200, 3).encode() + b"\n"))
    words = f"exec {MITM} serve <(printf 'events = 1\\nlisten = \"127.0.0.1:8080\"\\n')"
    process = subprocess.Popen(["bash", "-c", words], stdin=subprocess.DEVNULL, stdout=subprocess.PIPE, stderr=subprocess.DEVNULL)
    try:
        def connects():
            try:
                socket.create_connection(PROXY, timeout=20).close()
            except OSError:
                return False
            return True

        wait_for(connects, "it to listen")
        same((process.communicate(timeout=20)[0], process.returncode), (b"event budget spent\n", 6))
    finally:
        process.kill()
        process.wait()
        process.stdout.close()


def is_told(mitm, name, why):
    """One line on standard error says what could not be written, and why."""
    told = [note for note in mitm.notes() if NOTHING_MORE in note]
    assert len(told) == 1 and told[0].startswith(f"cannot write to {name}: ") and why in told[0], mitm.notes()


def case_saved_in_what_is_no_file():
    """A pipe and a device are refused and not waited for, and that is told once; the device that keeps nothing takes it all."""
    for path, why in (("pipe", "no regular file"), ("/dev/full", "no regular file"), (".", "directory"), ("nowhere/flows", "No such file")):
        with Mitm(saves_to(path)) as mitm:
            os.mkfifo(mitm.path("pipe"))
            serves_on(mitm)
            is_told(mitm, path, why)
    with Mitm(saves_to("/dev/null")) as mitm:
        for number in range(3):
            same(curl(url(f"/{number}")), f"/{number}\n".encode())
        same(mitm.new_lines(3), [line("GET", f"/{number}", 200, 3) for number in range(3)])
        same([note for note in mitm.notes() if NOTHING_MORE in note], [])


def case_save_file_that_cannot_be_had():
    """That is told at the start, and it serves all the same; where the file can be made it is not made before a flow."""
    for path, why in (("nowhere/flows", "No such file"), (".", "directory"), ("/dev/full", "no regular file"), ("options/flows", "directory")):
        with Mitm(saves_to(path)) as mitm:
            told = [note for note in mitm.notes() if note.startswith(f"cannot save in {path}: ")]
            assert len(told) == 1 and why.lower() in told[0].lower(), (path, mitm.notes())
            same(curl(url("/a")), b"/a\n")
    for path in ("flows", "./flows"):
        with Mitm(saves_to(path), files={"flows": b""}) as mitm:
            same(mitm.notes(), [f"listening at 127.0.0.1:8080, for http://127.0.0.1:{ORIGIN}"])
    with Mitm(saves_to("flows")) as mitm:
        same([note for note in mitm.notes() if "flows" in note], [])
        assert not os.path.exists(mitm.path("flows")), "nothing was to be saved"


def case_save_file_that_is_moved_away():
    """It is opened anew, as where a program rotates it; and while it stays it needs no descriptor more."""
    with Mitm(saves_to("flows")) as mitm:
        for number, name in enumerate(("first", "second")):
            same(curl(url(f"/{number}/a")), f"/{number}/a\n".encode())
            same(curl(url(f"/{number}/b")), f"/{number}/b\n".encode())
            mitm.new_lines(2)
            wait_for(lambda: len(whole_flows(content(mitm.path("flows")))[0]) == 2, "two flows to be saved")
            os.rename(mitm.path("flows"), mitm.path(name))
        same(curl(url("/last")), b"/last\n")
        wait_for(lambda: os.path.exists(mitm.path("flows")), "a new file")
        for name, count in (("first", 2), ("second", 2), ("flows", 1)):
            wait_for(lambda: len(whole_flows(content(mitm.path(name)))[0]) == count, f"{count} flows in {name}")


def case_save_file_stays_open():
    """Where no descriptor is left, flows are saved all the same."""
    with Mitm(saves_to("flows") + 'map_local = ["|/s/|files/"]\n', files={"files/x": b"x"}) as mitm, socket.create_connection(PROXY, timeout=20) as client:
        def asks(path):
            client.sendall(get(path))
            return client.recv(1000)

        asks("/s/x")
        mitm.new_lines(1)
        used = mitm.sockets()
        resource.prlimit(mitm.process.pid, resource.RLIMIT_NOFILE, (used, used))
        for _ in range(3):
            assert asks("/s/x").startswith(b"HTTP/1.1 500 "), "the file was opened"
        same(mitm.new_lines(3), [line("GET", "/s/x", 500, 0, index=index) for index in (1, 2, 3)])
        wait_for(lambda: len(whole_flows(content(mitm.path("flows")))[0]) == 4, "four flows to be saved")


def case_standard_output_that_takes_nothing():
    """A pipe that does not wait, and that is full: it is waited for, and no line is lost."""
    reads, writes = os.pipe()
    os.set_blocking(writes, False)
    got = bytearray()

    def read():
        time.sleep(1)
        while piece := os.read(reads, 65536):
            got.extend(piece)

    reading = threading.Thread(target=read, daemon=True)
    path = "/" + "x" * 4000
    try:
        with Mitm(out=writes) as mitm:
            reading.start()
            os.close(writes)
            for number in range(40):
                talk(get(f"{path}{number}", "Connection: close"))
            wait_for(lambda: got.count(b"\n") == 40, "all lines")
            same(mitm.notes()[1:], [])
        reading.join(10)
    finally:
        os.close(reads)
    same([re.sub(r"^\d+", "", shown) for shown in got.decode().splitlines()],
         [line("GET", f"{path}{number}", 200, len(path) + len(str(number)) + 1) for number in range(40)])


def case_reader_who_goes_away_is_told():
    reads, writes = os.pipe()
    with Mitm(out=writes) as mitm:
        os.close(writes)
        os.close(reads)
        for number in range(3):
            same(curl(url(f"/{number}")), f"/{number}\n".encode())
        is_told(mitm, "standard output", "roken pipe")


def case_files_that_are_not_read_are_told_apart():
    for path, why in (("nowhere", "no such file"), (".", "is a directory"), ("options/x", "not a directory")):
        for words in (("serve", path), ("flows", path, "~all")):
            got = run_program(*words, options="")
            same(got[:2], (3, [f"cannot read {path}"]))
            assert len(got[2]) == 1 and why in got[2][0].lower(), (path, got[2])


def case_file_of_mitmproxys_own():
    """It is named so, wherever its `version` stands; other files that are none are not."""
    theirs = {"type": "http", "id": "5d1b3b4e", "version": 15, "marked": ""}
    named = "it is a file of mitmproxy's own"
    files = [(written(theirs), True), (written(dict(reversed(theirs.items()))), True), (written({"version": 1, "type": "x"}), False), (b"no flows", False)]
    with tempfile.TemporaryDirectory() as folder:
        path = os.path.join(folder, "flows")
        for content, is_named in files:
            with open(path, "wb") as file:
                file.write(content)
            for got in (run_program("flows", path, "~all"), run_program("serve", "options", options=MODE + f'server_replay = ["{path}"]\n')):
                same(got[:2], (4, [f"bad flow file {path} at 0"]))
                same([note.startswith(named) for note in got[2]], [True] * is_named)


FILE_CASES = [
    case_local_files_that_are_none, case_recorded_files_that_are_none, case_files_of_the_words_may_be_pipes, case_saved_in_what_is_no_file,
    case_save_file_that_cannot_be_had, case_save_file_that_is_moved_away, case_save_file_stays_open, case_standard_output_that_takes_nothing,
    case_reader_who_goes_away_is_told, case_files_that_are_not_read_are_told_apart, case_file_of_mitmproxys_own,
]
