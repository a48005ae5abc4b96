"""Saving flows, and `mitm flows FILE FILTER`: what stands in the file, by the program and by a reader of its own (examples/read_flows.py)."""
import contextlib
import os
import re
import signal
import socket
import subprocess
import sys
import tempfile
import threading
import time

from tools import (
    ORIGIN, PROXY, TOP, Mitm, Skipped, curl, get, line, lines_of, run_curl, run_program, same, start_program, talk, url, wait_for,
)
from read_flows import BadFile, line_of, read_item

NOBODY = 65534
BESIDE = ("127.0.0.1", 8081)
FILTERS = ["~all", "~m POST", "~c 404", r"~u b=\d"]
SMALL_DISK = 'mount -t tmpfs -o size=64k,mode=777 none small && exec "$@"'


@contextlib.contextmanager
def save_file():
    """A path at which nothing stands yet, in a folder of its own."""
    with tempfile.TemporaryDirectory() as folder:
        os.chmod(folder, 0o755)
        yield os.path.join(folder, "flows")


def saves_to(path, chosen=None):
    options = f"save_stream_file = '{path}'\n"
    return options if chosen is None else options + f"save_stream_filter = '{chosen}'\n"


def content(path):
    """What stands at this path; nothing where no file is."""
    try:
        with open(path, "rb") as file:
            return file.read()
    except FileNotFoundError:
        return b""


def size(path):
    return os.path.getsize(path) if os.path.exists(path) else 0


def put(path, data):
    with open(path, "wb") as file:
        file.write(data)


def whole_flows(data):
    """The flows at the front of these bytes, read by Python, and where each begins; behind these the end of the last."""
    flows, places = [], [0]
    while places[-1] < len(data):
        try:
            flow, end = read_item(data, places[-1])
        except BadFile:
            break
        flows.append(flow)
        places.append(end)
    return flows, places


def line_by_python(flow):
    """The line that mitm prints of this flow, made of what Python read in the file."""
    method, shown, status, _, size = line_of(flow).split(" ")
    if flow["response"] is not None and flow["response"]["content"] is None:
        size = "streamed"
    error = "" if flow["error"] is None else f" error: {flow['error']['msg'].decode()}"
    return f"{flow['id']} {method} {shown} {status} {size}{error}"


def saved(path, count):
    """The flows in the file, once they are so many and nothing stands behind them."""
    def is_whole():
        data = content(path)
        flows, places = whole_flows(data)
        return len(flows) == count and places[-1] == len(data)

    wait_for(is_whole, f"{count} flows in the file")
    return whole_flows(content(path))[0]


ABSENT = ["No such file or directory (os error 2)"]
DIRECTORY = ["Is a directory (os error 21)"]
FOREIGN = ["it is a file of mitmproxy's own, which has another form: docs/flow-files.md"]


def shows(path, chosen, lines, status=0, notes=()):
    """`mitm flows` prints these lines of the file, for this filter, and these notes on standard error."""
    same(run_program("flows", path, chosen), (status, lines, [*notes]))


def shows_cut(path, lines, offset, notes=()):
    shows(path, "~all", lines + [f"bad flow file {path} at {offset}"], 4, notes)


def read_by_program(path):
    """What examples/read_flows.py prints of the file, run as a program of its own."""
    program = os.path.join(TOP, "examples", "read_flows.py")
    return subprocess.run([sys.executable, "-B", program, path], stdout=subprocess.PIPE, check=True).stdout.decode().splitlines()


def post(path, body, to=PROXY):
    """Posts a body, on a connection of its own, and wants it back."""
    head = f"POST {path} HTTP/1.1\r\nHost: h\r\nConnection: close\r\nContent-Length: {len(body)}\r\n\r\n"
    got = talk(head.encode() + body, to=to)
    assert got.startswith(b"HTTP/1.1 200 OK\r\n") and got.endswith(b"\r\n\r\n" + body), got[:300]


def ask_around():
    """Five flows: answered ones, one with bodies, one that is not found, and one that ends early."""
    same(curl(url("/a?b=1")), b"/a?b=1\n")
    same(curl("--data-binary", "@-", url("/echo"), data=bytes(range(256))), bytes(range(256)))
    same(curl(url("/absent?b=2")), b"absent\n")
    same(run_curl(url("/secret"))[0], 52)
    same(curl(url("/chunked")), b"hello world")
    return [
        line("GET", "/a?b=1", 200, 7), line("POST", "/echo", 200, 256), line("GET", "/absent?b=2", 404, 7),
        line("GET", "/secret", "-", "-", "killed"), line("GET", "/chunked", 200, 11),
    ]


def case_saved_flows():
    """What was printed is what the file has, by `flows` with each filter, and by Python."""
    with save_file() as path, Mitm(saves_to(path) + 'block_list = ["/~u secret/444"]\n') as mitm:
        wanted = ask_around()
        same(mitm.new_lines(5), wanted)
        flows, printed = saved(path, 5), mitm.lines()
        same([line_by_python(flow) for flow in flows], printed)
        chosen = [printed, printed[1:2], printed[2:3], [printed[0], printed[2]]]
        for words, lines in zip(FILTERS, chosen):
            shows(path, words, lines)
        same(read_by_program(path), [line_of(flow) for flow in flows])
        same([flows[1][side]["content"] for side in ("request", "response")], [bytes(range(256))] * 2)
        same(flows[4]["response"]["trailers"], [[b"X-Sum", b"11"]])


def case_saved_by_a_filter():
    """Those on which the save filter holds are in the file, and all are printed."""
    with save_file() as path, Mitm(saves_to(path, "~c 404")) as mitm:
        for index in range(3):
            same(curl(url(f"/{index}")), f"/{index}\n".encode())
            same(curl(url(f"/absent?{index}")), b"absent\n")
        mitm.new_lines(6)
        flows, printed = saved(path, 3), mitm.lines()
        same([line_by_python(flow) for flow in flows], printed[1::2])
        shows(path, "~all", printed[1::2])


def case_save_filter_that_is_none():
    with save_file() as path:
        status, lines, notes = run_program("serve", "options", options=options_with(saves_to(path, "~c 404 ~zz")))
        same((status, lines), (2, ["bad rule save_stream_filter 0"]))
        assert "~c 404 ~zz" in notes and "       ^" in notes, notes
        assert not os.path.exists(path), "a refused options file saves nothing"


def options_with(text):
    return f'mode = "reverse:http://127.0.0.1:{ORIGIN}"\n' + text


def case_no_save_file_is_made_without_a_flow():
    with save_file() as path, Mitm(saves_to(path)):
        socket.create_connection(PROXY, timeout=20).close()
        assert not os.path.exists(path), "nothing was to be saved"


def case_saved_behind_what_is_there():
    """A second run appends; the numbers of its connections begin anew."""
    with save_file() as path:
        printed = run_with_flow(path, "/first", 1)
        before = content(path)
        printed += run_with_flow(path, "/second", 2)
        assert content(path).startswith(before), "the first run's flow is still there"
        shows(path, "~all", printed)
        same([shown.split(" ")[0] for shown in printed], ["0.0", "0.0"])
        same(len(read_by_program(path)), 2)


def run_with_flow(path, asked, count):
    """A run with one flow, after which the file has so many: what it printed."""
    with Mitm(saves_to(path)) as mitm:
        same(curl(url(asked)), asked.encode() + b"\n")
        mitm.new_lines(1)
        saved(path, count)
        return mitm.lines()


def case_killed_between_flows():
    """What was saved before the kill is there."""
    with save_file() as path:
        with Mitm(saves_to(path)) as mitm:
            for index in range(5):
                post("/echo", bytes([index]) * 1000)
            mitm.new_lines(5)
            saved(path, 5)
            mitm.process.send_signal(signal.SIGKILL)
            mitm.process.wait()
            printed = mitm.lines()
        shows(path, "~all", printed)


def case_killed_under_load():
    """The flows are whole but for the last at most, and each line that was printed has its flow but for the last at most."""
    with save_file() as path:
        with Mitm(saves_to(path)) as mitm:
            threads = [threading.Thread(target=post_until_refused) for _ in range(4)]
            for thread in threads:
                thread.start()
            wait_for(lambda: size(path) > 4_000_000, "4 MB of flows", 30)
            mitm.process.send_signal(signal.SIGKILL)
            mitm.process.wait()
            for thread in threads:
                thread.join()
            printed = mitm.lines()
        data = content(path)
        flows, places = whole_flows(data)
        assert 0 <= len(printed) - len(flows) <= 1, (len(printed), len(flows))
        if places[-1] == len(data):
            shows(path, "~all", printed[:len(flows)])
        else:
            shows_cut(path, printed[:len(flows)], places[-1])


def post_until_refused():
    body = os.urandom(50_000)
    with contextlib.suppress(AssertionError, OSError):
        while True:
            post("/echo", body)


def three_flows(path):
    """Saves three flows there: the file, the lines, and where each flow begins and the last ends."""
    with Mitm(saves_to(path)) as mitm:
        for index in range(3):
            post(f"/echo?{index}", b"body" * 100)
        mitm.new_lines(3)
        saved(path, 3)
        printed = mitm.lines()
    data = content(path)
    return data, printed, whole_flows(data)[1]


def case_cut_file():
    """The flows in front of the cut are printed, and then where the cut one begins."""
    with save_file() as path:
        data, printed, places = three_flows(path)
        for end in (places[2] + 1, places[2] + 9, (places[2] + places[3]) // 2, places[3] - 1):
            put(path, data[:end])
            shows_cut(path, printed[:2], places[2])
            shows(path, "~u echo.1", printed[1:2] + [f"bad flow file {path} at {places[2]}"], 4)
        put(path, data[:places[2]])
        shows(path, "~all", printed[:2])


def case_cut_at_each_byte():
    """Wherever the last flow of a file is cut, those in front of it are printed, and then where it begins."""
    with save_file() as path:
        data, printed, places = three_flows(path)
        for end in range(places[2] + 1, places[3]):
            put(path, data[:end])
            shows(path, "~all", printed[:2] + [f"bad flow file {path} at {places[2]}"], 4)


def case_saved_behind_a_cut():
    """What is appended behind a cut flow can't be read, until the file is cut at the offset that `flows` tells."""
    with save_file() as path:
        data, printed, places = three_flows(path)
        put(path, data[:places[3] - 20])
        with Mitm(saves_to(path)) as mitm:
            post("/echo?lost", b"body")
            mitm.new_lines(1)
            wait_for(lambda: size(path) > places[3], "what is appended")
        status, lines, _ = run_program("flows", path, "~all")
        same((status, lines[:2]), (4, printed[:2]))
        offset = re.fullmatch(re.escape(f"bad flow file {path} at ") + r"(\d+)", lines[2]).group(1)
        same(int(offset), places[2])
        subprocess.run(["truncate", "-s", offset, path], check=True)
        shows(path, "~all", printed[:2] + run_with_flow(path, "/mended", 3))


def serves_on(mitm):
    """An append failed: the line of the first flow stands there, nothing is printed behind it, and clients get their bytes."""
    for asked in ("/1", "/22", "/333", "/4444"):
        same(curl(url(asked)), asked.encode() + b"\n")
    same(mitm.new_lines(1), [line("GET", "/1", 200, 3)])


def case_save_file_that_may_not_be_written():
    """Root writes all the same, so then the program runs as another user."""
    user = NOBODY if os.geteuid() == 0 else None
    mitm = Mitm(saves_to("flows"), files={"flows": b""}, user=user)
    try:
        mitm.start()
    except PermissionError:
        mitm.stop()
        raise Skipped("root writes every file, and here it can't be another user") from None
    try:
        os.chmod(mitm.path("flows"), 0o444)
        serves_on(mitm)
        same(content(mitm.path("flows")), b"")
    finally:
        mitm.stop()


def case_save_file_that_is_a_directory():
    with Mitm(saves_to(".")) as mitm:
        serves_on(mitm)


def case_save_file_in_an_absent_directory():
    with Mitm(saves_to("nowhere/flows")) as mitm:
        serves_on(mitm)
        assert not os.path.exists(mitm.path("nowhere")), "no directory is made"


def case_full_device():
    with Mitm(saves_to("/dev/full")) as mitm:
        serves_on(mitm)


def case_full_device_at_a_runs_end():
    """The events' end comes before the failed append: its status, and nothing printed behind the first flow's line."""
    with Mitm(saves_to("/dev/full") + "events = 100\n") as mitm:
        serves_on(mitm)
        end = time.time() + 10
        while mitm.process.poll() is None and time.time() < end:
            with contextlib.suppress(OSError):
                socket.create_connection(PROXY, timeout=20).close()
            time.sleep(0.01)
        same(mitm.process.wait(1), 6)
        same([re.sub(r"^\d+", "", shown) for shown in mitm.lines()], [line("GET", "/1", 200, 3)])


def case_full_disk():
    """A disk of 64 kB that the program alone sees: the flow that does not fit is cut, and nothing is saved behind it."""
    as_root = [] if os.geteuid() == 0 else ["-r"]
    in_front = ["unshare", *as_root, "-m", "sh", "-c", SMALL_DISK, "sh"]
    if not runs_in_small_disk(in_front):
        raise Skipped("no small disk can be mounted here")
    with save_file() as copy, Mitm(saves_to("small/flows"), files={"small/empty": b""}, in_front=in_front) as mitm:
        path = f"/proc/{mitm.process.pid}/root{mitm.path('small/flows')}"
        post("/echo", bytes(10_000))
        same(curl(url("/some")), bytes(600_000))
        same(curl(url("/a")), b"/a\n")
        same(curl(url("/b")), b"/b\n")
        same(mitm.new_lines(2), [line("POST", "/echo", 200, 10_000), line("GET", "/some", 200, 600_000)])
        put(copy, content(path))
        places, printed = whole_flows(content(copy))[1], mitm.lines()
        same(len(places), 2)
        assert places[1] < len(content(copy)) <= 65536, (places, len(content(copy)))
        shows_cut(copy, printed[:1], places[1])


def runs_in_small_disk(words):
    with tempfile.TemporaryDirectory() as folder:
        os.mkdir(os.path.join(folder, "small"))
        try:
            return subprocess.run([*words, "true"], cwd=folder, capture_output=True).returncode == 0
        except FileNotFoundError:
            return False


def case_two_programs_save_to_one_file():
    """Each flow of both is whole, and has the body that was sent for its path."""
    with save_file() as path:
        with Mitm(saves_to(path)) as one, Mitm(saves_to(path) + 'listen = "127.0.0.1:8081"\n', port=BESIDE[1]) as other:
            failed = []
            threads = [threading.Thread(target=post_many, args=(number, failed)) for number in range(8)]
            for thread in threads:
                thread.start()
            for thread in threads:
                thread.join()
            assert not failed, failed[:3]
            one.new_lines(80)
            other.new_lines(80)
            flows = saved(path, 160)
            printed = one.lines() + other.lines()
        for flow in flows:
            number, index = re.fullmatch(rb"/echo\?(\d+)\.(\d+)", flow["request"]["path"]).groups()
            wanted = body_of(int(number), int(index))
            assert flow["request"]["content"] == wanted and flow["response"]["content"] == wanted, flow["request"]["path"]
        status, lines, notes = run_program("flows", path, "~all")
        same((status, notes), (0, []))
        same(sorted(lines), sorted(printed))


def body_of(number, index):
    return bytes([number]) * (1000 + 5000 * index)


def post_many(number, failed):
    """Twenty posts, to one of the two programs each."""
    for index in range(20):
        try:
            post(f"/echo?{number}.{index}", body_of(number, index), PROXY if number % 2 == 0 else BESIDE)
        except (AssertionError, OSError) as error:
            failed.append(f"{number}.{index}: {error}")


def case_flows_that_python_wrote():
    """`flows` prints the flows of examples/write_flows.py, of version 2 and of version 1, behind those of the stored files of both."""
    written = content(os.path.join(TOP, "examples", "written.flows")) + content(os.path.join(TOP, "examples", "version_1.flows"))
    program = os.path.join(TOP, "examples", "write_flows.py")
    for words in ([], ["1"]):
        written += subprocess.run([sys.executable, "-B", program, *words], stdout=subprocess.PIPE, check=True).stdout
    with save_file() as path:
        put(path, written)
        flows = whole_flows(written)[0]
        same([flow["version"] for flow in flows], [2, 1, 2, 1])
        shows(path, "~marked", [line_by_python(flow) for flow in flows])
        shows(path, "!~marked", [])


def case_flows_of_an_empty_file():
    with save_file() as path:
        put(path, b"")
        shows(path, "~all", [])


def case_flows_of_what_is_no_flow_file():
    """mitmproxy's own files have another version, and are refused at their first flow."""
    flow = content(os.path.join(TOP, "examples", "written.flows"))
    for data in (b"no flow", b"0:~", b"\0" * 1000, b"15:7:version;2:20#}"):
        with save_file() as path:
            put(path, data)
            shows_cut(path, [], 0, FOREIGN if b"version" in data else [])
            put(path, flow + data)
            shows_cut(path, [line_by_python(whole_flows(flow)[0][0])], len(flow))


def case_flows_without_a_file():
    with save_file() as path:
        shows(path, "~all", [f"cannot read {path}"], 3, ABSENT)
        os.mkdir(path)
        shows(path, "~all", [f"cannot read {path}"], 3, DIRECTORY)


def case_flows_with_a_bad_filter():
    """The filter is judged before the file is looked at."""
    with save_file() as path:
        same(run_program("flows", path, "~q ~zz"), (2, ["bad filter at 3"], ["~q ~zz", "   ^"]))
        same(run_program("flows", path, ""), (2, ["bad filter at 0"], ["", "^"]))


def case_flows_to_a_full_device():
    with save_file() as path, open("/dev/full", "wb") as full, tempfile.TemporaryFile() as notes:
        put(path, content(os.path.join(TOP, "examples", "written.flows")))
        process = start_program(["flows", path, "~all"], os.path.dirname(path), None, full, notes)
        same((process.wait(60), lines_of(notes)), (7, []))


SAVING_CASES = [
    case_saved_flows, case_saved_by_a_filter, case_save_filter_that_is_none, case_no_save_file_is_made_without_a_flow,
    case_saved_behind_what_is_there, case_killed_between_flows, case_killed_under_load, case_cut_file, case_cut_at_each_byte, case_saved_behind_a_cut,
    case_save_file_that_may_not_be_written, case_save_file_that_is_a_directory, case_save_file_in_an_absent_directory, case_full_device,
    case_full_device_at_a_runs_end, case_full_disk, case_two_programs_save_to_one_file, case_flows_that_python_wrote,
    case_flows_of_an_empty_file, case_flows_of_what_is_no_flow_file, case_flows_without_a_file, case_flows_with_a_bad_filter,
    case_flows_to_a_full_device,
]
