"""The words that go through a file of flows: `mitm convert FILE OUT`, `mitm pick FILE FILTER OUT` and `mitm har FILE FILTER`, read by Python."""
import base64
import json
import os
import subprocess
import tempfile
import time

from saving_cases import ABSENT, DIRECTORY, content, put, saves_to, saved, shows, three_flows, whole_flows
from tools import MITM, ORIGIN, TOP, Mitm, curl, run_program, same, url

WRITTEN = os.path.join(TOP, "examples", "written.flows")

# What HAR 1.2 asks of each object, by its kind.
REQUIRED = {
    "log": ["version", "creator", "pages", "entries"],
    "creator": ["name", "version"],
    "entry": ["startedDateTime", "time", "request", "response", "cache", "timings"],
    "request": ["method", "url", "httpVersion", "cookies", "headers", "queryString", "headersSize", "bodySize"],
    "response": ["status", "statusText", "httpVersion", "cookies", "headers", "content", "redirectURL", "headersSize", "bodySize"],
    "content": ["size", "mimeType"],
    "timings": ["send", "wait", "receive"],
    "pair": ["name", "value"],
    "posted": ["mimeType", "text"],
}


def folder_with(data=None):
    folder = tempfile.TemporaryDirectory()
    path = os.path.join(folder.name, "a.flows")
    if data is not None:
        put(path, data)
    return folder, path, os.path.join(folder.name, "b.flows")


def case_convert():
    """Each flow of the file stands in the other, by `flows` and by Python; what stood there before is still there."""
    folder, path, to = folder_with(content(WRITTEN))
    with folder:
        same(run_program("convert", path, to), (0, [], []))
        status, lines, _ = run_program("flows", path, "~all")
        same(status, 0)
        shows(to, "~all", lines)
        old, new = whole_flows(content(path))[0], whole_flows(content(to))[0]
        same([flow["request"] for flow in new], [flow["request"] for flow in old])
        same([flow["version"] for flow in new], [2] * len(old))
        first = content(to)
        same(run_program("convert", to, to), (0, [], []))
        same(content(to), first + first)


def case_convert_what_is_none():
    """A file with a bad place, one that is absent, and a directory: nothing is appended."""
    folder, path, to = folder_with()
    with folder:
        data, _, places = three_flows(path)
        put(path, data[:-5])
        put(to, b"kept")
        same(run_program("convert", path, to), (4, [f"bad flow file {path} at {places[2]}"], []))
        same(run_program("convert", path + ".none", to), (3, [f"cannot read {path}.none"], ABSENT))
        same(run_program("convert", folder.name, to), (3, [f"cannot read {folder.name}"], DIRECTORY))
        same(content(to), b"kept")


def case_convert_to_where_nothing_is_written():
    folder, path, to = folder_with(content(WRITTEN))
    with folder:
        same(run_program("convert", path, os.path.join(folder.name, "none", "b"))[:2], (7, []))
        same(run_program("convert", path, folder.name)[:2], (7, []))
        same(run_program("convert", path, "/dev/full")[:2], (7, []))


def case_pick():
    """The flows on which the filter holds stand in the other file, with their other pairs, behind what stood there."""
    folder, path, to = folder_with()
    with folder:
        data, printed, places = three_flows(path)
        note = b"4:note,5:a tip;"
        noted = data[places[1]:places[2]]
        length, _, payload = noted.partition(b":")
        put(path, data + b"%d:%s%s}" % (int(length) + len(note), payload[:-1], note))
        same(run_program("pick", path, "~u 1$", to), (0, [], []))
        same(whole_flows(content(to))[0], [whole_flows(content(path))[0][index] for index in (1, 3)])
        same(whole_flows(content(to))[0][1]["note"], "a tip")
        shows(to, "~all", [printed[1]] * 2)
        first = content(to)
        same(run_program("pick", path, "~bs nothing", to), (0, [], []))
        same(content(to), first)
        same(run_program("pick", to, "~all", to), (0, [], []))
        same(content(to), first + first)
        same(run_program("pick", path, "~q", to + ".none"), (0, [], []))
        same(os.path.exists(to + ".none"), False)


def case_pick_what_is_none():
    """A file with a bad place, one that is absent, a directory, and a filter that is none: nothing is appended."""
    folder, path, to = folder_with()
    with folder:
        data, _, places = three_flows(path)
        put(path, data[:-5])
        put(to, b"kept")
        same(run_program("pick", path, "~u 0", to), (4, [f"bad flow file {path} at {places[2]}"], []))
        same(run_program("pick", path + ".none", "~all", to), (3, [f"cannot read {path}.none"], ABSENT))
        same(run_program("pick", folder.name, "~all", to), (3, [f"cannot read {folder.name}"], DIRECTORY))
        status, lines, notes = run_program("pick", path + ".none", "~all | ~c x", to)
        same((status, lines, notes[:2]), (2, ["bad filter at 10"], ["~all | ~c x", " " * 10 + "^"]))
        same(content(to), b"kept")


def case_pick_to_where_nothing_is_written():
    folder, path, to = folder_with(content(WRITTEN))
    with folder:
        for wrong in (os.path.join(folder.name, "none", "b"), folder.name, "/dev/full"):
            same(run_program("pick", path, "~all", wrong)[:2], (7, []))
            same(run_program("pick", path, "!~all", wrong)[:2], (0, []))


def case_one_request_is_sent_again():
    """Of many saved requests one is picked, and sent again alone."""
    folder, path, one = folder_with()
    with folder:
        with Mitm(saves_to(path)) as mitm:
            for index in range(5):
                same(curl("--data-binary", "@-", url(f"/echo?{index}"), data=b"body %d" % index), b"body %d" % index)
            saved(path, 5)
            mitm.new_lines(5)
        same(run_program("pick", path, "~u 3$", one), (0, [], []))
        again = saves_to(path + ".again")
        with Mitm(f'client_replay = ["{one}"]\n' + again) as mitm:
            same(mitm.new_lines(1), [f".0 POST http://127.0.0.1:{ORIGIN}/echo?3 200 6"])
            same([flow["request"]["content"] for flow in saved(path + ".again", 1)], [b"body 3"])
            time.sleep(0.3)
            same(mitm.new_lines(0), [])


def check_object(kind, value):
    for name in REQUIRED[kind]:
        assert name in value, (kind, name, value)


def check_har(text):
    """The export's entries, each with all that the format asks for."""
    assert text.endswith("\n") and text.count("\n") == 1, text[-80:]
    log = json.loads(text)["log"]
    check_object("log", log)
    check_object("creator", log["creator"])
    same(log["version"], "1.2")
    for entry in log["entries"]:
        check_object("entry", entry)
        for kind in ("request", "response", "timings"):
            check_object(kind, entry[kind])
        check_object("content", entry["response"]["content"])
        for pair in entry["request"]["headers"] + entry["response"]["headers"] + entry["request"]["queryString"]:
            check_object("pair", pair)
        if "postData" in entry["request"]:
            check_object("posted", entry["request"]["postData"])
        time.strptime(entry["startedDateTime"][:19], "%Y-%m-%dT%H:%M:%S")
        same(sum(entry["timings"].values()), entry["time"])
    return log["entries"]


def har(path, chosen):
    ran = subprocess.run([MITM, "har", path, chosen], stdin=subprocess.DEVNULL, stdout=subprocess.PIPE, stderr=subprocess.PIPE, timeout=60)
    return ran.returncode, ran.stdout.decode(), ran.stderr.decode()


def case_har():
    """What was asked stands in the export, as Python reads it."""
    folder, path, _ = folder_with()
    body = bytes(range(256))
    with folder, Mitm(saves_to(path)) as mitm:
        same(curl(url("/a?b=c&d")), b"/a?b=c&d\n")
        same(curl("-H", "Content-Type: text/plain", "--data-binary", "@-", url("/echo"), data="grün".encode()), "grün".encode())
        same(curl("--data-binary", "@-", url("/echo"), data=body), body)
        saved(path, 3)
        mitm.new_lines(3)
        status, text, notes = har(path, "~all")
        same((status, notes), (0, ""))
        got = check_har(text)
        same([(e["request"]["method"], e["response"]["status"]) for e in got], [("GET", 200), ("POST", 200), ("POST", 200)])
        same(got[0]["request"]["queryString"], [{"name": "b", "value": "c"}, {"name": "d", "value": ""}])
        assert got[0]["request"]["url"].endswith("/a?b=c&d"), got[0]["request"]["url"]
        same(got[1]["request"]["postData"]["mimeType"], "text/plain")
        same(got[1]["response"]["content"]["text"], "grün")
        same(base64.b64decode(got[2]["response"]["content"]["text"]), body)
        same(got[2]["response"]["content"]["encoding"], "base64")
        same(abs(time.time() - time.mktime(time.strptime(got[0]["startedDateTime"][:19], "%Y-%m-%dT%H:%M:%S")) + time.timezone) < 3600, True)
        same(check_har(har(path, "~m POST")[1]), got[1:])
        same(check_har(har(path, "!~all")[1]), [])


def case_har_of_what_is_none():
    """Nothing but the line of the cause is printed."""
    folder, path, _ = folder_with()
    with folder:
        data, _, places = three_flows(path)
        put(path, data[:-5])
        same(har(path, "~all"), (4, f"bad flow file {path} at {places[2]}\n", ""))
        same(har(path + ".none", "~all"), (3, f"cannot read {path}.none\n", ABSENT[0] + "\n"))
        status, text, notes = har(path, "~x")
        same((status, text), (2, "bad filter at 0\n"))
        assert notes, "the filter is shown"
        put(path, data)
        with open("/dev/full", "wb") as full:
            same(subprocess.run([MITM, "har", path, "~all"], stdin=subprocess.DEVNULL, stdout=full, timeout=60).returncode, 7)


EXPORT_CASES = [
    case_convert, case_convert_what_is_none, case_convert_to_where_nothing_is_written, case_pick, case_pick_what_is_none,
    case_pick_to_where_nothing_is_written, case_one_request_is_sent_again, case_har, case_har_of_what_is_none,
]
