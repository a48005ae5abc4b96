"""Flow files of the fuzzer, and rounds over the words that read files: files that are mutated."""
import os
import re
import subprocess
import sys
import tempfile
import time

from fuzz_talks import random_of
from fuzz_texts import METHODS, SERVER, mutate, seeded, some_bytes
from tools import MITM, TOP

sys.path.append(os.path.join(TOP, "examples"))
from write_flows import FLOW, in_version_1, written  # noqa: E402

LISTED = re.compile(rb"\d+\.\d+ \S+ http://\S* (\d{3}|-) (\d+|-|streamed)( error: [^\n]*)?\Z")


def recorded(seed, name):
    """A file of flows whose requests go to this fuzzer's server, and that answer some of its paths."""
    rng, made = seeded("recorded", seed, name), []
    for index in range(rng.choice((1, 3, 8))):
        flow = {**FLOW, "id": f"{index}.0", "error": None, "is_replay": None, "websocket": None, "marked": rng.random() < 0.2}
        number = (500 if name == "asked" else 0) + rng.randrange(30)
        flow["request"] = {
            **FLOW["request"], "host": b"127.0.0.1", "port": SERVER, "method": rng.choice(METHODS[:6]), "path": b"/f/m%d/%d" % (number, rng.randrange(2)),
            "content": some_bytes(rng, 5000), "trailers": None, "headers": [[b"Host", b"x"]] + rng.choice(([], [[b"Transfer-Encoding", b"chunked"]], [[b"Content-Length", b"7"]])),
        }
        flow["response"] = {**FLOW["response"], "content": some_bytes(rng, 5000), "http_version": b"HTTP/1.1", "headers": rng.choice(([], [[b"Content-Length", b"7"]], [[b"X", b"y"]]))}
        made.append(written(in_version_1(flow) if rng.random() < 0.2 else flow))
    return b"".join(made)


def file_round(seed, keep):
    """Mutated flow files and options files, and what the words say of them: the findings. The files of a finding are kept."""
    rng, findings = random_of(seed, "files"), []
    with tempfile.TemporaryDirectory() as folder:
        for count in range(40):
            text = b"".join(written({**FLOW, "id": f"{number}.0"}) for number in range(rng.choice((0, 1, 3)))) + rng.choice((b"", recorded(seed, count)))
            if count % 4:
                text = mutate_tree(rng, text)
            findings += kept(keep, f"{count}.flows", text, try_file(folder, text, rng))
        for count in range(25):
            text = mutate(rng, b"".join(rng.sample(OPTIONS, 3)) + b"x = 1\n")
            findings += kept(keep, f"{count}.options", text, try_options(folder, text))
    return findings


def kept(folder, name, text, findings):
    if findings:
        os.makedirs(folder, exist_ok=True)
        with open(os.path.join(folder, name), "wb") as file:
            file.write(text)
    return [f"{name}: {finding}" for finding in findings]


def mutate_tree(rng, text):
    """Mostly one place is changed, or a number of a length."""
    if rng.random() < 0.5 and text:
        spans = [found.span() for found in re.finditer(rb"\d+(?=:)", text)]
        start, end = rng.choice(spans)
        return text[:start] + rng.choice((b"%d" % (int(text[start:end]) + rng.choice((-1, 1, 100))), b"999999999", b"9999999999", b"00", b"")) + text[end:]
    return mutate(rng, text, 1)


def try_file(folder, text, rng):
    path, out = os.path.join(folder, "flows"), os.path.join(folder, "out")
    with open(path, "wb") as file:
        file.write(text)
    if os.path.exists(out):
        os.unlink(out)
    results = {word: run([word, "flows", last], folder) for word, last in (("flows", "~all"), ("har", "~all"), ("convert", "out"))}
    status, printed, noted = results["flows"]
    shown = "a flow file"
    if {result[0] for result in results.values()} != {status} or status not in (0, 4):
        return [f"{shown}: statuses {[result[0] for result in results.values()]}, {noted!r:.300}"]
    lines = printed.split(b"\n")[:-1]
    bad = re.fullmatch(rb"bad flow file flows at (\d+)", lines[-1]) if status == 4 else None
    if (status == 4) != (bad is not None) or bad and int(bad[1]) > len(text):
        return [f"{shown}: {lines[-1:]}"]
    wrong = [line for line in lines[:-1 if bad else None] if not LISTED.match(line)]
    if wrong:
        return [f"{shown}: {wrong[0]!r}"]
    if status == 0 and lines:
        again = run(["flows", "out", "~all"], folder)
        if again[:2] != (0, printed):
            return [f"{shown}: what was converted reads {again[:2]!r:.500}, and not {printed!r:.500}"]
    return []


OPTIONS = (
    b'mode = "reverse:http://127.0.0.1:9000"\nlisten = "127.0.0.1:8280"\nevents = 1\n', b'modify_body = ["/a/b", "|~q|x|y"]\n', b'modify_headers = ["/~q & ~d h/X/1"]\n',
    b'intercept = "~u /a & (~q | ~s) !~c 404"\n', b'map_local = ["|/s/|files/"]\nmap_remote = ["/a/b"]\n', b'block_list = ["/~u x/403"]\n', b'save_stream_file = "s"\n',
)


def try_options(folder, text):
    """A file of options, which mostly has a bad key: it is refused, or served by."""
    with open(os.path.join(folder, "options"), "wb") as file:
        file.write(text)
    status, printed, noted = serve(folder)
    if status in (2, 3) and re.fullmatch(rb"(bad (options: (toml|mode)|option [^\n]*|rule [^\n]* \d+)|cannot read [^\n]*)\n", printed):
        return []
    # (the last key was mutated away: then it may serve, or find no place to listen at)
    if status in (5, 6) or status is None and b"listening at" in noted:
        return []
    return [f"options: status {status}, {printed!r:.300}, {noted!r:.300}"]


def serve(folder):
    """Status and both outputs; the status is None where it serves, and was ended here."""
    with open(os.path.join(folder, "out"), "wb+") as out, open(os.path.join(folder, "err"), "wb+") as err:
        process = subprocess.Popen([MITM, "serve", "options"], cwd=folder, stdin=subprocess.DEVNULL, stdout=out, stderr=err)
        status, noted, end = None, b"", time.time() + 30
        while status is None and b"listening at" not in noted and time.time() < end:
            time.sleep(0.005)
            status, noted = process.poll(), content(err)
        process.kill()
        process.wait()
        return status, content(out), content(err)


def content(file):
    return os.pread(file.fileno(), 1 << 20, 0)


def run(words, folder):
    """Status and both outputs."""
    done = subprocess.run([MITM, *words], cwd=folder, stdin=subprocess.DEVNULL, capture_output=True, timeout=120)
    return done.returncode, done.stdout, done.stderr
