"""Some seconds of the fuzzer, from a fixed seed. See e2e/fuzz, which takes another one for each run."""
import os
import re
import subprocess
import sys

from fuzz_parse import Cut, Wrong, read_request, unmasked, wrong_answers, wrong_lines, wrong_responses
from fuzz_socks import FAILED, HELLO, LOCAL, NO_COMMAND, NO_METHOD, STANDS, WELCOME, named, request, wrong_socks
from fuzz_texts import CONTROL, NOBODY, SERVER, frame, sent_on
from tools import HERE, MITM, Skipped, same

SEED, SECONDS = 1, 20
MOST = 400


ANSWER = b"HTTP/1.1 200 OK\r\nContent-Length: 2\r\n\r\nok"
OWN = b"HTTP/1.1 400 Bad Request\r\nServer: mitm\r\nConnection: close\r\nContent-Type: text/plain\r\nContent-Length: 11\r\n\r\nbad target\n"
LINES = [b"0.0 GET http://h/ 200 2", b"1.0 GET http://h:81/ - - error: bad chunk", b"0.1 GET http://h/ 200 2"]
SAID = b"list\nresume 1.0\nx\nshow 0.0\n"
EDIT_ANSWERS = (b"ok", b"no such flow", b"not waiting", b"not there", b"bad value", b"bad number", b"unknown command")
SHOWN = b'{"code":null,"error":null,"id":"0.0","marked":false,"messages":0,"method":"GET","url":"http://h/"}\n'


ASKS = HELLO + request(LOCAL[0][0], SERVER)
# What a client of SOCKS says and is told, and what it is not told.
TOLD = (
    (b"", b""), (HELLO[:2], b""), (b"\4", b""), (b"\5\1\2", NO_METHOD), (HELLO, WELCOME), (HELLO + b"\5\2", WELCOME + NO_COMMAND), (HELLO + request(named(b"a b"), SERVER), WELCOME + FAILED),
    (HELLO + request(LOCAL[0][0], NOBODY), WELCOME + FAILED), (ASKS, WELCOME + STANDS), (ASKS + b"GE", WELCOME + STANDS), (ASKS + b"GET /a HTTP/1.1\r\n\r\n", WELCOME + STANDS + ANSWER),
    (ASKS + b"RAW 00000002\nok", WELCOME + STANDS + b"ok"),
)
NOT_TOLD = (
    (HELLO[:2], WELCOME), (b"\4", NO_METHOD), (b"\5\1\2", WELCOME), (HELLO, b""), (HELLO + b"\5", WELCOME + FAILED), (HELLO + b"\5\2", WELCOME + FAILED), (HELLO + request(named(b"a b"), SERVER), WELCOME + STANDS),
    (HELLO + request(LOCAL[0][0], CONTROL[1]), WELCOME + STANDS), (HELLO + request(LOCAL[0][0], NOBODY), WELCOME + FAILED + b"x"), (ASKS, WELCOME), (ASKS, WELCOME + FAILED), (ASKS, WELCOME + STANDS[:-1] + b"\1"),
    (ASKS + b"GE", WELCOME + STANDS + b"x"), (ASKS + b"GET /a HTTP/1.1\r\n\r\n", WELCOME + STANDS + ANSWER[:-1]), (ASKS + b"RAW 00000002\nok", WELCOME + STANDS + b"no"),
)


def is_wrong_request(text):
    try:
        return read_request(text, 0)[2] != len(text)
    except (Wrong, Cut):
        return True


def is_wrong_frame(text):
    try:
        return not unmasked(text)
    except (Wrong, Cut):
        return True


def case_fuzzer_tells_what_is_wrong():
    """What it checks by is itself tried: texts that are right, and the least changes that make them wrong."""
    request = b"POST /a HTTP/1.1\r\nHost: h\r\n%s\r\n\r\n"
    for wrong, field in ((False, b"X: 1"), (True, b"X : 1"), (True, b"X: a\rb"), (True, b"X: a\nb"), (True, b" X: 1"), (False, b"Content-Length: 0"),
                         (True, b"Content-Length: 5"), (True, b"Content-Length: 0\r\nContent-Length: 1"), (True, b"Content-Length: 0\r\nTransfer-Encoding: chunked")):
        same((field, is_wrong_request(request % field) or read_request(request % field + b"abcd", 0)[2] != len(request % field)), (field, wrong))
    for wrong, body in ((False, b"1\r\na\r\n0\r\n\r\n"), (True, b"0x1\r\na\r\n0\r\n\r\n"), (True, b"1\r\nab\r\n0\r\n\r\n"), (True, b"1\na\r\n0\r\n\r\n")):
        same((body, is_wrong_request(request % b"Transfer-Encoding: chunked" + body)), (body, wrong))
    same(sent_on(b"00A;x=y\r\n0123456789\r\n1 \r\na\r\n000\r\nT: 1\r\n\r\n"), b"a\r\n0123456789\r\n1\r\na\r\n0\r\nT: 1\r\n\r\n")
    for wrong, text in ((False, ANSWER * 2), (True, ANSWER[:-1]), (True, ANSWER + b"x"), (True, ANSWER.replace(b"\r\nC", b"\nC")), (False, ANSWER + OWN), (True, OWN + ANSWER),
                        (True, OWN.replace(b"bad t", b"bed t"))):
        same((text, wrong_responses(text, False, False) is not None), (text, wrong))
    for wrong, (said, got) in [(False, told) for told in TOLD] + [(True, told) for told in NOT_TOLD]:
        same((said, got, wrong_socks(said, got, False, False) is not None), (said, got, wrong))
    for wrong, lines in ((False, LINES), (True, LINES + LINES[:1]), (True, LINES[2:]), (True, [b"0.0 GET http://h/ 200"]), (True, [b"0.0 GET http://h/ - -"])):
        same((lines, wrong_lines(lines, 0) is not None), (lines, wrong))
    for wrong, got in ((False, b"0.0 going\nend\nok\nunknown command\n" + SHOWN), (True, b"1.0 going\n0.0 going\nend\nok\nunknown command\n" + SHOWN), (True, b"end\nok\n" + SHOWN),
                       (True, b"end\nok\nunknown command\n"), (True, b"end\nok\nunknown command\n" + SHOWN + b"ok\n"), (True, b"end\nok\nunknown command\n" + SHOWN.replace(b"0.0", b"0.1"))):
        same((got, wrong_answers(SAID, got, True) is not None), (got, wrong))
    for answers, words in (("ok bad", b"url http://h:99999/"), ("ok", b"url http://h/a"), ("bad", b"url /a"), ("ok", b"method PUT"), ("bad", b"method CONNECT"), ("bad", b"method "), ("ok", b"status 200"),
                           ("bad", b"status 100"), ("ok", b"set X "), ("ok", b"add X /w=="), ("bad", b"set X /x=="), ("bad", b"set X eA"), ("bad", b"set X Cg=="), ("bad", b"set ( eA=="), ("ok", b"remove X"),
                           ("bad", b"remove "), ("ok", b"body"), ("ok", b"more eA=="), ("ok bad", b"more Cg=="), ("bad", b"more !"), ("", b"body "), ("", b"set X"), ("", b"reason x"), ("", b"")):
        may_be = {b"no such flow", b"not waiting", b"not there", *([b"ok"] if "ok" in answers else []), *([b"bad value"] if "bad" in answers else [])} if answers else {b"unknown command"}
        told = {answer for answer in EDIT_ANSWERS if wrong_answers(b"edit 1.0 " + words + b"\n", answer + b"\n", True) is None}
        same((words, told), (words, may_be))
    same([wrong_answers(b"edit 1 body\n", answer, True) is None for answer in (b"bad number\n", b"ok\n")], [True, False])
    for wrong, text in ((False, frame(1, b"a", b"abcd")), (True, frame(1, b"a")), (True, b"\x81\xfe\0\1abcdx"), (True, b"\xc1\x81abcdx")):
        same((text, is_wrong_frame(text)), (text, wrong))


def fuzz(*words):
    done = subprocess.run([sys.executable, "-B", os.path.join(HERE, "fuzz.py"), "--seconds", str(SECONDS), *words], env={**os.environ, "MITM": MITM},
                          stdin=subprocess.DEVNULL, capture_output=True, text=True, timeout=MOST)
    if "needs a network of its own" in done.stderr:
        raise Skipped("there is no network of its own")
    lines = done.stdout.splitlines()
    told = [line for line in lines if re.match("fuzz: (found|again)", line)]
    assert done.returncode == 0, "\n".join(told or [*lines[-2:], done.stderr[-1000:]])
    print("e2e: " + lines[-1], flush=True)


def case_fuzzed_with_a_fixed_seed():
    fuzz("--seed", str(SEED))


FUZZ_CASES = [case_fuzzer_tells_what_is_wrong, case_fuzzed_with_a_fixed_seed]
