"""The program `rows` on files that a person writes, and as what figures are taken with. It is crates/rows/out/rows, or ROWS where that is set."""
import os
import subprocess
import tempfile

from tools import TOP, Skipped, same

ROWS = os.path.abspath(os.environ.get("ROWS", os.path.join(TOP, "crates", "rows", "out", "rows")))
SAME = "kind options\n=> regular\nmode = \"socks\" => BadMode\n"
DIFFERS = "kind options\n=> upstream h:80\n"


def rows(*words, files=()):
    """The status of `rows` with these words, in a folder with these files, and the lines that it prints."""
    if not os.path.exists(ROWS):
        raise Skipped("rows is not built")
    with tempfile.TemporaryDirectory() as home:
        for name, text in dict(files).items():
            with open(os.path.join(home, name), "w", encoding="utf-8") as file:
                file.write(text)
        done = subprocess.run([ROWS, *words], cwd=home, stdin=subprocess.DEVNULL, stdout=subprocess.PIPE, timeout=60)
    return done.returncode, done.stdout.decode().splitlines()


def case_rows_of_files():
    files = {"a.rows": SAME, "b.rows": DIFFERS, "measure": SAME}
    same(rows("a.rows", files=files), (0, ["a: 2 rows, 0 differ"]))
    same(rows("./measure", files=files), (0, ["measure: 2 rows, 0 differ"]))
    status, lines = rows(files=files)
    same((status, lines[0], lines[-1]), (1, "a: 2 rows, 0 differ", "b: 1 rows, 1 differ"))
    same(rows("c.rows", files=files), (1, ["c.rows: not read"]))
    same(rows(), (2, ["no file *.rows"]))


def case_rows_measure():
    same(rows("measure", "bytes", "3", "2"), (0, ["3018 bytes, read 2 times: 6 fields"]))
    same(rows("measure", "chunked", "10", "3"), (0, ["3 pieces of 10 bytes: 30 bytes"]))
    same(rows("measure", "clients", "2"), (0, [f"{len('0.0 GET http://h/ 200 5') * 2 + 2} bytes of lines"]))
    same(rows("measure", "pipelined", "1")[0], 0)
    same(rows("measure", "conversation", "counted", "10", "3")[0], 0)
    same(rows("measure", "clients")[0], 2)


ROWS_CASES = [case_rows_of_files, case_rows_measure]
