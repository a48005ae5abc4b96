"""A page with a style sheet and a picture, through a proxy that replaces its text and has a picture of its own: by curl, and by a
browser where there is one."""
import os
import re
import shutil
import struct
import subprocess
import tempfile
import zlib

from tools import ORIGIN, Mitm, Skipped, curl, same, url

BROWSERS = ("chromium", "chromium-browser", "google-chrome", "google-chrome-stable")
HEADLESS = ("--headless", "--no-sandbox", "--disable-gpu", "--disable-dev-shm-usage", "--no-first-run", "--disable-background-networking")
OPTIONS = """anticomp = true
modify_body = ["|~ts html|the old word|the new word"]
map_local = ["|/dot.png$|files/dot.png"]
"""


def picture(width):
    """A PNG of so many white points beside each other."""
    def part(name, content):
        return struct.pack(">I", len(content)) + name + content + struct.pack(">I", zlib.crc32(name + content))

    head = struct.pack(">IIBBBBB", width, 1, 8, 0, 0, 0, 0)
    points = zlib.compress(b"\0" + b"\xff" * width)
    return b"\x89PNG\r\n\x1a\n" + part(b"IHDR", head) + part(b"IDAT", points) + part(b"IEND", b"")


def page_mitm(options=""):
    return Mitm(OPTIONS + options, files={"files/dot.png": picture(7)})


def case_page_by_curl():
    with page_mitm() as mitm:
        page = curl(url("/page")).decode()
        assert "the new word" in page and "the old word" not in page, page
        same(curl(url("/page.css")), b"p { color: rgb(1, 2, 3); }\n")
        got = curl("-D", "-", url("/dot.png"))
        assert b"Content-Type: image/png\r\n" in got and got.endswith(b"\r\n\r\n" + picture(7)), got
        shown = mitm.new_lines(3)
    same([re.sub(r" \d+$", "", part) for part in shown], [
        f".0 GET http://127.0.0.1:{ORIGIN}{path} 200" for path in ("/page", "/page.css", "/dot.png")])


def case_page_in_a_browser():
    browser = next((path for path in map(shutil.which, BROWSERS) if path), None)
    if browser is None:
        raise Skipped("there is no browser (the package chromium of Debian)")
    with tempfile.TemporaryDirectory() as home:
        if "<p>here</p>" not in shown_by(browser, home, "data:text/html,<p>here</p>"):
            raise Skipped(f"{browser} does not run here")
        with page_mitm() as mitm:
            shown = shown_by(browser, home, url("/page"))
            lines = mitm.new_lines(3)
    assert '<p id="text">the new word</p>' in shown, shown
    assert '<p id="rule">p { color: rgb(1, 2, 3); }</p>' in shown, shown
    assert '<p id="width">7</p>' in shown, shown
    for path in ("/page", "/page.css", "/dot.png"):
        assert any(f" GET http://127.0.0.1:{ORIGIN}{path} 200 " in part for part in lines), lines


def shown_by(browser, home, page, *network):
    """The page's elements once it is loaded, or nothing where the browser fails. The words say which proxy it uses, or else it uses none."""
    words = [*HEADLESS, *(network or ["--no-proxy-server"]), f"--user-data-dir={home}", "--dump-dom", page]
    try:
        done = subprocess.run([browser, *words], cwd=home, env={**os.environ, "HOME": home}, stdin=subprocess.DEVNULL,
                              capture_output=True, timeout=60)
    except (OSError, subprocess.TimeoutExpired):
        return ""
    return done.stdout.decode(errors="replace")


PAGE_CASES = [case_page_by_curl, case_page_in_a_browser]
