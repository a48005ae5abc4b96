"""What is kept of flows for later ones, cookies and authorizations, and recorded responses whose dates are moved."""
import os
import re
import time
from email.utils import parsedate_to_datetime

from tools import ORIGIN, Mitm, Origin, curl, same, talk, url
from write_flows import FLOW, written

OTHER = 9001
DAY = 86400


def fields_of(path, *words):
    """The lines of the head that the origin got."""
    return curl(*words, url(path)).decode().split("\n")


def fields_at(host, path):
    """The same of a host and port, of which the proxy is told, and the lines that are answered."""
    return talk(f"GET http://{host}{path} HTTP/1.1\r\nHost: {host}\r\nConnection: close\r\n\r\n".encode()).decode().splitlines()


def case_sticky_cookies():
    """Those that are for the request's path, in the place of those that the client sends, where the filter holds."""
    with Mitm('stickycookie = "!~u never"\n') as mitm:
        same(curl(url("/set?s=1;Path=/head;HttpOnly&t=2")), b"set\n")
        assert "Cookie: s=1; t=2" in fields_of("/head"), "both are for it"
        assert "Cookie: s=1; t=2" in fields_of("/head", "-b", "u=3"), "the client's own are replaced"
        same(curl(url("/set?s=4;Path=/head")), b"set\n")
        assert "Cookie: s=4; t=2" in fields_of("/head?again"), "the last value, in its old place"
        assert not any("ookie: " in field for field in fields_of("/head?never")), "the filter does not hold"
        same(sorted(os.listdir(mitm.folder.name)), ["options"])


def case_sticky_cookies_of_hosts_and_ports():
    with Origin(OTHER), Mitm('stickycookie = "~all"\n', mode=""):
        assert "Set-Cookie: s=1" in fields_at(f"LOCALHOST:{ORIGIN}", "/set?s=1"), "it is sent on"
        assert "Set-Cookie: t=2;Domain=127.0.0.1" in fields_at(f"localhost:{OTHER}", "/set?t=2;Domain=127.0.0.1"), "it is sent on"
        assert "Cookie: s=1" in fields_at(f"localhost:{ORIGIN}", "/head"), "hosts in any case"
        assert "Cookie: t=2" in fields_at(f"localhost:{OTHER}", "/head"), "each port has its own"
        for port in (ORIGIN, OTHER):
            assert not any("ookie: " in field for field in fields_at(f"127.0.0.1:{port}", "/head")), "another host"


def case_sticky_authorization():
    with Mitm('stickyauth = "!~u never"\n') as mitm:
        assert not any(field.startswith("Authorization: ") for field in fields_of("/head")), "none was shown"
        same(curl("-u", "me:secret", url("/a")), b"/a\n")
        same(fields_of("/head")[-2], "Authorization: Basic bWU6c2VjcmV0")
        assert "Authorization: Basic eW91Og==" in fields_of("/head", "-u", "you:"), "it has its own"
        same(fields_of("/head")[-2], "Authorization: Basic eW91Og==")
        assert not any(field.startswith("Authorization: ") for field in fields_of("/head?never")), "the filter does not hold"
        same(sorted(os.listdir(mitm.folder.name)), ["options"])


def recorded(moment, *fields):
    """A flow file of one response that was recorded at that second."""
    request = {**FLOW["request"], "method": b"GET", "content": b"", "trailers": None, "host": b"127.0.0.1", "port": ORIGIN, "path": b"/news"}
    headers = [[name.encode(), value.encode()] for name, value in fields] + [[b"Content-Length", b"0"]]
    response = {**FLOW["response"], "http_version": b"HTTP/1.1", "headers": headers, "content": b"", "timestamp_start": moment * 1_000_000}
    return written({**FLOW, "request": request, "response": response, "error": None, "is_replay": None, "websocket": None})


def case_refreshed():
    """Its dates are moved by the time that is gone since it was recorded; what is no date stays."""
    old = (("Date", "Thu, 01 Jan 1970 00:01:00 GMT"), ("Expires", "Friday, 02-Jan-70 00:00:00 GMT"), ("Last-Modified", "0"))
    options = 'server_replay = ["old"]\nserver_replay_extra = "404"\n'
    with Mitm(options + "server_replay_refresh = true\n", files={"old": recorded(60, *old)}):
        got = shown(curl("-D", "-", url("/news")))
    for name, since in (("Date", 0), ("Expires", DAY - 60)):
        assert re.fullmatch(r"\w{3}, \d\d \w{3} \d{4} \d\d:\d\d:\d\d GMT", got[name]), got
        assert abs(parsedate_to_datetime(got[name]).timestamp() - since - time.time()) < 30, got
    same(got["Last-Modified"], "0")
    with Mitm(options, files={"old": recorded(60, *old)}):
        same({name: value for name, value in shown(curl("-D", "-", url("/news"))).items() if name != "Content-Length"}, dict(old))


def shown(head):
    return dict(field.split(": ", 1) for field in head.decode().split("\r\n")[1:] if field)


KEPT_CASES = [case_sticky_cookies, case_sticky_cookies_of_hosts_and_ports, case_sticky_authorization, case_refreshed]
