"""Cases of the modes: where requests go by their targets, and through another proxy. `mitm` itself is the proxy above."""
from tools import ORIGIN, PROXY, Mitm, Origin, curl, line, same, talk, url

OTHER = 9001
ABOVE = 8081
NOBODY = 9
THROUGH = ("-x", f"http://127.0.0.1:{PROXY[1]}")
UPSTREAM = f'mode = "upstream:http://127.0.0.1:{ABOVE}"\n'
BAD_TARGET = b"HTTP/1.1 400 Bad Request\r\nServer: mitm\r\nConnection: close\r\nContent-Type: text/plain\r\nContent-Length: 11\r\n\r\nbad target\n"


def regular(options="", port=PROXY[1], files=()):
    """A regular proxy, whose file says no mode."""
    listen = "" if port == PROXY[1] else f'listen = "127.0.0.1:{port}"\n'
    return Mitm(listen + options, port=port, files=files, mode="")


def at(path, port=ORIGIN):
    """The URL of this path at a server."""
    return f"http://127.0.0.1:{port}{path}"


def case_empty_file_is_a_regular_proxy():
    with regular() as mitm:
        same(curl(*THROUGH, at("/a?b=c")), b"/a?b=c\n")
        same(mitm.notes(), ["listening at 127.0.0.1:8080"])
        same(mitm.new_lines(1), [line("GET", "/a?b=c", 200, 7)])


def case_regular_mode_by_its_name():
    with Mitm(mode='mode = "regular"\n') as mitm:
        same(curl(*THROUGH, at("/a")), b"/a\n")
        same(mitm.new_lines(1), [line("GET", "/a", 200, 3)])


def case_two_servers_through_one_proxy():
    """On one connection each request goes where its target says, in origin form."""
    with Origin(OTHER), regular() as mitm:
        got = curl(*THROUGH, at("/head"), at("/head", OTHER)).decode()
        heads = [shown for shown in got.splitlines() if shown.startswith(("GET ", "Host: "))]
        same(heads, ["GET /head HTTP/1.1", f"Host: 127.0.0.1:{ORIGIN}", "GET /head HTTP/1.1", f"Host: 127.0.0.1:{OTHER}"])
        shown = [one.rsplit(" ", 1)[0] for one in mitm.new_lines(2)]
    same(shown, [line("GET", "/head", 200, "", index=index, port=port).rstrip() for index, port in enumerate((ORIGIN, OTHER))])


def case_server_by_name_in_regular_mode():
    with regular() as mitm:
        same(curl(*THROUGH, f"http://localhost:{ORIGIN}/a"), b"/a\n")
        same(mitm.new_lines(1), [f".0 GET http://localhost:{ORIGIN}/a 200 3"])


def case_targets_without_a_path():
    """A client may leave the path out, and then `/` is sent."""
    with regular() as mitm:
        for behind, path in (("", "/"), ("?a=b", "/?a=b")):
            got = talk(f"GET http://127.0.0.1:{ORIGIN}{behind} HTTP/1.1\r\nHost: x\r\nConnection: close\r\n\r\n".encode())
            assert got.startswith(b"HTTP/1.1 200 ") and got.endswith(b"\r\n\r\n" + path.encode() + b"\n"), got
        same(mitm.new_lines(2), [line("GET", "/", 200, 2), line("GET", "/?a=b", 200, 6)])


def case_bodies_in_regular_mode():
    body = bytes(range(256)) * 400
    with regular() as mitm:
        same(curl(*THROUGH, "--data-binary", "@-", at("/echo"), data=body), body)
        same(curl(*THROUGH, at("/chunked")), b"hello world")
        same(mitm.new_lines(2), [line("POST", "/echo", 200, len(body)), line("GET", "/chunked", 200, 11)])


def case_rules_in_regular_mode():
    """Rules see the URL of the target, and may send a request to another server."""
    rules = f"map_remote = ['|//a.example/|//127.0.0.1:{ORIGIN}/']\nblock_list = ['/~u b.example/403']\nmap_local = ['|//c.example/|files/']\n"
    with regular(rules, files={"files/x": b"a file"}) as mitm:
        same(curl(*THROUGH, "http://a.example/a"), b"/a\n")
        same(curl(*THROUGH, "-w", "%{http_code}", "http://b.example/b"), b"403")
        same(curl(*THROUGH, "http://c.example/x"), b"a file")
        same(mitm.new_lines(3), [line("GET", "/a", 200, 3), ".0 GET http://b.example/b 403 0", ".0 GET http://c.example/x 200 6"])


def case_browser_pointed_at_the_proxy_itself():
    """A request in origin form is none for a regular proxy."""
    with regular() as mitm:
        same(curl("-w", "%{http_code}", url("/")), b"bad target\n400")
        same(talk(b"OPTIONS * HTTP/1.1\r\nHost: x\r\n\r\n"), BAD_TARGET)
        same(mitm.lines(), [])


def case_server_that_nobody_listens_at():
    with regular() as mitm:
        same(curl(*THROUGH, "-w", "%{http_code}", at("/a", NOBODY)), b"cannot connect\n502")
        same(mitm.new_lines(1), [line("GET", "/a", "-", "-", "cannot connect", port=NOBODY)])


def case_through_another_proxy():
    """The requests go to the proxy above in absolute form, as it takes no other, on one connection, and from there each to its server."""
    with Origin(OTHER), regular(port=ABOVE) as above, Mitm(mode=UPSTREAM) as mitm:
        same(curl(*THROUGH, at("/a"), at("/b", OTHER)), b"/a\n/b\n")
        same(mitm.notes(), [f"listening at 127.0.0.1:8080, through http://127.0.0.1:{ABOVE}"])
        same(mitm.new_lines(2), [line("GET", "/a", 200, 3), line("GET", "/b", 200, 3, index=1, port=OTHER)])
        same(above.new_lines(2), [line("GET", "/a", 200, 3), line("GET", "/b", 200, 3, index=1, port=OTHER)])


def case_bodies_through_another_proxy():
    body = bytes(range(256)) * 400
    with regular(port=ABOVE) as above, Mitm(mode=UPSTREAM):
        same(curl(*THROUGH, "--data-binary", "@-", at("/echo"), data=body), body)
        same(above.new_lines(1), [line("POST", "/echo", 200, len(body))])


def case_rules_through_another_proxy():
    """A rule changes what the proxy above is asked for, and not which proxy that is."""
    rules = f"map_remote = ['|//a.example/|//127.0.0.1:{ORIGIN}/']\n"
    with regular(port=ABOVE) as above, Mitm(rules, mode=UPSTREAM) as mitm:
        same(curl(*THROUGH, "http://a.example/a"), b"/a\n")
        for one in (mitm, above):
            same(one.new_lines(1), [line("GET", "/a", 200, 3)])


def case_proxy_above_that_nobody_listens_at():
    with Mitm(mode=UPSTREAM) as mitm:
        same(curl(*THROUGH, "-w", "%{http_code}", at("/a")), b"cannot connect\n502")
        same(mitm.new_lines(1), [line("GET", "/a", "-", "-", "cannot connect")])


def case_origin_form_in_upstream_mode():
    with Mitm(mode=UPSTREAM):
        same(curl("-w", "%{http_code}", url("/")), b"bad target\n400")


def case_absolute_form_in_reverse_mode():
    """It goes to the mode's server by its path alone."""
    with Mitm() as mitm:
        same(curl(*THROUGH, "http://nowhere.invalid/a?b"), b"/a?b\n")
        same(mitm.new_lines(1), [line("GET", "/a?b", 200, 5)])


MODE_CASES = [
    case_empty_file_is_a_regular_proxy, case_regular_mode_by_its_name, case_two_servers_through_one_proxy, case_server_by_name_in_regular_mode,
    case_targets_without_a_path, case_bodies_in_regular_mode, case_rules_in_regular_mode, case_browser_pointed_at_the_proxy_itself,
    case_server_that_nobody_listens_at, case_through_another_proxy, case_bodies_through_another_proxy, case_rules_through_another_proxy,
    case_proxy_above_that_nobody_listens_at, case_origin_form_in_upstream_mode, case_absolute_form_in_reverse_mode,
]
