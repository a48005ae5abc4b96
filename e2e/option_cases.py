"""Cases with an options file of their own: rules, refusals, files, and where it listens."""
import os
import socket

from tools import MODE, ORIGIN, PROXY, Mitm, Origin, Skipped, curl, get, line, run_curl, run_program, same, talk, url

OTHER = 9001
NOBODY = 65534


def case_notes_where_it_listens():
    with Mitm() as mitm:
        same(curl(url("/a")), b"/a\n")
        same(mitm.notes(), [f"listening at 127.0.0.1:8080, for http://127.0.0.1:{ORIGIN}"])
        same(mitm.new_lines(1), [line("GET", "/a", 200, 3)])


def case_listens_where_the_options_say():
    with Mitm('listen = "127.0.0.1:8081"\n', port=8081) as mitm:
        same(curl("http://127.0.0.1:8081/a"), b"/a\n")
        same(mitm.notes(), [f"listening at 127.0.0.1:8081, for http://127.0.0.1:{ORIGIN}"])


def case_server_by_name():
    """The addresses of the name are tried in turn."""
    with Mitm(mode=f'mode = "reverse:http://localhost:{ORIGIN}"\n') as mitm:
        for number in range(3):
            same(curl(url(f"/{number}")), f"/{number}\n".encode())
        same(mitm.new_lines(3), [f".0 GET http://localhost:{ORIGIN}/{number} 200 3" for number in range(3)])


def case_header_rules():
    rules = 'modify_headers = ["/~q/X-Debug/1", "/~s/X-Server/", "/~s/X-Through/mitm"]\n'
    with Mitm(rules):
        got = curl("-D", "-", "-H", "x-debug: 0", url("/head")).decode().lower().split("\r\n\r\n", 1)
    assert "x-through: mitm" in got[0] and "x-server" not in got[0], got[0]
    assert "x-debug: 1" in got[1] and "x-debug: 0" not in got[1], got[1]


def case_header_rules_by_the_requests_body():
    """At a response's head the body of its request is there, and its own is not."""
    with Mitm('modify_headers = ["/~b token/X-Found/1", "/~bs token/X-Never/1"]\n'):
        got = curl("-D", "-", "--data-binary", "a token", url("/echo")).decode()
        assert "X-Found: 1\r\n" in got and "X-Never" not in got, got
        got = curl("-D", "-", "--data-binary", "nothing", url("/echo")).decode()
        assert "X-Found" not in got, got


def case_body_rules():
    rules = r"modify_body = ['/hello/hi', '|~q|b(\d+)|<$1>', '/~u nowhere/hi/never']" + "\n"
    with Mitm(rules) as mitm:
        same(curl("--data-binary", "hello b12, hello", url("/echo")), b"hi <12>, hi")
        same(curl(url("/chunked")), b"hi world")
        same(mitm.new_lines(2), [line("POST", "/echo", 200, 11), line("GET", "/chunked", 200, 8)])


def case_map_remote():
    rules = f"map_remote = ['|//127.0.0.1:{ORIGIN}/other|//127.0.0.1:{OTHER}']\n"
    with Origin(OTHER), Mitm(rules) as mitm:
        assert f"Host: 127.0.0.1:{OTHER}\n" in curl(url("/other/head")).decode()
        assert "Host: 127.0.0.1:8080\n" in curl(url("/head")).decode()
        lines = [shown.rsplit(" ", 1)[0] for shown in mitm.new_lines(2)]
    same(lines, [line("GET", "/head", 200, "", port=port).rstrip() for port in (OTHER, ORIGIN)])


def case_map_remote_elsewhere_than_http():
    with Mitm("map_remote = ['|^http:|https:']\n"):
        got = talk(get("/a", "Connection: close"))
    assert got.startswith(b"HTTP/1.1 502 ") and got.endswith(b"map remote: not plain http\n"), got


def case_blocked():
    with Mitm('block_list = ["/~u secret/403"]\n') as mitm:
        head = curl("-D", "-", url("/secret")).decode()
        assert head.startswith("HTTP/1.1 403 Forbidden\r\n") and head.endswith("\r\n\r\n"), head
        same(curl(url("/open")), b"/open\n")
        same(mitm.new_lines(2), [line("GET", "/secret", 403, 0), line("GET", "/open", 200, 6)])


def case_blocked_by_a_close():
    with Mitm('block_list = ["/~u secret/444"]\n') as mitm:
        status, got, _ = run_curl(url("/secret"))
        same((status, got), (52, b""))
        same(mitm.new_lines(1), [line("GET", "/secret", "-", "-", "killed")])


def case_local_files():
    with Mitm('map_local = ["|/s/|files/"]\n', files={"files/x.css": b"p {}", "files/sub/index.html": b"<p>"}) as mitm:
        got = curl("-D", "-", url("/s/x.css?v=1")).decode()
        assert "Content-Type: text/css\r\n" in got and got.endswith("\r\n\r\np {}"), got
        same(curl(url("/s/sub/")), b"<p>")
        same(curl(url("/elsewhere")), b"/elsewhere\n")
        same(mitm.new_lines(3)[0], line("GET", "/s/x.css?v=1", 200, 4))


def case_rules_change_what_rules_answer():
    rules = 'map_local = ["|/s/|files/"]\nmodify_body = ["/old/new"]\nmodify_headers = ["/~s/X-Through/mitm"]\n'
    with Mitm(rules + 'block_list = ["/~u secret/404"]\n', files={"files/x.txt": b"my old file"}):
        got = curl("-D", "-", url("/s/x.txt")).decode()
        assert "X-Through: mitm\r\n" in got and got.endswith("\r\n\r\nmy new file"), got
        assert "X-Through: mitm\r\n" in curl("-D", "-", url("/secret")).decode()


def case_local_files_come_before_another_server():
    rules = f"map_remote = ['|//127.0.0.1:{ORIGIN}/other|//127.0.0.1:{OTHER}']\nmap_local = ['|:{OTHER}/|files/', '|/other/x|files/y']\n"
    with Origin(OTHER), Mitm(rules, files={"files/a": b"never", "files/y": b"a file"}):
        same(curl(url("/other/x")), b"a file")
        same(curl(url("/other/a")), b"/a\n")


def case_local_file_absent():
    with Mitm('map_local = ["|/s/|files/"]\n') as mitm:
        same(code_of("/s/y.css"), "404")
        same(code_of("/s/../options"), "404")
        same(mitm.new_lines(1)[0], line("GET", "/s/y.css", 404, 0))


def case_local_file_that_is_a_directory():
    with Mitm('map_local = ["|/s/|files/"]\n', files={"files/sub/index.html": b"<p>"}) as mitm:
        same(code_of("/s/sub"), "404")
        same(mitm.new_lines(1), [line("GET", "/s/sub", 404, 0)])


def case_local_file_that_may_not_be_read():
    """Root reads all the same, so then the program runs as another user."""
    user = NOBODY if os.geteuid() == 0 else None
    mitm = Mitm('map_local = ["|/s/|files/"]\n', files={"files/x.css": b"p {}"}, user=user)
    try:
        mitm.start()
    except PermissionError:
        mitm.stop()
        raise Skipped("root reads every file, and here it can't be another user") from None
    with_closed_file(mitm)


def with_closed_file(mitm):
    try:
        os.chmod(mitm.path("files/x.css"), 0)
        same(code_of("/s/x.css"), "500")
        same(mitm.new_lines(1), [line("GET", "/s/x.css", 500, 0)])
    finally:
        mitm.stop()


def code_of(path):
    """The status that this path is answered with, as it is written."""
    return curl("--path-as-is", "-o", os.devnull, "-w", "%{http_code}", url(path)).decode()


def case_anticache_and_anticomp():
    fields = ("-H", "If-None-Match: x", "-H", "If-Modified-Since: y", "-H", "Accept-Encoding: gzip")
    with Mitm("anticache = true\nanticomp = true\n"):
        got = curl(*fields, url("/head")).decode()
    assert "Accept-Encoding: identity\n" in got and "If-" not in got and "gzip" not in got, got
    with Mitm():
        got = curl(*fields, url("/head")).decode()
    assert "Accept-Encoding: gzip\n" in got and "If-None-Match: x\n" in got and "If-Modified-Since: y\n" in got, got


def case_events_spent():
    with Mitm("events = 1\n") as mitm:
        socket.create_connection(PROXY, timeout=20).close()
        same(mitm.process.wait(10), 6)
        same(mitm.lines(), ["event budget spent"])


def refused(options, status, shown, notes=()):
    """With these options it ends at once, with this status and line."""
    got = run_program("serve", "options", options=options)
    same((got[0], got[1]), (status, [shown]))
    for note in notes:
        assert note in got[2], got[2]
    return got[2]


def case_usage():
    of_flows = ["flows"], ["flows", "file"], ["flows", "file", "~c", "404"]
    for words in ([], ["serve"], ["serve", "127.0.0.1", "9000"], *of_flows, ["gen", "10001"], ["gen", "007"], ["--help"]):
        same(run_program(*words)[:2], (1, ["usage: mitm serve OPTIONS | flows FILE FILTER | convert FILE OUT | har FILE FILTER | pick FILE FILTER OUT | gen N"]))


def case_no_options_file():
    refused(None, 3, "cannot read options")


def case_options_that_are_no_toml():
    refused("mode = \n", 2, "bad options: toml")
    refused(b"\xff", 2, "bad options: toml")


def case_options_without_a_good_mode():
    for mode in ("socks", "Regular", "regular:http://127.0.0.1", "upstream:", "upstream:https://127.0.0.1"):
        refused(f'mode = "{mode}"\n', 2, "bad options: mode")


def case_unknown_and_wrong_options():
    refused(MODE + "stream_large_bodys = 1\n", 2, "bad option stream_large_bodys")
    refused(MODE + "stream_large_bodies = 'x'\n", 2, "bad option stream_large_bodies")
    refused(MODE + "anticache = 1\n", 2, "bad option anticache")


def case_bad_rule():
    """The rule's text is noted, with a mark under the place."""
    noted = refused(MODE + 'block_list = ["/403", "/~q ~zz/404"]\n', 2, "bad rule block_list 1")
    at = [place for place, note in enumerate(noted) if "/~q ~zz/404" in note]
    assert at and noted[at[0] + 1].endswith("^"), noted
    same(noted[at[0] + 1].index("^"), noted[at[0]].index("~zz"))


def case_generated_flows():
    for count, lines in ((0, (0, 0, 0)), (1, (1, 30, 53)), (2, (2, 60, 1060)), (10000, (10000, 328890, 5586615))):
        wanted = [f"{name} {number}" for name, number in zip(("flows", "to server", "to client"), lines)]
        same(run_program("gen", str(count)), (0, wanted, []))


def case_port_in_use():
    with socket.create_server(PROXY):
        refused(MODE, 5, "network fault", ["cannot listen at 127.0.0.1:8080: address in use"])


def case_addresses_that_cannot_be_had():
    for host, why in (("192.0.2.1", "no such address"), ("nowhere.invalid", "no such name")):
        options = MODE + f'listen = "{host}:8080"\n'
        refused(options, 5, "network fault", [f"cannot listen at {host}:8080: {why}"])


def case_port_that_is_not_permitted():
    user = NOBODY if os.geteuid() == 0 else None
    with open("/proc/sys/net/ipv4/ip_unprivileged_port_start", encoding="ascii") as least:
        if int(least.read()) <= 80:
            raise Skipped("every user may listen at port 80 here")
    try:
        got = run_program("serve", "options", options=MODE + 'listen = "127.0.0.1:80"\n', user=user)
    except PermissionError:
        raise Skipped("root may listen at every port, and here it can't be another user") from None
    same(got, (5, ["network fault"], ["cannot listen at 127.0.0.1:80: not permitted"]))


OPTION_CASES = [
    case_notes_where_it_listens, case_listens_where_the_options_say, case_server_by_name, case_header_rules,
    case_header_rules_by_the_requests_body, case_body_rules, case_map_remote, case_map_remote_elsewhere_than_http, case_blocked,
    case_blocked_by_a_close, case_local_files, case_rules_change_what_rules_answer, case_local_files_come_before_another_server,
    case_local_file_absent, case_local_file_that_is_a_directory, case_local_file_that_may_not_be_read, case_anticache_and_anticomp, case_events_spent,
    case_usage, case_no_options_file, case_options_that_are_no_toml, case_options_without_a_good_mode,
    case_unknown_and_wrong_options, case_bad_rule, case_generated_flows, case_port_in_use, case_addresses_that_cannot_be_had,
    case_port_that_is_not_permitted,
]
