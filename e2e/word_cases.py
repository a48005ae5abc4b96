"""Cases of what is told on standard error: of the words of the command line, of options that are refused, and of an end by want of memory."""
from tools import Mitm, run_program, same, talk

USAGE = "usage: mitm serve OPTIONS | flows FILE FILTER | convert FILE OUT | har FILE FILTER | pick FILE FILTER OUT | gen N"
# So many bytes of memory are too few for a body of so many.
MEMORY, BODY = 96 * 1024, 200_000_000


def case_words_that_ask_for_help():
    """The usage is printed, with its status, and what to write stands below it on standard error."""
    for words in ([], ["--help"], ["-h"], ["help"]):
        status, printed, told = run_program(*words)
        same((status, printed), (1, [USAGE]))
        assert 8 <= len(told) <= 16, told
        for wanted in ("serve OPTIONS", "flows FILE FILTER", "pick FILE FILTER OUT", "gen N", 'mode = "reverse:http://', "docs/options.md", "examples/"):
            assert any(wanted in line for line in told), (wanted, told)


def case_filter_that_is_not_quoted():
    status, printed, told = run_program("flows", "f", "~c", "200")
    same((status, printed, len(told)), (1, [USAGE], 1))
    assert "'~m POST & ~c 200'" in told[0], told
    same(run_program("pick", "f", "~c", "200", "g"), (1, [USAGE], told))


def case_other_words():
    for words in (["serve"], ["serve", "a", "b"], ["gen", "x"], ["flows", "f"], ["pick", "f", "~all"], ["--version"]):
        same(run_program(*words), (1, [USAGE], []))


def case_options_that_are_refused():
    """Behind what is marked standard error says the cause in words."""
    causes = (
        ("stream_large_bodys = 1", "no option has this name"), ("stream_large_bodies = 'x'", "a whole number from 0"), ("anticache = 1", "true or false"), ("listen = '127.0.0.1'", "HOST:PORT is wanted"),
        ("control = 8081", "HOST:PORT is wanted"), ("modify_body = '/a/b'", "a list of texts is wanted"), ("server_replay = 'a.flows'", "a list of paths is wanted"),
        ("server_replay_use_headers = 'A'", "a list of texts is wanted"), ("events = 0", "a whole number from 1"), ("intercept = 1", "a filter"),
        ("save_stream_file = ''", "a path is wanted"), ("server_replay_extra = '405'", '"404"'), ("mode = 1", "a text is wanted"),
        ("mode = 'reverse:https://h'", "https is not supported"), ("mode = 'upstream:HTTPS://h:1'", "https is not supported"),
        ("mode = 'reverse:http://h/x'", "takes no path"), ("mode = 'socks'", "a mode is"), ("mode = 'reverse:http://'", "a mode is"),
        ("modify_body = ['/a']", "three parts between separators are wanted"), ("modify_body = ['']", "three parts between separators are wanted"),
        ("block_list = ['']", "a status is wanted"), ("block_list = ['/~q/abc']", "a status is wanted"), ("modify_body = ['/(/x']", "no regular expression"),
        ("modify_headers = ['/a b/x']", "no name of a field"), ("intercept = '~zz'", "no operator has these letters"), ("intercept = '~c x'", "one to three digits"),
        ("intercept = '(~q'", "is not closed"), ("stickyauth = true", "a filter"), ("stickycookie = '~zz'", "no operator has these letters"),
        ("server_replay_refresh = 'x'", "true or false"),
    )
    for options, cause in causes:
        status, _, told = run_program("serve", "options", options=options + "\n")
        same((options, status), (options, 2))
        assert told and cause in told[-1], (options, told)
    status, printed, told = run_program("serve", "options", options="events = 1\nmode = \n")
    same((status, printed), (2, ["bad options: toml"]))
    assert any("line 2, column 8" in note for note in told) and len(told) == 2, told


def case_end_by_want_of_memory():
    """Its status is 8, and standard error says so."""
    few = ("bash", "-c", f'ulimit -v {MEMORY}; exec "$@"', "-")
    with Mitm(in_front=few) as mitm:
        try:
            talk(f"POST /echo HTTP/1.1\r\nHost: h\r\nContent-Length: {BODY}\r\n\r\n".encode() + bytes(BODY))
        except OSError:
            pass
        same(mitm.process.wait(20), 8)
        same(mitm.notes()[-1], "out of memory")


WORD_CASES = [
    case_words_that_ask_for_help, case_filter_that_is_not_quoted, case_other_words, case_options_that_are_refused,
    case_end_by_want_of_memory,
]
