"""What a client of mode `socks5` says first, as it should or not, and what it is to be told (docs/rules.md, section SOCKS5)."""
import re
import socket

from fuzz_parse import METHOD, wrong_responses
from fuzz_texts import CONTROL, NOBODY, PROXY, SERVER, SPEAKER, flips, mutate

HELLO, WELCOME, NO_METHOD = b"\x05\x01\x00", b"\x05\x00", b"\x05\xff"
SPOKEN = b"220 hello\r\n"
METHODS_BEGUN = (b"GET ", b"HEAD ", b"POST ", b"PUT ", b"DELETE ", b"OPTIONS ", b"TRACE ", b"PATCH ")
# Bytes of a name that is no host, whatever else it has (RFC 3986 section 3.2.2).
NO_HOST = re.compile(rb"[^A-Za-z0-9\-._~!$&'()*+,;=%]|%(?![0-9A-Fa-f]{2})")
# The system may take a port from here on for a client that dials, which then may meet itself.
EPHEMERAL = 16_000


def answer(code):
    return bytes((5, code, 0, 1)) + bytes(6)


STANDS, FAILED, NO_COMMAND, NO_TYPE = map(answer, (0, 1, 7, 8))


def has_ipv6():
    """Whether a server can listen at ::1 here."""
    try:
        socket.create_server(("::1", 0), family=socket.AF_INET6).close()
    except OSError:
        return False
    return True


# Addresses, with their types in front, and hosts as they are printed.

def named(name):
    return b"\x03" + bytes((len(name),)) + name


def of_four(*numbers):
    return b"\x01" + bytes(numbers)


def of_sixteen(text):
    return b"\x04" + socket.inet_pton(socket.AF_INET6, text)


LOCAL = ((of_four(127, 0, 0, 1), b"127.0.0.1"), (named(b"127.0.0.1"), b"127.0.0.1"))
SIX = (of_sixteen("::1"), b"[0:0:0:0:0:0:0:1]")
LOOKED_UP = (named(b"localhost"), b"localhost")


def places(looks_up):
    """Each way to the servers of a round; a name is looked up, which takes memory."""
    return LOCAL + ((SIX,) if has_ipv6() else ()) + ((LOOKED_UP,) if looks_up else ())


def request(address, port, command=b"\x05\x01\x00"):
    return command + address + port.to_bytes(2, "big")


def greeting(rng):
    """One with 00 among its methods."""
    if rng.random() < 0.4:
        return HELLO
    methods = bytearray(rng.randbytes(rng.choice((1, 2, 3, 9, 255))))
    methods[rng.randrange(len(methods))] = 0
    return bytes((5, len(methods))) + bytes(methods)


def refused(rng):
    """Texts that are answered by a refusal, a close or nothing at once at their last byte, and what is said to them: of a greeting and of a request."""
    hello, (address, _) = greeting(rng), rng.choice(places(False))
    without = bytes(rng.randrange(1, 256) for _ in range(rng.choice((0, 1, 2, 255))))
    other = rng.choice([byte for byte in range(256) if byte not in (0, 1, 3, 4, 5)])
    name = rng.choice((b"", b"a b", b"h:80", b"::1", b"a@h", b"http://h/", b"h/", b"\xc3\xa4", b"h\0", b"h%4", b"h\r\n", b"[::1", b"x" * 254 + b"\xff"))
    way = rng.randrange(10)
    if way == 0:
        return rng.choice((b"\x04", b"\0", b"\x06", b"G", b"\x16", b"\xff")), b"", b"", b""
    if way == 1:
        return bytes((5, len(without))) + without, NO_METHOD, b"", b""
    return (hello, WELCOME, *(
        (bytes((other,)), FAILED), (bytes((5, rng.choice((0, 2, 3, other)))), NO_COMMAND), (bytes((5, 1, rng.choice((1, 5, other)))), FAILED),
        (bytes((5, 1, 0, rng.choice((0, 2, 5, other)))), NO_TYPE), (request(named(name), SERVER), FAILED), (request(address, 0), FAILED), (request(address, NOBODY), FAILED),
        (request(rng.choice((address, of_four(0, 0, 0, 0), of_sixteen("::ffff:127.0.0.1"))), rng.choice((PROXY, CONTROL))[1]), FAILED),
    )[way - 2])


# Mutated ones.

NAMES = (
    b"", b"a b", b"h:80", b"[::1]", b"[::]", b"[v1.x]", b"[", b"u@127.0.0.1", b"127.0.0.1\0", b"12%37.0.0.1", b"\xe4", b"localhost.", b"LOCALHOST", b"0x7f.1", b"127.1", b"2130706433", b"0.0.0.0",
    b"::1", b"no.such.name.invalid", b"-", b".", b"..", b"a" * 63 + b".b", b"a" * 255, b"a." * 127, b"127.0.0.1/f/m0/0", b"127.0.0.1\r\nX: y", b"*", b"%00", b"xn--a",
)
ADDRESSES = (
    of_four(0, 0, 0, 0), of_four(127, 0, 0, 2), of_four(255, 255, 255, 255), of_four(224, 0, 0, 1), of_four(10, 0, 0, 1), of_sixteen("::"), of_sixteen("::ffff:127.0.0.1"), of_sixteen("fe80::1"),
    of_sixteen("2001:db8::1"), of_sixteen("ff02::1"), of_sixteen("::127.0.0.1"),
)
SAYS_WHO = b"\x01\x04user\x04word"


def first_texts(rng):
    """A greeting and a request, mostly as they should be, and to a server of the round."""
    hello, address = greeting(rng), rng.choice(places(True))[0]
    asks = request(address, rng.choice((SERVER,) * 5 + (SPEAKER,)))
    if rng.random() < 0.6:
        return hello, asks
    way = rng.randrange(9)
    if way == 0:
        hello = rng.choice((
            b"\x05\x00", b"\x05\x02\x01\x02", b"\x05\xff" + bytes(range(1, 256)), b"\x05\xff" + bytes(255), HELLO * 2, HELLO + SAYS_WHO, b"\x05\x02\x00\x02" + SAYS_WHO, b"\x05\x01\x02" + SAYS_WHO,
            bytes((rng.randrange(256),)) + HELLO[1:], b"\x04\x01\x23\xf1\x7f\x00\x00\x01user\x00", b"\x04\x01\x23\xf1\x00\x00\x00\x01\x00127.0.0.1\x00", b"GET / HTTP/1.1\r\n\r\n", b"\x05", b"",
        ))
    elif way == 1:
        asks = request(address, SERVER, rng.choice((b"\x05\x02\x00", b"\x05\x03\x00", b"\x05\x00\x00", b"\x05\xf0\x00", b"\x04\x01\x00", b"\x01\x01\x00", b"\x05\x01\x01", b"\x05\x01\xff", b"")))
    elif way == 2:
        asks = request(bytes((rng.randrange(256),)) + address[1:], SERVER)
    elif way in (3, 4):
        asks = request(named(rng.choice(NAMES)), rng.choice((SERVER, SERVER, 80)))
    elif way == 5:
        asks = request(rng.choice(ADDRESSES), rng.choice((SERVER, PROXY[1], CONTROL[1])))
    elif way == 6:
        asks = request(address, rng.choice((0, 1, NOBODY, PROXY[1], CONTROL[1], CONTROL[1], 255, 256, 65_535)))
    elif way == 7:
        hello, asks = (flips(rng, hello), asks) if rng.random() < 0.4 else (hello, flips(rng, asks))
    else:
        hello, asks = (mutate(rng, hello), asks) if rng.random() < 0.4 else (hello, mutate(rng, asks))
    return hello, asks


# What is to come of it.

def may_be_host(name):
    """Whether it is one, but that none in brackets is judged here."""
    return name.startswith(b"[") or bool(name) and not NO_HOST.search(name)


def heard(text):
    """What a client that says this is told in front of a dial, whether it is closed then, and what is dialled: the host, the port, and where the text behind the request begins, or None."""
    if text[:1] != b"\x05":
        return b"", bool(text), None
    at = 2 + text[1] if len(text) > 1 else 2
    if len(text) < at:
        return b"", False, None
    if 0 not in text[2:at]:
        return NO_METHOD, True, None
    for place, (good, code) in enumerate((((5,), 1), ((1,), 7), ((0,), 1), ((1, 3, 4), 8)), at):
        if place >= len(text):
            return WELCOME, False, None
        if text[place] not in good:
            return WELCOME + answer(code), True, None
    kind, at = text[at + 3], at + 4
    if kind == 3:
        size, at = text[at] if at < len(text) else 255, at + 1
    else:
        size = 4 if kind == 1 else 16
    end = at + size + 2
    if len(text) < end:
        return WELCOME, False, None
    host, port = host_of(kind, text[at:at + size]), int.from_bytes(text[end - 2:end], "big")
    if port == 0 or not may_be_host(host):
        return WELCOME + FAILED, True, None
    return WELCOME, False, (host, port, end)


def host_of(kind, address):
    """As it is written in URLs and lines."""
    if kind == 1:
        return b".".join(b"%d" % byte for byte in address)
    if kind == 3:
        return address
    return b"[" + b":".join(b"%x" % int.from_bytes(address[at:at + 2], "big") for at in range(0, 16, 2)) + b"]"


def codes_of(host, port, may_fail):
    """The answers that its dial may have: only the servers of a round listen in its network, at their ports, and `may_fail` where little is left to dial with."""
    if port in (SERVER, SPEAKER):
        return (0,) if host in (host for _, host in places(True)) and not may_fail else (0, 1)
    return (0, 1) if port >= EPHEMERAL else (1,)


def wrong_socks(text, got, heads, is_cut, streams=False, was_closed=False, may_fail=False):
    """What is wrong with what a client that said this text got. `is_cut`: it did not read to the end; `streams`: responses may end early; `was_closed`: the program closed it, and by
    nothing but what it said."""
    said, is_over, dialled = heard(text)
    if dialled is None:
        if not (said.startswith(got) if is_cut else said == got):
            return f"{len(got)} bytes, and not {said!r}"
        return "it was closed, and what it says first is not whole" if was_closed and not is_over else None
    host, port, at = dialled
    codes = codes_of(host, port, may_fail)
    front = [WELCOME + answer(code) for code in codes]
    told = next((one for one in front if got.startswith(one)), None)
    if told is None:
        return None if is_cut and any(one.startswith(got) for one in front) else f"no answer to a request for {host!r:.200} port {port}, but {codes} may be"
    if told[3]:
        return None if got == told else "more behind a refusal"
    return wrong_behind(text[at:], got[len(told):], port, heads, is_cut or streams)


def wrong_behind(text, got, port, heads, is_cut):
    """The same behind answer 0: HTTP is judged, and what is sent back of raw bytes; what else a raw tunnel has is not."""
    if port == SPEAKER and got:
        if SPOKEN.startswith(got[:len(SPOKEN)]):
            return wrong_echo(text, got[len(SPOKEN):])
    if METHOD.match(text):
        return wrong_responses(got, heads, is_cut)
    if any(method.startswith(text) for method in METHODS_BEGUN):
        return f"an answer to {text!r}" if got else None
    return wrong_echo(text, got)


def wrong_echo(text, got):
    """(of a text that says how many bytes are sent back)"""
    size = re.match(rb"RAW ([0-9a-f]{8})\n", text)
    if size and not text[13:13 + int(size[1], 16)].startswith(got):
        return f"{len(got)} bytes that are not sent back as they came"
    return None
