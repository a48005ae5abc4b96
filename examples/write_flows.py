#!/usr/bin/env python3
"""Writes a flow file with one flow to standard output, by Python's standard library alone: the other side of read_flows.py.

Every key of the tables of docs/flow-files.md is filled, the body has all byte values, and behind the tables stand two pairs that the
proxy keeps as they are.

    write_flows.py        in version 2, which the proxy writes
    write_flows.py 1      in version 1, which tells no messages of a WebSocket
"""

import sys


def item(payload: bytes, tag: bytes) -> bytes:
    return str(len(payload)).encode() + b":" + payload + tag


def written(value: object) -> bytes:
    if value is None:
        return item(b"", b"~")
    if isinstance(value, bool):
        return item(b"true" if value else b"false", b"!")
    if isinstance(value, int):
        return item(str(value).encode(), b"#")
    if isinstance(value, float):
        return item(repr(value).encode(), b"^")
    if isinstance(value, bytes):
        return item(value, b",")
    if isinstance(value, str):
        return item(value.encode(), b";")
    if isinstance(value, list):
        return item(b"".join(map(written, value)), b"]")
    return item(b"".join(written(key) + written(inner) for key, inner in value.items()), b"}")


MESSAGES = [
    {"from_client": True, "text": True, "content": b"Hello", "timestamp": 5, "dropped": False},
    {"from_client": False, "text": False, "content": b"\x00\xff", "timestamp": 6, "dropped": True},
]

FLOW = {
    "version": 2,
    "type": "http",
    "id": "0.0",
    "client_conn": {"address": [b"127.0.0.1", 40000]},
    "server_conn": {"address": [b"h", 80]},
    "request": {
        "http_version": b"HTTP/1.1",
        "headers": [[b"Host", b"h"], [b"A", b""]],
        "content": bytes(range(256)),
        "trailers": [[b"T", b"1"]],
        "timestamp_start": 1,
        "timestamp_end": 2,
        "host": b"h",
        "port": 80,
        "method": b"POST",
        "scheme": b"http",
        "authority": b"",
        "path": b"/a?b",
    },
    "response": {
        "http_version": b"HTTP/1.0",
        "status_code": 200,
        "reason": b"OK",
        "headers": [],
        "content": None,
        "trailers": None,
        "timestamp_start": 3,
        "timestamp_end": None,
    },
    "error": {"msg": b"reset", "timestamp": 4},
    "is_replay": "response",
    "marked": True,
    "websocket": {"messages": MESSAGES},
    b"x": 1.5,
    "comment": "kept",
}


def in_version_1(flow: dict) -> dict:
    """The flow as version 1 has it: whether it was a WebSocket, and none of its messages."""
    return {**flow, "version": 1, "websocket": flow["websocket"] is not None}


if __name__ == "__main__":
    sys.stdout.buffer.write(written(in_version_1(FLOW) if sys.argv[1:] == ["1"] else FLOW))
