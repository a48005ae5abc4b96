#!/usr/bin/env python3
"""Prints a line for each flow of a flow file: method, URL, status, and the sizes of the two bodies; and under it one for each message of its
WebSocket: who sent it, whether it is text or binary, and its payload, a text in quotes and else in hexadecimal.

The file is a run of tnetstrings, a dictionary for each flow; docs/flow-files.md has the format. This program is a reader of its own, on
Python's standard library alone, and shows that a flow file can be read without the proxy.

    read_flows.py FILE
"""

import sys


class BadFile(Exception):
    """No tnetstring, or one that is no flow, stands at the offset."""


def read_item(data: bytes, start: int) -> tuple[object, int]:
    """The item that begins at `start`, and where it ends. A dictionary's keys are text, whether they are written as bytes or as a text."""
    colon = data.find(b":", start, start + 10)
    digits = data[start:colon]
    if colon < 0 or not digits.isdigit() or (digits[:1] == b"0" and digits != b"0"):
        raise BadFile(f"no length at {start}")
    end = colon + 1 + int(digits)
    if end >= len(data):
        raise BadFile(f"cut at {start}")
    return value_of(data[colon + 1 : end], data[end : end + 1]), end + 1


def value_of(payload: bytes, tag: bytes) -> object:
    if tag == b",":
        return payload
    if tag == b";":
        return payload.decode("utf-8")
    if tag == b"#":
        return int(payload)
    if tag == b"^":
        return float(payload)
    if tag == b"!":
        return payload == b"true"
    if tag == b"~":
        return None
    if tag == b"]":
        return items_of(payload)
    if tag == b"}":
        items = items_of(payload)
        names = [name.decode() if isinstance(name, bytes) else name for name in items[::2]]
        return dict(zip(names, items[1::2]))
    raise BadFile(f"no kind {tag!r}")


def items_of(payload: bytes) -> list:
    items, place = [], 0
    while place < len(payload):
        item, place = read_item(payload, place)
        items.append(item)
    return items


def size(message: dict | None) -> str:
    """How many bytes the body has; `-` where it passed by or where there is no message."""
    if message is None or message["content"] is None:
        return "-"
    return str(len(message["content"]))


def line_of(flow: dict) -> str:
    if flow["version"] not in (1, 2) or flow["type"] != "http":
        raise BadFile("another version or type")
    request, response = flow["request"], flow["response"]
    port = "" if request["port"] == 80 else f":{request['port']}"
    host, path = request["host"].decode("latin-1"), request["path"].decode("latin-1")
    url = f"http://{host}{port}{path}"
    status = "-" if response is None else str(response["status_code"])
    return " ".join([request["method"].decode("latin-1"), url, status, size(request), size(response)])


def messages_of(flow: dict) -> list[dict]:
    """The messages of its WebSocket, in their order; version 1 tells none."""
    if flow["version"] == 1 or flow["websocket"] is None:
        return []
    return flow["websocket"]["messages"]


def message_line(message: dict) -> str:
    sender = "client" if message["from_client"] else "server"
    content = message["content"]
    shown = f"text {content.decode('utf-8', 'backslashreplace')!a}" if message["text"] else f"binary {content.hex(' ')}"
    return f"    {sender} {shown}{' dropped' if message['dropped'] else ''}"


def main() -> int:
    with open(sys.argv[1], "rb") as file:
        data = file.read()
    place = 0
    while place < len(data):
        flow, behind = read_item(data, place)
        print(line_of(flow), *map(message_line, messages_of(flow)), sep="\n")
        place = behind
    return 0


if __name__ == "__main__":
    sys.exit(main())
