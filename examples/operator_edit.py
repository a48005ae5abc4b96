#!/usr/bin/env python3
"""Opens a flow that waits in $EDITOR, and says what was changed there as lines `edit` at a run's control door.

The text has a start line, fields, an empty line and the body, whose end is the text's end without its last line feed; of a WebSocket's message it has the
payload alone. A body that is no text stays, unless something else is written in the place of the line that stands for it. What was changed shows when the
flow goes on, by a line `resume` (docs/operator.md): so the text is the flow as it began to wait, also where it is opened again.

It is a convenience on Python's standard library alone, and no part of what is proved. **It shows passwords, cookies and tokens.**

    operator_edit.py ID [HOST:PORT]
"""

import base64
import os
import re
import shlex
import socket
import subprocess
import sys
import tempfile
from collections.abc import Callable, Iterator
from dataclasses import dataclass, replace

sys.dont_write_bytecode = True
import show

PLACE = "127.0.0.1:8081"
# The bytes of a line at most, without its line feed.
LINE = 1023
# The words of a start line that lines change, by their places.
CHANGED = {"request": {"method": 0, "url": 1}, "response": {"status": 1}, "message": {}}

Fields = tuple[tuple[str, str], ...]


class Refused(Exception):
    """Why nothing is said."""


class Door:
    """A connection at the control door."""

    def __init__(self, place: str) -> None:
        host, port = place.rsplit(":", 1)
        self.stream = socket.create_connection((host.strip("[]"), int(port))).makefile("rwb")

    def ask(self, words: str) -> str:
        """Says a line: the first line that it is answered."""
        self.stream.write(words.encode("latin-1") + b"\n")
        self.stream.flush()
        return self.read().decode()

    def read(self) -> bytes:
        answer = self.stream.readline()
        if not answer.endswith(b"\n"):
            raise EOFError
        return answer[:-1]

    def flows(self) -> dict[str, str]:
        """The live flows in their order: whether each is waiting or going."""
        found, answer = {}, self.ask("list")
        while answer != "end":
            name, state = answer.split(" ")
            found[name], answer = state, self.read().decode()
        return found

    def entry(self, name: str) -> bytes:
        """The entry of a flow, put together from its parts, of which each may end in the middle of a character."""
        whole, part = b"", None
        while part != b"":
            self.stream.write(f"entry {name} {len(whole)}\n".encode())
            self.stream.flush()
            part = self.read()
            if part == b"no such flow":
                raise Refused("no such flow")
            whole += part
        return whole


# ---- the message as a text


@dataclass(frozen=True)
class Message:
    """With what a flow waits: each character of the start line and of the fields stands for a byte."""

    kind: str
    start: tuple[str, ...]
    fields: Fields
    body: bytes


def message_of(entry: bytes) -> Message:
    """The message that waits, of a flow's entry."""
    try:
        found = show.entries_of(entry)[0]
    except show.Refused as why:
        raise Refused(str(why)) from None
    request, response = found["request"], found["response"]
    if "message" in found:
        return Message("message", (), (), found["message"])
    if response["status"] == 0:
        return Message("request", (request["method"], request["url"], request["httpVersion"]), fields_of(request), show.body_of_request(request))
    start = (response["httpVersion"], str(response["status"]), response["statusText"])
    return Message("response", start, fields_of(response), show.body_of_response(response))


def fields_of(message: dict) -> Fields:
    return tuple((name, value.strip(" \t")) for name, value in show.fields_of(message))


def shown_body(body: bytes) -> bytes:
    """A body that is a text, or the line that stands for it."""
    return body if show.text_of(body, "") is not None else b"(%d bytes that are no text; they stay, unless this line is replaced)" % len(body)


def written(message: Message) -> bytes:
    """The text to edit. Editors put a line feed at a text's end: so one stands there, and is none of the body."""
    lines = [] if message.kind == "message" else [" ".join(message.start), *(f"{name}: {value}" for name, value in message.fields), ""]
    return "".join(f"{line}\n" for line in lines).encode("latin-1") + shown_body(message.body) + b"\n"


def read(text: bytes, before: Message) -> Message:
    """The message that an edited text says, in the place of this one."""
    head, body = b"", text
    if before.kind != "message":
        head, body = (*re.split(rb"\n\r?\n", text, maxsplit=1), b"")[:2]
    body = body.removesuffix(b"\n")
    first, *lines = head.decode("latin-1").removesuffix("\n").split("\n")
    fields = tuple(field_of(line) for line in lines)
    return Message(before.kind, start_of(first, before), fields, before.body if body == shown_body(before.body) else body)


def start_of(line: str, before: Message) -> tuple[str, ...]:
    """The words of a start line. A version stays, and a reason is that of its code."""
    if before.kind == "message":
        return ()
    words = line.rstrip("\r").split(" ")
    if before.kind == "response":
        words = [*words[:2], before.start[2]]
    stays = [place for place in range(3) if place not in CHANGED[before.kind].values()]
    if len(words) != 3 or any(words[place] != before.start[place] for place in stays):
        raise Refused(f"no start line: {line[:100]}")
    return tuple(words)


def field_of(line: str) -> tuple[str, str]:
    name, colon, value = line.partition(":")
    if not colon:
        raise Refused(f"no field: {line[:100]}")
    return name, value.strip(" \t\r")


# ---- what was changed, as lines


@dataclass(frozen=True)
class Step:
    """A change: its words behind the ID, the bytes that it gives, and the message behind it."""

    words: str
    given: bytes | None
    behind: Message

    def lines(self, name: str) -> list[str]:
        """The lines that say it, none longer than a line may be."""
        first, more = f"edit {name} {self.words}", f"edit {name} more "
        rest = self.given or b""
        if self.given is not None and self.words != "body":
            room = room_behind(first + " ")
            first, rest = f"{first} {in_base64(rest[:room])}", rest[room:]
        room = room_behind(more)
        lines = [first, *(more + in_base64(rest[at : at + room]) for at in range(0, len(rest), room))]
        if max(map(len, lines)) > LINE:
            raise Refused(f"longer than a line may be: {first[:100]}")
        return lines


def room_behind(words: str) -> int:
    """How many bytes fit behind these words in a line, in base64."""
    return max(LINE - len(words), 0) // 4 * 3


def in_base64(value: bytes) -> str:
    return base64.b64encode(value).decode()


def steps(before: Message, after: Message) -> Iterator[Step]:
    """The changes that make the one of the other."""
    for word, place in CHANGED[before.kind].items():
        if before.start[place] != after.start[place]:
            before = replace(before, start=(*before.start[:place], after.start[place], *before.start[place + 1 :]))
            yield Step(f"{word} {after.start[place]}", None, before)
    for word, (name, value) in field_changes(before.fields, after.fields):
        before = replace(before, fields=changed(before.fields, word, (name, value)))
        yield Step(f"{word} {name}", None if word == "remove" else value.encode("latin-1"), before)
    if before.body != after.body:
        yield Step("body", after.body, after)


def field_changes(before: Fields, after: Fields) -> list[tuple[str, tuple[str, str]]]:
    """The changes of fields, each by its word: name by name, or all anew where their order would be another one."""
    found, made = [], before
    for name in dict.fromkeys(name.lower() for name, _ in before + after):
        had, has = ([field for field in fields if field[0].lower() == name] for fields in (before, after))
        if had == has:
            continue
        words = ["add"] * len(has) if not had else ["set", *["add"] * (len(has) - 1)] if has else ["remove"]
        found += list(zip(words, has or had))
    for word, field in found:
        made = changed(made, word, field)
    if made == after:
        return found
    return [("remove", (name, "")) for name in dict.fromkeys(name.lower() for name, _ in before)] + [("add", field) for field in after]


def changed(fields: Fields, word: str, field: tuple[str, str]) -> Fields:
    """The fields behind a change, as docs/rules.md says."""
    if word == "add":
        return (*fields, field)
    others = tuple(one for one in fields if one[0].lower() != field[0].lower())
    if word == "remove":
        return others
    first = next((place for place, one in enumerate(fields) if one not in others), len(fields))
    return (*others[:first], field, *others[first:])


def say(door: Door, name: str, before: Message, after: Message) -> tuple[Message, list[tuple[str, str]]]:
    """Says what was changed, up to the first line that is refused: the message behind that, and each change with its answer."""
    said, answer = [], "ok"
    for step, lines in [(step, step.lines(name)) for step in steps(before, after)]:
        count = 0
        while answer == "ok" and count < len(lines):
            answer, count = door.ask(lines[count]), count + 1
        said.append((step.words + (f", in {count} lines" if count > 1 else ""), answer))
        if answer != "ok":
            break
        before = step.behind
    return before, said


def told(name: str, said: list[tuple[str, str]]) -> list[str]:
    """The lines that tell people of it."""
    return [show.printable(f"edit {name} {words}: {answer}") for words, answer in said] or ["nothing was changed"]


# ---- the editor


def by_editor(text: bytes) -> bytes:
    """What $EDITOR, or vi, makes of a text, in a file that nobody else can read."""
    with tempfile.TemporaryDirectory() as folder:
        path = os.path.join(folder, "flow")
        with open(path, "wb") as file:
            file.write(text)
        try:
            ended = subprocess.run([*shlex.split(os.environ.get("EDITOR") or "vi"), path]).returncode
            with open(path, "rb") as file:
                text = file.read()
        except (OSError, ValueError) as why:
            raise Refused(f"the editor: {why}") from None
    if ended != 0:
        raise Refused(f"nothing was changed: the editor ended with status {ended}")
    return text


def edit(door: Door, name: str, before: Message, editor: Callable[[bytes], bytes] = by_editor) -> tuple[Message, list[tuple[str, str]]]:
    """Has a flow that waits edited, from this message on: the message that it has then, and each change with its answer."""
    return say(door, name, before, read(editor(written(before)), before))


def main(words: list[str]) -> int:
    if len(words) not in (1, 2) or not re.fullmatch(r"\d+\.\d+", words[0]):
        print(__doc__.strip().rsplit("\n", 1)[-1].strip(), file=sys.stderr)
        return 1
    name, place = words[0], words[1] if len(words) > 1 else PLACE
    try:
        door = Door(place)
        state = door.flows().get(name, "no such flow")
        if state != "waiting":
            raise Refused("not waiting" if state == "going" else state)
        _, said = edit(door, name, message_of(door.entry(name)))
    except (EOFError, OSError, ValueError, Refused) as why:
        print(why if str(why) else "the run has ended")
        return 1
    print("\n".join(told(name, said)))
    return 0 if all(answer == "ok" for _, answer in said) else 1


if __name__ == "__main__":
    sys.exit(main(sys.argv[1:]))
