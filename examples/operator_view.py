#!/usr/bin/env python3
"""A view of a run's live flows in a terminal: those that wait are let go on, killed, or opened in $EDITOR by a key.

It says lines at the run's control door as any client of it (docs/operator.md). It is a convenience on Python's standard library alone, and
no part of what is proved.

    operator_view.py [HOST:PORT]
"""

import curses
import json
import sys
import time
from collections.abc import Callable
from dataclasses import dataclass, field

sys.dont_write_bytecode = True
from operator_edit import PLACE, Door, Message, Refused, by_editor, edit, message_of, told

KEYS = {
    "a": "lets the flow under the cursor go on",
    "A": "lets all go on that are live now, until none of them waits",
    "e": "opens the one under the cursor in $EDITOR, where it waits, and says what was changed there",
    "X": "kills the flow under the cursor",
    "m": "marks it",
    "j, k": "and the arrows move the cursor",
    "?": "shows these keys, or the flows again",
    "q": "leaves; the run goes on",
}
SHORT = "a resume   A resume all   e edit   X kill   m mark   ? keys   q leave"
WORDS = {"a": "resume", "X": "kill", "m": "mark"}
# How often it looks, how long a flow that is finished stays in view, and how long none of those that are let go on has to wait, in seconds.
LOOK, STAY, CALM = 0.5, 3.0, 1.0


def printable(text: str) -> str:
    """The text, with `?` for each character that would steer the terminal."""
    return "".join(one if one.isprintable() else "?" for one in text)


@dataclass
class Flow:
    """A flow as it is in view: its state, its method and URL as they were when it was drawn first, and what was made of it here where it waited so."""

    state: str
    began: float
    ended: float | None = None
    marked: bool = False
    about: str | None = None
    edited: tuple[str, bytes, Message] | None = None

    def line(self, name: str, cursor: str, width: int, now: float) -> str:
        minutes, seconds = divmod(int((self.ended or now) - self.began), 60)
        return f"{cursor} {name:{width}}  {self.state:8} {'*' if self.marked else ' '} {minutes:3}:{seconds:02}  {self.about or ''}"


@dataclass
class View:
    """What is in view: the flows by their IDs, the one under the cursor, what the last key was answered, and those that are let go on."""

    place: str
    door: Door
    editor: Callable[[bytes], bytes] = by_editor
    flows: dict[str, Flow] = field(default_factory=dict)
    chosen: str = ""
    said: list[str] = field(default_factory=list)
    released: set[str] = field(default_factory=set)
    calm_since: float = 0.0
    shows_keys: bool = False

    def look(self, now: float) -> None:
        """Takes what is live now. A flow that is no more stays for a moment."""
        live = self.door.flows()
        for name, state in live.items():
            self.flows.setdefault(name, Flow(state, now)).state = state
        for name, flow in self.flows.items():
            if name not in live and flow.ended is None:
                flow.state, flow.ended = "finished", now
        names = sorted(self.flows, key=lambda name: [int(part) for part in name.split(".")])
        self.flows = {name: self.flows[name] for name in names if self.flows[name].ended is None or now - self.flows[name].ended < STAY}
        if self.chosen not in self.flows:
            behind = names[names.index(self.chosen) if self.chosen in names else 0 :]
            self.chosen = next((name for name in [*behind, *reversed(names)] if name in self.flows), "")
        self.release(now)

    def release(self, now: float) -> None:
        """Lets go on what waits of all that was live at the key, until none of it has waited for a moment."""
        waiting = [name for name in self.released if name in self.flows and self.flows[name].state == "waiting"]
        for name in waiting:
            if self.door.ask(f"resume {name}") == "ok":
                self.flows[name].state = "going"
        if waiting:
            self.calm_since = now
        elif now - self.calm_since >= CALM:
            self.released = set()

    def about(self, name: str) -> str:
        """The method and URL of a flow, which are asked for once."""
        flow = self.flows[name]
        if flow.about is None and flow.ended is None:
            try:
                shown = json.loads(self.door.ask(f"show {name}"))
                flow.about = printable(f"{shown['method']:7} {shown['url']}")
                flow.marked = flow.marked or shown["marked"]
            except ValueError:
                flow.about = ""
        return flow.about or ""

    def key(self, key: str, now: float) -> None:
        """What a key does; a key is for the flow that was drawn under the cursor."""
        names = list(self.flows)
        move = (key == "j") - (key == "k")
        if key == "?":
            self.shows_keys = not self.shows_keys
        elif move and names:
            self.chosen = names[max(0, min(names.index(self.chosen) + move, len(names) - 1))]
        elif key == "A":
            self.released, self.calm_since = {name for name, flow in self.flows.items() if flow.ended is None}, now
            self.said = [f"resume all of {len(self.released)}"]
        elif key == "e" and self.chosen:
            self.edit(self.chosen)
        elif key in WORDS and self.chosen:
            answer = self.door.ask(f"{WORDS[key]} {self.chosen}")
            self.flows[self.chosen].marked |= key == "m" and answer == "ok"
            self.said = [f"{WORDS[key]} {self.chosen}: {answer}"]

    def edit(self, name: str) -> None:
        """Opens a flow that waits in the editor, as the last edit here left it where it waits as it did then."""
        flow = self.flows[name]
        if flow.state != "waiting":
            self.said = [f"edit {name}: not waiting"]
            return
        try:
            shown, entry = self.door.ask(f"show {name}"), self.door.entry(name)
            before = flow.edited[2] if flow.edited and flow.edited[:2] == (shown, entry) else message_of(entry)
            after, said = edit(self.door, name, before, self.editor)
            flow.edited, self.said = (shown, entry, after), told(name, said)
        except Refused as why:
            self.said = [printable(f"edit {name}: {why}")]

    def lines(self, height: int, width: int, now: float) -> list[str]:
        """What is drawn: the flows around the chosen one, what is shown of that, the keys, and what the last key was answered."""
        if self.shows_keys:
            return [*(f"{key:6} {meaning}" for key, meaning in KEYS.items()), "", "The time of a flow is since it was seen here first, and * in front of it is its mark."]
        live = [flow for flow in self.flows.values() if flow.ended is None]
        waiting = sum(flow.state == "waiting" for flow in live)
        shown = ""
        if self.chosen and self.flows[self.chosen].ended is None:
            shown = printable(self.door.ask(f"show {self.chosen}"))
        foot = [SHORT, *(self.said or [""])[-max(height - 6, 1) :]]
        about = [shown[at : at + width - 1] for at in range(0, len(shown), width - 1)][: max(height - 5 - len(foot), 0)]
        names, room = list(self.flows), max(height - 3 - len(foot) - len(about), 1)
        first = max(0, names.index(self.chosen) - room + 1) if self.chosen else 0
        drawn = names[first : first + room]
        for name in drawn:
            self.about(name)
        wide = max(map(len, drawn), default=0)
        rows = [self.flows[name].line(name, ">" if name == self.chosen else " ", wide, now) for name in drawn]
        return [f"{self.place}: {len(live)} live, {waiting} waiting", "", *rows, "", *about, *foot]


def draw(screen: curses.window, lines: list[str]) -> None:
    height, width = screen.getmaxyx()
    screen.erase()
    for row, text in enumerate(lines[:height]):
        screen.addnstr(row, 0, text, width - 1)
    screen.refresh()


def run(screen: curses.window, place: str, door: Door) -> None:
    """Looks and draws twice a second, and behind each key."""

    def editor(text: bytes) -> bytes:
        """Has the editor use the terminal meanwhile."""
        curses.def_prog_mode()
        curses.endwin()
        try:
            return by_editor(text)
        finally:
            curses.reset_prog_mode()
            screen.redrawwin()

    view, arrows = View(place, door, editor), {curses.KEY_DOWN: "j", curses.KEY_UP: "k"}
    screen.timeout(int(LOOK * 1000))
    while True:
        now = time.monotonic()
        view.look(now)
        draw(screen, view.lines(*screen.getmaxyx(), now))
        code = screen.getch()
        key = arrows.get(code) or (chr(code) if 0 <= code < 256 else "")
        if key == "q":
            return
        view.key(key, time.monotonic())


def main() -> None:
    place = sys.argv[1] if len(sys.argv) > 1 else PLACE
    try:
        door = Door(place)
    except (OSError, ValueError) as why:
        sys.exit(f"{place}: {why}")
    try:
        curses.wrapper(run, place, door)
    except (EOFError, OSError):
        sys.exit("the run has ended")


if __name__ == "__main__":
    main()
