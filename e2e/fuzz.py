"""The fuzzer: rounds, each from a seed that is printed. See e2e/fuzz for the words."""
import argparse
import os
import signal
import socket
import sys
import tempfile
import time

from fuzz_files import file_round
from fuzz_refused import refused_round
from fuzz_round import MODES, Round
from fuzz_talks import random_of
from tools import MITM, raise_limit, raise_loopback


ALL = (*MODES, "files", "refused")
# So much of a finding is printed; all of it is kept.
SHOWN = 1500


def is_apart():
    """Whether this network is our own: it has a loopback alone."""
    return [name for _, name in socket.if_nameindex()] == ["lo"]


def words():
    parser = argparse.ArgumentParser(prog="e2e/fuzz", description="Fuzzes mitm.")
    parser.add_argument("--seed", type=int, help="the seed of the first round; the next ones count on (a random one)")
    parser.add_argument("--seconds", type=int, default=600, help="for how long rounds are begun (600)")
    parser.add_argument("--modes", default=",".join(ALL), help=f"of which modes ({','.join(ALL)})")
    parser.add_argument("--end", help="how each round ends: quit, early, events, memory or descriptors (by its seed)")
    parser.add_argument("--once", action="store_true", help="one round")
    parser.add_argument("--keep", help="where findings are kept (a folder of their own)")
    return parser.parse_args()


def play(seed, modes, end, keep):
    """One round: its name, its findings, and some facts."""
    # (files and refused memory have a turn in six)
    mode = random_of(seed, "mode").choice([mode for mode in modes for _ in range(4 if mode in MODES else 1)])
    if mode == "files":
        return "files", file_round(seed, os.path.join(keep, str(seed))), {}
    if mode == "refused":
        return mode, *refused_round(seed)
    played = Round(seed, mode, end)
    return f"{mode} {played.end_by}", played.play(os.path.join(keep, str(seed))), played.facts


def main():
    for number in (signal.SIGTERM, signal.SIGHUP):
        signal.signal(number, lambda number, _: sys.exit(f"fuzz: ended by signal {number}"))
    asked = words()
    raise_loopback()
    raise_limit()
    if not is_apart():
        sys.exit("fuzz: it needs a network of its own (unshare -n), since mutated addresses are dialled: nothing was tried")
    seed = int.from_bytes(os.urandom(4), "big") if asked.seed is None else asked.seed
    keep = asked.keep or os.path.join(tempfile.gettempdir(), "mitm-fuzz")
    print(f"fuzz: {MITM}, from seed {seed}", flush=True)
    begun, count, found, sums = time.time(), 0, 0, {}
    while count == 0 or not asked.once and time.time() < begun + asked.seconds:
        name, findings, facts = play(seed + count, asked.modes.split(","), asked.end, keep)
        print(f"fuzz: seed {seed + count}: {name}: {len(findings)} found {facts or ''}", flush=True)
        for finding in findings:
            print(f"fuzz: found by seed {seed + count}: {finding[:SHOWN]}", flush=True)
        if findings:
            mode = name.split(" ")
            print(f"fuzz: again: e2e/fuzz --once --seed {seed + count} --modes {mode[0]}{''.join(' --end ' + end for end in mode[1:])}; kept in {keep}/{seed + count}", flush=True)
        found += len(findings)
        count += 1
        for key in ("lines", "requests", "honest"):
            sums[key] = sums.get(key, 0) + facts.get(key, 0)
        sums["slowest"] = max(sums.get("slowest", 0), facts.get("slowest", 0))
    print(f"fuzz: {count} rounds from seed {seed}, {time.time() - begun:.0f} s, {found} found; {sums}")
    sys.exit(found != 0)


if __name__ == "__main__":
    main()
