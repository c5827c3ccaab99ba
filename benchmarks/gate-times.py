"""Runs a command, as `rt ci`, and prints how long each crate took: a table of minutes for docs/BENCHMARKS.md.

    python3 benchmarks/gate-times.py rt ci > gate.md

What the command writes goes to standard error. The log of `rt ci` says when a crate is done and not when it was begun,
so the processes of the command are looked at each second: those of the prover have the crate's name among their words,
`--test` where the crate is proved with its tests, and a folder of their own where an edit is tried. A column of wall
time counts the seconds in which a process of its kind was there; the processors' time is that of all of them.
"""
import os
import subprocess
import sys
import time
from collections import defaultdict

KINDS = ("proof", "tests", "edits")
TICK = os.sysconf("SC_CLK_TCK")


def processes():
    """Each process by its number, with that of its parent and the ticks of processor time that it took."""
    found = {}
    for name in filter(str.isdigit, os.listdir("/proc")):
        try:
            with open(f"/proc/{name}/stat") as it:
                parts = it.read().rpartition(")")[2].split()
        except OSError:
            continue
        found[int(name)] = int(parts[1]), int(parts[11]) + int(parts[12])
    return found


def below(found, top):
    """The processes that the first one started, and those that these started."""
    children = defaultdict(list)
    for number, (parent, _) in found.items():
        children[parent].append(number)
    left, all_below = [top], []
    while left:
        all_below += children[left[-1]]
        left += children[left.pop()]
    return all_below


def work_of(number):
    """The crate that a process of the prover is at, and the kind of its work; nothing of another process."""
    try:
        with open(f"/proc/{number}/cmdline", "rb") as it:
            words = it.read().decode(errors="replace").split("\0")
        folder = os.readlink(f"/proc/{number}/cwd")
    except OSError:
        return None
    if os.path.basename(words[0]) != "rattle" or "--crate-name" not in words:
        return None
    crate = words[words.index("--crate-name") + 1]
    is_edit = os.path.basename(folder).startswith("rt-edit")
    return crate, "edits" if is_edit else "tests" if "--test" in words else "proof"


def watch(command):
    """The seconds of each crate and kind, the processor seconds of each crate, and the seconds and status of the whole."""
    seconds, ticks, begun = defaultdict(float), {}, time.time()
    running = subprocess.Popen(command, stdout=sys.stderr)
    last = begun
    while running.poll() is None:
        time.sleep(1)
        now, found = time.time(), processes()
        seen = {number: work_of(number) for number in below(found, running.pid)}
        for work in {it for it in seen.values() if it}:
            seconds[work] += now - last
        for number, work in seen.items():
            if work:
                ticks[number, work[0]] = found[number][1]
        last = now
    spent = defaultdict(float)
    for (_, crate), count in ticks.items():
        spent[crate] += count / TICK
    return seconds, spent, time.time() - begun, running.returncode


def main():
    if len(sys.argv) < 2:
        sys.exit(__doc__)
    seconds, spent, whole, status = watch(sys.argv[1:])
    print("| Crate | Proof | With tests | Edits | Processors |\n|---|---|---|---|---|")
    for crate in sorted(spent, key=lambda it: -spent[it]):
        cells = [f"{seconds[crate, kind] / 60:.1f}" if seconds[crate, kind] else "" for kind in KINDS]
        print(f"| `{crate}` | {' | '.join(cells)} | {spent[crate] / 60:.1f} |")
    print(f"| all | | | {whole / 60:.1f} in all | {sum(spent.values()) / 60:.1f} |")
    sys.exit(status)


if __name__ == "__main__":
    main()
