#!/usr/bin/env python3
"""Runs the whole gate from nothing in a clean clone, and prints its time and what each crate takes of it.

    bench/gate.py [WORD ..]

The words are handed to `rt ci` in place of `--anew`: with a crate's name, say, it is that crate and those below it. A part
is the processor seconds and the largest memory of the processes that work on it, looked at twice a second: a crate's
proof, its tests, its must-fail edits together, and the building of its program. Run it with nothing else running.
"""
import os
import re
import subprocess
import sys
import tempfile
import time

TOP = os.path.dirname(os.path.dirname(os.path.abspath(__file__)))
TICKS = os.sysconf("SC_CLK_TCK")
PAGE = os.sysconf("SC_PAGE_SIZE")


def text_of(path):
    try:
        with open(path, "rb") as file:
            return file.read().decode(errors="replace")
    except OSError:
        return ""


def processes():
    """Gives for each process its parent, its processor seconds, its memory in bytes, its words and its folder."""
    found = {}
    for pid in filter(str.isdigit, os.listdir("/proc")):
        stat = text_of(f"/proc/{pid}/stat").rpartition(") ")[2].split()
        if len(stat) > 21:
            try:
                folder = os.readlink(f"/proc/{pid}/cwd")
            except OSError:
                folder = ""
            words = text_of(f"/proc/{pid}/cmdline").split("\0")
            found[int(pid)] = (int(stat[1]), (int(stat[11]) + int(stat[12])) / TICKS, int(stat[21]) * PAGE, words, folder)
    return found


def part_of(words, folder):
    """Tells which part of the gate a process works on, or None where it is the gate itself, or is ending and has no words any more."""
    if not words or not words[0]:
        return None
    line = " ".join(words)
    if "--crate-name" in words:
        crate = words[words.index("--crate-name") + 1]
        if "rt-edit-" in folder or "rt-seed-" in folder:
            return crate, "edits"
        return crate, "tests" if "--test" in words else "proof"
    named = re.search(r"crates/(\w+)/out|/out/(\w+)", line)
    in_folder = re.search(r"crates/(\w+)", folder)
    if named or in_folder:
        return (named and (named[1] or named[2]) or in_folder[1]), "program"
    return None


def watch(root, parts):
    """Adds up what the processes below one take, until it ends. `parts` has for each part its seconds by process and its memory."""
    while root.poll() is None:
        now = processes()
        for pid, (parent, seconds, memory, words, folder) in now.items():
            up = parent
            while up in now and up != root.pid:
                up = now[up][0]
            part = part_of(words, folder) if up == root.pid else None
            if part:
                spent, most = parts.setdefault(part, ({}, [0]))
                spent[pid] = max(seconds, spent.get(pid, 0))
                most[0] = max(most[0], memory)
        time.sleep(0.5)


def main():
    parts, words = {}, sys.argv[1:] or ["--anew"]
    with tempfile.TemporaryDirectory(prefix="orgsvc-gate-") as room:
        subprocess.run(["git", "clone", "-q", TOP, f"{room}/orgsvc"], check=True)
        with open(f"{room}/log", "w") as log:
            begun = time.time()
            gate = subprocess.Popen(["rt", "ci", *words], cwd=f"{room}/orgsvc", stdin=subprocess.DEVNULL, stdout=log, stderr=log)
            watch(gate, parts)
            taken = time.time() - begun
        last = text_of(f"{room}/log").strip().split("\n")
        print("\n".join(line for line in last if "NOT " in line or line.startswith("rt: ok")))
        print(f"{last[-1]}\n{taken / 60:.1f} minutes on {os.cpu_count()} processors")
    crates = sorted({crate for crate, _ in parts})
    kinds = ("proof", "tests", "edits", "program")
    print(f"{'crate':20}" + "".join(f"{kind + ' s':>10}{'GB':>5}" for kind in kinds))
    for crate in crates:
        cells = [parts.get((crate, kind), ({}, [0])) for kind in kinds]
        print(f"{crate:20}" + "".join(f"{sum(spent.values()):10.0f}{most[0] / 1e9:5.1f}" for spent, most in cells))
    whole = sum(sum(spent.values()) for spent, _ in parts.values())
    print(f"{whole / 60:.1f} processor minutes in all, {max(most[0] for _, most in parts.values()) / 1e9:.1f} GB in the largest process")
    sys.exit(gate.returncode)


if __name__ == "__main__":
    main()
