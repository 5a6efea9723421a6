"""Builds a small program over the repository's crates, in a copy of the repository, for the benchmarks of single crates.

    from built import build
    program = build("bench_values", "dv_value", MAIN)      # MAIN is the text of src/main.rt

The copy lies in the system's folder for temporary files and is kept, so that a second run builds only what changed.
The first build proves every crate below, which takes minutes.
"""
import os
import shutil
import subprocess
import sys
import tempfile

TOP = os.path.dirname(os.path.dirname(os.path.abspath(__file__)))
COPY = os.path.join(tempfile.gettempdir(), "orgsvc-bench" + TOP.replace("/", "-"))


def refresh():
    """Brings the copy's sources up to those of the repository, and leaves what was built there."""
    files = subprocess.run(["git", "ls-files", "-co", "--exclude-standard", "crates", "crates.txt", "HANDLES"],
                           cwd=TOP, check=True, capture_output=True, text=True).stdout.split("\n")
    wanted = {f for f in files if f and os.path.isfile(os.path.join(TOP, f))}
    for folder, folders, names in os.walk(COPY):
        folders[:] = [f for f in folders if f != "out" and not f.startswith("bench_")]
        for name in names:
            path = os.path.join(folder, name)
            if os.path.relpath(path, COPY) not in wanted:
                os.remove(path)
    for file in wanted:
        source, target = os.path.join(TOP, file), os.path.join(COPY, file)
        os.makedirs(os.path.dirname(target), exist_ok=True)
        if not os.path.exists(target) or open(source, "rb").read() != open(target, "rb").read():
            shutil.copyfile(source, target)


def build(name, crates, main):
    """Builds the program and tells where it lies. `crates` are the names of the crates that it uses, with blanks between."""
    refresh()
    folder = os.path.join(COPY, "crates", name)
    os.makedirs(os.path.join(folder, "src"), exist_ok=True)
    with open(os.path.join(folder, "src", "main.rt"), "w") as file:
        file.write(main)
    with open(os.path.join(COPY, "crates.txt"), "a") as file:
        file.write(f"\n{name}: {crates}\n")
    done = subprocess.run(["rt", "run"], cwd=folder, stdin=subprocess.DEVNULL, capture_output=True, text=True)
    program = os.path.join(folder, "out", name)
    if not os.path.exists(program):
        sys.exit(f"{name} wasn't built:\n{done.stdout}{done.stderr}")
    return program
