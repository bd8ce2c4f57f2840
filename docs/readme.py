#!/usr/bin/env python3
"""Runs every code block of README.md and of the pages behind it in a fresh clone of HEAD, from the top.

A block whose head names a file is that file; a block of `sh` is run; a block of `text` behind it is what the last lines
of its output must be; a block `quote FILE` must stand in that file, line for line. The block that names this script is
not run again. Commands with /path/to/rslab need RSLAB.
`--built` takes target/bin and target/staticlib of this folder instead of proving them: `rt` and `tools/build.sh` then
do nothing, and blocks that need the prover itself are left out. `--in FOLDER` clones into that new folder and leaves
it.

Status 1 if a block failed; 2 if none failed but some were left out, unless `--leave-out` allows that; else 0."""
import argparse
import os
import re
import shutil
import subprocess
import sys
import tempfile
import time
from pathlib import Path

HERE = Path(__file__).resolve().parent.parent
BLOCK = re.compile(r"^```(\S+)[ ]*(\S*)\n(.*?)^```$", re.MULTILINE | re.DOTALL)
PLACE = "/path/to/rslab"
PYTHON = "/usr/bin/python3"
PAGES = ["README.md", "docs/USING.md", "docs/TOUR.md", "CONTRIBUTING.md"]


def take_as_built(clone, environment):
    """Programs and library from this folder; an `rt` and a `tools/build.sh` that prove nothing."""
    for folder in ["bin", "staticlib"]:
        shutil.copytree(HERE / "target" / folder, clone / "target" / folder)
    stand_in = clone / "target" / "stand-in"
    stand_in.mkdir()
    for command in [stand_in / "rt", clone / "tools" / "build.sh"]:
        command.write_text(f"#!/bin/sh\necho taken as built: {command.name} \"$@\"\n")
        command.chmod(0o755)
    environment["PATH"] = f"{stand_in}:{environment['PATH']}"


def one_line(text):
    return text.strip().replace("\n", " ; ")


def run(text, clone, environment):
    """The output of the commands; False if they fail."""
    began = time.monotonic()
    done = subprocess.run(["bash", "-euc", text], cwd=clone, env=environment, stdout=subprocess.PIPE, text=True)
    if done.returncode == 0:
        last = done.stdout.strip().splitlines()[-1:]
        print(f"ran in {time.monotonic() - began:.0f} s:", one_line(text), "->", *last, flush=True)
        return done.stdout
    print(done.stdout + f"FAILED with {done.returncode}:", one_line(text), flush=True)
    return False


def missing(name, text, environment, built):
    """What a block needs and lacks."""
    if PLACE in text and "RSLAB" not in environment:
        return "RSLAB is not set"
    if name == "prover" and built:
        return "it needs the prover"
    if name == "numpy" and subprocess.run([PYTHON, "-c", "import numpy, scipy"], stderr=subprocess.DEVNULL).returncode:
        return "numpy or scipy is not there"
    if name == "chromium" and not shutil.which("chromium"):
        return "chromium is not there"
    return None


def follow(blocks, clone, environment, built):
    """The numbers of blocks that failed and that were left out. `output` is of the last commands: None before any,
    False if they were left out or failed."""
    failed, left_out, output = 0, 0, None
    rslab = environment.get("RSLAB", "")
    for kind, name, text in blocks:
        if kind == "sh" and name == "readme":
            continue
        elif kind == "quote":
            if text not in (clone / name).read_text():
                print(f"NOT in {name}:", text, sep="\n")
                failed += 1
        elif kind == "sh" and (lacks := missing(name, text, environment, built)):
            print(f"NOT run, {lacks}:", one_line(text))
            left_out, output = left_out + 1, False
        elif kind == "sh":
            output = run(text.replace(PLACE, rslab), clone, environment)
            failed += output is False
        elif name:
            (clone / name).parent.mkdir(parents=True, exist_ok=True)
            (clone / name).write_text(text)
        elif kind == "text" and output is False:
            continue
        elif kind == "text" and output is not None:
            said = output.splitlines()[-len(text.splitlines()):]
            if said != text.splitlines():
                print("OTHER output:", *said, sep="\n")
                failed += 1
        else:
            print("a block that is neither run, nor a file, nor an output:", text)
            failed += 1
    return failed, left_out


def main():
    arguments = argparse.ArgumentParser()
    arguments.add_argument("--built", action="store_true")
    arguments.add_argument("--leave-out", action="store_true")
    arguments.add_argument("--in", dest="folder")
    given = arguments.parse_args()
    environment = dict(os.environ)
    environment.pop("SUONTARVI_LIB", None)
    environment.pop("SUONTARVI_TIES", None)
    with tempfile.TemporaryDirectory() as folder:
        clone = Path(given.folder or Path(folder) / "suontarvi").resolve()
        subprocess.run(["git", "clone", "-q", HERE, clone], check=True)
        pages = [clone / page for page in PAGES]
        blocks = [block for page in pages for block in BLOCK.findall(page.read_text())]
        if given.built:
            take_as_built(clone, environment)
        failed, left_out = follow(blocks, clone, environment, given.built)
    print(f"{len(blocks)} blocks, {failed} failed, {left_out} not run")
    sys.exit(1 if failed else 2 if left_out and not given.leave_out else 0)


main()
