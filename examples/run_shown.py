#!/usr/bin/env python3
"""Runs the commands that documents show in their console blocks, and compares what they print.

usage: examples/run_shown.py PROGRAM [DOCUMENT..]

The documents are README.md and docs/RECIPES.md where none is named. Each is run from its top in a new folder that has
the folders examples/ and bench/, with PROGRAM as `vstore`. It needs jq and sqlite3, which docs/RECIPES.md stands beside.
"""
import os
import subprocess
import sys
import tempfile

HERE = os.path.dirname(os.path.dirname(os.path.realpath(__file__)))


def shown(document):
    """Each command with what is shown below it: a line `$ COMMAND`, lines that it goes on in, then its output."""
    commands, inside = [], False
    with open(document, encoding="utf-8") as lines:
        for line in lines:
            if line.startswith("```"):
                inside = line.strip() == "```console"
            elif inside and line.startswith("$ "):
                commands.append([line[2:], ""])
            elif inside and commands[-1][0].endswith("\\\n"):
                commands[-1][0] += line
            elif inside:
                commands[-1][1] += line
    return commands


def differences(document, program):
    """How many commands of the document print something else than it shows."""
    wrong = 0
    with tempfile.TemporaryDirectory() as folder:
        os.mkdir(f"{folder}/.bin")
        os.symlink(program, f"{folder}/.bin/vstore")
        for name in ("examples", "bench"):
            os.symlink(f"{HERE}/{name}", f"{folder}/{name}")
        path = f"{folder}/.bin:{os.environ['PATH']}"
        how = {"cwd": folder, "env": {**os.environ, "PATH": path, "LC_ALL": "C.UTF-8"}}
        for command, output in shown(document):
            ran = subprocess.run(["bash", "-c", f"exec 2>&1; {command}"], stdout=subprocess.PIPE, **how)
            got = ran.stdout.decode("utf-8", "replace")
            if got != output:
                print(f"{document}: {command}shown:\n{output}printed:\n{got}")
                wrong += 1
    return wrong


program = os.path.realpath(sys.argv[1])
documents = sys.argv[2:] or [f"{HERE}/README.md", f"{HERE}/docs/RECIPES.md"]
wrong = sum(differences(document, program) for document in documents)
print(f"{wrong} commands print something else than is shown")
sys.exit(wrong > 0)
