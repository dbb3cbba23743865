"""What the documents say, compared with what is so: commands with their output, counts of definition files, and names of
functions and clauses.

A command stands in a document on an indented line behind `$ `, its further lines behind `> `; the indented lines behind it
are its output. Blocks of a broker that listens are left out: tests/clients runs their clients.
"""
import functools
import importlib.machinery
import importlib.util
import os
import re
import subprocess
import tempfile

from runner.places import ROOT, TESTS

SECONDS = 60
MARK = "---- next"


def blocks_of(text):
    """The indented blocks of a document, each a list of its lines."""
    return [re.findall(r"^ {4}(.*)$", it, re.M) for it in re.findall(r"(?:^(?: {4}.*)?\n)+", text, re.M)]


def commands_of(text):
    """The commands of a document that runs by itself, each with the output that it shows."""
    found = []
    for block in blocks_of(text):
        if any("kbroker serve" in line or "kbroker start" in line for line in block):
            continue
        for line in block:
            if line.startswith("$ "):
                found.append([line[2:], ""])
            elif found and line.startswith("> "):
                found[-1][0] += f"\n{line[2:]}"
            elif found and block[0].startswith("$ "):
                found[-1][1] += f"{line}\n"
    return found


def outputs(commands, program):
    """What these commands print, one after the other in one shell, with `kbroker` for the program."""
    with tempfile.TemporaryDirectory() as folder:
        os.mkdir(f"{folder}/bin")
        os.symlink(program, f"{folder}/bin/kbroker")
        os.symlink(f"{ROOT}/examples", f"{folder}/examples")
        script = "".join(f"{command}\necho; echo '{MARK}'\n" for command, _ in commands)
        ran = subprocess.run(
            ["bash", "-c", script],
            cwd=folder,
            env={**os.environ, "PATH": f"{folder}/bin:{os.environ['PATH']}"},
            stdin=subprocess.DEVNULL,
            stdout=subprocess.PIPE,
            stderr=subprocess.STDOUT,
            timeout=SECONDS,
        )
    return ran.stdout.decode("utf-8", "replace").split(f"\n{MARK}\n")[:-1]


def faults_of_commands(document, program):
    """The commands of a document whose output isn't the one that it shows."""
    with open(f"{ROOT}/{document}", encoding="utf-8") as file:
        commands = commands_of(file.read())
    given = outputs(commands, program)
    faults = [
        f"{command}: {got!r}, not {wanted!r}"
        for (command, wanted), got in zip(commands, given)
        if got.rstrip("\n") != wanted.rstrip("\n")
    ]
    if not commands or len(given) != len(commands):
        faults.append(f"{len(commands)} commands, of which {len(given)} ran")
    return faults


def definitions():
    """tests/definitions, as a module."""
    loader = importlib.machinery.SourceFileLoader("definitions", f"{TESTS}/definitions")
    module = importlib.util.module_from_spec(importlib.util.spec_from_loader("definitions", loader))
    loader.exec_module(module)
    return module


def faults_of_totals(document, _):
    """The functions of which a document counts other definition files than there are."""
    with open(f"{ROOT}/{document}", encoding="utf-8") as file:
        rows = re.findall(r"^\|.*?`(\w+(?:::\w+)+)`.*\| (\d+) files, ([\d,]+) lines \|$", file.read(), re.M)
    counted = definitions()
    faults = [] if rows else ["no function is counted"]
    for function, files, lines in rows:
        so = counted.total_of(function)
        if so != (int(files), int(lines.replace(",", ""))):
            faults.append(f"{function}: {so[0]} files, {so[1]:,} lines")
    return faults


def code_of(crates):
    """All code of these crates."""
    found = ""
    for crate in crates:
        for folder, _, names in os.walk(f"{ROOT}/crates/{crate}/src"):
            for name in sorted(names):
                with open(f"{folder}/{name}", encoding="utf-8") as file:
                    found += file.read()
    return found


def faults_of_names(document, _):
    """The functions and clauses in a document's tables that no crate has which the document names."""
    with open(f"{ROOT}/{document}", encoding="utf-8") as file:
        text = file.read()
    code = code_of(it for it in sorted(os.listdir(f"{ROOT}/crates")) if re.search(rf"\b{it}\b", text))
    functions = set(re.findall(r"\b(?:fn|struct) (\w+)", code))
    clauses = set(re.findall(r"\b(?:ensures|ghost) (\w+)", code)) | functions
    faults, count = [], 0  # of the names that it has
    for row in re.findall(r"^\| .*$", text, re.M):
        cells = [it.strip() for it in row.strip("|").split("|")]
        if len(cells) < 4 or cells[1] == "function":
            continue
        for cell, known in ((cells[1], functions), (cells[2], clauses)):
            for name in re.findall(r"`(?:\w+::)*(\w+)`", cell):
                count += 1
                if name not in known:
                    faults.append(f"{name} isn't there")
    return faults if count else ["no function and no clause is named"]


# of each document its name, what says the faults of a program, and whether these are the same for each program
COMPARED = [
    ("docs/TOUR.md", functools.partial(faults_of_commands, "docs/TOUR.md"), False),
    ("docs/PROVED.md", functools.partial(faults_of_totals, "docs/PROVED.md"), True),
    *(
        (page, functools.partial(faults_of_names, page), True)
        for page in (f"docs/proved/{it}" for it in sorted(os.listdir(f"{ROOT}/docs/proved")))
    ),
]
