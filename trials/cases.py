#!/usr/bin/env python3
"""cases.py PROGRAM FOLDER: prints the table of cases of the languages in a folder.

PROGRAM takes the command line of ssled. Each `NAME.ssl` gives a case of `check`, and where there is a `NAME.script` a
case of `run`. What is wanted is what PROGRAM answers, so a table is worth as much as PROGRAM is known to be right: it
is made with another program than the one that it is to test. Each case runs in a folder that has the two files alone.
"""
import subprocess
import sys
import tempfile
from pathlib import Path

HEADER = """// The languages of {folder}/: each is checked, and run with its script if there is one. Made by
// `trials/cases.py PROGRAM {folder}`, where PROGRAM was model/ssled.
"""

# The messages with which a command that names a file has called the shelf.
CALLED = {
    "load": ("ok", "read fault", "long file", "form at", "phylum", "size"),
    "save": ("ok", "write fault"),
    "save-text": ("ok", "write fault"),
}


def text(data):
    """The lines of a table that stand for these bytes."""
    lines = data.decode("ascii").split("\n")
    rows = [f"|{line}\n" for line in lines[:-1]] + ([f".{lines[-1]}\n"] if lines[-1] else [])
    return "".join(rows)


def whole(name, data):
    """The line that stands for the whole text of that name."""
    return f"@{name} 0 {len(data)}\n"


def commands(script):
    """The words of the lines of a script that are commands."""
    lines = (line.strip() for line in script.decode("ascii").splitlines())
    return [line.split()[0] for line in lines if line and not line.startswith("#")]


def message(header):
    """The number of evaluated equations in a header, and its message."""
    count, rest = header.split(" ev ", 1)[1].split(" ", 1)
    return int(count), rest


def run(program, words, files):
    """Status, output, and the files that were kept, of a run in a folder with these files alone."""
    with tempfile.TemporaryDirectory() as folder:
        for name, data in files.items():
            (Path(folder) / name).write_bytes(data)
        done = subprocess.run([program, *words], cwd=folder, stdout=subprocess.PIPE, check=False)
        kept = {path.name: path.read_bytes() for path in sorted(Path(folder).iterdir())}
    return done.returncode, done.stdout, {name: data for name, data in kept.items() if files.get(name) != data}


def check_case(program, name, data):
    status, output, _ = run(program, ["check", name], {name: data})
    return f"run check {name}\nfile {name}\n{whole(name, data)}gives {status} 1 0\n{text(output)}"


def run_case(program, name, data, script, lines):
    status, output, kept = run(program, ["run", name, script], {name: data, script: lines})
    headers = [message(line) for line in output.decode("ascii").split("\n") if line.startswith("= ")]
    calls = sum(said.startswith(CALLED.get(word, ())) for word, (_, said) in zip(commands(lines), headers))
    rise = sum(count for count, _ in headers)
    case = f"run run {name} {script}\nfile {name}\n{whole(name, data)}file {script}\n{text(lines)}"
    case += f"gives {status} {2 + calls} {rise}\n{text(output)}"
    return case + "".join(f"after {name}\n{text(data)}" for name, data in kept.items())


def main():
    if len(sys.argv) != 3:
        sys.exit(__doc__)
    program, folder = str(Path(sys.argv[1]).resolve()), Path(sys.argv[2])
    blocks = [HEADER.format(folder=folder)]
    for path in sorted(folder.glob("*.ssl")):
        data = path.read_bytes()
        blocks += [f"text {path.name}\n{text(data)}", check_case(program, path.name, data)]
        script = path.with_suffix(".script")
        if script.exists():
            blocks.append(run_case(program, path.name, data, script.name, script.read_bytes()))
    sys.stdout.write("\n".join(blocks))


if __name__ == "__main__":
    main()
