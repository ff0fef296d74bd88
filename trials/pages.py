#!/usr/bin/env python3
"""pages.py [--quiet] PROGRAM PAGE..: holds what pages show against what PROGRAM does and what stands in examples/.

PROGRAM takes the command line of ssled. In a page these blocks between fences are looked at, by the word behind the
first fence:

  sh       commands, in the folder of the repository: `ssled ..`, and `mkdir` and `cd` of one name; `ssled_live .. < FILE`
           and `ssled_explain ..`, where PROGRAM has a file of this name beside it
  screen   behind a block `ssl` all that `show` prints of its text; else blocks of what the last command printed, in
           their order, each whole; a last line `..` of a block stands for lines that are left out
  verdict  all that the last command printed; behind a block `ssl` all that `check` prints of its text
  ssl      a text that is checked or shown, where a block `verdict` or `screen` follows at once; else lines of the last
           language that was named, or, where none was, of one of the languages
  script   lines of the script of the last command
  file     all of a file that the last commands kept, whose name stands last between backticks before it

It prints each block that is not so, with its line, and how many were looked at; with --quiet only the former.
"""
import re
import subprocess
import sys
import tempfile
from pathlib import Path

ROOT = Path(__file__).resolve().parent.parent
FENCED = ("sh", "screen", "verdict", "ssl", "script", "file")


def blocks(page):
    """The blocks of a page: number of the line, word, text, and the prose before it."""
    found, inside, prose = [], None, []
    for number, line in enumerate(page.read_text().split("\n"), 1):
        if inside is None and line.startswith("```"):
            inside = (number, line[3:].strip(), [])
        elif inside is not None and line == "```":
            found.append((*inside[:2], "".join(f"{row}\n" for row in inside[2]), "\n".join(prose)))
            inside, prose = None, []
        elif inside is not None:
            inside[2].append(line)
        else:
            prose.append(line)
    return found


def answer(program, words, folder, given=None):
    done = subprocess.run([program, *words], cwd=folder, input=given, stdout=subprocess.PIPE, check=False)
    return done.stdout.decode("ascii")


def shown(program, word, text, folder):
    (folder / "text.ssl").write_text(text)
    return answer(program, ["check" if word == "verdict" else "show", "text.ssl"], folder)


def whole_lines(part, text):
    return f"\n{part}" in f"\n{text}"


def is_shown(part, block):
    """Whether the part is the block, or its first lines and a line `..`."""
    front = part.removesuffix("..\n")
    return block == part if front == part else block.startswith(front) and block != front


def screens(part, text):
    """Whether the part is blocks of the text in their order."""
    wanted, at = re.split(r"(?m)^(?==)", part)[1:], 0
    given = re.split(r"(?m)^(?==)", text)[1:]
    for block in wanted:
        while at < len(given) and not is_shown(block, given[at]):
            at += 1
        if at == len(given):
            return False
        at += 1
    return bool(wanted)


def named(prose, last):
    """The language that is named last in the prose, else the one before."""
    names = re.findall(r"examples/[a-z0-9_/-]+\.ssl", prose)
    return names[-1] if names else last


def command(program, text, folder):
    """What the last `ssled` of these commands prints, and its words; None where it has none, or cannot be run."""
    here, done = folder, None
    for words in map(str.split, text.splitlines()):
        if words[0] == "mkdir":
            (here / words[1]).mkdir()
        elif words[0] == "cd":
            here = here / words[1]
        elif words[0] == "ssled":
            done = answer(program, words[1:], here), words[1:]
        elif words[0] == "ssled_live" and words[-2] == "<" and (live := Path(program).with_name(words[0])).exists():
            done = answer(str(live), words[1:-2], here, (here / words[-1]).read_bytes()), words[1:-2]
        elif words[0] == "ssled_explain" and (explain := Path(program).with_name(words[0])).exists():
            done = answer(str(explain), words[1:], here), words[1:]
        else:
            return None
    return done


def of_examples(words, ending):
    """The texts of the words that name a file of examples/ with that ending."""
    return [name[name.index("examples/"):] for name in words if "examples/" in name and name.endswith(ending)]


def kept(folder, prose):
    """The text of the file that is named last in the prose."""
    named = re.findall(r"`([!-_a-~]+)`", prose)
    found = [path for path in folder.rglob(named[-1]) if path.is_file()] if named else []
    return found[0].read_text().removesuffix("\n") + "\n" if found else None


def look(program, page, folder):
    wrong, count, output, script, language, exact = [], 0, "", "", None, False
    listed = [block for block in blocks(page) if block[1] in FENCED]
    for k, (number, word, text, prose) in enumerate(listed):
        following = listed[k + 1] if k + 1 < len(listed) else (0, "", "", "")
        if following[1] not in ("verdict", "screen") or following[3].strip():
            following = None
        language = named(prose, language)
        good = True
        if word == "sh":
            done = command(program, text, folder)
            if done is None:
                output = None
                continue
            (output, words), exact = done, False
            language = next(iter(of_examples(words, ".ssl")), language)
            script = next(((ROOT / name).read_text() for name in of_examples(words, ".script")), script)
        elif word == "ssl" and following:
            output, exact = shown(program, following[1], text, folder), True
        elif word == "ssl":
            sources = [ROOT / language] if language else sorted((ROOT / "examples").rglob("*.ssl"))
            good = any(whole_lines(text, source.read_text()) for source in sources)
        elif output is None and word in ("verdict", "screen"):
            continue
        elif word == "verdict":
            good = text == output
        elif word == "screen":
            good = text == output if exact else screens(text, output)
        elif word == "script":
            good = whole_lines(text, script)
        elif word == "file":
            good = text == kept(folder, prose)
        count += 1
        if not good:
            wrong.append(f"{page}:{number}: {word}\n{text}")
    return wrong, count


def main():
    words = [word for word in sys.argv[1:] if word != "--quiet"]
    if len(words) < 2:
        sys.exit(__doc__)
    program, wrong = str(Path(words[0]).resolve()), []
    for page in map(Path, words[1:]):
        with tempfile.TemporaryDirectory() as name:
            folder = Path(name)
            (folder / "examples").symlink_to(ROOT / "examples")
            bad, count = look(program, page, folder)
        told = [] if "--quiet" in sys.argv else [f"{page}: {count} blocks, {len(bad)} of them wrong"]
        print("".join(f"{line}\n" for line in [*bad, *told]), end="")
        wrong += bad
    sys.exit(1 if wrong else 0)


if __name__ == "__main__":
    main()
