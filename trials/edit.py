#!/usr/bin/env python3
"""edit.py LIVE: tries tools/ssled-edit as a person would, in a terminal of tmux, over the program LIVE (ssled_live).

A small sheet in the language of the tutorial's step 9 is built from nothing, changed, undone, saved and loaded; the same in a window of 40
by 10; sessions that are killed go on, also where a file was loaded, changed and saved over; 2,000 keys come at once; what is not saved is not left without a word. It says what it waited for
in vain, with the screen as it was, and ends with 'edit: N passed'.
"""
import os
import shutil
import signal
import subprocess
import sys
import tempfile
import time

TOP = os.path.join(os.path.dirname(os.path.realpath(__file__)), "..")
SECONDS = 20


class Terminal:
    """A tmux server of its own with one window."""

    def __init__(self, folder, columns, rows, words, live):
        self.name, self.passed = f"ssled-edit-{os.getpid()}", 0
        line = " ".join(words) + "; echo left with $?; sleep 1000"
        self.tmux("-f", "/dev/null", "new-session", "-d", "-x", str(columns), "-y", str(rows), "-c", folder,
                  "-e", f"SSLED_LIVE={live}", "-e", "TERM=screen-256color", line)

    def tmux(self, *words):
        return subprocess.run(["tmux", "-L", self.name, *words], check=True, capture_output=True, text=True).stdout

    def keys(self, *keys):
        self.tmux("send-keys", *keys)

    def typed(self, text):
        self.tmux("send-keys", "-l", text)

    def screen(self):
        return self.tmux("capture-pane", "-p")

    def marked(self):
        """The text in reverse video above the status line."""
        text, found, is_marked = self.tmux("capture-pane", "-p", "-e"), "", False
        for line in text.rstrip("\n").split("\n")[:-2]:
            for part in line.replace("\x1b[", "\0").split("\0"):
                code, _, rest = part.partition("m") if part[:1].isdigit() or part[:1] in "m;" else ("", "", part)
                is_marked = (is_marked or "7" in code.split(";")) and not {"0", "27", ""} & set(code.split(";")) if code or part.startswith("m") else is_marked
                found += rest if is_marked else ""
        return found

    def waits(self, *wanted, without=()):
        """Waits until the screen has all of some texts."""
        end = time.monotonic() + SECONDS
        while time.monotonic() < end:
            screen = self.screen()
            if all(it in screen for it in wanted) and not any(it in screen for it in without):
                self.passed += 1
                return screen
            time.sleep(0.03)
        sys.exit(f"edit: waited in vain for {wanted} without {without}; the screen is\n{self.screen()}")

    def end(self):
        subprocess.run(["tmux", "-L", self.name, "kill-server"], capture_output=True)


def built(at, folder):
    """A sheet from nothing, changed, undone, saved, and loaded into another buffer."""
    at.waits("<NAME> = ?  is open", "main  sheet")
    at.keys("Down", "Enter")
    at.waits("typing")
    at.typed("price = 12; total = price + 30")
    at.waits("price = 12; total = price + 30")
    at.keys("Enter")
    at.waits("price = 12  is 12", "total = (price + 30)  is 42", "main*")
    at.keys("Down", "Tab", "a")
    at.waits("<NAME> = ?  is open")
    at.keys("Enter")
    at.typed("tip = total / 0")
    at.keys("BSpace")
    at.typed("10")
    at.keys("Enter")
    at.waits("tip = (total / 10)  is 4")
    at.keys("u", "u")
    at.waits("total = (price + 30)", without=("tip",))
    at.keys("U", "U")
    at.waits("tip = (total / 10)  is 4")
    at.keys("w")
    at.waits("save as:")
    at.typed("sheet.sgt")
    at.keys("Enter")
    at.waits("saved as sheet.sgt", without=("main*",))
    at.keys("o")
    at.typed("sheet.sgt")
    at.keys("Enter")
    at.waits("sheet_sgt", "tip = (total / 10)")
    at.passed += open(os.path.join(folder, "sheet.sgt"), "rb").read().startswith(b"SGT1\nSheet(Lines(Line(")


def more(at):
    """Moves, the menu, runs, a page, a word that is no command, another view, and leaving."""
    at.keys("Down", "Down")
    at.waits("line ")
    at.keys("+")
    at.waits("line*2")
    at.keys("c", "-", "Left", "Down")
    at.waits("line ", without=("line*2",))
    at.keys("Down", "Down")
    at.keys("m")
    at.waits("make of it")
    at.keys("Enter")
    at.waits("sheet_sgt*")
    at.keys("u", ":")
    at.typed("jump")
    at.keys("Enter")
    at.waits("no command")
    at.keys("V")
    at.typed("bill")
    at.keys("Enter")
    at.waits("BILL", "sheet_sgt/bill*")
    at.keys("V", "BSpace", "BSpace", "BSpace", "BSpace", "Enter")
    at.waits("sheet_sgt*", "  line  ", without=("BILL",))
    at.keys("Right", "Down")
    at.waits("  exp  ")
    at.keys("?")
    at.waits("previous place", "any key")
    while "goes back" not in at.screen():
        at.keys("?")
        at.waits("any key")
    at.keys("?", "q")
    at.waits("not saved: sheet_sgt")
    at.keys("Escape")
    at.waits("sheet_sgt*")


def killed(at, spec):
    """The session's process is killed: the next key begins it again, and the page is as it was."""
    before = "\n".join(at.screen().rstrip("\n").split("\n")[:-2])
    (process,) = subprocess.run(["pgrep", "-f", f"{spec} 1024 1024"], check=True, capture_output=True, text=True).stdout.split()
    os.kill(int(process), signal.SIGKILL)
    at.keys("Up")
    at.waits("begun again", before)


def saved_over(at, folder):
    """The file that was loaded and changed is saved under its name, and what was loaded is changed further."""
    loaded = open(os.path.join(folder, "sheet.sgt"), "rb").read()
    at.keys("Left")
    at.waits("  line  ")
    at.keys("a")
    at.waits("<NAME> = ?  is open")
    at.keys("Enter")
    at.typed("kept = 7")
    at.keys("Enter")
    at.waits("kept = 7  is 7")
    at.keys("w")
    at.waits("save as: sheet.sgt")
    at.keys("Enter")
    at.waits("saved as sheet.sgt", without=("sheet_sgt*",))
    at.keys("a")
    at.waits("<NAME> = ?  is open")
    at.keys("Enter")
    at.typed("later = 8")
    at.keys("Enter")
    at.waits("later = 8  is 8", "sheet_sgt*")
    at.passed += open(os.path.join(folder, "sheet.sgt"), "rb").read() != loaded


def fast(at):
    """2,000 keys at once: each letter arrives, and the end of a text that is wider than the window is seen."""
    at.keys(":")
    at.typed("new fast")
    at.keys("Enter", "Down", "Down", "Down")
    at.keys("Enter")
    at.waits("typing")
    at.typed("abcdefghij" * 10 + "= 12 the end")
    at.waits("= 12 the end", "1:112")
    at.keys("BSpace", "BSpace")
    at.waits("= 12 the e", "1:110", without=("the en",))
    for _ in range(21):
        at.typed("abcdefghi" * 10)
    at.waits("1:2000", "typing")
    at.keys("Escape")
    at.waits("<NAME>", without=("typing",))


def main():
    live = os.path.abspath(sys.argv[1])
    passed = 0
    for columns, rows in ((80, 24), (40, 10)):
        with tempfile.TemporaryDirectory() as folder:
            spec = os.path.join(folder, "sheet.ssl")
            shutil.copy(os.path.join(TOP, "examples", "tutorial", "13.ssl"), spec)
            at = Terminal(folder, columns, rows, [os.path.realpath(os.path.join(TOP, "tools", "ssled-edit")), spec], live)
            try:
                built(at, folder)
                more(at)
                killed(at, spec)
                saved_over(at, folder)
                killed(at, spec)
                at.passed += not [it for it in os.listdir(folder) if it.startswith(".")]
                fast(at)
                at.keys("q")
                at.typed("yes")
                at.keys("Enter")
                at.waits("left with 0")
            finally:
                at.end()
            passed += at.passed
    print(f"edit: {passed} passed")


if __name__ == "__main__":
    main()
