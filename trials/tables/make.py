#!/usr/bin/env python3
"""make.py PROGRAM THEME: prints the table of cases of a theme (values, replacing, matching, pages, history, saving,
texts, commands, outcomes, hostile, elements, search, levels, enclosing, views, live, explained,
noted).

PROGRAM takes the command line of ssled, for the theme live that of ssled_live, for explained and noted that of ssled_explain. What is wanted in the cases is what
PROGRAM answers, so it is another program than the one that is to be tested. On the error output comes how many cases there are.
"""
import importlib
import sys
from pathlib import Path

from frame import Table

THEMES = ("values", "replacing", "matching", "pages", "history", "saving", "texts", "commands", "outcomes", "hostile", "elements", "search",
          "levels", "enclosing", "views", "live", "explained", "noted")


def main():
    if len(sys.argv) != 3 or sys.argv[2] not in THEMES:
        sys.exit(__doc__)
    theme = importlib.import_module(sys.argv[2])
    table = Table(str(Path(sys.argv[1]).resolve()), theme.ABOUT)
    theme.add(table)
    sys.stdout.write(table.whole())
    print(f"{sys.argv[2]}: {table.cases} cases", file=sys.stderr)


if __name__ == "__main__":
    main()
