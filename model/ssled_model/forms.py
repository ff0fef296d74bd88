"""The forms that the program has beyond the first ones.

A form of SSL-P or of scripts whose word does not stand here is not read: a
declaration with it has no reading, and its command is none.
"""

FORMS = frozenset({"runs", "search", "report", "levels", "enclosing", "views"})
