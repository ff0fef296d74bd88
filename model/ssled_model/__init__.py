"""An oracle of ssled: the definitions of its language and session as a program.

It is plain and slow on purpose: attributes come from scratch, the set of
evaluated equations is found by comparing two whole attributions, and each
static fault has a predicate of its own.
"""
