"""Reads the arguments of a script in Python. --help prints the script's docstring. An unknown argument
ends the script with status 2."""

import sys


def words(document, *known, most=0):
    """Returns the words that the script was given: known options, and at most `most` others. With --help
    it prints the docstring and ends the script."""
    given = sys.argv[1:]
    if "--help" in given or "-h" in given:
        print(document.strip())
        sys.exit(0)
    others = [it for it in given if it not in known]
    if len(others) > most or any(it.startswith("-") for it in others):
        fail(f"usage: {document.split(':')[0]}")
    return given


def fail(why):
    """Ends a script that can't do what it was asked to do, with status 2: there is no verdict."""
    print(why, file=sys.stderr)
    sys.exit(2)
