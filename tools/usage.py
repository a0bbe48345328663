"""What the Python tools of this folder share: how each is used."""
import os
import sys


def arguments(text, most, least=0, numbers=False):
    """The arguments of a tool whose head comment is the text. --help prints it; wrong arguments end with status 2."""
    given = sys.argv[1:]
    if given[:1] in (["--help"], ["-h"]):
        print(text.strip())
        sys.exit(0)
    wrong = [word for word in given if word.startswith("-") or (numbers and not (word.isascii() and word.isdigit()))]
    if wrong or not least <= len(given) <= most:
        why = f"'{wrong[0]}' is no argument of it" if wrong else f"{len(given)} arguments"
        print(f"{os.path.basename(sys.argv[0])}: {why}\n{text.strip()}", file=sys.stderr)
        sys.exit(2)
    return given
