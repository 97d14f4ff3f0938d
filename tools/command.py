"""How a command in Python takes its words: `--help` prints the command's head, and words that it can't take end it with status 2 and
a line that says why."""
import os
import pathlib
import sys

TOP = pathlib.Path(__file__).resolve().parent.parent


def refuse(why):
    """Ends a command that can't be called like this."""
    print(f"{os.path.relpath(sys.argv[0], TOP)}: {why}; --help says how it is called", file=sys.stderr)
    sys.exit(2)


def words_of(head, least=0, most=0, among=None, options=()):
    """The words that a command was called with, options included: `least` to `most` words, or more if that is None, `among` these if
    they are given, and these options. If `options` is None, any will do: words of another command are among them."""
    words = sys.argv[1:]
    if words[:1] == ["--help"]:
        print(head.strip())
        sys.exit()
    for word in words:
        known = options if word.startswith("--") else among
        if known is not None and word not in known:
            refuse(f"there is no {word}")
    count = sum(not word.startswith("--") for word in words)
    if count < least:
        refuse("a word is missing")
    if most is not None and count > most:
        refuse("there are too many words")
    return words


def number_of(word):
    """The number that a word is, with commas or without."""
    digits = word.replace(",", "")
    if not digits.isdecimal():
        refuse(f"{word} is no number")
    return int(digits)
