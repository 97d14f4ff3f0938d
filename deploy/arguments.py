"""How a tool of this folder takes its words."""
import argparse


class Arguments(argparse.ArgumentParser):
    """`--help` prints the tool's head, and words that it can't take end it with status 2 and a line that says why."""

    def __init__(self, head):
        super().__init__()
        self.head = head

    def format_help(self):
        return self.head.strip() + "\n"

    def error(self, message):
        self.exit(2, f"{self.prog}: {message}; --help says how it is called\n")
