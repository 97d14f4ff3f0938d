"""Which programs the tests run over: the one place that finds them.

    python3 tests/programs.py NAME      prints the variable of the program of crates/NAME, and which program that is: PROGRAM=/path

A program is what its variable names, if that is set. Else it is the proved one of crates/, or else the unproved one, if it is fresh
(`./run --program NAME`). If none is, the test ends with a line that says what to type: no test builds a program, let alone proves one.
`tests/run` builds what its tests need first, without a proof, and sets the variables.
"""
import functools
import os
import pathlib
import subprocess
import sys

TOP = pathlib.Path(__file__).resolve().parent.parent
# The variable that names the program of each crate.
VARIABLES = {
    "aggregator": "PROGRAM",
    "format_probe": "FORMATS",
    "gate_probe": "PROBE",
    "refusal_probe": "REFUSALS",
    "service_refusal_probe": "SERVICES",
    "year_probe": "YEAR",
}


def fresh(crate, *kind):
    """The fresh program of this crate, proved or not, or of this kind; None if there is none, and what to type then."""
    ran = subprocess.run([TOP / "run", "--program", crate, *kind], stdin=subprocess.DEVNULL, capture_output=True, text=True)
    return ran.stdout.strip() or None, ran.stderr.strip()


@functools.cache
def program(crate):
    """The path of the program of this crate."""
    if named := os.environ.get(VARIABLES[crate]):
        return named
    path, said = fresh(crate)
    if path and path.endswith("/unproved"):
        print(f"{crate}: {path}, without a proof", file=sys.stderr)
    return path or sys.exit(said)


def main():
    if len(sys.argv) != 2 or sys.argv[1] not in VARIABLES:
        sys.exit(__doc__)
    print(f"{VARIABLES[sys.argv[1]]}={program(sys.argv[1])}")


if __name__ == "__main__":
    main()
