#!/usr/bin/env python3
"""Writes a script in which a replica receives states that are cut at each byte, and what its replay has to write.

    tests/scripts/cut.py FOLDER      writes FOLDER/cut.replay and FOLDER/cut.expected
"""
import pathlib
import sys

# A whole harvest of one page in both formats, and two part harvests. Of each the length was counted apart.
STATES = [
    (143, """memento-state 2
entries 1
entry arc.example 7 1 http://a.example/
at 7 1
946684800 http://arc.example/web/20000101000000/http://a.example/
end
"""),
    (136, """memento-state 1
entries 1
entry arc.example 7 1 http://a.example/
946684800 http://arc.example/web/20000101000000/http://a.example/
end
"""),
    (133, """memento-state 2
entries 1
entry a1 - 2 http://a.example/
at 2 1
946857600 http://m.example/2
at 3 1
946684800 http://m.example/1
end
"""),
]
EMPTY = "memento-state 2\nentries 0\nend\n"


def main(folder):
    script, said = "replicas 1 http://agg.example\n", ""
    for length, state in STATES:
        if len(state) != length:
            raise SystemExit(f"a state has {len(state)} bytes, not {length}")
        for end in range(length):
            script += f"receive 1 {end}\n{state[:end]}\n"
            said += "refused bad state\n"
    script += "ask 1 GET 0 /state\n"
    said += f"reply 200\nContent-Type: text/plain\nbody {len(EMPTY)}\n{EMPTY}"
    for _, state in STATES:
        script += f"receive 1 {len(state)}\n{state}\n"
        said += "received\n"
    pathlib.Path(folder, "cut.replay").write_text(script)
    pathlib.Path(folder, "cut.expected").write_text(said)


if __name__ == "__main__":
    main(sys.argv[1])
