#!/usr/bin/env python3
"""Turns the repository's own names of definitions, fields and laws to snake case: usage, once: python3 tools/port_names.py [TOP]

TOP is the top of the checkout that is turned, and this folder if it is left out.

It runs after the kit's own script, which spells the library's names and only some of ours. A name is turned if a file of specs/ or a file of lemmas has it, it
begins with a small letter, and it has a hump (stepOf) or a dash (tick-keeps): it becomes step_of, tick_keeps. Types, modules and constructors keep their capital,
the library's names theirs; functions of src/, exported names, strings, comments, inputs and outputs are not touched. Must-fail edits are turned by the same table,
and in them also the names that the kit's script had turned elsewhere, since it leaves edits as they are.

Two names that would fall together are told apart in TOGETHER: there a law has the name of a definition but for a dash, and gets the ending _lem.
A pair that is not listed stops the run before anything is written. Prints how many names it turned.
"""

import collections
import os
import re
import sys

TOGETHER = {
    "accepted-as": "accepted_as_lem",  # acceptedAs
    "accepted-words": "accepted_words_lem",  # acceptedWords
    "acceleration-code": "acceleration_code_lem",  # accelerationCode
    "event-number": "event_number_lem",  # eventNumber
    "fresh-left": "fresh_left_lem",  # freshLeft
    "full-brake": "full_brake_lem",  # fullBrake
    "key-on": "key_on_lem",  # keyOn
    "lines-past": "lines_past_lem",  # linesPast
    "radar-check": "radar_check_lem",  # radarCheck
    "scene-ends": "scene_ends_lem",  # sceneEnds
    "started-buffer": "started_buffer_lem",  # startedBuffer
    "started-turn": "started_turn_lem",  # startedTurn
}

NAME = re.compile(r"[A-Za-z_][A-Za-z0-9_']*(?:[-≢≡<>→↔*ℤ][A-Za-z0-9_']+)*")
USE = re.compile(r"\buse\s+([^\s{};]+)\.\{([^}]*)\}")


def texts(top):
    for folder, dirs, names in os.walk(os.path.join(top, "crates")):
        dirs[:] = sorted(d for d in dirs if d not in ("out", "target"))
        for name in sorted(names):
            if name.endswith((".antt", ".rt", ".edit")):
                yield os.path.join(folder, name)


def read(path):
    with open(path, encoding="utf-8", newline="") as f:
        return f.read()


def code(path, text):
    """The text in pieces (piece, whether names in it are turned): comments and strings are not."""
    if path.endswith(".antt"):
        skip = re.compile(r"--[^\n]*|\"(?:[^\"\\\n]|\\.)*\"")
    elif path.endswith(".rt"):
        skip = re.compile(r"//[^\n]*|b?\"(?:[^\"\\\n]|\\.)*\"|b?'(?:[^'\\\n]|\\.[^'\n]*)'")
    else:
        skip = re.compile(r"^#[^\n]*|^file:[^\n]*|b?\"(?:[^\"\\\n]|\\.)*\"", re.M)
    at = 0
    for m in skip.finditer(text):
        yield text[at : m.start()], True
        yield m[0], False
        at = m.end()
    yield text[at:], True


def humped(name):
    return name[0].islower() and ("-" in name or re.search(r"[a-z0-9][A-Z]", name)) and not re.search(r"[≢≡<>→↔*ℤ]", name)


def snake(name):
    return TOGETHER.get(name) or re.sub(r"(?<=[a-z0-9])([A-Z])", lambda m: "_" + m[1].lower(), name.replace("-", "_"))


def own_names(top):
    """The names that files of specs/ and of lemmas have, without the library's: those with a hump or a dash, and the others."""
    found, library = set(), set()
    for path in texts(top):
        text = read(path)
        for m in USE.finditer(text):
            crate = re.match(r"Rattle\.(\w+)", m[1])
            names = {w.split(" as ")[0].strip() for w in m[2].split(",")}
            if not crate or not os.path.isdir(os.path.join(top, "crates", crate[1])):
                library |= names
        if path.endswith(".antt") and os.path.basename(path) != "Proof.antt":
            found |= {w for piece, turned in code(path, text) if turned for w in NAME.findall(piece)}
    found -= library
    return {w for w in found if humped(w)}, {w for w in found if not humped(w)}, library


def main(argv):
    top = argv[1] if len(argv) > 1 else "."
    names, plain, library = own_names(top)
    table = {name: snake(name) for name in names}
    meet = collections.defaultdict(set)
    for old, new in table.items():
        meet[new].add(old)
    together = {new: olds for new, olds in meet.items() if len(olds) > 1}
    if together:
        for new, olds in sorted(together.items()):
            print(f"port_names: {' and '.join(sorted(olds))} fall together as {new}", file=sys.stderr)
        return 1
    turned = set()

    def turn(m):
        if m[0] in table:
            turned.add(m[0])
        return table.get(m[0], m[0])

    def turn_in_edit(m):
        before = m[0] not in table and m[0] not in library and humped(m[0]) and snake(m[0]) in plain
        return snake(m[0]) if before else turn(m)

    for path in texts(top):
        text = read(path)
        by = turn_in_edit if path.endswith(".edit") else turn
        new = "".join(NAME.sub(by, piece) if names_ else piece for piece, names_ in code(path, text))
        if new != text:
            with open(path, "w", encoding="utf-8", newline="") as f:
                f.write(new)
    print(f"port_names: {len(turned)} names turned")
    return 0


if __name__ == "__main__":
    sys.exit(main(sys.argv))
