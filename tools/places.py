#!/usr/bin/env python3
"""Lists the places of docs/DESIGN-PASS.md, a line each, and counts them: python3 tools/places.py [TOP] [POINT...]

TOP is the top of the checkout that is read, and this folder if it is left out. It goes by the text of crates/*/src, so that it finds candidates: what is one is
told by reading.

2 twins    a function whose body is that of another but for names and numbers, or a function that only passes its parameters to one of the same shape
4 handed   a struct or enum without derives; a function from one value to another type's, or that compares, orders, copies or prints by hand
5 facts    a `requires` that stands, but for the names of its values, at three functions or more
5 groups   two parameters that travel together through three functions of a crate or more: no more than one function in four that has one is without the other
6 lengths  a buffer with a number beside it in one signature or struct that says how much of it counts; two slices side by side
7 steps    an arm of a `match` that only names the step to run
"""

import collections
import glob
import os
import re
import sys

FN = re.compile(r"^(\s*)(?:pub(?:\(crate\))? )?(?:unsafe )?(?:extern \"C\" )?fn (\w+)(?:<[^>]*>)?\(", re.M)
WORDS = set("if else match for in let mut return while loop break continue true false self Ok Err Some None as Self".split())
HAND = re.compile(r"^(alike|same\w*|least|most|less|lesser|apart|copy|copied|put_all|fill|read|write|code|kind|told|taught|moved|signed|bit|wide|join"
                  r"|pack|unpack|fields_of|car_at|kept|number|to_\w+|from_\w+|of_\w+|\w+_of|\w+_number|\w+_word|\w+_code)$")


def functions(text):
    """Name, line, signature, clauses and body of each function."""
    for found in FN.finditer(text):
        indent, name = found.groups()
        indent = indent.split("\n")[-1]
        end = re.compile(r"^" + indent + r"\}|\{ ?[^\n]*\}$|^" + indent + r"    [^\n]*;$", re.M)
        opened = re.compile(r"^" + indent + r"\{[^\n]*$|\{$", re.M).search(text, found.end())
        if not opened:
            continue
        closed = re.compile(r"^" + indent + r"\}$", re.M).search(text, opened.end() - 1)
        if not closed:
            continue
        head = text[found.start():opened.start()]
        cut = re.search(r"\n\s*(requires|ensures)\b", head)
        signature, clauses = (head[:cut.start()], head[cut.start():]) if cut else (head, "")
        yield name, text.count("\n", 0, found.end()) + 1, signature, clauses, text[opened.end():closed.start()]


def shape(body):
    """The body with its names and numbers blotted out, and how long it is."""
    body = re.sub(r"//[^\n]*", "", body)
    tokens = re.findall(r"\w+|::|=>|->|[=!<>]=|&&|\|\||[^\w\s]", body)
    tokens = [t if t in WORDS else "#" if t[0].isdigit() else "x" if re.match(r"\w", t) else t for t in tokens]
    text = " ".join(tokens)
    text = re.sub(r"x( (::|\.) x)+", "x", text)
    return text.replace(" ,  )", " )").replace(", )", ")"), len(tokens)


def parameters(signature):
    inside = signature[signature.index("(") + 1:]
    depth, end = 1, 0
    for end, c in enumerate(inside):
        depth += c in "([<"
        depth -= c in ")]>" and inside[end - 1] != "-"
        if depth == 0:
            break
    found = []
    for part in re.split(r",\s*(?![^\[(<]*[\])>])", inside[:end]):
        m = re.match(r"\s*(?:mut )?(\w+): (.+?)\s*$", part, re.S)
        if m:
            found.append((m.group(1), " ".join(m.group(2).split())))
    return found


def fields(text):
    """Name, line and fields of each struct."""
    for m in re.finditer(r"^(?:pub(?:\(crate\))? )?struct (\w+)[^{;]*\{\n(.*?)^\}", text, re.M | re.S):
        yield m.group(1), text.count("\n", 0, m.start()) + 1, re.findall(r"^    (?:pub(?:\(crate\))? )?(\w+): ([^,]+),", m.group(2), re.M)


def main():
    arguments = sys.argv[1:]
    top = arguments.pop(0) if arguments and not arguments[0].isdigit() else os.path.dirname(os.path.dirname(os.path.abspath(__file__)))
    points = set(arguments) or set("24567")
    places = collections.defaultdict(list)
    bodies, facts, groups = (collections.defaultdict(list) for _ in range(3))
    singles = collections.Counter()
    for path in sorted(glob.glob(os.path.join(top, "crates/*/src/**/*.rt"), recursive=True)):
        name = os.path.relpath(path, top)
        text = open(path, encoding="utf-8").read()
        lines = text.split("\n")
        for number, line in enumerate(lines):
            if re.match(r"(pub(\(crate\))? )?(struct|enum) \w", line) and not lines[number - 1].startswith("#[derive"):
                places["4 handed"].append((name, number + 1, line.strip(" {")))
            if re.match(r"\s+[\w:.= |\"'(){},&]+ => (\{ )?(self\.)?[a-z_:]+\([^{]*\)( \})?,$", line):
                places["7 steps"].append((name, number + 1, line.strip()))
        for struct, line, held in fields(text):
            numbers = [f for f, kind in held if kind == "usize"]
            if numbers and any(re.match(r"\[", kind) for _, kind in held):
                places["6 lengths"].append((name, line, "struct " + struct))
        for function, line, signature, clauses, body in functions(text):
            here = (name, line, "fn " + function)
            blotted, long = shape(body)
            if long >= 12:
                bodies[blotted].append(here)
            held = parameters(signature)
            crate = name.split("/")[1]
            for i, one in enumerate(held):
                singles[crate, one] += 1
                for two in held[i + 1:]:
                    groups[(crate, *sorted((one, two)))].append(here)
            for fact in re.findall(r"requires \w* ?\{(.*)\}", clauses) + re.findall(r"requires \{(.*)\}", clauses):
                facts[" ".join(re.sub(r"\b(" + "|".join([re.escape(h) for h, _ in held] + ["self"]) + r")\b", "_", fact).split())].append(here)
            slices = [kind for _, kind in held if re.match(r"&(mut )?\[", kind)]
            if slices and (len(slices) > 1 or any(kind == "usize" for _, kind in held)):
                places["6 lengths"].append(here)
            result = re.search(r"-> (.+?)\s*$", signature, re.S)
            kinds = [kind for _, kind in held]
            if HAND.match(function) or (len(kinds) == 1 and result and "self" not in signature and kinds[0][0].isupper()
                                        and result.group(1).strip() not in ("bool", kinds[0])):
                places["4 handed"].append(here)
    for twins in bodies.values():
        if len(twins) > 1:
            places["2 twins"] += [(n, l, w + " like " + ", ".join(t[2][3:] for t in twins if t != (n, l, w))[:60]) for n, l, w in twins]
    for fact, held in facts.items():
        held = sorted(set(held))
        if len(held) > 2:
            places["5 facts"] += [(n, l, w + " requires " + fact) for n, l, w in held]
    for (crate, one, two), held in groups.items():
        if len(held) > 2 and 4 * len(held) >= 3 * max(singles[crate, one], singles[crate, two]):
            places["5 groups"] += [(n, l, w + f" has {one[0]}: {one[1]} and {two[0]}: {two[1]}") for n, l, w in held]
    for point in sorted(places):
        if point[0] in points:
            for name, line, what in sorted(set(places[point])):
                print(f"{point} {name}:{line}: {what}")
    for point in sorted(places):
        if point[0] in points:
            print(f"{point} {len(set(places[point]))}")


main()
