#!/usr/bin/env python3
"""Places in crates/*/src where an older form may stand, by the points of docs/DESIGN-PASS.md: tools/places.py [POINT] prints each place and a count.

Points 1 to 7; without one, the counts alone. It reads the text and knows no types, so a place that it shows is one to look at. An impl of TryFrom is no place: it is the form that is asked for.
"""
import collections
import glob
import os
import re
import sys

os.chdir(os.path.join(os.path.dirname(os.path.abspath(__file__)), ".."))
KEYWORDS = set("fn pub let mut if else match return while for in loop as use mod impl struct enum const self Self true false move break continue crate requires ensures".split())
NUMBERS = re.compile(r"^(u8|u16|u32|u64|usize)$")


def files():
    return sorted(glob.glob("crates/*/src/**/*.rt", recursive=True))


def lines():
    for path in files():
        for number, line in enumerate(open(path, encoding="utf-8"), 1):
            yield path, number, line.rstrip("\n")


def functions():
    """Each function: its file, line, name, parameters, clauses and body."""
    for path in files():
        text = open(path, encoding="utf-8").read()
        for found in re.finditer(r"^([ ]*)(?:pub(?:\(crate\))? )?(?:const )?fn (\w+)", text, re.M):
            indent = found.group(1)
            end = re.search(r"^" + indent + r"\}$", text[found.start():], re.M)
            body = text[found.start():found.start() + end.end()] if end else text[found.start():].split("\n", 1)[0]
            head, _, rest = body.partition("\n" + indent + "{\n")
            if not rest:
                head, _, rest = body.partition("{\n")
            yield path, text.count("\n", 0, found.start()) + 1, found.group(2), head, rest


def types():
    """Each struct and enum with its body."""
    for path in files():
        text = open(path, encoding="utf-8").read()
        for found in re.finditer(r"^\s*(?:pub(?:\(crate\))? )?(struct|enum) (\w+)[^\n;]*\{\n(.*?)^\s*\}$", text, re.M | re.S):
            yield path, text.count("\n", 0, found.start()) + 1, found.group(1), found.group(2), found.group(3)


def point_1():
    for path, number, kind, name, body in types():
        none = re.search(r"^\s*(Bad|None),\s*$", body, re.M) and re.search(r"^\s*\w+[({]", body, re.M)
        if kind == "enum" and (none or re.search(r"^\s*(Refused|Stop)\(Refusal\),", body, re.M)):
            yield path, number, "enum %s: a value or none, or a refusal" % name
        if kind == "struct" and re.search(r"\b(answer|outcome): (Outcome|Result)|: bool,", body) and body.count(":") > 1:
            yield path, number, "struct %s: a flag or an answer beside values" % name
    for path, number, name, head, body in functions():
        if re.search(r"\b(kind|which|form|word): (u8|usize|u32)\b|\bk: u8\b", head) or re.search(r"\blook_up\(pick|\blook_up\(.*WORDS|\bcases::look_up\(", body):
            yield path, number, "fn %s: a number for a kind" % name


def normal(text):
    """The tokens of a body without the names, numbers and types that twins differ in."""
    out = []
    for token in re.findall(r'b?"[^"]*"|b?\'[^\']*\'|0x[0-9a-f_]+|\d[\d_]*|\w+|[^\s\w]', re.sub(r"//.*", "", text)):
        if token in KEYWORDS:
            out.append(token)
        elif re.match(r"\d|b?[\"']", token):
            out.append("#")
        elif re.match(r"\w", token):
            out.append("@")
        else:
            out.append(token)
    return " ".join(out)


def point_2():
    groups = collections.defaultdict(list)
    for path, number, name, head, body in functions():
        if name == "try_from":
            continue
        key = normal(body)
        if key.count(" ") >= 12:
            groups[key if key.count(" ") >= 20 else path.split("/")[1] + key].append((path, number, name))
    for path, number, kind, name, body in types():
        key = kind + re.sub(r"//.*|\s|\d+", "", body)
        groups[key].append((path, number, kind + " " + name))
    for group in groups.values():
        for path, number, name in group[1:]:
            yield path, number, "%s is built as %s of %s:%d" % (name, group[0][2], group[0][0], group[0][1])


def point_3():
    for path, number, line in lines():
        if re.match(r"\s*(while|loop)\b", line):
            yield path, number, line.strip()


def point_4():
    for path, number, name, head, body in functions():
        if name == "try_from":
            continue
        one = re.sub(r"\s+", " ", body)
        signature = re.sub(r"\s+", " ", head)
        to_number = re.search(r"-> (u8|u16|u32|u64|usize|bool)\b", signature)
        if to_number and re.search(r"=> (0x)?[0-9a-f]+,|=> (true|false),", one) and one.count("=>") > 1:
            yield path, number, "fn %s: a case to a number or a bool by hand" % name
        elif len(re.findall(r"\b0?x?[0-9a-f]+ => ", one)) > 1:
            yield path, number, "fn %s: a number to a case by hand" % name
        elif re.fullmatch(r"\s*(\w+) as (u16|u32|u64|usize) }", one):
            yield path, number, "fn %s: a number widened by hand" % name


def parameters(head):
    found = re.search(r"\((.*)\)\s*(->|$|\n)", head.split("requires")[0].split("ensures")[0], re.S)
    if not found:
        return []
    return [re.sub(r"\s+", " ", p).strip() for p in re.split(r",(?![^<\[]*[>\]])", found.group(1)) if p.strip() and "self" not in p.split(":")[0]]


def point_5():
    clauses = collections.defaultdict(list)
    for path, number, name, head, body in functions():
        for clause in re.findall(r"requires(?: \w+)? \{(.*?)\}\s*(?:\n|$)", head, re.S):
            for part in re.split(r"×", clause):
                clauses[(path.split("/")[1], re.sub(r"[\s()]+", " ", part).strip())].append((path, number, name))
    for (crate, clause), places in sorted(clauses.items()):
        if len(places) >= 3:
            for path, number, name in places:
                yield path, number, "fn %s: requires %s" % (name, clause)
    together = collections.defaultdict(list)
    for path, number, name, head, body in functions():
        ps = parameters(head)
        for size in (3, 4, 5, 6):
            for k in range(len(ps) - size + 1):
                together[(path.split("/")[1], tuple(ps[k:k + size]))].append((path, number, name))
    shown = set()
    for (crate, ps), places in sorted(together.items(), key=lambda x: (-len(x[0][1]), x[0])):
        if len(places) >= 3:
            for path, number, name in places:
                if (path, number) not in shown:
                    shown.add((path, number))
                    yield path, number, "fn %s: %s" % (name, ", ".join(ps))


def point_6():
    for path, number, kind, name, body in types():
        if kind == "struct" and re.search(r"\b(len|at|from|to|n): (usize|u32)", body):
            yield path, number, "struct %s: %s" % (name, ", ".join(re.sub(r"\s+", " ", re.sub(r"//.*", "", body)).strip(" ,").split(", ")))


def point_7():
    for path, number, name, head, body in functions():
        calls = re.findall(r"=> (?:return )?\w+(?:::\w+)*\(", body)
        if name != "try_from" and len(calls) >= 5 and re.search(r"\b\d+ => ", body):
            yield path, number, "fn %s: a switch of %d steps" % (name, len(calls))
        if re.search(r"\bfn\s*\(", head.split("(", 1)[-1]) or re.search(r": \[fn\(", body):
            yield path, number, "fn %s: a function pointer" % name


POINTS = {"1": point_1, "2": point_2, "3": point_3, "4": point_4, "5": point_5, "6": point_6, "7": point_7}

if __name__ == "__main__":
    for key, find in POINTS.items():
        if len(sys.argv) > 1 and sys.argv[1] != key:
            continue
        places = list(find())
        if len(sys.argv) > 1:
            for path, number, text in places:
                print("%s:%d: %s" % (path, number, text))
        print("point %s: %d places" % (key, len(places)))
