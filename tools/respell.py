#!/usr/bin/env python3
"""Brings this repository's own names to today's spelling, after the kit's port.py has turned the library's.

usage: tools/respell.py --links     before port.py: a link below crates/ becomes a copy
       tools/respell.py [--dry]     after port.py, once

- The crate `sha1` is `sha1_hmac`: the kit has a library of the old name.
- A definition, a field or a lemma is spelled in snake case: `nameOf` is `name_of`. A dash stays where it joins two names, as in
  `length-pasted`; before a plain word it is `_`.
- tools/names.tsv then says of the names that this leaves what they are today: a file or folder (`*`: every one), the name, today's.
- Each root file asks for the check's tactics, and each crate is laid out.

Names are those that a file of specs/ or proofs/ declares. Functions of src/, strings, inputs and outputs keep theirs.
"""

import glob
import os
import re
import shutil
import subprocess
import sys

OLD, NEW = "sha1", "sha1_hmac"
NAMES = [line.split("\t") for line in open(os.path.join(os.path.dirname(os.path.abspath(__file__)), "names.tsv"), encoding="utf-8").read().split("\n") if line]
END = r"\s(){}\[\],;.⌜⌝`"
DECLARED = re.compile(r"^\s*(?:(?:abbrev|unfoldable|pub|data|record)\s+)*([^\s:(){}\[\],;.\"]+(?:\s*,\s*[^\s:(){}]+)*)\s*:\s")
# A field beside a function of its name.
FIELDS = {"record-after": "record_left"}
# Functions of the library that lemmas are named for.
LIBRARY = """length take drop set get_or append nil cons snoc map reverse replicate mul add sub div mod pow min max eqb leb ltb cond
and or not xor zero suc paste fold concat slice_set slice_index bit_and bit_or bit_xor""".split()


def read(path):
    with open(path, encoding="utf-8") as f:
        return f.read()


def write(path, text):
    with open(path, "w", encoding="utf-8") as f:
        f.write(text)


def links(top):
    for folder, _, files in os.walk(os.path.join(top, "crates")):
        for name in files:
            path = os.path.join(folder, name)
            if os.path.islink(path):
                to = os.path.realpath(path)
                os.remove(path)
                shutil.copyfile(to, path)
                print("copied", path)


def snake(name):
    return re.sub(r"(?<=[a-z0-9])([A-Z])", lambda m: "_" + m[1].lower(), name)


def declared():
    """Each name that a file of specs/ or proofs/ declares."""
    found = {}
    for path in glob.glob("crates/*/specs/*.antt") + glob.glob("crates/*/proofs/*.antt"):
        for line in read(path).split("\n"):
            m = DECLARED.match(line)
            if m and not line.strip().startswith("--"):
                for name in re.split(r"\s*,\s*", m[1]):
                    found.setdefault(name, path)
    return found


def functions():
    names = set()
    for path in glob.glob("crates/*/src/*.rt"):
        names |= set(re.findall(r"\bfn (\w+)", read(path)))
        names |= set(re.findall(r"\b(?:struct|enum|trait) (\w+)", read(path)))
    return names


def dashes(name, known):
    """The name with `_` for each dash but those that join known names."""
    parts = name.split("-")
    if len(parts) == 1:
        return name
    best = None
    for cuts in range(1, 2 ** (len(parts) - 1)):
        groups, group = [], [parts[0]]
        for i, part in enumerate(parts[1:]):
            if cuts >> i & 1:
                groups.append("_".join(group))
                group = [part]
            else:
                group.append(part)
        groups.append("_".join(group))
        if all(g in known for g in groups) and (best is None or len(groups) < len(best)):
            best = groups
    return "-".join(best) if best else "_".join(parts)


def table():
    """What each own name becomes."""
    names = declared()
    lower = [n for n in names if n[0].islower() and not re.search(r"[◌=≡]", n)]
    known = {snake(n) for n in names if "-" not in n} | functions() | set(LIBRARY)
    to = {}
    for n in sorted(lower):
        new = dashes(snake(n), known)
        if new != n:
            to[n] = new
    taken = {}
    for n in names:
        taken.setdefault(to.get(n, n), []).append(n)
    # Of names that fall together the function's stays, and a lemma or a field says what it is.
    for new, olds in taken.items():
        if len(olds) > 1:
            function = next((n for n in olds if n != snake(n)), new)
            for n in olds:
                if n != function:
                    to[n] = FIELDS.get(n, new + "_lem")
    _check(names, to)
    return to


def _check(names, to):
    seen = {}
    for n in names:
        seen.setdefault(to.get(n, n), []).append(n)
    together = {new: olds for new, olds in seen.items() if len(olds) > 1}
    assert not together, together


def today(path, text):
    """What tools/names.tsv makes of the text of a file."""
    here = {old: new for where, old, new in NAMES if where == "*" or path.startswith(where)}
    return turner(here)(text)


def turner(to):
    words = sorted(to, key=len, reverse=True)
    pattern = re.compile(f"(?<![^{END}←])(?:" + "|".join(map(re.escape, words)) + f")(?![^{END}])")
    return lambda text: pattern.sub(lambda m: to[m[0]], text)


def outside_strings(text, turn):
    return "".join(t if i % 2 else turn(t) for i, t in enumerate(re.split(r'(b?"(?:[^"\\\n]|\\.)*")', text)))


def in_ticks(text, turn):
    return re.sub(r"`[^`\n]+`", lambda m: turn(m[0].replace("`", " ` ")).replace(" ` ", "`"), text)


def crate_paths(text):
    text = re.sub(rf"\bRattle\.{OLD}(?=\.)", f"Rattle.{NEW}", text)
    return re.sub(rf"(?<![\w:.]){OLD}::", f"{NEW}::", text)


def rename_crate():
    for old in (f"crates/{OLD}", f"tests/wrong/{OLD}"):
        if os.path.isdir(old):
            subprocess.run(["git", "mv", old, old.replace(OLD, NEW)], check=True)
    lines = read("crates.txt").split("\n")
    write("crates.txt", "\n".join(l if l.startswith("#") else re.sub(rf"(?<![\w]){OLD}(?![\w])", NEW, l) for l in lines))


def ask_for_tactics():
    """`#![tactic(auto)]` below the head comment of each root file."""
    for path in glob.glob("crates/*/src/lib.rt") + glob.glob("crates/*/src/main.rt"):
        lines = read(path).split("\n")
        at = next(i for i, l in enumerate(lines) if not l.startswith("//"))
        write(path, "\n".join(lines[:at] + ["#![tactic(auto)]", ""] + lines[at:]))


def main(argv):
    top = subprocess.run(["git", "rev-parse", "--show-toplevel"], capture_output=True, text=True, check=True).stdout.strip()
    os.chdir(top)
    if argv == ["--links"]:
        links(top)
        return 0
    to = table()
    if argv == ["--dry"]:
        for n in to:
            print(n, to[n])
        return 0
    turn = turner(to)
    if os.path.isdir(f"crates/{OLD}"):
        rename_crate()
    for path in glob.glob("crates/**/*.antt", recursive=True):
        write(path, today(path, crate_paths(turn(read(path)))))
    for path in glob.glob("crates/**/*.rt", recursive=True):
        write(path, outside_strings(crate_paths(read(path)), turn))
    for path in glob.glob("crates/*/must-fail/*.edit") + glob.glob("tests/wrong/*/*.edit"):
        write(path, today(path, crate_paths(turn(read(path)))))
    for path in ["README.md"] + glob.glob("docs/*.md") + glob.glob("docs/landings/*.md"):
        write(path, in_ticks(read(path), lambda text: today(path, turn(text))))
    ask_for_tactics()
    for crate in sorted(glob.glob("crates/*/src")):
        subprocess.run(["rt", "fmt"], cwd=os.path.dirname(crate), stdout=subprocess.DEVNULL)
    return 0


if __name__ == "__main__":
    raise SystemExit(main(sys.argv[1:]))
