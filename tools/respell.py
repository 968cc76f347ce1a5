#!/usr/bin/env python3
"""Brings the repository's own names in specs/, proofs/ and clauses to today's spelling, once, after the toolchain's port.py.

usage: python3 tools/respell.py [--list]     at the top of the repository; --list prints the renamings and changes nothing

Types become camel case (`Well-formed`, WellFormed), all other names snake case (`check-of`, check_of). Names of the library, of generated goals
and of src/ stay. A name that would fall together with another one is named at the end and has to be looked at.
"""

import collections
import os
import re
import sys

WORD = re.compile(r"[^\s(){}\[\],;.:λ«»⌜⌝`\"|]+")
KIND = r"(?:(?:pub|abbrev|unfoldable|data|record)\s+)*"
HEAD = re.compile(r"^(\s*)(" + KIND + r")([^\s(){}:.]+)((?:\s*[({][^(){}]*(?:\([^()]*\)[^(){}]*)*[)}])*)\s*:\s*(.*)$")

# names whose new form is not by rule
BY_HAND = {
    "eqZ": "eq_int",
    "eqZ-holds": "eq_int_holds",
    "eqZ-is": "eq_int_is",
    "getD-rows-of": "get_or_rows_of",
    "ltQ": "ratio_lt",
    "leQ": "ratio_le",
    "eqQ": "ratio_eq",
    "alongE": "along_e",
    "crossE": "cross_e",
    "gapE": "gap_e",
    "levelE": "level_e",
    "restE": "rest_e",
    "sizeE": "size_e",
    "tallE": "tall_e",
    "turnE": "turn_e",
    "turnX": "turn_x",
    "xE": "x_e",
    "yE": "y_e",
    "hM": "h_m",
    "sA": "s_a",
    "sP": "s_p",
}

# names that are bound by a pattern, a λ or a section and not by a signature of their own
BOUND = set(
    "P-of apart-all code-first code-x code-y codes-are count-is from-day from-month holds-P is-a may-come never-self next-room no-u no-v now-room y-is".split()
)


def files(root):
    for top in ("crates",):
        for folder, dirs, names in os.walk(os.path.join(root, top)):
            dirs[:] = sorted(d for d in dirs if d not in ("out", "target"))
            for n in sorted(names):
                if n.endswith((".rt", ".antt")):
                    yield os.path.join(folder, n)


def own_crates(root):
    return set(os.listdir(os.path.join(root, "crates")))


def uncommented(line, mark):
    i = line.find(mark)
    return (line, "") if i < 0 or (i > 0 and mark == "--" and not line[i - 1].isspace()) else (line[:i], line[i:])


def is_own_path(path, crates):
    m = re.match(r"\s*(?:pub\s+)?(?:ghost\s+)?use\s+Rattle\.(\w+)\.", path)
    return bool(m) and m.group(1) in crates


def camel(name):
    return "".join(p[:1].upper() + p[1:] for p in re.split(r"[-_]", name) if p)


def snake(name):
    return name.replace("-", "_")


def definitions(root):
    """Each own name that a signature defines, with whether it is a type, and the fields of records."""
    types, values, fields = set(), set(), set()
    for path in files(root):
        if not path.endswith(".antt"):
            continue
        lines = open(path, encoding="utf-8").read().split("\n")
        inside = None
        for k, line in enumerate(lines):
            text, _ = uncommented(line, "--")
            if text.strip().startswith(("use ", "ghost use", "mod ", "pub mod", "infix", "module ")):
                continue
            m = HEAD.match(text)
            if text.strip() and inside is not None and len(text) - len(text.lstrip()) <= inside:
                inside = None
            if not m:
                continue
            indent, kind, name, _params, result = m.groups()
            if result.startswith("goal."):
                continue
            if not re.search(r"[A-Za-zα-ω]", name) or "◌" in name:
                continue
            if inside is not None and "record" not in kind:
                fields.add(name)
            if "record" in kind:
                inside = len(indent)
            last = result.strip()
            is_type = "record" in kind or "data" in kind or bool(re.search(r"(^|→\s*)Type 0(\s+where)?$", last))
            (types if is_type else values).add(name)
    return types, values, fields


def renamings(root):
    types, values, fields = definitions(root)
    new = {}
    for n in types:
        to = BY_HAND.get(n, camel(n) if ("-" in n) else n)
        if to != n:
            new[n] = to
    for n in values | BOUND:
        if n in new:
            continue
        to = BY_HAND.get(n, snake(n))
        if to != n:
            new[n] = to
    return new, fields


def foreign(text, crates):
    """Names that the file takes from a library or from generated modules."""
    out = set()
    for m in re.finditer(r"(?m)^\s*(?:pub\s+)?(?:ghost\s+)?use\s+([^\n;]*)", text):
        line = m.group(0)
        own = is_own_path(line, crates)
        goals = re.search(r"\.(Goals|Given|Lts|Tie)\b", line)
        if own and not goals and ".declared." not in line:
            continue
        braces = re.search(r"\{(.*)\}", line)
        if braces:
            for part in braces.group(1).split(","):
                out.update(w for w in part.split() if w != "as")
    return out


def turn(path, new, fields, crates):
    text = open(path, encoding="utf-8").read()
    rt = path.endswith(".rt")
    keep = foreign(text, crates)
    mark = "//" if rt else "--"
    out = []
    for line in text.split("\n"):
        body, comment = uncommented(line, mark)
        is_use = bool(re.match(r"\s*(pub\s+)?(ghost\s+)?use\s", body))
        goal = HEAD.match(body)
        answer = goal.group(3) if goal and goal.group(5).startswith("goal.") else None
        if is_use and not is_own_path(body, crates):
            out.append(line)
            continue

        def one(m):
            w = m.group(0)
            if w not in new or w in keep:
                return w
            before = body[: m.start()]
            if before.endswith(".") and not is_use and w not in fields:
                return w
            if answer == w:
                return w
            return new[w]

        if rt:
            pieces = re.split(r'("(?:[^"\\]|\\.)*")', body)
            fresh, at = [], 0
            for piece in pieces:
                if piece.startswith('"'):
                    fresh.append(piece)
                else:
                    body_here = piece
                    fresh.append(WORD.sub(lambda m, b=body_here: one_in(m, b, new, keep, fields, is_use, answer), piece))
            body = "".join(fresh)
        else:
            body = WORD.sub(one, body)
        comment = re.sub(r"`([^`]*)`", lambda m: "`" + WORD.sub(lambda w: new.get(w.group(0), w.group(0)), m.group(1)) + "`", comment)
        out.append(body + comment)
    done = "\n".join(out)
    if done != text:
        open(path, "w", encoding="utf-8").write(done)
        return True
    return False


def one_in(m, body, new, keep, fields, is_use, answer):
    w = m.group(0)
    if w not in new or w in keep:
        return w
    if body[: m.start()].endswith(".") and not is_use and w not in fields:
        return w
    return new[w]


def main():
    root = os.getcwd()
    crates = own_crates(root)
    new, fields = renamings(root)
    words = collections.Counter()
    for path in files(root):
        text = open(path, encoding="utf-8").read()
        words.update(WORD.findall(text))
    targets = collections.defaultdict(list)
    for a, b in new.items():
        targets[b].append(a)
    if "--list" in sys.argv:
        for a in sorted(new):
            print(f"{a} -> {new[a]}")
    else:
        n = sum(turn(path, new, fields, crates) for path in files(root))
        print(f"respell: {len(new)} names, {n} files changed")
    for b in sorted(targets):
        if len(targets[b]) > 1 or words[b]:
            print(f"look: {b} <- {', '.join(targets[b])}; {words[b]} places had it before")


if __name__ == "__main__":
    main()
