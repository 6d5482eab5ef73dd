#!/usr/bin/env python3
"""Brings the names of the definitions and lemmas in specs/, proofs/ and clauses to one spelling.

A name of a value, a lemma, a field or a variable is in snake case, a name of a type in upper camel case.
Names that come from the library, from a file of src/ or from the prover's own list of goals stay as they are.
Run at the top of a checkout; --list only prints the names that would change.
"""

import os
import re
import sys

WORD = re.compile(r"[^\s(){}\[\].,;:\"λ|]+")
DASHED = re.compile(r"[A-Za-z][\w'₀-₉]*(?:-[\w'₀-₉]+)+$")
# what the prover names: fields of the records that it hands a proof
PREFIXES = ("goal", "c", "l", "g", "a", "w", "args", "requires", "ensures", "branch", "new", "auto", "initial", "fn", "invariant", "type_inv")
# names with a dash that the library or the prover gives, met with no path before them
GENERATED = re.compile(r"(then|else|in_default|in|in_ok|in_err|loop|returns|bounds|overflow|overflow_\w+|decreases|invariant|if|not|offset|offset_bounds|slice_bounds|match)-")


def files(root):
    for folder, dirs, names in os.walk(os.path.join(root, "crates")):
        dirs[:] = sorted(d for d in dirs if d not in ("out", ".git"))
        for name in sorted(names):
            path = os.path.join(folder, name)
            if name.endswith(".antt") or (name.endswith(".rt") and "/src" in folder):
                yield path


def read(path):
    with open(path, encoding="utf-8") as f:
        return f.read()


def imports(text):
    """Each imported name with the path that it comes from."""
    for m in re.finditer(r"^(?:ghost )?use ([\w.·+]+?)\.\{([^}]*)\}", text, re.M):
        for item in m.group(2).split(","):
            item = item.strip()
            if item:
                yield m.group(1), item.split(" as ")[0].strip(), item.split(" as ")[-1].strip()


def own_path(path, crates):
    parts = path.split(".")
    return len(parts) > 2 and parts[0] == "Rattle" and parts[1] in crates and parts[2] in ("specs", "proofs") and "declared" not in parts and "Goals" not in parts and "contracts" not in parts


def foreign(texts, crates):
    """Names with a dash that some file imports from elsewhere."""
    out = set()
    for path, text in texts.items():
        for source, name, alias in imports(text):
            if not own_path(source, crates) and "-" in name:
                out |= {name, alias}
    return out


def answers(text):
    """Names that stand for a goal of the prover's."""
    return set(re.findall(r"^(?:abbrev )?(?:pub )?(\S+) : goal\.", text, re.M))


def respelt(name):
    if name[0].isupper():
        return "".join(p[0].upper() + p[1:] for p in name.split("-"))
    return name.replace("-", "_")


# local names of a shape that the patterns below don't catch
LOCAL = {"count-is", "done-so", "is-o", "on-next", "own-found", "own-ran", "tells-it"}


def mine(name, outside):
    return bool(DASHED.match(name)) and name not in outside


def collect(texts, crates):
    outside = foreign(texts, crates)
    declared, fields = set(LOCAL), set()
    for path, text in texts.items():
        if not path.endswith(".antt"):
            continue
        stop = answers(text)
        for line in text.splitlines():
            if line.lstrip().startswith("--") or line.startswith("use "):
                continue
            m = re.match(r"\s*(?:(?:abbrev|unfoldable|pub|data|record|ruleset)\s+)*([A-Za-z][^\s:{}()]*)\s*(?:[:({]|where|deriving)", line)
            if m and mine(m.group(1), outside) and m.group(1) not in stop and not (GENERATED.match(m.group(1)) and path.endswith(("Answers.antt", "Invariants.antt"))):
                declared.add(m.group(1))
                if line.startswith("  "):
                    fields.add(m.group(1))
            for m in re.finditer(r"(?<![\w.'-])([A-Za-z][\w'-]*) = ", line):
                if mine(m.group(1), outside) and m.group(1) not in stop and not GENERATED.match(m.group(1)):
                    declared.add(m.group(1))
                    fields.add(m.group(1))
            for m in re.finditer(r"[({]([^(){}:]*) : ", line):
                for name in m.group(1).split():
                    if mine(name, outside):
                        declared.add(name)
            for m in re.finditer(r"(?:let|in) ([A-Za-z][\w'-]*) [:=] ", line):
                if mine(m.group(1), outside) and m.group(1) not in stop:
                    declared.add(m.group(1))
            for m in re.finditer(r"λ ([^.]*)\.", line):
                for name in m.group(1).split():
                    if mine(name, outside):
                        declared.add(name)
    return declared, fields, outside


def code_spans(text, is_rt):
    """The parts of a file in which a name may be replaced: in antt all but comments, in Rattle the ghost uses and the clauses."""
    if not is_rt:
        at = 0
        for line in text.splitlines(keepends=True):
            cut = re.search(r"(?:^|\s)--(?:\s|$)", line)
            yield at, at + (cut.start() if cut else len(line))
            at += len(line)
        return
    for m in re.finditer(r"^ghost use [^;]*;|^\s+(?:requires|ensures|ghost)\*?(?: \w+)? \{.*\}$|^\s*ghost [^;]*;", text, re.M):
        yield m.start(), m.end()


def turn(path, text, names, fields, stop):
    out, last = [], 0
    for start, end in code_spans(text, path.endswith(".rt")):
        for m in WORD.finditer(text, start, end):
            word = m.group(0)
            if word not in names or word in stop:
                continue
            if m.start() and text[m.start() - 1] == ".":
                before = re.search(r"([^\s(){}\[\],;:]*)\.$", text[: m.start()]).group(1).split(".")
                if before[0] == "Rattle" and len(before) > 2 and before[2] in ("specs", "proofs"):
                    pass
                elif word not in fields or before[0] == "goal":
                    continue
            out.append(text[last : m.start()])
            out.append(respelt(word))
            last = m.end()
    out.append(text[last:])
    return "".join(out)


def main():
    root = os.getcwd()
    texts = {p: read(p) for p in files(root)}
    crates = set(os.listdir(os.path.join(root, "crates")))
    names, fields, outside = collect(texts, crates)
    taken = {}
    for path, text in texts.items():
        for word in WORD.findall(text):
            taken.setdefault(word, set()).add(path)
    for name in sorted(names):
        clash = taken.get(respelt(name), set()) & taken.get(name, set())
        print(name, "->", respelt(name), ("  MEETS " + ", ".join(sorted(os.path.relpath(p, root) for p in clash))) if clash else "")
    folded = {}
    for name in names:
        folded.setdefault(respelt(name), []).append(name)
    for to, all_of in sorted(folded.items()):
        if len(all_of) > 1:
            print("FALL TOGETHER", to, sorted(all_of))
    if "--list" in sys.argv:
        return
    for path, text in texts.items():
        new = turn(path, text, names, fields, answers(text))
        if new != text:
            with open(path, "w", encoding="utf-8") as f:
                f.write(new)


main()
