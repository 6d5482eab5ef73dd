#!/usr/bin/env python3
"""Lists the places in crates/*/src that today's language may say better: tools/places.py [1..8].

It only finds places to look at; docs/DESIGN-PASS.md says what became of each.
"""
import glob
import os
import re
import sys
from collections import defaultdict

os.chdir(os.path.join(os.path.dirname(os.path.abspath(__file__)), ".."))
FILES = sorted(glob.glob("crates/*/src/**/*.rt", recursive=True))
LINES = {name: open(name).read().split("\n") for name in FILES}


def code(line):
    return line.split("//")[0] if line.lstrip().startswith("//") else line


def found(pattern, skip=None):
    """Each line of code that the pattern is in."""
    for name in FILES:
        for number, line in enumerate(LINES[name], 1):
            if re.search(pattern, code(line)) and not (skip and re.search(skip, line)):
                yield f"{name}:{number}", line.strip()


def functions():
    """Each function with its file, line, parameters and contract."""
    head = re.compile(r"^\s*(?:pub(?:\([a-z]+\))? )?(?:extern \"C\" )?fn (\w+)")
    for name in FILES:
        lines = LINES[name]
        for at, line in enumerate(lines):
            match = head.match(line)
            if not match:
                continue
            text, end = line, at
            while not re.search(r"[{;]$", text.rstrip()) or lines[end].lstrip().startswith(("requires", "ensures")):
                end += 1
                if end >= len(lines) or lines[end].strip() in ("{", "}"):
                    break
                text += "\n" + lines[end]
            yield f"{name}:{at + 1}", match.group(1), text


def parameters(text):
    signature = re.split(r"\n\s*(?:requires|ensures)", text)[0]
    inside = signature[signature.index("(") + 1:]
    names = re.findall(r"(?:^|[,(\s])(?:mut )?([a-z_]+): ([^,)]+)", inside)
    return [f"{n}: {t.strip()}" for n, t in names if not t.strip().startswith(("Global", "&HostRuntime", "&impl Abort"))]


def clauses(text):
    return re.findall(r"\n\s*(?:requires|ensures)(?: \w+)? \{ (.*) \}", text)


def shared(groups):
    """What stands in three functions or more, most shared first."""
    for what, places in sorted(groups.items(), key=lambda group: -len(group[1])):
        if len(places) >= 3:
            yield f"{len(places)} functions", what


def point_1():
    print("-- enums, of which some have the shape of Option or Result")
    yield from found(r"^(pub )?enum ")
    print("-- numbers that name kinds")
    yield from found(r"^(pub )?const [A-Z_0-9]+: u(8|64) = \d+;")
    print("-- refusals and answers as numbers")
    yield from found(r"refused\(\d|number: \d|-> (Option<)?\(u64, u64|: \(u64, u64\)|-> u8$")
    print("-- flags")
    yield from found(r"^\s+(pub )?[a-z_]+: bool,")
    print("-- a missing value or a ring handed on by hand")
    for name in FILES:
        for number, line in enumerate(LINES[name], 1):
            if re.search(r"else \{$", line) and re.search(r"return (None|\w+::Ring|Err\(error\));", LINES[name][number]):
                yield f"{name}:{number}", line.strip()


def point_2():
    print("-- functions whose bodies are alike but for names and numbers (three statements or more)")
    shapes = defaultdict(list)
    for name in FILES:
        text = "\n".join(LINES[name])
        for match in re.finditer(r"\n( *)(?:pub )?(?:extern \"C\" )?fn (\w+)[^\n]*(?:\n(?!\1\{)[^\n]*)*?\n?\1?\{?\n((?:\1    [^\n]*\n|\n)+?)\1\}", text):
            body = match.group(3)
            body = re.sub(r"//[^\n]*", "", body)
            if "ensures" in body or body.count("\n") < 3:
                body = body.split("{\n", 1)[-1]
            shape = re.sub(r"\b[a-zA-Z_]\w*\b|\d+", "x", body)
            shape = re.sub(r"\s+", "", shape)
            if len(shape) > 60:
                line = text[:match.start()].count("\n") + 2
                shapes[shape].append((f"{name}:{line}", match.group(2)))
    for places in shapes.values():
        if len(places) > 1:
            yield " ~ ".join(p for p, _ in places), " ~ ".join(f for _, f in places)


def point_3():
    print("-- loops that run over numbers")
    yield from found(r"^\s*(while|loop)\b|for \w+ in [^{]*\.\.")
    print("-- numbers that are counted on by hand")
    yield from found(r"^\s+[a-z_]+ (\+= |= [a-z_]+\.saturating_add\()")


def point_4():
    print("-- conversions, comparisons and printing with a name of their own")
    yield from found(r"fn (same\w*|is_same|told\w*|\w+_numbers|numbers|from_numbers|line|stop_of|source|verdict|answered|house_size|outcome_\w+|print\w*|\w+_line|\w+_opening|\w+_text|meets|difference)\b")


def point_5():
    print("-- facts in the contracts of three functions or more")
    facts = defaultdict(set)
    for place, name, text in functions():
        for clause in clauses(text):
            for fact in re.split(r" → | × ", clause):
                facts[re.sub(r"\b(old|new|now|entry)\b", "_", fact)].add(f"{place} {name}")
    yield from shared({fact: places for fact, places in facts.items() if len(fact) > 12})
    print("-- parameters that travel together through three functions or more (three of them, or two)")
    groups = defaultdict(list)
    for place, name, text in functions():
        given = parameters(text)
        for size in (3, 2):
            for at in range(len(given) - size + 1):
                groups[", ".join(given[at:at + size])].append(f"{place} {name}")
    yield from shared(groups)


def point_6():
    print("-- arrays of a fixed size, and what counts beside them")
    yield from found(r": \[\w+; \w+\]|= \[[^\]]+; \w+\];")
    print("-- a start and an end, or a row and its count, in one struct")
    yield from found(r"^\s+(pub )?(start|end|count|len|length|entries|left): ")


def point_7():
    print("-- function pointers, closures and dyn")
    yield from found(r"\bfn\(|\bFn(Mut|Once)?\(|\bdyn\b|\|[a-z_, ]*\| ")


def point_8():
    print("-- files of proofs, and their lines")
    for crate in sorted(glob.glob("crates/*")):
        for kind in ("Answers.antt", "Invariants.antt", "Proof.antt"):
            names = glob.glob(f"{crate}/proofs/**/{kind}", recursive=True)
            if names:
                yield f"{crate} {kind}", f"{len(names)} files, {sum(open(n).read().count(chr(10)) for n in names)} lines"
        lemmas = [n for n in glob.glob(f"{crate}/proofs/*.antt") if not n.endswith("/Lib.antt")]
        if lemmas:
            yield f"{crate} lemmas", f"{len(lemmas)} files, {sum(open(n).read().count(chr(10)) for n in lemmas)} lines"


def main():
    for point in sys.argv[1:] or "12345678":
        rows = list(globals()[f"point_{point}"]())
        for place, what in rows:
            print(f"{place}: {what}")
        print(f"== point {point}: {len(rows)} places\n")


main()
