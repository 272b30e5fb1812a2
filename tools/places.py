#!/usr/bin/env python3
"""Lists the places that docs/DESIGN-PASS.md counts, in crates/*/src of a commit (of the work tree without one).

    python3 tools/places.py [COMMIT] [POINT]

Without POINT it prints how many places each pattern finds; with POINT (1 to 7) each of them as FILE:LINE: TEXT.
"""
import collections
import glob
import re
import subprocess
import sys

LINES = {
    1: [
        ("own enum of two variants with a value each", None),
        ("field that is a flag or a code", r"^\s+(pub )?\w+: (bool|u8|u16),"),
        ("function with a `&mut` that answers a bool", None),
        ("bool parameter", r"^\s+\w+: bool,|[(,] ?\w+: bool[,)]"),
        ("code in place of a Result", r"=> \(?(0|99|255|900|1000)\b|\{ 0 \} else \{ 255 \}|return 99|return \(255"),
        ("match that hands a Result or an Option on", r"Ok\((\w+)\) => Ok\((Some\()?\1\)|Ok\(\(\)\) => Ok\(\(\)\)|Some\((\w+)\) => Some\(|Some\((\w+)\) => Ok\(\4\)|Err\(_\) => None|None => None|Err\((\w+)\) => Err\(\5"),
        ("`if let Err` that returns one", r"if let Err\("),
    ],
    3: [
        ("while", r"\bwhile\b"),
        ("for over a range", r"\bfor \w+ in .*\.\."),
        ("for with an index beside", r"\.enumerate\(\)"),
        ("element beside another by index", r"\w\[\w+ [+-] 1\]|\w\[\w+\.len\(\) - 1\]"),
    ],
    4: [
        ("impl of a comparison, a copy or a conversion", r"^impl.* (PartialEq|Eq|PartialOrd|Ord|TotalOrder|Clone|Copy) for"),
        ("conversion by a named function", r"fn (from_key|from_prefix|to_key|to_prefix|key_of|prefix_of|key_from)\b"),
        ("text written by format!", r"format!\("),
        ("comparison spelled out", r"\bcompare_\w+\(|\bsame_bytes\(|\bis_word\(|==? b\"[^\"]*\"\.as_slice\(\)"),
    ],
    6: [
        ("array field", r"^\s+(pub )?\w+: \[.*; \w+\],"),
        ("search by halves", r"\(high - low\) / 2"),
        ("buffer with a length beside", r"^\s+(old_len|len|n|at): usize,$|items: &mut \[T\], len: usize|items: &\[T\], len: usize"),
    ],
    7: [
        ("enum or flag that picks a step", r"match selection|Selection::|if in_place|one_of\(|if call == b"),
    ],
}


def files(commit):
    if commit is None:
        for name in sorted(glob.glob("crates/*/src/**/*.rt", recursive=True)):
            yield name, open(name).read()
        return
    names = subprocess.run(["git", "ls-tree", "-r", "--name-only", commit, "crates"], capture_output=True, text=True, check=True).stdout
    for name in names.split("\n"):
        if re.match(r"crates/\w+/src/.*\.rt$", name):
            yield name, subprocess.run(["git", "show", commit + ":" + name], capture_output=True, text=True, check=True).stdout


def functions(text):
    """Each function as (line, name, signature, clauses, body)."""
    for m in re.finditer(r"^( *)(pub |pub\(crate\) |pub\(super\) )?fn (\w+)", text, re.M):
        end = re.compile(r"^%s(\}|.*;)$" % m.group(1), re.M).search(text, m.end())
        whole = text[m.start():end.end() if end else len(text)]
        body = re.search(r"^%s\{$|\{$" % m.group(1), whole, re.M)
        head = whole[:body.start()] if body else whole
        clauses = re.findall(r"^ *(?:requires|ensures)\*? ?\w* ?(\{.*\}) ?;?$", head, re.M)
        signature = re.split(r"^ *(?:requires|ensures)", head, maxsplit=1, flags=re.M)[0]
        yield text.count("\n", 0, m.start()) + 1, m.group(3), signature, clauses, whole[body.end():] if body else ""


def enums(name, text):
    for m in re.finditer(r"enum (\w+)[^{]*\{\n(.*?)^\s*\}", text, re.M | re.S):
        variants = re.findall(r"^\s+\w+\(.*\),$", m.group(2), re.M)
        others = re.findall(r"^\s+\w+( \{.*\})?,$", m.group(2), re.M)
        if len(variants) == 2 and not others:
            yield name, text.count("\n", 0, m.start()) + 1, "enum " + m.group(1)


def twins(sources):
    """Functions of one shape: the same text once names and numbers are left out, at least four lines long."""
    shapes = collections.defaultdict(list)
    for name, text in sources:
        for line, fn, signature, _, body in functions(text):
            if "#[test]" in text and body.count("\n") < 4 or body.count("\n") < 2:
                continue
            types = re.sub(r"\b[a-z_]\w*\b", "x", signature)
            shape = re.sub(r"\b[A-Za-z_]\w*\b", "x", re.sub(r"b?\"[^\"]*\"|\b\d+\b", "0", types + body))
            shapes[re.sub(r"\s+", " ", shape)].append((name, line, "fn " + fn))
    return [p for group in shapes.values() if len(group) > 1 for p in group]


def repeated(sources):
    """Facts of 40 letters or more that stand in the contracts of three or more functions of a crate, and pairs of parameters in four or more."""
    facts, pairs = collections.defaultdict(set), collections.defaultdict(set)
    for name, text in sources:
        crate = name.split("/")[1]
        for line, fn, signature, clauses, _ in functions(text):
            for clause in clauses:
                for part in {p for p in re.findall(r"\((?:[^()]|\([^()]*\))*\)", clause) if len(p) >= 40} | {clause}:
                    if len(part) >= 40:
                        facts[crate, part].add((name, line, fn))
            found = re.findall(r"(\w+): (&(?:mut )?(?:\[\w+\]|Vec<\w+>))", signature)
            for i in range(len(found)):
                for j in range(i + 1, len(found)):
                    pairs[crate, found[i], found[j]].add((name, line, fn))
    places = [(sorted(v)[0][0], sorted(v)[0][1], "fact of %d: %s" % (len(v), k[1])) for k, v in facts.items() if len(v) >= 3]
    return places + [(sorted(v)[0][0], sorted(v)[0][1], "pair of %d: %s %s" % (len(v), k[1], k[2])) for k, v in pairs.items() if len(v) >= 4]


def main():
    args = sys.argv[1:]
    point = int(args.pop()) if args and args[-1].isdigit() and len(args[-1]) == 1 else None
    sources = list(files(args[0] if args else None))
    found = collections.defaultdict(list)
    for number, patterns in LINES.items():
        for title, pattern in patterns:
            found[number, title] = []
            if pattern:
                for name, text in sources:
                    for i, line in enumerate(text.split("\n"), 1):
                        code = line.split("//")[0]
                        if re.search(pattern, code) and "ghost use" not in code and "ensures" not in code and "requires" not in code:
                            found[number, title].append((name, i, line.strip()))
    for name, text in sources:
        found[1, LINES[1][0][0]] += enums(name, text)
        for line, fn, signature, _, _ in functions(text):
            if "&mut" in signature and re.search(r"-> bool\s*$", signature):
                found[1, LINES[1][2][0]].append((name, line, "fn " + fn))
    found[2, "functions of one shape"] = twins(sources)
    found[5, "facts and pairs of parameters that are repeated"] = repeated(sources)
    for number in sorted({n for n, _ in found}):
        for title in [t for n, t in found if n == number]:
            if point is None:
                print("%d  %4d  %s" % (number, len(found[number, title]), title))
            elif point == number:
                for name, line, text in found[number, title]:
                    print("%s:%d: %s" % (name, line, text))


main()
