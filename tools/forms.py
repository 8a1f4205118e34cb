#!/usr/bin/env python3
"""Lists the places of src/ that are written in an older form, by eight questions on the text.

usage: tools/forms.py [FOLDER] [--counts]

FOLDER is the top of the repository. For each question it prints how many places there are, and then each place with its file. It reads text, not
types: docs/DESIGN-PASS.md says what became of the places that it found.

1a  own enums, with their variants
1b  structs with a truth, a status or a number of a refusal beside other fields
1c  functions that answer a number of 8 bits which says a kind or a refusal, and constants of 8 bits
2a  functions whose names differ only in a type or a size
2b  functions of one file whose bodies differ only in names and numbers
3   loops that count or test by hand: `while` and `loop`
4   conversions written by hand: functions whose whole body is a `match` on a value, or an `if`, with only literals and constants in its arms
5a  facts that stand in the `requires` of three functions or more of a crate, up to the names of the values
5b  three or more parameters that stand together, by name and type, in three functions or more of a crate
6   buffers of a fixed length, and a length `n` beside a slice or an array among the parameters
7   choices of a step by a code: a `match` on an operator's code whose arms call
8   folders of proofs, and the answers in them
"""
import collections
import glob
import os
import re
import sys

SUFFIX = re.compile(r"_?(?:u8|u16|u32|u64|i32|i64|f32|f64|half|16|32|64)(?=_|$)")


def functions(text):
    """(name, parameters, clauses, body) of each function of a file; a signature ends at the line that begins its body."""
    lines = text.split("\n")
    at = 0
    while at < len(lines):
        head = re.match(r"(\s*)(?:pub(?:\(crate\))? )?(?:const )?(?:extern \"C\" )?fn (\w+)", lines[at])
        if not head:
            at += 1
            continue
        indent = head.group(1)
        start = at
        while not (lines[at] == indent + "{" or lines[at].rstrip().endswith("{") and at + 1 < len(lines) and not re.match(r"\s*(requires|ensures)", lines[at])):
            if lines[at].rstrip().endswith(";") and not re.match(r"\s*(requires|ensures)", lines[at]):
                break
            at += 1
        opened = at
        while at < len(lines) and lines[at] != indent + "}":
            at += 1
        signature = "\n".join(lines[start:opened + 1])
        cut = re.search(r"\n\s*(requires|ensures)", signature)
        yield head.group(2), signature[:cut.start()] if cut else signature.rstrip("{ \n"), signature[cut.start():] if cut else "", "\n".join(lines[opened + 1:at])
        at += 1


def parameters(head, name):
    """The parameters of a function, by name and type."""
    rest = head[re.search(r"fn " + name + r"\b", head).end():].replace("->", "  ")
    depth = 0
    for at, c in enumerate(rest):
        depth += (c == "<") - (c == ">")
        if c == "(" and depth == 0:
            break
    inner, depth = "", 0
    for c in rest[at:]:
        depth += (c == "(") - (c == ")")
        if depth == 0:
            break
        inner += c
    inner = inner[1:]
    depth, part, parts = 0, "", []
    for c in inner:
        if c in "([<":
            depth += 1
        if c in ")]>":
            depth -= 1
        if c == "," and depth == 0:
            parts.append(part)
            part = ""
        else:
            part += c
    parts.append(part)
    return [" ".join(p.split()) for p in parts if p.strip()]


def facts(clauses):
    """The parts of the `requires`, with the names of values that are no words of the repository left out."""
    for block in re.findall(r"requires(?: \w+)? \{(.*?)\}(?=\s*(?:requires|ensures|$|\{))", clauses, re.S):
        for part in re.split(r"×", block):
            part = " ".join(part.replace("(", " ").replace(")", " ").split())
            if part:
                yield part


def shape(body):
    """A body without comments, with names and numbers replaced."""
    body = re.sub(r"//[^\n]*", "", body)
    body = re.sub(r"\b(0x)?[0-9][0-9a-fA-F_]*\b", "0", body)
    body = re.sub(r"\b(?!if\b|else\b|match\b|let\b|mut\b|return\b|while\b|for\b|in\b)[a-zA-Z_]\w*", "n", body)
    return "".join(body.split())


def main():
    if "--help" in sys.argv:
        sys.exit(__doc__)
    words = [w for w in sys.argv[1:] if w != "--counts"]
    top = words[0] if words else "."
    if len(words) > 1 or top.startswith("-") or not glob.glob(os.path.join(top, "crates/*/src/*.rt")):
        print(f"forms: no crates below {' '.join(words) or '.'}", file=sys.stderr)
        sys.exit(2)
    found = collections.defaultdict(list)
    suffixes = collections.defaultdict(list)
    for path in sorted(glob.glob(os.path.join(top, "crates/*/src/*.rt"))):
        crate = path.split(os.sep)[-3]
        place = f"{crate}/src/{os.path.basename(path)}"
        text = open(path, encoding="utf-8").read()
        code = re.sub(r"(?m)//[^\n]*", "", text)
        for m in re.finditer(r"(?m)^\s*(?:pub(?:\(crate\))? )?enum (\w+)\s*\{(.*?)^\}", code, re.S | re.M):
            found["1a"].append((place, m.group(1) + ": " + ", ".join(v.strip() for v in re.sub(r"\{[^{}]*\}", "{..}", m.group(2)).replace("\n", " ").split(",") if v.strip())))
        for m in re.finditer(r"(?m)^\s*(?:pub(?:\(crate\))? )?struct (\w+)\s*\{(.*?)^\}", code, re.S | re.M):
            fields = re.findall(r"(\w+): ([^,\n]+)", m.group(2))
            if any(t == "bool" or n in ("status", "number") for n, t in fields) and len(fields) > 1:
                found["1b"].append((place, m.group(1) + ": " + ", ".join(f"{n}: {t}" for n, t in fields)))
        for m in re.finditer(r"(?m)^(?:pub )?const (\w+): u8", code):
            found["1c"].append((place, "const " + m.group(1)))
        bodies = collections.defaultdict(list)
        for name, head, clauses, body in functions(text):
            if re.search(r"-> u8$", head.strip()):
                found["1c"].append((place, "fn " + name))
            suffixes[(crate, SUFFIX.sub("", name))].append((place, name))
            if len(shape(body)) > 24:
                bodies[shape(body)].append(name)
            for m in re.finditer(r"(?m)^[^/\n]*\b(while|loop)\b", body):
                found["3"].append((place, f"{name}: " + body[m.start():].split("\n")[0].strip()))
            flat = " ".join(re.sub(r"//[^\n]*", "", body).split())
            if re.fullmatch(r"(match [\w.]+ \{.*\}|if [^{}]* \{ [^{}]* \} else \{ [^{}]* \})", flat) and not re.search(r"\w\(|::\w+\(.*[a-z]\w*\)", flat):
                found["4"].append((place, name))
            found["5a*"].extend((place, crate, name, f) for f in set(facts(clauses)))
            ps = parameters(head, name)
            found["5b*"].append((place, crate, name, ps))
            for m in re.finditer(r"\[[^\[\];,]+; ?\d\d+\]", re.sub(r"//[^\n]*", "", body)):
                found["6"].append((place, f"{name}: {m.group(0)}"))
            if any(re.match(r"n: ", p) for p in ps) and any(re.search(r": &?(mut )?\[\w+(; \d+)?\]", p) for p in ps):
                found["6"].append((place, f"{name}: " + ", ".join(ps)))
            if re.search(r"match (op|what|tag|kind|code)\b.*?=>.*?\w\(", body, re.S):
                found["7"].append((place, name))
        for names in bodies.values():
            if len(names) > 1:
                found["2b"].append((place, ", ".join(names)))
    for (crate, short), names in sorted(suffixes.items()):
        if len(names) > 1 and len({n for _, n in names}) > 1:
            found["2a"].append((names[0][0], ", ".join(n for _, n in names)))
    counts = collections.defaultdict(set)
    for place, crate, name, fact in found.pop("5a*", []):
        key = re.sub(r"\.(now|old|new)\b", "", fact)
        counts[(crate, key)].add(name)
    for (crate, fact), names in sorted(counts.items()):
        if len(names) >= 3:
            found["5a"].append((crate, f"{fact}: {', '.join(sorted(names))}"))
    groups = collections.defaultdict(set)
    for place, crate, name, ps in found.pop("5b*", []):
        for i in range(len(ps)):
            for j in range(i + 3, len(ps) + 1):
                groups[(crate, tuple(ps[i:j]))].add(name)
    whole = {k: v for k, v in groups.items() if len(v) >= 3}
    for (crate, ps), names in sorted(whole.items()):
        if not any(c == crate and len(q) > len(ps) and names == v and any(q[i:i + len(ps)] == ps for i in range(len(q))) for (c, q), v in whole.items()):
            found["5b"].append((crate, f"({', '.join(ps)}): {', '.join(sorted(names))}"))
    folders = [d for d in glob.glob(os.path.join(top, "crates/*/proofs/**/"), recursive=True) if glob.glob(os.path.join(d, "Answers.antt")) or glob.glob(os.path.join(d, "Invariants.antt"))]
    answers = sum(len(re.findall(r"(?m)^pub [^:\n]+ : goal\.", open(f, encoding="utf-8").read())) for d in folders for f in glob.glob(os.path.join(d, "Answers.antt")))
    for key in ("1a", "1b", "1c", "2a", "2b", "3", "4", "5a", "5b", "6", "7"):
        print(f"{key}: {len(found[key])}")
        if "--counts" not in sys.argv:
            for place, what in found[key]:
                print(f"    {place}: {what}")
    print(f"8: {len(folders)} folders, {answers} answers")


if __name__ == "__main__":
    try:
        main()
        sys.stdout.flush()
    except BrokenPipeError:
        os.dup2(os.open(os.devnull, os.O_WRONLY), sys.stdout.fileno())
