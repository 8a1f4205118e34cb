#!/usr/bin/env python3
"""Brings the repository's own definitions and lemmas to one spelling: words in snake case, types and modules in camel case.

usage: tools/respell.py [--check] [FOLDER]

Run it once, right after port.py. FOLDER is the top of the repository. A name counts as its own where a file of specs/ or proofs/ declares it, by a signature, a field, a constructor or an
alias. Each such name that begins with a small letter and has a hump or a dash is respelled: `binaryMeaning` is `binary_meaning`, `left-refusal-first` is
`left_refusal_first`; a lemma that would have a definition's name gets `_lem`. It is respelled wherever it stands as a whole word of specs/, of proofs/, of a clause or a `ghost use` item of src/, or of an edit in
must-fail/. Comments keep their words but for the names. With --check nothing is written. It says which names would fall together, and then writes nothing.
"""
import os
import re
import sys

sys.dont_write_bytecode = True

WORD = re.compile(r"[^\s(){}\[\];,.:\"`«»|⟦⟧⟨⟩⌜⌝]+")
HEAD = re.compile(r"^\s*(?:(?:pub|abbrev|unfoldable|data|record|module|let)\s+)*((?:[^\s(){}\[\]:;,.=]+)(?:\s+[^\s(){}\[\]:;,.=]+)*?)\s*:(?=\s|$)")
ALIAS = re.compile(r"\bas\s+([^\s;,{}]+)")
OWN_MODULES = re.compile(r"Rattle\.(\w+)\.")
# lemmas that the earlier respelling left with the name that a definition gets now
LEMMAS = ("next_place", "own_sign", "units_in")
PLAIN = re.compile(r"^[a-zα-ω][\w'₀-₉-]*$")


def files(top, *endings):
    for folder, dirs, names in os.walk(os.path.join(top, "crates")):
        dirs[:] = sorted(d for d in dirs if d not in ("out", ".git"))
        for name in sorted(names):
            if name.endswith(endings):
                yield os.path.join(folder, name)


def read(path):
    with open(path, encoding="utf-8") as f:
        return f.read()


def respelled(name):
    """The name in snake case: a hump and a dash are an underscore each."""
    name = re.sub(r"(?<=[a-z0-9'])(?=[A-Z])", "_", name)
    return "".join(c.lower() if "A" <= c <= "Z" else c for c in name.replace("-", "_"))


def declared(text):
    found = set()
    for line in text.splitlines():
        line = line.split("--")[0] if line.lstrip().startswith("--") else re.sub(r"\s--\s.*", "", line)
        head = HEAD.match(line)
        if head:
            found |= set(head.group(1).split())
        for alias in ALIAS.findall(line):
            found.add(alias)
        for it in re.findall(r"\blet\s+([^\s:={}()]+)", line):
            found.add(it)
        # what a binder names
        for it in re.findall(r"[({]([^(){}:]+?)\s:\s", line):
            found |= set(it.split())
    return found


def foreign(text):
    """The names that `use` lines bring from elsewhere than this repository's crates."""
    found = set()
    for path, names in re.findall(r"\buse\s+([^\s{;]+?)\.?\{([^}]*)\}", text):
        if not path.startswith("Rattle.") or path.startswith("Rattle.std."):
            found |= {it.split(" as ")[0].strip().strip("◌") for it in names.split(",")}
    return found


def clauses(text):
    """The parts of a .rt file that are antt: what stands in a clause's braces, and `ghost use` items."""
    spans = [(m.start(), m.end()) for m in re.finditer(r"(?m)^\s*ghost use [^;]*;", text)]
    for m in re.finditer(r"(?m)^\s*(?:requires|ensures)\b[^{};]*\{", text):
        at, depth = m.end(), 1
        while depth:
            depth += {"{": 1, "}": -1}.get(text[at], 0)
            at += 1
        spans.append((m.end(), at))
    return sorted(spans)


def turned(text, names):
    return WORD.sub(lambda m: names.get(m.group(), m.group()), text)


def turned_source(text, names):
    out, last = [], 0
    for start, end in clauses(text):
        out += [text[last:start], turned(text[start:end], names)]
        last = end
    return "".join(out) + text[last:]


def turned_edit(text, names):
    """An edit's lines of code: the humped names, which no name of Rattle source has, and in a proof's lines the others."""
    out, proof = [], False
    for line in text.splitlines(keepends=True):
        if line.startswith("file:"):
            proof = line.rstrip().endswith(".antt")
        mine = names if proof else {k: v for k, v in names.items() if re.search("[a-z][A-Z]", k)}
        out.append(turned(line, mine) if line.startswith(("old:", "new:")) else line)
    return "".join(out)


def main(argv):
    check = "--check" in argv
    rest = [a for a in argv if not a.startswith("--")]
    top = rest[0] if rest else "."
    own, theirs, used = set(), set(), set()
    for path in files(top, ".antt"):
        text = read(path)
        own |= declared(text)
        theirs |= foreign(text)
        used |= set(WORD.findall(text))
    for path in files(top, ".rt"):
        theirs |= foreign(read(path))
    names = {}
    for name in sorted(own - theirs):
        if PLAIN.match(name) and ("-" in name or re.search("[a-z0-9'][A-Z]", name)) and not name.startswith("-"):
            names[name] = respelled(name)
    by_new = {}
    for old, new in names.items():
        by_new.setdefault(new, []).append(old)
    plain = {it for it in own | theirs if it not in names}
    for new, olds in sorted(by_new.items()):
        lemmas = [old for old in olds if "-" in old]
        if (len(olds) > 1 or new in plain) and lemmas:
            names |= {old: new + "_lem" for old in lemmas}
            print(f"together: {', '.join(olds)}{' and ' + new if new in plain else ''}: {', '.join(lemmas)} gets _lem")
        elif len(olds) > 1 or new in plain:
            print(f"together: {', '.join(olds)} and {new}")
    print(f"{len(names)} names")
    lemmas = {it: it + "_lem" for it in LEMMAS}
    changed = 0
    for path in files(top, ".antt", ".rt", ".edit"):
        text = read(path)
        names = names | lemmas if path.endswith(".antt") else {k: v for k, v in names.items() if k not in lemmas}
        turn = turned_source if path.endswith(".rt") else turned_edit if path.endswith(".edit") else turned
        new = turn(text, names)
        if new != text:
            changed += 1
            if not check:
                with open(path, "w", encoding="utf-8") as f:
                    f.write(new)
    print(f"{changed} files {'would change' if check else 'changed'}")
    return 0


if __name__ == "__main__":
    sys.exit(main(sys.argv[1:]))
