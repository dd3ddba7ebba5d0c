#!/usr/bin/env python3
"""Gives the definitions and lemmas of crates/ the spelling of the kit: words in snake case.

usage: python3 tools/respell.py [--check] [FOLDER]     FOLDER is the top of the repository, else the current folder

    numberAt, read-written, place-told  ->  number_at, read_written, place_told

It follows port.py and goes by text: it reads every .antt and .rt file below crates/, and rewrites them in place, and the
names between backticks in README.md and docs/. Names that other libraries declare stay, and so do the names that the
toolchain makes for a proof, which stand in a proof of a function behind a dot. Where a lemma would get the name of a
definition, the lemma gets `_lem`. --check prints the table of names and where two fall together, and writes nothing.
A second run changes nothing.
"""
import re
import sys
from collections import defaultdict
from pathlib import Path

WORD = r"[^\s(){}.;,@\"«»\[\]\\`]+"
DECLARED = re.compile(r"^(\s*)(?:(?:unfoldable|abbrev) )?(?:pub )?(record |data )?(" + WORD + r"(?: " + WORD + r")*)((?: \([^()]*\)| \{[^{}]*\})*) : ")
CAMEL = re.compile(r"[a-z][a-z0-9]*(?:[A-Z][a-z0-9]*)+[0-9'₀]*")
DASHED = re.compile(r"[A-Za-z0-9]\S*-\S*[A-Za-z0-9'₀]")
USE = re.compile(r"^(\s*(?:pub )?(?:ghost )?use )([^\s;{]+?)(\.\{)?([^{}]*?)(\})?( as \S+?)?(;?)$")
MADE = re.compile(r"\.(Tie|Statement|Goals|Given|Lts\w*|Proof|Code|Met)(\.|$)")
KIT = re.compile(r"^Rattle\.(std|bytes|io|libc|os|core)\b|^(?!Rattle\b)")

# A library that the same file uses has the plain name.
OTHERWISE = {"slice-val": "slice_val_of"}


def snake(name):
    return re.sub(r"(?<=[a-z0-9])([A-Z])", lambda m: "_" + m[1].lower(), name) if CAMEL.fullmatch(name) else name


def spelled(name):
    return snake(name).replace("-", "_")


def texts(top):
    for path in sorted(top.glob("crates/*/*/**/*")):
        if path.suffix in (".antt", ".rt") and "out" not in path.relative_to(top).parts:
            yield path, path.read_text()


def lines_of(text):
    for line in text.split("\n"):
        if not line.strip().startswith(("--", "//")):
            yield line


def declared(top):
    """Each name that a .antt file declares, with where: 'specs', 'proofs', or 'field' for a field of a record."""
    names = defaultdict(set)
    for path, text in texts(top):
        if path.suffix != ".antt":
            continue
        part = path.relative_to(top).parts[2]
        in_record = False
        for line in lines_of(text):
            if re.match(r"\s*(?:pub )?record ", line):
                in_record = True
            elif line.strip() and not line.startswith(" "):
                in_record = False
            m = DECLARED.match(line)
            if m and not line.strip().startswith(("use ", "let ")):
                for name in m[3].split(" "):
                    names[name].add("field" if in_record and m[1] and not m[2] else part)
    return names


def table(top):
    names = declared(top)
    group = defaultdict(set)
    for name in names:
        group[spelled(name)].add(name)
    to = {}
    for new, olds in group.items():
        # A field is read behind a dot, so that it hides nothing. A definition keeps the plain name.
        plain = {o for o in olds if "field" in names[o] or "specs" in names[o]}
        first = sorted(plain or olds, key=lambda o: (not CAMEL.fullmatch(o), o))[0]
        for old in olds:
            others = olds - {old}
            is_lemma = names[old] == {"proofs"} and old != first and any(names[o] != {"field"} for o in others)
            to[old] = new + "_lem" if is_lemma else new
    to.update(OTHERWISE)
    return {o: n for o, n in to.items() if o != n}, names


def imported(text):
    """The names that a file takes from a library or from a made module, and the short names of modules."""
    kit, modules = set(), set()
    for line in text.split("\n"):
        m = USE.match(line)
        if not m:
            continue
        foreign = bool(KIT.match(m[2]) or MADE.search(m[2]))
        if m[6]:
            modules.add(m[6][4:])
        if foreign and m[3]:
            kit.update(n.strip().split(" as ")[0] for n in m[4].split(","))
            kit.difference_update(n.strip().split(" as ")[1] for n in m[4].split(",") if " as " in n)
        elif foreign and not m[6]:
            kit.add(m[2].split(".")[-1])
    return kit, modules


def turned(path, text, to, top):
    kit, modules = imported(text)
    parts = path.relative_to(top).parts
    of_function = parts[2] == "proofs" and len(parts) > 4
    is_rust = path.suffix == ".rt"
    comment = "//" if is_rust else "--"
    if is_rust:
        # A function of the source keeps its name, whatever a lemma gets.
        to = {o: n for o, n in to.items() if not n.endswith("_lem")}
    else:
        # A lemma of this file that would get the name of a definition that the file uses.
        bare = "\n".join(lines_of(text))
        used = {snake(t) for t in re.findall(WORD, bare) if CAMEL.fullmatch(t)}
        here = {m[3] for m in map(DECLARED.match, lines_of(text)) if m and not m[2] and not re.search(r"(?m)^ +pub " + re.escape(m[3]) + " :", text)}
        to = {**to, **{n: n + "_lem" for n in here & used if n not in to}}

    def word(token, behind_dot, owner):
        if token in kit and not behind_dot:
            return token
        if behind_dot and owner not in modules:
            return spelled(token) if token in to or CAMEL.fullmatch(token) else token
        if token in to:
            return to[token]
        if CAMEL.fullmatch(token):
            return snake(token)
        if DASHED.fullmatch(token) and not is_rust and not of_function and not behind_dot and token not in kit and "::" not in token:
            return spelled(token)
        return token

    def code(piece):
        def one(m):
            before = piece[: m.start()]
            behind = re.search(r"(" + WORD + r"|[)\]])?\.$", before)
            return word(m[0], bool(behind), behind[1] if behind else None)

        return re.sub(r"\"(?:[^\"\\]|\\.)*\"|" + WORD, lambda m: m[0] if m[0].startswith('"') else one(m), piece)

    def said(piece):
        # In a comment a dashed word is English but between backticks.
        piece = re.sub(r"`[^`]*`", lambda m: re.sub(WORD, lambda w: to.get(w[0], snake(w[0])), m[0]), piece)
        return re.sub(r"(?<![\w`])" + CAMEL.pattern + r"(?![\w`])", lambda m: to.get(m[0], snake(m[0])), piece)

    out = []
    for line in text.split("\n"):
        at = line.find(comment) if is_rust else (0 if line.strip().startswith("--") else -1)
        if at < 0 and not is_rust:
            m = re.search(r"(^|\s)--\s", line)
            at = m.start() if m else -1
        head, tail = (line, "") if at < 0 else (line[:at], line[at:])
        m = None if is_rust and "ghost use " not in head else USE.match(head)
        if m and (KIT.match(m[2]) or MADE.search(m[2])):
            names = [n.split(" as ") for n in m[4].split(", ")] if m[3] else []
            body = ", ".join(n[0] + (" as " + to.get(n[1], spelled(n[1])) if len(n) > 1 else "") for n in names)
            head = m[1] + m[2] + (m[3] or "") + (body if m[3] else m[4]) + (m[5] or "") + (m[6] or "") + m[7]
        elif m and m[3] and m[5]:
            def of_own(n):
                a = [to.get(x, snake(x)) for x in n.split(" as ")]
                return a[0] if len(a) == 2 and a[0] == a[1] else " as ".join(a)
            head = m[1] + m[2] + m[3] + ", ".join(of_own(n) for n in m[4].split(", ")) + m[5] + (m[6] or "") + m[7]
        elif m and not m[3]:
            *above, last = m[2].split(".")
            head = m[1] + ".".join(above + [to.get(last, snake(last))]) + m[4] + (m[6] or "") + m[7]
        else:
            head = code(head)
        out.append(head + said(tail))
    return "\n".join(out)


def in_document(text, to):
    return re.sub(r"`[^`\n]*`", lambda m: re.sub(WORD, lambda w: to.get(w[0], snake(w[0])), m[0]), text)


def main():
    words = sys.argv[1:]
    check = "--check" in words
    rest = [w for w in words if w != "--check"]
    top = Path(rest[0] if rest else ".").resolve()
    to, names = table(top)
    if check:
        for old in sorted(to):
            print(old, to[old], " ".join(sorted(names[old])), sep="\t")
        for path, text in texts(top):
            bare = re.sub(r"--[^\n]*|//[^\n]*", "", text)
            seen = set(re.findall(WORD, bare))
            both = sorted(n for o, n in to.items() if o in seen and n in seen)
            if both:
                print("look:", path.relative_to(top), "has already", ", ".join(both))
        return 0
    changed = 0
    for path, text in list(texts(top)):
        new = turned(path, text, to, top)
        if new != text:
            path.write_text(new)
            changed += 1
    for path in [top / "README.md", *sorted((top / "docs").glob("*.md"))]:
        text = path.read_text()
        new = in_document(text, to)
        if new != text:
            path.write_text(new)
            changed += 1
    print(f"respell: {len(to)} names, {changed} files")
    return 0


if __name__ == "__main__":
    raise SystemExit(main())
