#!/usr/bin/env python3
"""Brings this repository's own definitions and lemmas to the spelling of the newer Rattle, once, behind port.py.

usage: python3 tools/spell.py            at the top of the repository, right after port.py
       python3 tools/spell.py --table    only prints the table: the old name, the new one

Words are in snake case: camelCase becomes snake_case, a dash that joined the words of a name and an old prime go the same way.
Types, facts and modules keep upper camel case. Functions of src/, exported names and strings are left alone. Where a new name
would fall together with another name of the repository, the lemma gets `_lem` behind it.
"""
import collections
import glob
import re
import sys

TOKEN = re.compile(r"[^\s(){}\[\],;.\"`]+")
DEF = re.compile(r"^(?:(?:pub|abbrev|unfoldable|private) )*([^\s():{}]+)(?= : | :$| \{|$)")
SKIP = ("--", "use ", "data ", "record ", "pub data ", "pub record ", "pub mod ", "mod ", "ruleset ", "pub ruleset ", "unfolding ", "open ")
# lemmas whose plain name a definition takes: the lemma gets `_lem`, in the files that declare or import it
LEMMAS = ("count_at", "first_body", "line_row", "no_nan", "numbers_of", "too_long")


def files():
    return sorted(glob.glob("crates/*/specs/*.antt") + glob.glob("crates/*/proofs/**/*.antt", recursive=True))


def own_names():
    """Each name that a file of specs/ or a file of lemmas declares: definitions, constructors, fields."""
    names = set()
    for p in files():
        if "/proofs/" in p and p.count("/") > 3:
            continue
        within = None
        names.update(re.findall(r" as ([a-z]\w*[A-Z][\w'′]*)", open(p, encoding="utf-8").read()))
        for line in open(p, encoding="utf-8"):
            line = line.rstrip("\n")
            head = re.match(r"^(?:pub )?(data|record|ruleset) ([^\s]+)", line)
            if head:
                within = head.group(1)
                names.add(head.group(2))
            elif line and not line.startswith(" "):
                within = None
                m = DEF.match(line)
                within = "module" if line.startswith("module ") else None
                if m and not line.startswith(SKIP) and (" : " in line or line.endswith(" :")):
                    names.add(m.group(1))
            elif re.match(r"^\s*module ", line):
                within = "module"
            elif within == "module" and (m := re.match(r"^\s+(?:(?:pub|abbrev|unfoldable) )*([^\s():{}]+) : ", line)):
                names.add(m.group(1))
            elif within == "record" and (m := re.match(r"^  (?:pub )?([^\s:]+) :", line)):
                names.add(m.group(1))
            elif within == "data" and (m := re.match(r"^  ([^:]+?) :", line)):
                names.update(m.group(1).split())
    return {n for n in names if re.match(r"^[^\W\d]", n)}


def spelt(name):
    if name[0].isupper():
        return name.replace("′", "'").replace("-", "_") if "-" in name or "′" in name else name
    name = name.replace("′", "'").replace("-", "_")
    return re.sub(r"(?<=[a-z0-9])([A-Z])", lambda m: "_" + m.group(1).lower(), name)


def table():
    taken = collections.Counter()
    for p in files() + sorted(glob.glob("crates/*/src/*.rt")):
        text = open(p, encoding="utf-8").read()
        text = re.sub(r"//.*|--.*", "", text)
        taken.update(set(re.findall(r"[^\W\d][\w'′-]*[?]?", text)))
    own = own_names()
    out = {}
    for n in sorted(own):
        new = spelt(n)
        if new == n:
            continue
        out[n] = new
    seen = collections.defaultdict(list)
    for n, new in out.items():
        seen[new].append(n)
    for new, olds in seen.items():
        lemmas = [n for n in olds if "-" in n]
        if len(olds) > 1 or new in taken:
            for n in lemmas or olds:
                out[n] = new + "_lem" if n in lemmas else new
    clash = {n: new for n, new in out.items() if new in taken}
    return out, clash


def turn(text, names):
    def one(m):
        t = m.group(0)
        if t in names and not re.search(r"(?:\bc|goal|tie|args)\.$", text[max(0, m.start() - 8):m.start()]):
            return names[t]
        return t
    return re.sub(r"[^\W\d][\w'′-]*[?]?", one, text)


def comment(line, names):
    return re.sub(r"`([^`]+)`", lambda m: "`" + turn(m.group(1), names) + "`", line)


def make_room():
    """Gives LEMMAS their `_lem`, in each file that declares the lemma or imports it from its crate's proofs."""
    for name in LEMMAS:
        word = re.compile(r"(?<![\w'.-])" + name + r"(?![\w'-])")
        homes = [p for p in files() if p.count("/") == 3 and re.search(r"(?m)^(?:pub )?" + name + " : ", open(p, encoding="utf-8").read())]
        modules = ["Rattle." + p.split("/")[1] + ".proofs." + p.split("/")[3][:-5] + "." for p in homes if "/proofs/" in p]
        for p in files():
            text = open(p, encoding="utf-8").read()
            if p in homes or any(re.search(re.escape(m) + r"\{[^}]*\b" + name + r"\b", text) for m in modules):
                open(p, "w", encoding="utf-8").write(word.sub(name + "_lem", text))


def clauses(text, names):
    """In a .rt file only ghost lines and clauses hold such names."""
    out = []
    depth = 0
    ghost = False
    for line in text.split("\n"):
        s = line.strip()
        if s.startswith("//"):
            out.append(comment(line, names))
            continue
        if s.startswith(("ghost ", "requires", "ensures")) or depth > 0 or ghost:
            if s.startswith("ghost use"):
                ghost = not s.endswith(";")
            elif ghost:
                ghost = not s.endswith(";")
            else:
                depth += line.count("{") - line.count("}")
            line = turn(line, names)
        out.append(line)
    return "\n".join(out)


def main(argv):
    if argv == ["--table"]:
        names, clash = table()
        for n in sorted(names):
            print(n, names[n], "CLASH" if n in clash else "")
        return 0
    make_room()
    names, clash = table()
    for p in files():
        text = open(p, encoding="utf-8").read()
        new = "\n".join(comment(l, names) if l.lstrip().startswith("--") else turn(l, names) for l in text.split("\n"))
        if new != text:
            open(p, "w", encoding="utf-8").write(new)
    for p in sorted(glob.glob("crates/*/src/*.rt")):
        text = open(p, encoding="utf-8").read()
        new = clauses(text, names)
        if new != text:
            open(p, "w", encoding="utf-8").write(new)
    print(f"spell: {len(names)} names; {len(clash)} fall together with another name")
    for n in sorted(clash):
        print("look:", n, clash[n])
    return 0


if __name__ == "__main__":
    raise SystemExit(main(sys.argv[1:]))
