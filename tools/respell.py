#!/usr/bin/env python3
"""Brings this repository's own definitions and lemmas to today's spelling: words in snake case.

usage: python3 tools/respell.py ROOT     once, right after port.py, at the top of the repository ROOT

A name that is declared in a specs/ or proofs/ folder and has a dash gets underscores. In a lemma's name a dash stays
where it joins two names of definitions (`length-painted`, `outcome-denied`). Names of the library, and those that the
check makes (`tie.Need-returns-2`), stay. It also turns the clauses of src/, the texts of must-fail edits, and names in
backquotes in README.md and docs/; functions of src/, strings, inputs and outputs stay. It stops where two names fall
together.
"""
import collections
import glob
import os
import re
import sys

WORD = r"[^\s(){}\[\],;:.@\"`|=→λ×·]+"
LIBRARY_WORDS = {"length", "take", "drop", "getD", "get_or", "sum", "map", "append", "set", "abs", "div", "max", "min"}


def files(root, pattern):
    return sorted(p for p in glob.glob(os.path.join(root, pattern), recursive=True) if "/out/" not in p)


def sources(root):
    return [p for kind in ("specs", "proofs") for p in files(root, f"crates/*/{kind}/**/*.antt")]


def text_of(path):
    with open(path, encoding="utf-8") as f:
        return f.read()


def declared(root):
    """Own names with a dash, by the kind of file that declares them; and the labels of own records among them."""
    names, labels = collections.defaultdict(set), set()
    for p in sources(root):
        kind = "definition" if "/specs/" in p else "lemma"
        for line in text_of(p).splitlines():
            if line.lstrip().startswith("--"):
                continue
            m = re.match(r"(\s*)((?:(?:pub|abbrev|unfoldable|infixl|infixr|let)\s+)*)(" + WORD + r")((?: " + WORD + r")*)\s+:\s", line)
            if m:
                for n in [m.group(3)] + m.group(4).split():
                    if "-" in n.strip("-") and not n.startswith("-") and "◌" not in n:
                        names[n].add(kind)
                        if m.group(1) and "pub" in m.group(2) and "abbrev" not in m.group(2):
                            labels.add(n)
            for n in re.findall(r"\blet ((?:" + WORD + r")) = ", line):
                if "-" in n:
                    names[n].add(kind)
            for binders in re.findall(r"[({]((?:" + WORD + r" )+): ", line):
                for n in binders.split():
                    if "-" in n.strip("-") and "◌" not in n:
                        names[n].add(kind)
            for binders in re.findall(r"λ ([^.(]+)\. ", line):
                for n in binders.split():
                    if "-" in n.strip("-"):
                        names[n].add(kind)
            m = re.match(r"\s*(?:pub )?(?:module) (" + WORD + ")", line)
            if m and "-" in m.group(1):
                names[m.group(1)].add(kind)
    return names, labels


def words_of_definitions(root):
    found = set(LIBRARY_WORDS)
    for p in sources(root):
        if "/specs/" in p:
            for m in re.finditer(r"(?m)^(?:(?:pub|abbrev|unfoldable) +)*(" + WORD + r")(?: " + WORD + r")* : ", text_of(p)):
                found.add(m.group(1))
    return found


def in_names(name, words):
    """The name cut into names of definitions, or None."""
    if name in words:
        return [name]
    parts = name.split("-")
    for k in range(len(parts) - 1, 0, -1):
        head = "-".join(parts[:k])
        if head in words:
            rest = in_names("-".join(parts[k:]), words)
            if rest:
                return [head] + rest
    return None


def spelling(names, words):
    table = {}
    for n, kinds in names.items():
        if re.match(r"(invariant|decreases|overflow)-", n):  # spelled as the check makes them
            continue
        parts = None if "definition" in kinds else in_names(n, words)
        if parts and len(parts) > 1:
            to = "-".join(p.replace("-", "_") for p in parts)
        else:
            to = n.replace("-", "_")
        if to != n:
            table[n] = to
    return table


def imported(text):
    """Names that a file takes from elsewhere than this repository's own specs/ and proofs/."""
    found = set()
    for path, items in re.findall(r"(?m)^(?:ghost )?use ([^\s{;]+?)\.?\{([^}]*)\}", text):
        if not re.match(r"Rattle\.\w+\.(specs|proofs)\.", path) or path.startswith(("Rattle.std.", "Rattle.core.", "Rattle.std_")) or ".declared." in path:
            found |= {i.strip().split(" as ")[0] for i in items.split(",")}
    return found


CHAIN = re.compile(r"[^\s(){}\[\],;\"`]+")


def turned(text, table, labels, keep):
    aliases = set(re.findall(r"(?m)^use \S+ as (\S+)$", text)) - {"tie", "goal"}

    def chain(m):
        word = m.group(0)
        lead = re.match(r"[-←]?", word).group(0) if len(word) > 1 else ""
        parts = word[len(lead):].split(".")
        root = parts[0]
        if root in ("tie", "goal") and len(parts) > 1:
            return word
        own = root in aliases or root == "Rattle"
        out = []
        for i, p in enumerate(parts):
            tail = re.search(r"[:|]*$", p).group(0)
            bare = p[:len(p) - len(tail)] if tail else p
            if bare in table and bare not in keep and (i == 0 or own or bare in labels):
                bare = table[bare]
            out.append(bare + tail)
        return lead + ".".join(out)

    return CHAIN.sub(chain, text)


def turned_code(text, table, labels, keep):
    """Clauses, ghost members and ghost imports of a source file; the code itself stays."""
    out, inside = [], False
    for line in text.split("\n"):
        s = line.lstrip()
        begins = re.match(r"ghost\b|requires\b|ensures\b|owns\b|decreases\b|(pub )?ghost\b", s)
        if begins or inside:
            out.append(turned(line, table, labels, keep))
            done = (line.count("{") <= line.count("}")) if begins and not inside else ("}" in line)
            inside = not done
        else:
            out.append(line)
    return "\n".join(out)


def turned_edit(text, table, labels):
    out, code = [], False
    for line in text.split("\n"):
        m = re.match(r"(file|old|new): (.*)", line)
        if m and m.group(1) == "file":
            code = m.group(2).strip().endswith(".rt")
        if m and m.group(1) in ("old", "new") and not code:
            line = m.group(1) + ": " + turned(m.group(2), table, labels, set())
        out.append(line)
    return "\n".join(out)


def main(root):
    names, labels = declared(root)
    taken = set(names)
    every = set()
    for p in sources(root):
        for m in re.finditer(r"(?m)^\s*(?:(?:pub|abbrev|unfoldable|let) +)*(" + WORD + r")(?: " + WORD + r")* : ", text_of(p)):
            every.add(m.group(1))
    table = spelling(names, words_of_definitions(root))
    met = False
    into = collections.defaultdict(list)
    for old, new in table.items():
        into[new].append(old)
    for new, olds in sorted(into.items()):
        if len(olds) > 1 or (new in every and new not in taken):
            print("falls together:", ", ".join(olds), "and" if new in every else "", new)
            met = met or len(olds) > 1
    if met:
        raise SystemExit("two names fall together: give one of them another name first")
    for p in sources(root):
        t = text_of(p)
        u = turned(t, table, labels, imported(t))
        if u != t:
            open(p, "w", encoding="utf-8").write(u)
    for p in files(root, "crates/*/src/**/*.rt"):
        t = text_of(p)
        u = turned_code(t, table, labels, imported(t))
        if u != t:
            open(p, "w", encoding="utf-8").write(u)
    for p in files(root, "crates/*/must-fail/*.edit"):
        t = text_of(p)
        u = turned_edit(t, table, labels)
        if u != t:
            open(p, "w", encoding="utf-8").write(u)
    for p in files(root, "README.md") + files(root, "docs/*.md"):
        t = text_of(p)
        u = re.sub(r"`[^`\n]+`", lambda m: "`" + turned(m.group(0)[1:-1], {k: v for k, v in table.items() if "definition" in names[k] or "lemma" in names[k]}, labels, set()) + "`", t)
        if u != t:
            open(p, "w", encoding="utf-8").write(u)
    print(len(table), "names")


if __name__ == "__main__":
    main(sys.argv[1])
