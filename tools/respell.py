#!/usr/bin/env python3
"""Brings the definitions and lemmas of crates/ to snake case, types and facts to upper camel case.

usage: python3 tools/respell.py    at the top of the repository, once, after the kit's port.py

Words of the source (functions, types, fields, exported names), strings, inputs and outputs keep their spelling: in .rt files the clauses and the `ghost use`
lines alone are read. A name is taken as the repository's own where a file of specs/ or proofs/ declares it; in a file that imports the same name from a
library it stays. A lemma that would fall together with a definition gets `_lem`. What is renamed is written to docs/names.txt with the argument `list`.
"""
import collections
import os
import re
import sys

ROOT = os.path.join(os.path.dirname(os.path.realpath(__file__)), "..", "crates")
# a name of antt: no blank, no bracket, no punctuation
WORD = re.compile(r"[^\s(){}\[\].,;:|\"⌜⌝⟦⟧]+")
FIXED = {
    # words that are tactics or words of the library today, and names that would say less in the plain spelling
    "firstOf": "first_refusal", "first_of": "first_refusal",
    "getD-joined": "get_or_joined", "getD-table": "get_or_table", "maxZ": "max_z", "minZ": "min_z",
}


def texts():
    for folder, dirs, files in os.walk(ROOT):
        dirs[:] = sorted(d for d in dirs if d not in ("out",))
        for f in sorted(files):
            yield os.path.join(folder, f)


def plain(name):
    if name in FIXED:
        return FIXED[name]
    name = name.replace("getD", "get_or").replace("-", "_")
    return re.sub(r"([a-z0-9])([A-Z])", lambda m: m.group(1) + "_" + m.group(2).lower(), name)


def wanted(name):
    if name in FIXED:
        return True
    if name.startswith("+") or not re.match(r"[\wμ]", name):
        return False
    return "-" in name or bool(re.match(r"[a-zμ]", name) and re.search(r"[A-Z]", name))


def declared():
    """name -> kinds: 'spec' of a definition of specs/, 'law' of a lemma, 'inner' of a field, a constructor or a helper; answers to goals are left out."""
    own = collections.defaultdict(set)
    for p in texts():
        if not p.endswith(".antt"):
            continue
        where = "spec" if "/specs/" in p else "law"
        # a declaration whose type begins on the next line is read as one line
        text = re.sub(r"(?m)^(\s*(?:(?:pub|abbrev|unfoldable) )*[^\s(){}\[\].,;:|\"=]+)\n\s+(: )", r"\1 \2", open(p, encoding="utf-8").read())
        for line in text.split("\n"):
            s = line.strip()
            if s.startswith(("--", "use ", "mod ", "pub mod ", "unfolding")) or s in ("where", "in"):
                continue
            m = re.match(r"(\s*)(?:(?:pub|abbrev|unfoldable) )*(?:data |record )?([^\s(){}\[\].,;:|\"]+)\s+:\s*(.*)$", line)
            if m and not m.group(3).startswith("tie.") and "→ statement M" not in m.group(3):
                own[m.group(2)].add("inner" if m.group(1) else where)
            m = re.match(r"(?:abbrev |pub |unfoldable )*(?:data|record) ([^\s(){}\[\].,;:|\"]+) [({]", line)
            if m:
                own[m.group(1)].add(where)
    return own


def renames(own):
    by = collections.defaultdict(list)
    for n in own:
        by[plain(n) if wanted(n) else n].append(n)
    new = {}
    taken = set(by)
    for to, names in by.items():
        # the definition keeps the plain spelling; every other name of that spelling is a lemma's
        names.sort(key=lambda n: ("spec" not in own[n], n != to, "-" in n, n))
        for k, n in enumerate(names):
            it = to if k == 0 else to + "_lem"
            if k > 0:
                assert it not in taken, it
                taken.add(it)
            if it != n:
                new[n] = it
    return new


def imported(text):
    """What a file takes from libraries, and what from crates of the repository."""
    libs, ours = set(), set()
    for m in re.finditer(r"(?m)^\s*(?:ghost |pub )*use ([\w.·\-+]+)\.\{([^}]*)\}", text):
        names = {x.strip().split(" as ")[-1] for x in m.group(2).split(",")}
        own = re.match(r"Rattle\.(\w+)\.(specs|proofs)\.", m.group(1)) and os.path.isdir(os.path.join(ROOT, re.match(r"Rattle\.(\w+)", m.group(1)).group(1)))
        (ours if own else libs).update(names)
    return libs, ours


def turn_antt(text, new):
    libs, ours = imported(text)
    keep = libs - ours
    out = []
    for line in text.split("\n"):
        code, dash, note = line.partition("--") if line.lstrip().startswith("--") else (line, "", "")
        last = 0
        done = []
        for m in WORD.finditer(code):
            w = m.group(0)
            before = code[: m.start()]
            if w in new and w not in keep and not re.search(r"\b(tie|goal)\.$", before):
                done.append(code[last : m.start()] + new[w])
                last = m.end()
        done.append(code[last:])
        # in a comment a name stands between blanks or in `..`
        note = WORD.sub(lambda m: new.get(m.group(0), m.group(0)) if re.search(r"[A-Z]", m.group(0)) else m.group(0), note)
        note = re.sub(r"`([^`\s]+)`", lambda m: "`" + new.get(m.group(1), m.group(1)) + "`", note)
        out.append("".join(done) + dash + note)
    return "\n".join(out)


def turn_words(text, new, keep):
    return WORD.sub(lambda m: new[m.group(0)] if m.group(0) in new and m.group(0) not in keep else m.group(0), text)


def turn_rt(text, new):
    libs, ours = imported(text)
    keep = libs - ours
    # what may be turned in a source: words with a capital inside, which no word of the source has
    inside = {a: b for a, b in new.items() if re.search(r"[a-z0-9][A-Z]|-", a) or a in FIXED}
    out, at = [], 0
    for m in re.finditer(r"(?ms)^\s*(?:pub )?ghost use [^;]*;|\b(?:requires|ensures)\*?(?: \w+)? \{|^\s*(?:pub )?ghost \w+\b[^;{]*\{", text):
        if m.start() < at:
            continue
        end = m.end()
        if text[end - 1] == "{":
            depth = 1
            while depth:
                depth += {"{": 1, "}": -1}.get(text[end], 0)
                end += 1
        out.append(text[at : m.start()])
        out.append(turn_words(text[m.start() : end], inside, keep))
        at = end
    out.append(text[at:])
    return "".join(out)


def turn_edit(text, new):
    file = re.search(r"(?m)^file: (\S+)", text)
    turn = (lambda t: WORD.sub(lambda m: new.get(m.group(0), m.group(0)), t))
    if file and file.group(1).endswith(".rt"):
        inside = {a: b for a, b in new.items() if re.search(r"[a-z0-9][A-Z]", a) or a in FIXED}
        turn = lambda t: turn_words(t, inside, set())
    return "\n".join(re.sub(r"^((?:old|new): )(.*)$", lambda m: m.group(1) + turn(m.group(2)), l) for l in text.split("\n"))


def main():
    own = declared()
    new = renames(own)
    if sys.argv[1:] == ["list"]:
        for a in sorted(new):
            print(a, new[a])
        return
    for p in texts():
        if p.endswith(".antt"):
            turn = turn_antt
        elif p.endswith(".rt"):
            turn = turn_rt
        elif p.endswith(".edit"):
            turn = turn_edit
        else:
            continue
        with open(p, encoding="utf-8", newline="") as f:
            old = f.read()
        now = turn(old, new)
        if now != old:
            with open(p, "w", encoding="utf-8", newline="") as f:
                f.write(now)


main()
