#!/usr/bin/env python3
"""Brings the names of the repository's own definitions and lemmas to one spelling: words in snake case, types and modules in camel case.

usage: python3 tools/respell.py [ROOT]

Run once, on a tree that the kit's port.py has turned. A name with a capital inside (`unitsOf`) or a dash (`read-back`) gets underscores. A name that a
library declares and a file imports stays. Where a definition and a lemma would have one name, the lemma gets `_lem`. In .rt files only ghost items and
clauses are turned, in documents only what stands in backticks, in edits what they replace.
"""
import collections
import glob
import os
import re
import sys

# Names that fall together with another of the same file or crate: what they become.
CHOSEN = {
    "no-money": "no_money_lem",
    "rows-swept": "rows_swept_lem",
    "columns-swept": "columns_swept_lem",
    "of-kind": "of_kind_lem",
    "not-above": "not_above_lem",
    "next-term": "next_term_lem",
    "no-feeds": "no_feeds_lem",
    "no-feed": "no_feed_lem",
    "first-ledger": "first_ledger_lem",
    "is-short": "is_short_lem",
    "is-small": "is_small_lem",
    "pattern-of": "pattern_of_lem",
    "is-nan": "is_nan_lem",
    "sum_E": "sum_E",
}
# The same for names that already are in snake case, by file.
IN_FILE = {
    "crates/limits/proofs/Checks.antt": {"one_holds": "one_holds_lem"},
    "crates/elementary/proofs/Reciprocals.antt": {"step_down": "step_down_lem"},
    "crates/protocol/proofs/Programs.antt": {"held_after": "held_after_lem"},
    "crates/ledger/proofs/Once.antt": {"number_by": "number_by_lem", "turned_down": "turned_down_lem"},
}
# Where such a name is used in other files, they import it.
IMPORTED = {"Rattle.limits.proofs.Checks": {"one_holds": "one_holds_lem"}}

DECL = re.compile(r"^\s*(?:(?:abbrev|unfoldable|opaque|pub|erased)\s+)*([^\s(){}:;,.]+(?:\s+[^\s(){}:;,.]+)*)\s*:\s")
USE = re.compile(r"\s*(?:pub )?(?:ghost )?use (\S+?)\.\{([^}]*)\}")
WORD = r"[^\W\d][\w']*(?:-[\w'≤<≡+*∙∘]+)*"


def is_foreign(module, root):
    m = re.match(r"Rattle\.(\w+)\.", module)
    return not (m and os.path.isdir(os.path.join(root, "crates", m[1])))


def is_turned(name):
    return bool(re.match(r"[a-z]\w*[A-Z]", name)) or ("-" in name and name[0].isalpha())


def snake(name):
    if name in CHOSEN:
        return CHOSEN[name]
    return re.sub(r"([a-z0-9])([A-Z])", lambda m: m[1] + "_" + m[2].lower(), name).replace("-", "_")


def declared(text):
    names = set()
    for line in text.splitlines():
        if line.lstrip().startswith("--") or USE.match(line):
            continue
        m = DECL.match(line)
        if m and "tie." not in line and not m[1].startswith(("let ", "record ", "module ", "data ", "in ")):
            names.update(m[1].split())
    return names


def replaced(text, names):
    if not names:
        return text
    return re.sub(r"(?<![\w'-])" + WORD, lambda m: names.get(m[0], m[0]), text)


def of_antt(text, names):
    out = []
    for line in text.splitlines(keepends=True):
        code, mark, comment = line.partition("--") if line.lstrip().startswith("--") else (line, "", "")
        out.append(replaced(code, names) + mark + ticked(comment, names))
    return "".join(out)


def ticked(text, names):
    text = re.sub(r"`[^`\n]*`", lambda m: replaced(m[0], names), text)
    camels = {n: v for n, v in names.items() if "-" not in n}
    return replaced(text, camels)


def of_rt(text, names):
    """Ghost items and clauses; a clause goes on to its closing brace."""
    out, deep, within = [], 0, False
    for line in text.splitlines(keepends=True):
        starts = re.match(r"\s*(ghost|requires|ensures)\b", line)
        if starts or within:
            out.append(replaced(line, names))
            deep += line.count("{") - line.count("}")
            within = deep > 0
            deep = max(deep, 0)
        elif line.lstrip().startswith("//"):
            out.append(ticked(line, names))
        else:
            out.append(line)
    return "".join(out)


def of_edit(text, names, edited):
    out = []
    for line in text.splitlines(keepends=True):
        turned = line
        if re.match(r"(old|new):", line):
            turned = replaced(line, names)
        elif line.startswith("#"):
            turned = ticked(line, names)
        out.append(turned)
    return "".join(out)


def main():
    root = sys.argv[1] if len(sys.argv) > 1 else "."
    os.chdir(root)
    antt = sorted(glob.glob("crates/*/specs/**/*.antt", recursive=True) + glob.glob("crates/*/proofs/**/*.antt", recursive=True))
    antt = [f for f in antt if "/out/" not in f]
    texts = {f: open(f, encoding="utf-8").read() for f in antt}
    shared = set()
    foreign = collections.defaultdict(set)
    for f, t in texts.items():
        for m in re.finditer(r"(?m)^\s*(?:pub )?use (\S+?)\.\{([^}]*)\}", t):
            if is_foreign(m[1], "."):
                foreign[f].update(n.strip().split(" as ")[0] for n in m[2].split(","))
        if not re.match(r"crates/\w+/proofs/.*/", f):
            shared |= declared(t)
    everywhere = {n: snake(n) for n in shared if is_turned(n)}
    for f, t in texts.items():
        names = dict(everywhere)
        names.update({n: snake(n) for n in declared(t) if is_turned(n)})
        names.update(IN_FILE.get(f, {}))
        for module, more in IMPORTED.items():
            if module in t:
                names.update(more)
        for n in foreign[f]:
            names.pop(n, None)
        taken = declared(t) | foreign[f]
        for n, v in names.items():
            if v in taken and n in declared(t) and v != n and v not in names:
                print(f"falls together: {f}: {n} -> {v}")
        new = of_antt(t, names)
        if new != t:
            open(f, "w", encoding="utf-8").write(new)
    for f in glob.glob("crates/*/src/**/*.rt", recursive=True):
        t = open(f, encoding="utf-8").read()
        new = of_rt(t, everywhere)
        if new != t:
            open(f, "w", encoding="utf-8").write(new)
    for f in glob.glob("crates/*/must-fail/*.edit"):
        t = open(f, encoding="utf-8").read()
        new = of_edit(t, everywhere, None)
        if new != t:
            open(f, "w", encoding="utf-8").write(new)
    for f in ["README.md"] + glob.glob("docs/*.md"):
        t = open(f, encoding="utf-8").read()
        new = ticked(t, everywhere)
        if new != t:
            open(f, "w", encoding="utf-8").write(new)
    print(f"respell: {len(everywhere)} names")


main()
