#!/usr/bin/env python3
"""Counts, for docs/DESIGN-PASS.md, the places of each of its points in crates/*/src, and the answers in crates/*/proofs.

    tools/places.py [REV] [--list]

REV is a commit; without it the files as they stand. --list names each place.
"""

import collections
import pathlib
import re
import subprocess
import sys

ROOT = pathlib.Path(__file__).resolve().parent.parent

# A place is a line that a pattern finds. What the patterns can't tell is read: a count is where to look, and no verdict.
POINTS = [
    ("1a a variant that says there is no value", r"^ +(Refused|Bad|Nothing|Failed|Short)\b(?!.*(=>|::))"),
    ("1b a row of checks by number", r"(?<!fn )(?<!\.)\bfirst\("),
    ("1c a function that answers a refusal by number", r"\bfn \w+_number\("),
    ("1d a number or a flag beside a value", r"^ +(pub )?(number|verdict|got|more|ok|ended): (u64|isize|bool),$"),
    ("1e a function that answers a kind by number", r"\bfn (kind|kind_of|turn|verdict|width)\(.*\) -> (u64|u8|usize)"),
    ("3 a loop that is no `for`", r"^ *(while |loop |let (mut )?\w+ = loop )"),
    ("4a arrays compared entry by entry", r"\w\[(\d|i)\] [!=]= \w+\[(\d|i)\]"),
    ("4b not-a-number told by x != x", r"\b([a-z]\w*(\.\w+|\[\w+\])?) != \1(?![\w.\[])"),
    ("4c a kind turned into another by hand", r"\bfn (kind_of|type_of|wide|least)\("),
    ("5a three columns as parameters", r"^ +volatilities: &(mut )?\[f64"),
    ("5b axes, grid and counts as parameters", r"^ +expiry_axis: &(mut )?\[f64"),
    ("5c spot and rate as parameters", r"(\(spot: f64, rate: f64\)|^    rate: f64,$)"),
    ("6 a slice with its length beside", r"fn .*: &(mut )?\[[a-z0-9]+\](, \w+: \w+)*, (n|strikes|count|p|a): usize"),
    ("7 a step on a row of tests of a code", r"^ *(\} else )?if (kind|letter|mark|a|b|k) (==|<) "),
]
KEPT_WORDS = set(
    "as bool break const continue crate else enum extern f64 false fn for if impl in isize let loop match mod mut pub ref return self static struct true "
    "u8 u32 u64 use usize where while i64 requires ensures Ok Err Some None".split()
)


def files(rev, pattern):
    """Returns the path and the text of each file that the pattern fits."""
    if rev:
        listed = subprocess.run(["git", "ls-tree", "-r", "--name-only", rev, "crates"], cwd=ROOT, capture_output=True, text=True, check=True)
        names = [it for it in listed.stdout.split() if re.fullmatch(pattern, it)]
        return [(it, subprocess.run(["git", "show", f"{rev}:{it}"], cwd=ROOT, capture_output=True, text=True, check=True).stdout) for it in names]
    found = [str(it.relative_to(ROOT)) for it in ROOT.glob("crates/*/*/**/*") if it.is_file()]
    return [(it, (ROOT / it).read_text()) for it in sorted(found) if re.fullmatch(pattern, it)]


def functions(path, text):
    """Yields the place, the name and the body's lines of each function, as rt fmt lays it out."""
    lines = text.split("\n")
    for at, line in enumerate(lines):
        head = re.match(r'( *)(pub(?:\(crate\))? )?(extern "C" )?fn (\w+)', line)
        if not head:
            continue
        end = next(it for it in range(at, len(lines)) if lines[it] == head[1] + "}" or (it == at and line.endswith("}")))
        begin = next((it for it in range(at, end) if lines[it] == head[1] + "{"), at)
        yield f"{path}:{at + 1}", head[4], lines[begin + 1 : end]


def shape(body):
    """Returns the body with its names, numbers and texts left out."""
    text = re.sub(r"//.*", "", "\n".join(body))
    text = re.sub(r'b?"[^"]*"|b\'[^\']*\'', "T", text)
    text = re.sub(r"\b(0x[0-9A-Fa-f_]+|\d[\d_]*(\.\d+)?(e-?\d+)?)(u64|f64|usize|u8|u32)?\b", "N", text)
    text = re.sub(r"[A-Za-z_]\w*", lambda it: it[0] if it[0] in KEPT_WORDS or it[0] in "NT" else "x", text)
    return re.sub(r"\s+", " ", text).strip()


def twins(sources):
    """Returns the groups of functions whose bodies of three lines or more differ in names and numbers alone."""
    groups = collections.defaultdict(list)
    for path, text in sources:
        for place, name, body in functions(path, text):
            if len(body) >= 3:
                groups[shape(body)].append(f"{place}: {name}")
    return [it for it in groups.values() if len(it) > 1]


def main():
    words = [it for it in sys.argv[1:] if it != "--list"]
    shows = "--list" in sys.argv
    rev = words[0] if words else None
    sources = files(rev, r"crates/\w+/src/.*\.rt")
    for title, pattern in POINTS:
        places = [f"{path}:{at}: {line.strip()}" for path, text in sources for at, line in enumerate(text.split("\n"), 1) if re.search(pattern, line)]
        print(f"{len(places):5} {title}")
        if shows:
            print(*[f"          {it}" for it in places], sep="\n")
    groups = twins(sources)
    print(f"{sum(map(len, groups)):5} 2 functions of one shape, in {len(groups)} groups")
    if shows:
        print(*["          " + " | ".join(it) for it in groups], sep="\n")
    answers = files(rev, r"crates/\w+/proofs/.*/Answers\.antt")
    goals = sum(len(re.findall(r"^(?:abbrev )?pub \S+ : goal\.", text, re.M)) for _, text in answers)
    print(f"{goals:5} 8 answers, in {len(answers)} files of {sum(text.count(chr(10)) for _, text in answers)} lines")
    counted = [it for path, text in sources for it in functions(path, text)]
    print(f"{len(counted):5} functions, {sum(text.count(chr(10)) for _, text in sources)} lines of src")


if __name__ == "__main__":
    main()
