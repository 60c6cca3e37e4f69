#!/usr/bin/env python3
"""Counts the places in src/ and proofs/ that docs/DESIGN-PASS.md speaks of.

usage: python3 tools/design/count.py [--list POINT] [COMMIT]      at the top; --list prints the places of a point, COMMIT counts an earlier state

The points: 1 own enums, flags beside a value, numbers for kinds and refusals; 2 functions alike but for types, sizes, constants and names called;
3 loops that count by hand; 4 equality, order, conversion by hand; 5 clauses that stand three times or more, parameters that go together; 6 arrays and a
length beside a buffer; 7 tables of functions; 8 answers, goals answered, laws that nothing cites.
"""

import collections
import re
import subprocess
import sys


def read(commit):
    """The files of crates/ at a commit, or as they stand."""
    if commit:
        names = subprocess.run(["git", "ls-tree", "-r", "--name-only", commit, "crates"], capture_output=True, text=True).stdout.split()
    else:
        names = subprocess.run(["git", "ls-files", "-co", "--exclude-standard", "crates"], capture_output=True, text=True).stdout.split()
    files = {}
    for name in names:
        if not name.endswith((".rt", ".antt")):
            continue
        try:
            files[name] = subprocess.run(["git", "show", f"{commit}:{name}"], capture_output=True, text=True).stdout if commit else open(name).read()
        except FileNotFoundError:
            pass
    return files


def code(text):
    """A source text without its comments, whose tests are left out."""
    text = text.split("#[cfg(test)]")[0]
    return re.sub(r"//[^\n]*", "", text)


FN = re.compile(r"^( *)(?:pub )?(?:extern \"C\" )?fn (\w+)[^\n]*(?:\n(?!\1\}\n)[^\n]*)*\n\1\}\n", re.M)


def functions(text):
    for m in FN.finditer(text):
        body = m.group(0)
        yield m.group(2), body, text[: m.start()].count("\n") + 1


def grep(sources, pattern):
    return [f"{n}:{i}: {l.strip()}" for n, t in sources for i, l in enumerate(t.split("\n"), 1) if re.search(pattern, l)]


def enums(sources):
    return grep(sources, r"^\s*(pub )?enum \w+")


def flags(sources):
    return grep(sources, r"^\s+(pub )?\w+: bool,$")


KINDS = r"(model::|Self::|\b)(UNSOUND|SHORT_ANSWER|UNREADABLE|HALF_GIVEN|NO_RIGHT|PAST_DATE|NO_ROW|IS_MARKER|LOCKED|DATE_TOO_LATE|NUMBERS_SPENT|TABLE_FULL|SHORT_FOR_PAGE|DATA|MARKER|GOVERNANCE|COMPLIANCE|STAYS|GOES|GAINS)\b"


def kinds(sources):
    return grep(sources, KINDS + r"|\b(mode|unit|kind|hold|number) [!=]= \d")


def twins(sources):
    groups = collections.defaultdict(list)
    for n, t in sources:
        for name, body, line in functions(t):
            start = body.find("\n{\n")
            inner = body[start:] if start > 0 else body[body.find("{") :]
            shape = re.sub(r"\b\d\w*\b", "N", inner)
            shape = re.sub(r"\b(u8|u16|u64|usize)\b", "T", shape)
            shape = re.sub(r"\b[a-z_]\w*(::\w+)*\b|\b[A-Z]\w*(::\w+)*\b", lambda m: m.group(0) if m.group(0) in ("let", "mut", "if", "else", "while", "return", "match", "for", "in") else "x", shape)
            if len(shape.split()) >= 12:
                groups[shape].append(f"{n}:{line}: {name}")
    return [" = ".join(g) for g in groups.values() if len(g) > 1]


def loops(sources):
    return grep(sources, r"^\s*(while|loop)\b")


BYHAND = r"fn (\w*same\w*|\w*order\w*|compare\w*|is_word|begins\w*|larger|shorter|lesser|is_less|is_more|one_of|holds_if|count_locked|removes|marks|state_of|settings_with|\w*_number|mode_\w+|gives_\w+|matched|clear\w*|furthest|needed)\b"


def by_hand(sources):
    return grep(sources, BYHAND)


def clauses(sources):
    count = collections.Counter()
    for n, t in sources:
        for m in re.finditer(r"^\s+requires [^{\n]*\{(.*)\}\s*$", t, re.M):
            for part in re.split(r" × ", m.group(1)):
                count[re.sub(r"^\(|\)$", "", part.strip())] += 1
    return [f"{k} times: {c}" for c, k in count.most_common() if k >= 3]


def together(sources):
    groups = [("rows", "keys"), ("line", "marks"), ("prefixes", "numbers"), ("first", "second", "need"), ("entries", "rows", "keys"), ("instant", "midnight")]
    found = []
    for n, t in sources:
        for m in re.finditer(r"\bfn (\w+)[^{]*?\(([^{]*?)\)\s*(?:->|\n|requires|ensures)", t):
            names = re.findall(r"(\w+):", m.group(2))
            for g in groups:
                if all(x in names for x in g):
                    found.append(f"{n}: {m.group(1)}: {', '.join(g)}")
    return found


def arrays(sources):
    return grep(sources, r"\bused: usize|-> \[u\d+; \d+\]|\bn: usize,?$|numbers: &(mut )?\[u64\]")


def tables(sources):
    return grep(sources, r"\bdyn \w|: fn\(|\[fn\(")


def uncited(files):
    proofs = {n: t for n, t in files.items() if n.endswith(".antt") and "/proofs/" in n and not re.search(r"/(Answers|Invariants|Proof)\.antt$", n)}
    everything = "\n".join(re.sub(r"--[^\n]*", "", t) for n, t in files.items() if n.endswith(".antt"))
    attributes = "\n".join(t for n, t in files.items() if n.endswith(".rt"))
    words = collections.Counter(re.findall(r"[A-Za-z_][\w'₀-₉-]*", everything))
    heads = collections.Counter(re.findall(r"^ *(?:pub )?([a-z][\w'₀-₉-]*)(?: [^\n=]*)? (?::|=)(?: |$)", everything, re.M))
    laws = [(n, m.group(1)) for n, t in proofs.items() for m in re.finditer(r"^ *(?:pub )?([a-z]\w*) (?:\{[^}]*\} )?: ", t, re.M)]
    return [f"{n}: {law}" for n, law in laws if words[law] <= heads[law] and not re.search(rf"::{law}\b", attributes)]


def answers(files):
    return [n for n in files if n.endswith("/Answers.antt")]


def goals(files):
    return [f"{n}: {g}" for n in answers(files) for g in re.findall(r"^(?:pub )?([\w-]+) : goal\.", files[n], re.M)]


def main():
    args = sys.argv[1:]
    point = args[args.index("--list") + 1] if "--list" in args else None
    rest = [a for a in args if a not in ("--list", point)]
    files = read(rest[0] if rest else None)
    sources = sorted((n, code(t)) for n, t in files.items() if "/src/" in n and n.endswith(".rt"))
    table = [
        ("1", "own enums", enums(sources)),
        ("1", "flags in structs", flags(sources)),
        ("1", "lines with numbers for kinds or refusals", kinds(sources)),
        ("2", "groups of functions of one shape", twins(sources)),
        ("3", "while and loop", loops(sources)),
        ("4", "equality, order, conversion by hand", by_hand(sources)),
        ("5", "clauses that stand three times or more", clauses(sources)),
        ("5", "signatures with parameters that go together", together(sources)),
        ("6", "lengths beside buffers, arrays returned", arrays(sources)),
        ("7", "dyn, function pointers", tables(sources)),
        ("8", "files of answers", answers(files)),
        ("8", "goals answered", goals(files)),
        ("8", "laws that nothing cites", uncited(files)),
    ]
    for number, what, places in table:
        print(f"{number}  {len(places):4}  {what}")
        if point == number:
            print("\n".join("         " + p for p in places))


if __name__ == "__main__":
    main()
