#!/usr/bin/env python3
"""Brings the repository's own names of definitions and lemmas to snake case: `maskSize` becomes `mask_size`, `bytesAt-suc`
becomes `bytes_at-suc`. Run once, at the top of the repository, after the toolchain's own script.

A name is a word that begins with a small letter and has a capital after it. All of them are turned in crates/*/specs and
crates/*/proofs; in crates/*/src those in clauses and imports (the code has none); in must-fail/*.edit the same; in
comments and in the pages those that the crates have as names. Strings, upper camel case and dashes stay.

Prints each name whose new spelling another word of the same file had already: `snake_names.py --check` only prints. Where
that word is a lemma, LEMMAS gives it another name."""
import glob, os, re, sys

os.chdir(os.path.join(os.path.dirname(os.path.abspath(__file__)), ".."))
WORD = re.compile(r"(?<![A-Za-z0-9_'])[A-Za-z_][A-Za-z0-9_'′₀-₉-]*")
# Lemmas that would have the name of the definition that they are about, and the files that have them.
LEMMAS = [
    ("isis/proofs/TypeLaws", "known_alone"), ("isis_check_a/proofs/Naming", "value_in"), ("isis_index/proofs/Values", "cell_row"),
    ("isis_link/proofs/Given", "set_on"), ("rivals/proofs/RoundTrip", "in_group"), ("round_trip/proofs/Back", "named_back"),
    ("round_trip/proofs/named_export/Proof", "named_back"), ("srlg_table/proofs/ChainLaws", "next_last"),
    ("srlg_table/proofs/ChainLaws", "next_low"),
]


def snake(part):
    if not re.match(r"[a-z]", part) or not re.search(r"[A-Z]", part):
        return part
    return re.sub(r"(?<=[a-z0-9'])([A-Z]+)", lambda m: "_" + m.group(1).lower(), part)


def turned(word):
    return "-".join(snake(part) for part in word.split("-"))


def read(path):
    with open(path, encoding="utf-8") as f:
        return f.read()


PROOF_FILES = sorted(glob.glob("crates/*/specs/**/*.antt", recursive=True) + glob.glob("crates/*/proofs/**/*.antt", recursive=True))
SOURCES = sorted(glob.glob("crates/*/src/**/*.rt", recursive=True))
EDITS = sorted(glob.glob("crates/*/must-fail/*.edit"))
PAGES = ["README.md", "crates.txt"] + sorted(glob.glob("docs/*.md"))
COMMENT = {".antt": "--", ".rt": "//", ".edit": None}

names = set()
for path in PROOF_FILES:
    for line in read(path).split("\n"):
        code = line.split("-- ")[0] if not line.lstrip().startswith("--") else ""
        names |= {w for w in WORD.findall(code) if turned(w) != w}


def code_turned(text):
    """A line's text outside strings, every name in it turned."""
    parts = re.split(r'("(?:[^"\\]|\\.)*")', text)
    return "".join(p if i % 2 else WORD.sub(lambda m: turned(m.group(0)), p) for i, p in enumerate(parts))


def prose_turned(text):
    return WORD.sub(lambda m: turned(m.group(0)) if m.group(0) in names or any(p in names for p in m.group(0).split("-")) and m.group(0)[0].islower() else m.group(0), text)


def file_turned(path):
    text = read(path)
    for file, lemma in LEMMAS:
        if path == "crates/%s.antt" % file:
            text = re.sub(r"(?<![\w'-])%s(?![\w'-])" % lemma, lemma + "_lem", text)
    mark = COMMENT[os.path.splitext(path)[1]]
    if mark is None:
        return code_turned(text)
    out = []
    for line in text.split("\n"):
        at = 0 if line.lstrip().startswith(mark) else line.find(" " + mark + " ")
        if at < 0:
            out.append(code_turned(line))
        else:
            out.append(code_turned(line[:at]) + prose_turned(line[at:]))
    return "\n".join(out)


def ticks_turned(text):
    return re.sub(r"`[^`\n]+`", lambda m: prose_turned(m.group(0)), text)


check = "--check" in sys.argv
for path in PROOF_FILES + SOURCES:
    words = set(WORD.findall(read(path)))
    for w in sorted(words):
        if turned(w) != w and turned(w) in words:
            print("%s: %s and %s fall together" % (path, w, turned(w)))
for path in PROOF_FILES + SOURCES + EDITS:
    new = file_turned(path)
    if not check and new != read(path):
        with open(path, "w", encoding="utf-8") as f:
            f.write(new)
for path in PAGES:
    new = ticks_turned(read(path))
    if not check and new != read(path):
        with open(path, "w", encoding="utf-8") as f:
            f.write(new)
