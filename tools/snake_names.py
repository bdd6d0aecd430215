#!/usr/bin/env python3
"""Brings the repository's own words of antt to snake case: definitions, lemmas, fields, arguments, and what cites them.

usage: tools/snake_names.py            in the repository: rewrites the .antt and .rt files below crates/
       tools/snake_names.py --list     writes nothing, and prints what would become what, and names that fall together

It goes by text, once, after port.py. A dash becomes an underscore (`then-got`, `then_got`) and a hump an underscore with a small letter
(`startIn`, `start_in`). Types, modules, codes of the format (BS, TV) and names of Rust keep their spelling, and so does what a file takes
from a library. In a Proof.antt, whose generated names are another kit's, only what the repository declares is respelled.
"""

import collections
import glob
import os
import re
import sys

WORD = re.compile(r"(?<![\w'₀-₉⁻¹◌#-])([A-Za-z][\w'₀-₉⁻¹]*(?:-[\w'₀-₉⁻¹]+)*)")
HUMP = re.compile(r"([a-z0-9₀-₉])([A-Z])")
# a word whose snake case is another name of the same file: what it is called in its place
APART = {
    # a lemma that would have its function's name
    "as-bool": "as_bool_lem",
    "as-data": "as_data_lem",
    "as-f64": "as_f64_lem",
    "as-handle": "as_handle_lem",
    "as-i16": "as_i16_lem",
    "as-i32": "as_i32_lem",
    "as-read": "as_read_lem",
    "as-text": "as_text_lem",
    "edge-items": "edge_items_lem",
    "head-of": "head_of_lem",
    "is-defined": "is_defined_lem",
    "is-nan": "is_nan_lem",
    "item-size": "item_size_lem",
    "long-enough": "long_enough_lem",
    "moved-numbers": "moved_numbers_lem",
    "of-bits": "of_bits_lem",
    "of-doubles": "of_doubles_lem",
    "past-call": "past_call_lem",
    # two definitions, or a definition and a field of a record whose types cite it
    "all-in-range": "all_are_in_range",
    "gradientRead": "gradient_reading",
    "hatch-call": "hatch_call_shown",
    "is-held": "is_held_here",
    "noGradient": "no_gradient_read",
    "prefix-call": "prefix_call_shown",
    "reader-text": "reader_text_format",
    "stringBytes": "string_bytes_of",
    "stringStart": "string_start_of",
}
# lemmas that port.py has in snake case, in a crate where another name now becomes that: crate, word, what it is called in its place
TAKEN = {"dwg_hatch": {"as_read": "as_read_lem"}}


def snake(word):
    parts = []
    for part in word.split("-"):
        if part[:1].islower() and HUMP.search(part):
            part = HUMP.sub(lambda m: m.group(1) + "_" + m.group(2).lower(), part)
            part = re.sub(r"_([a-z])([A-Z])(?=[A-Z]|_|$)", r"_\1\2", part)
            part = part.lower() if part[:1].islower() else part
        parts.append(part)
    return "_".join(parts)


def turned(word):
    return APART.get(word) or snake(word)


def is_turned(word):
    return "-" in word or bool(word[:1].islower() and HUMP.search(word))


def code_of(text):
    """The lines of an .antt file with comments cut off (a comment begins with two dashes)."""
    return [re.sub(r"(^|\s)--(\s.*)?$", "", line) for line in text.split("\n")]


def imports(text, own):
    """The names that a file takes by 'use' or 'ghost use', those of the repository's crates and those of libraries."""
    ours, theirs = set(), set()
    for m in re.finditer(r"(?m)^\s*(?:ghost )?(?:pub )?use ([^\s{;]+)\.\{([^}]*)\}", text):
        root = m.group(1).split(".")
        mine = root[0] == "Rattle" and len(root) > 1 and root[1] in own
        for item in m.group(2).split(","):
            for name in item.split(" as "):
                (ours if mine else theirs).add(name.strip())
            if not mine and " as " in item:
                theirs.discard(item.split(" as ")[1].strip())
    return ours, theirs


DECLARES = re.compile(r"^\s*(?:(?:abbrev|unfoldable|pub|data|record|opaque|infixl \d+|infixr \d+)\s+)*([A-Za-z][^\s:(){},.;]*)\s*:\s")
NAMES = re.compile(r"^\s*(?:(?:abbrev|unfoldable|pub)\s+)*(?:data|record)\s+([A-Za-z][^\s:(){},.;]*)")


def declared(text):
    out = set()
    for line in code_of(text):
        for form in (DECLARES, NAMES):
            m = form.match(line)
            if m:
                out.add(m.group(1))
        for m in re.finditer(r"[({;]\s*((?:[A-Za-z][\w'₀-₉⁻¹-]*\s+)*[A-Za-z][\w'₀-₉⁻¹-]*)\s+:\s", line):
            out.update(m.group(1).split())
    return out


def main(argv):
    listing = argv == ["--list"]
    if argv and not listing:
        print(__doc__)
        return 2
    top = os.path.join(os.path.dirname(os.path.realpath(__file__)), "..")
    os.chdir(top)
    own = {c for c in os.listdir("crates") if os.path.isdir(os.path.join("crates", c, "src"))}
    antt = sorted(glob.glob("crates/*/specs/**/*.antt", recursive=True) + glob.glob("crates/*/proofs/**/*.antt", recursive=True))
    rt = sorted(glob.glob("crates/*/src/**/*.rt", recursive=True))
    texts = {}
    for path in antt + rt:
        with open(path, encoding="utf-8") as f:
            texts[path] = f.read()
        for word, new in TAKEN.get(path.split("/")[1], {}).items():
            texts[path] = re.sub(rf"(?<![\w'-]){word}(?![\w'-])", new, texts[path])
    known = set()
    for path in antt:
        if not path.endswith("/Proof.antt"):
            known |= {w for w in declared(texts[path]) if is_turned(w)}
    changed, together = 0, []
    for path in antt + rt:
        text = texts[path]
        ours, theirs = imports(text, own)
        proof = path.endswith("/Proof.antt")
        here = declared(text) if path.endswith(".antt") else set()

        def wanted(word, projected):
            if not is_turned(word) or word in theirs:
                return False
            if projected:
                return word in known
            if proof:
                return word in ours or (word in known and word not in here)
            return path.endswith(".antt") or word in ours or word in known

        def turn(line, names):
            def one(m):
                word = m.group(1)
                before = line[: m.start()]
                if before.endswith("tie.") or before.endswith("goal.") or re.search(r"\bRattle\.[\w.]*\.$", before) and not before.endswith("{"):
                    return word
                if wanted(word, before.endswith(".")):
                    names.add(word)
                    return turned(word)
                names.add(word)
                return word

            return WORD.sub(one, line)

        names, lines = set(), []
        if path.endswith(".antt"):
            for line in text.split("\n"):
                m = re.search(r"(^|\s)--(\s.*)?$", line)
                code, comment = (line[: m.start()], line[m.start() :]) if m else (line, "")
                comment = re.sub(r"`([^`]+)`", lambda q: "`" + turn(q.group(1), set()) + "`", comment)
                lines.append(turn(code, names) + comment)
        else:
            inside = False
            for line in text.split("\n"):
                if re.match(r"\s*//", line):
                    lines.append(re.sub(r"`([^`]+)`", lambda q: "`" + WORD.sub(lambda m: turned(m.group(1)) if m.group(1) in known else m.group(1), q.group(1)) + "`", line))
                    continue
                if re.match(r"\s*(ghost\b|requires\b|ensures\b)", line):
                    inside = True
                lines.append(turn(line, names) if inside else line)
                if inside and (re.search(r"[};]\s*$", line) or re.match(r"\s*{\s*$", line)):
                    inside = bool(re.match(r"\s*ghost use", line)) and not line.rstrip().endswith(";")
        by = collections.defaultdict(set)
        for word in names:
            by[turned(word) if wanted(word, False) else word].add(word)
        together += [(path, k, sorted(v)) for k, v in by.items() if len(v) > 1]
        new = "\n".join(lines)
        if new != text:
            changed += 1
            if not listing:
                with open(path, "w", encoding="utf-8") as f:
                    f.write(new)
    if listing:
        for word in sorted(known):
            print(f"{word} {turned(word)}")
    for path, k, v in together:
        print(f"together: {path}: {k}: {' '.join(v)}")
    print(f"{changed} files, {len(known)} words, {len(together)} that fall together")
    return 0


if __name__ == "__main__":
    raise SystemExit(main(sys.argv[1:]))
