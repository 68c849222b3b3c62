#!/usr/bin/env python3
"""Turns the project's own definitions and lemmas to the spelling of today's library: words in snake case, joined by a dash
where both sides are names and by an underscore where one is a plain word. It is run once, at the root, on the tree
that port.py has turned.

usage: spelling.py [--list]     --list prints the table and what would fall together, and writes nothing

It turns the files of specs/ and proofs/, the clauses and imports of src/, the texts of must-fail/, and the names that README.md
and docs/ cite. Functions, exported names, strings, inputs and outputs are left as they are."""

import collections
import pathlib
import re
import sys

WORD = re.compile(r'[^\s(){}.;,@"«»]+')
# names whose plain spelling would fall together with another: a law beside the definition of the same words
SPECIAL = {
    "basis-fine": "basis_is_fine",
    "bounds-fine": "bounds_are_fine",
    "columns-fine": "columns_are_fine",
    "entries-fine": "entries_are_fine",
    "lengths-fine": "lengths_are_fine",
    "sizes-fine": "sizes_are_fine",
    "starts-fine": "starts_are_fine",
    "tolerances-fine": "tolerances_are_fine",
    "widened-fine": "widened_is_fine",
    "outputs-fit": "outputs_do_fit",
    "variables-fit": "variables_do_fit",
    "with-bounds": "with_bounds_lem",
    "with-error": "error_put",
    **{n: n.replace("-", "_") + "_lem" for n in (
        "at_edge", "filled_in", "plain_at", "range_at", "finite-at", "finite-parts", "less-largest", "nine-lines", "pairs-reached",
        "widened-reached", "product-down", "product-up", "slack-room", "unit-error", "with-term", "is-nan", "nan-bits")},
}
# the same, of one file
IN_FILE = {
    "crates/sheet_text/proofs/Lengths.antt": {"rows_fit": "rows_do_fit"},
    "crates/coefficients/specs/Ends.antt": {"right_side": "right_side_is"},
    "crates/coefficients/proofs/Rows.antt": {"right_side": "right_side_is"},
    "crates/outward_sheet/proofs/Gap.antt": {"right_side": "right_side_is"},
}


def read(path):
    return path.read_text(encoding="utf-8")


def antt_files():
    return sorted(p for kind in ("specs", "proofs") for p in pathlib.Path("crates").glob(f"*/{kind}/**/*.antt"))


def of_function(path):
    """Whether a file belongs to the proof of one function: its names are made by the checker."""
    return (path.parent / "Proof.antt").exists()


SIGNATURE = re.compile(r"(\s*)((?:abbrev |unfoldable |pub )*)(record |data )?([^\s(){}:.,;\"]+)((?: [^\s(){}:.,;\"]+)*?)\s*(?:[({][^=]*)?\s:(?!:)")
PLAIN = re.compile(r"^(?:let|in|where|use|open|module|λ|record|elim|unfolding|--|\||=)")


def declared(path):
    """The names that a file declares, each with whether it is a definition of its own (and not a field or a constructor)."""
    found = []
    for line in read(path).split("\n"):
        if PLAIN.match(line.strip()):
            if not re.match(r"record [^\s]+ ?[({:]", line.strip()):
                continue
        if m := SIGNATURE.match(line):
            if "=" in line[: m.end()]:
                continue
            for name in (m[4] + m[5]).split():
                found.append((name, m[1] == ""))
    return found


def snake(word):
    """camelCase to snake_case; a letter for a set of numbers is a word of its own."""
    word = re.sub(r"(?<=[a-z0-9])(?=[A-Z])", "_", word)
    word = re.sub(r"(?<=[a-z])(?=[ℤℕℚ])", "_", word)
    return "".join(c.lower() if "A" <= c <= "Z" else c for c in word)


def is_own(name):
    return re.match(r"[a-zσΣ]", name) and not name.startswith("invariant-") and not name.startswith("decreases-")


# words of the library that laws are about
LIBRARY = set("zero neg finite fits le lt nan inf min max length take drop set append sum size add mul".split())
# definitions whose names are also plain words of a law's name
WORDS = set("is clear least most order down up high low half not digits between again nothing some none row term step after sound signed double plus rounded at_most rank room first pair".split())


def table():
    own, specs, fields = {}, set(), set()
    for path in antt_files():
        if of_function(path):
            continue
        for name, top in declared(path):
            own.setdefault(name, set()).add(str(path))
            if top and "specs" in path.parts:
                specs.add(name)
            if not top:
                fields.add(name)
    known = ({snake(n) for n in specs if "-" not in n} | LIBRARY) - WORDS
    turned = {}
    for name in own:
        if name in SPECIAL:
            turned[name] = SPECIAL[name]
            continue
        if re.match(r"[A-Z]|◌", name) or "--" in name or name.startswith("-"):
            continue
        parts = [snake(p) for p in name.split("-")]
        if any(not re.match(r"[\w'₀-₉ℤℕ<≤≡≼≺+*⊕]+$", p) for p in parts):
            continue
        words, i = [], 0
        while i < len(parts):
            for j in range(len(parts), i, -1):
                joined = "_".join(parts[i:j])
                if joined in known or j == i + 1:
                    words.append((joined, joined in known or not re.match(r"[a-z0-9_']+$", joined)))
                    i = j
                    break
        new = words[0][0]
        for (_, left), (text, right) in zip(words, words[1:]):
            new += ("-" if left and right else "_") + text
        if new != name:
            turned[name] = new
    return turned, own, fields


def turn_code(text, turned, fields, dotted=True):
    """Every word of a text that the table has; behind a dot only a field or a constructor."""
    def at(m):
        word = m[0]
        if word not in turned:
            return word
        if re.match(r" as ", text[m.end():]) and re.match(r"(?:ghost )?use (?!Rattle\.)|use Rattle\.std", text):
            return word
        if m.start() and text[m.start() - 1] == ".":
            before = re.search(r"([^\s(){};,@\"«»]*)\.$", text[: m.start()])[1]
            module = re.search(r"(?:^|\.)[A-Z][\w']*$", before) is not None
            if not module and word not in fields:
                return word
            if before in ("tie", "goal", "code"):
                return word
        return turned[word]
    return WORD.sub(at, text)


OWN = {p.name for p in pathlib.Path("crates").iterdir()} if pathlib.Path("crates").is_dir() else set()


def of_library(text):
    """What a file brings from the library keeps the library's name, also where a name of the project's is spelled alike."""
    found = set()
    for m in re.finditer(r"^(?:ghost )?use ([\w.'+-]+)\.\{([^}]*)\}", text, re.M):
        top = m[1].split(".")
        if not (top[0] == "Rattle" and top[1] in OWN):
            found |= {w.strip() for w in m[2].split(",") if " as " not in w}
    return found


def turn_antt(text, turned, fields):
    keep = of_library(text)
    turned = {k: v for k, v in turned.items() if k not in keep}
    out = []
    for line in text.split("\n"):
        code, mark, rest = line, "", ""
        if m := re.search(r"(?:^|(?<=\s))--(?=\s|$)", line):
            code, mark, rest = line[: m.start()], "--", line[m.end():]
        out.append(turn_code(code, turned, fields) + mark + turn_prose(rest, turned, fields))
    return "\n".join(out)


def turn_prose(text, turned, fields):
    """A comment: names in camel case wherever they stand, the others in code spans."""
    camel = {k: v for k, v in turned.items() if re.search(r"[a-z][A-Zℤ]", k)}
    text = turn_code(text, camel, set(camel))
    return re.sub(r"`[^`\n]*`", lambda m: turn_span(m[0], turned, fields), text)


def turn_span(text, turned, fields):
    return re.sub(r"[^\s(){}.;,@\"«»`:]+", lambda m: turned.get(m[0], m[0]), text)


CLAUSE = re.compile(r"\b(?:requires|ensures)\b\*?\s*(?:\w+\s*)?\{|\bghost\s*(?:\w+\s*(?::\s*|=\s*))?\{|\bghost use [^;]*;")


def turn_rt(text, turned, fields):
    keep = of_library(text)
    turned = {k: v for k, v in turned.items() if k not in keep}
    out, at = [], 0
    while m := CLAUSE.search(text, at):
        start = m.start()
        if text[m.end() - 1] == ";":
            end = m.end()
        else:
            deep, end = 1, m.end()
            while deep:
                deep += {"{": 1, "}": -1}.get(text[end], 0)
                end += 1
        out += [text[at:start], turn_code(text[start:end], turned, fields)]
        at = end
    return "".join(out) + text[at:]


# words of the library in the texts of must-fail/, which port.py leaves
LIBRARY_WORDS = {"getD": "get_or", "natAbs": "nat_abs", "ltZ": "lt_z", "negℤ": "neg_ℤ", "isNan": "is_nan", "isSet": "is_set", "roundUp": "round_up", "Bool·beq": "Bool.beq", "allBelow": "all_below", "rowAt": "row_at", "numberOf": "number_of", "gapOf": "gap_of", "countOf": "count_of", "withRow": "with_row", "rowsOf": "rows_of", "lists-of": "lists_of", "vars′": "vars'", "ups′": "ups'"}


def tight(text):
    """A field stands right behind what it is of, and needs no brackets of its own."""
    text = re.sub(r"(?<=[\w')]) \.(?=[a-z])", ".", text)
    return re.sub(r"\(([\w'₀]+(?:\.[\w-]+)+)\)", r"\1", text)


def turn_edit(text, turned, fields):
    def line(it):
        if it.startswith(("old: ", "new: ")):
            kind = where[0]
            body = it[5:]
            if kind == "antt":
                return it[:5] + turn_antt(tight(turn_code(body, LIBRARY_WORDS, set())), turned, fields)
            camel = {k: v for k, v in turned.items() if re.search(r"[a-z][A-Z]", k)}
            body = turn_code(body, LIBRARY_WORDS, set())
            return it[:5] + turn_code(body, turned if re.match(r"\s*(ghost use|ensures|requires)", body) else camel, fields)
        if it.startswith("file: "):
            where[0] = "antt" if it.endswith(".antt") else "rt"
        return it
    where = ["rt"]
    return "\n".join(line(it) for it in text.split("\n"))


def turn_page(text, turned, fields):
    turned = LIBRARY_WORDS | turned
    return re.sub(r"`[^`\n]*`", lambda m: turn_span(m[0], turned, fields), text)


def main():
    turned, own, fields = table()
    if "--list" in sys.argv:
        for old, new in sorted(turned.items()):
            print(old, new, sep="\t")
        again = collections.defaultdict(set)
        for name in own:
            again[turned.get(name, name)].add(name)
        for new, olds in sorted(again.items()):
            if len(olds) > 1:
                print("together:", new, sorted(olds), [len(own[o]) for o in olds])
        for path in antt_files():
            words = set(WORD.findall("\n".join(re.sub(r"--.*", "", l) for l in read(path).split("\n"))))
            for old in words & set(turned):
                if turned[old] in words:
                    print("clash:", path, old, turned[old])
        for path in sorted(pathlib.Path("crates").glob("*/src/*.rt")):
            text = read(path)
            clauses = " ".join(m[0] for m in re.finditer(r"ensures[^\n]*|requires[^\n]*", text))
            words = set(re.findall(r"\w+", text))
            for old in set(WORD.findall(clauses)) & set(turned):
                if turned[old] in words:
                    print("parameter?", path, old, turned[old])
        return
    for path in antt_files():
        here = IN_FILE.get(path.as_posix(), {})
        path.write_text(turn_antt(read(path), turned | here, fields | set(here)), encoding="utf-8")
    for path in sorted(pathlib.Path("crates").glob("*/src/*.rt")):
        path.write_text(turn_rt(read(path), turned, fields), encoding="utf-8")
    for path in sorted(pathlib.Path("crates").glob("*/must-fail/*.edit")):
        path.write_text(turn_edit(read(path), turned, fields), encoding="utf-8")
    for path in [pathlib.Path("README.md"), *sorted(pathlib.Path("docs").glob("*.md"))]:
        path.write_text(turn_page(read(path), turned, fields), encoding="utf-8")


main()
