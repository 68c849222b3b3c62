"""Where a crate's text can be changed in one place, and to what: in the bodies of its functions and its constants, or in its definitions.

A mutant is (path, line number from 0, the new line, what was changed in words, further lines that change with it, as imports)."""
import pathlib
import re
from typing import NamedTuple


class Mutant(NamedTuple):
    path: str
    line: int
    new: str
    change: str
    imports: tuple = ()


# words that are exchanged for one another; a name that holds one as a part between underscores counts too
EXCHANGED = [
    ("hi", "lo"), ("high", "low"), ("mins", "maxs"), ("min", "max"), ("up", "down"), ("upper", "lower"), ("lower", "upper"),
    ("rows", "structurals"), ("columns", "entries"), ("gap", "outward"), ("true", "false"), ("larger", "smaller"), ("first", "last"),
    ("all", "any"), ("is_some", "is_none"), ("room", "cut"), ("magnitude", "lhs"), ("basic", "integer"), ("before", "after"), ("starts", "places"),
]
PAIRS = {a: b for pair in EXCHANGED for a, b in (pair, pair[::-1])}

CODE_SWAPS = {
    "+": ["-"], "-": ["+"], "*": ["+"], "/": ["*"], "%": ["/"], "+=": ["-="], "-=": ["+="], "<": ["<=", ">"], "<=": ["<"], ">": [">=", "<"],
    ">=": [">"], "==": ["!="], "!=": ["=="], "&&": ["||"], "||": ["&&"], "&": ["|"], "|": ["&"], "..": ["..="], "..=": [".."],
}
SPEC_SWAPS = {
    "◌&&◌": [], "&&": ["||"], "||": ["&&"], "≤": ["<"], "<": ["≤"], "le": ["lt"], "lt": ["le"], "leb": ["ltb"], "ltb": ["leb"], "eq": ["ne", "le"],
    "ne": ["eq"], "⊕": ["⊖"], "⊖": ["⊕"], "⊗": ["⊕"], "+": ["-"], "-": ["+"], "*": ["+"], "+ℤ": ["-ℤ"], "-ℤ": ["+ℤ"], "≼": ["≺"], "≺": ["≼"],
    "×": [], "suc": [], "∣": [], "binary64": [],
}
# operators that an import names with marks around them
MARKED = {"&&", "||", "≤", "<", "⊕", "⊖", "⊗", "+", "-", "*", "+ℤ", "-ℤ", "≼", "≺"}

CODE_TOKEN = re.compile(
    r"""(?P<comment>//.*)|(?P<text>b?"(?:\\.|[^"\\])*")|(?P<byte>b'(?:\\.|[^'\\])')|(?P<label>'[a-z_]+\b(?!'))|(?P<number>0x[0-9a-fA-F_]+|\d[\d_]*(?:\.\d[\d_]*)?(?:e-?\d+)?)"""
    r"""|(?P<word>[A-Za-z_][A-Za-z0-9_]*)|(?P<op>\.\.=|\.\.|=>|->|::|&&|\|\||[-+*/%<>=!]=|[-+*/%<>=!&|.,;:(){}\[\]#?@^])"""
)
SPEC_TOKEN = re.compile(
    r"""(?P<comment>--.*)|(?P<text>"(?:\\.|[^"\\])*")|(?P<number>0x[0-9a-fA-F_]+|\d+)|(?P<op>\+ℤ|-ℤ|\*ℤ|&&|\|\||[≤<⊕⊖⊗+\-*≼≺×∣≡→λ.,;:=(){}\[\]↦|])"""
    r"""|(?P<word>[A-Za-z_ℤℕΣ][A-Za-z0-9_'<]*)"""
)


def tokens(pattern, line):
    """The tokens of a line, (kind, text, start, end), without comments."""
    return [(m.lastgroup, m.group(), m.start(), m.end()) for m in pattern.finditer(line) if m.lastgroup != "comment"]


def exchanged(word):
    """The names that a name is exchanged for: its own counterpart, or that of one of its parts."""
    if word in PAIRS:
        return [PAIRS[word]]
    parts = word.split("_")
    return ["_".join([*parts[:i], PAIRS[part], *parts[i + 1 :]]) for i, part in enumerate(parts) if len(parts) > 1 and part in PAIRS]


def other_numbers(text):
    """Other numbers for a number."""
    plain = text.replace("_", "")
    if plain.startswith("0x"):
        return [hex(int(plain, 16) + 1)]
    if "." in plain or "e" in plain:
        return ["1.0"] if float(plain) == 0 else [repr(2 * float(plain)), "0.0"]
    n = int(plain)
    return [str(n + 1), *([str(n - 1)] if n > 0 else [])]


def other_text(text):
    """A string or byte with its last letter changed that is no escape."""
    letters = re.match(r"""(b["'])(.*?)((?:\\.)*["'])$""", text)
    if not letters or not letters[2]:
        return []
    return [letters[1] + letters[2][:-1] + ("x" if letters[2][-1] != "x" else "y") + letters[3]]


def arguments(found, opens):
    """The ranges of the arguments of the call whose parenthesis is the token at `opens`, or nothing where it does not close on this line."""
    depth, begin, ranges = 0, opens + 1, []
    for at in range(opens, len(found)):
        text = found[at][1]
        depth += text in ("(", "[", "{")
        depth -= text in (")", "]", "}")
        if depth == 1 and text == "," or depth == 0:
            if at > begin:
                ranges.append((begin, at))
            begin = at + 1
        if depth == 0:
            return ranges
    return []


def replaced(line, start, end, new):
    return line[:start] + new + line[end:]


FIELDS = {}


def read_fields(root):
    """Reads the types of all structs' fields, by their names."""
    FIELDS.clear()
    for path in pathlib.Path(root, "crates").glob("*/src/**/*.rt"):
        for name, kind in re.findall(r"^\s*(?:pub(?:\(crate\))? )?(\w+): ([^,=]+),$", path.read_text(), re.M):
            FIELDS.setdefault(name, set()).add(kind.strip())


def field_types(name):
    """The types of the fields of this name."""
    return FIELDS.get(name, set())


def parameters(signature):
    """The types of a function's parameters, by their names."""
    return {name: kind.strip() for name, kind in re.findall(r"\b(\w+): ([^,()]+(?:\([^()]*\))?)", signature)}


def in_code(line, types, fields):
    """The changes of one line of a function's body, as (new line, words). The types of parameters are by name; fields are those read of each local."""
    found = tokens(CODE_TOKEN, line)
    changes = []

    def put(start, end, new):
        changes.append((replaced(line, start, end, new), f"`{line[start:end]}` to `{new}`"))

    def alike(one, two):
        """Whether two arguments may be of one type: both parameters of one type, or neither a parameter alone."""
        kinds = [types.get(it.lstrip("&*").removeprefix("mut ")) for it in (one, two)]
        return kinds[0] == kinds[1] and (kinds[0] is not None or one.count(".") == two.count(".") and one[0] == two[0] or "." not in one + two)

    for at, (kind, text, start, end) in enumerate(found):
        before = found[at - 1][1] if at else ""
        after = found[at + 1][1] if at + 1 < len(found) else ""
        spaced = line[start - 1 : start] == " " and line[end : end + 1] == " "
        if kind == "op" and text in CODE_SWAPS:
            # a sign, a reference or a type's brackets have no space on both sides; a range has none on either
            if spaced and not (text in "<>" and "::" in (before, after)) or text in ("..", "..=") and (before not in ("{", ",", "(", "") and after not in ("}", ")", "") or text == "..=" and before):
                for new in CODE_SWAPS[text]:
                    put(start, end, new)
        elif kind == "op" and text == "!" and after not in ("=", "(", "[") and before != "=":
            put(start, end, "")
        elif kind == "op" and text == "-" and not spaced and before in ("(", ",", "=", "return", "", "{"):
            put(start, end, "")
        elif kind == "number" and before != ";" and before != "'":
            for new in other_numbers(text):
                put(start, end, new)
        elif kind == "byte" or kind == "text" and text.startswith("b"):
            for new in other_text(text):
                put(start, end, new)
        elif kind == "word" and after != "!" and before not in ("fn", "let", "mut", "struct", "const", "::"):
            for new in exchanged(text):
                put(start, end, new)
            if before == "." and after != "(" and at > 1:
                for new in fields.get(found[at - 2][1], []):
                    if new != text and new not in exchanged(text) and field_types(new) & field_types(text):
                        put(start, end, new)
        if text == "(" and at and found[at - 1][0] == "word" and before not in ("if", "while", "for", "in", "match", "return", "fn", "Some", "Ok", "Err"):
            ranges = arguments(found, at)
            for (a, b), (c, d) in zip(ranges, ranges[1:]):
                one, two = line[found[a][2] : found[b - 1][3]], line[found[c][2] : found[d - 1][3]]
                simple = lambda begin, stop: all(found[i][0] == "word" or found[i][1] in (".", "*", "&", "mut") for i in range(begin, stop))
                if one != two and simple(a, b) and simple(c, d) and alike(one, two):
                    changes.append((line[: found[a][2]] + two + line[found[b - 1][3] : found[c][2]] + one + line[found[d - 1][3] :], f"`{one}, {two}` exchanged"))
    condition = re.match(r"(.*?\b(?:if|while) )(?!let )(.+?)( \{.*)", line)
    if condition:
        changes.append((f"{condition[1]}!({condition[2]}){condition[3]}", f"`{condition[2]}` negated"))
    return changes


def is_statement(lines, at):
    """Whether the line is a statement of its own that may be left out."""
    text = lines[at].strip()
    ends_before = at == 0 or lines[at - 1].rstrip().endswith((";", "{", "}")) or lines[at - 1].strip().startswith("//")
    return text.endswith(";") and ends_before and text.count("(") == text.count(")") and not re.match(r"(let|use|pub|const|mod|\}|\.)", text)


def bodies(lines):
    """Of each function, and of each constant, where it begins, and the range of lines of its body or its value."""
    at = 0
    while at < len(lines):
        line = lines[at]
        if re.match(r"\s*(pub(\(crate\))? )?const [A-Z_0-9]+:", line):
            yield at, at, at + 1
        elif re.match(r"\s*(pub(\(crate\))? )?(extern \"C\" )?fn \w+", line) or re.match(r"\s*pub extern \"C\" fn", line):
            indent = re.match(r"\s*", line)[0]
            begin = at
            while begin < len(lines):
                text = lines[begin]
                alone = text.rstrip() == indent + "{"
                ends = text.rstrip().endswith("{") and not re.match(r"\s*(requires|ensures|ghost)\b", text) and (begin == at or text.startswith(indent + ")"))
                if alone or ends or text.strip() == "" or text.rstrip().endswith(";") and begin == at:
                    break
                begin += 1
            if begin < len(lines) and lines[begin].rstrip().endswith("{"):
                stop = begin + 1
                while stop < len(lines) and lines[stop].rstrip() != indent + "}":
                    stop += 1
                yield at, begin + 1, stop
                at = stop
        at += 1


def imported(lines, old, new):
    """The import that has to name `new` beside `old`, as further lines that change, or None where no import names `old` itself."""
    name, other = (f"◌{it}◌" if it in MARKED else it for it in (old, new))
    text = "\n".join(lines)
    uses = [i for i, it in enumerate(lines) if re.match(r"(pub )?(ghost )?use ", it)]
    names = lambda i: re.findall(r"[◌\w'+\-*&|≤<⊕⊖⊗ℤ≼≺Σ]+", lines[i].partition("{")[2]) if "{" in lines[i] else [lines[i].rstrip(";").rpartition("::")[2]]
    if any(other in names(i) for i in uses) or re.search(rf"^\S* ?\S* ?{re.escape(new)} :", text, re.M):
        return ()
    for i in uses:
        if name in names(i) and "{" in lines[i]:
            return ((i, lines[i].replace("{", "{" + other + ", ", 1)),)
        if name in names(i) and "::" in lines[i]:
            path, _, last = lines[i].rstrip(";").rpartition("::")
            return ((i, f"{path}::{{{last}, {other}}};"),)
    return ()


def of_code(crate, root):
    """Every mutant of the crate's functions and constants."""
    for path in sorted(pathlib.Path(root, "crates", crate, "src").rglob("*.rt")):
        lines = path.read_text().split("\n")
        name, known = str(path.relative_to(root)), {*re.findall(r"\w+", path.read_text())}
        for heading, begin, stop in bodies(lines):
            types, fields = parameters("\n".join(lines[heading:begin])), {}
            for base, field in re.findall(r"\b(\w+)\.(\w+)\b(?!\()", "\n".join(lines[begin:stop])):
                fields.setdefault(base, {})[field] = None
            for at in range(begin, stop):
                if not lines[at].strip() or lines[at].strip().startswith("//") or "println!" in lines[at]:
                    continue
                for new, change in in_code(lines[at], types, fields):
                    words = re.match(r"`([A-Za-z_]\w*)` to `(\w+)`$", change)
                    imports = imported(lines, words[1], words[2]) if words else ()
                    if not words or words[2] in known or imports:
                        yield Mutant(name, at, new, change, imports)
                if is_statement(lines, at):
                    indent = re.match(r"\s*", lines[at])[0]
                    yield Mutant(name, at, indent + "// left out", f"`{lines[at].strip()}` left out")


def in_definition(line, lines, known):
    """The changes of one line of a definition; known are the words of its file."""
    found = tokens(SPEC_TOKEN, line)
    skip = line.find("=") + 1 if re.match(r"[a-zA-Z_ℤΣ◌]", line) and "=" in line else 0
    for at, (kind, text, start, end) in enumerate(found):
        if start < skip:
            continue
        before, after = (found[at - 1][1] if at else ""), (found[at + 1][1] if at + 1 < len(found) else "")
        spaced = line[start - 1 : start] == " " and line[end : end + 1] == " "
        news = []
        if kind in ("op", "word") and text in SPEC_SWAPS and (kind == "word" or spaced):
            news = SPEC_SWAPS[text]
        elif kind == "number" and not text.startswith("0x"):
            news = [str(int(text) + 1)]
        elif kind == "number":
            news = [hex(int(text, 16) + 1)]
        elif kind == "word" and before not in ("λ", "let", "pub") and not (after == "=" and line.startswith("  ")):
            news = [it for it in exchanged(text) if it in known or imported(lines, text, it)]
        for new in news:
            yield replaced(line, start, end, new), f"`{text}` to `{new}`", imported(lines, text, new)
        # two arguments, side by side, each a plain name
        if kind == "word" and at and found[at - 1][0] == "word" and at > 1 and found[at - 2][0] == "word" and found[at - 1][2] >= skip and before != text:
            if line[found[at - 1][3] : start] == " " and not {found[at - 2][1], before, text} & {"λ", "let", "in", "record", "where"}:
                new = line[: found[at - 1][2]] + text + " " + before + line[end:]
                yield new, f"`{before} {text}` exchanged", ()


def of_definitions(crate, root):
    """Every mutant of the crate's definitions."""
    for path in sorted(pathlib.Path(root, "crates", crate, "specs").rglob("*.antt")):
        lines = path.read_text().split("\n")
        name = str(path.relative_to(root))
        known = {*re.findall(r"[\w'ℤℕΣ]+", path.read_text())}
        if path.name == "Lib.antt":
            continue
        for at, line in enumerate(lines):
            if not line.strip() or re.match(r"\s*(--|use |(pub )?mod |unfolding |(abbrev|unfoldable|pub|record|data|ruleset)\b.*:)", line) and not re.match(r"\s+pub \w+ :", line):
                continue
            if line.startswith(("pub record", "record", "pub data", "syntax", "infix")):
                continue
            for new, change, imports in in_definition(line, lines, known):
                yield Mutant(name, at, new, change, imports)
