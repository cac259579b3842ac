"""Reads the code of .rt files: the tokens of each function and constant, without comments, clauses, attributes and tests."""
import glob
import os
import re
from collections import namedtuple

Token = namedtuple("Token", "kind text start end")
# A function or a constant with code: its crate, its file, its name, where it begins, the offsets of its code, the parameters' types, and the file's text.
Item = namedtuple("Item", "crate file name head start end params text tokens")
# What the crates declare: the fields of each struct and of each variant, the variants of each enum, the types of constants, and what a file imports.
Words = namedtuple("Words", "fields variants consts imports")

TOKEN = re.compile(
    r"""(?P<string>b?"(?:\\.|[^"\\])*")|(?P<char>'(?:\\.|[^'\\])')|(?P<life>'\w+)
    |(?P<number>0x[0-9A-Fa-f_]+|\d[\d_]*(?:[ui](?:8|16|32|64|size))?)|(?P<word>[A-Za-z_]\w*)
    |(?P<op>\.\.=|<<=|>>=|::|->|=>|==|!=|<=|>=|&&|\|\||\.\.|[-+*/%^&|]=|<<|>>|[^\s\w])""",
    re.X | re.S,
)
PASSED = re.compile(
    r'(?P<string>b?"(?:\\.|[^"\\])*")|(?P<comment>//[^\n]*)|^[ \t]*(?P<test>\#\[cfg\(test\)\])|^[ \t]*(?P<attribute>\#!?\[)'
    r"|^[ \t]*(?P<names>(?:pub(?:\([a-z]+\))? )?(?:use|mod|type)\b|ghost use\b)|^[ \t]*(?P<clause>(?:requires|ensures|invariant|decreases|ghost)\b)",
    re.M | re.S,
)
OPENS, CLOSES = "([{", ")]}"


def balanced(text, at):
    """The offset behind the bracket that closes the first one that opens from `at` on."""
    depth = 0
    while True:
        if text[at] in OPENS:
            depth += 1
        elif text[at] in CLOSES:
            depth -= 1
            if depth == 0:
                return at + 1
        at += 1


def code_of(text):
    """The text with what isn't code blank, each line break and each offset where it was."""
    blank, at = list(text), 0
    while True:
        m = PASSED.search(text, at)
        if m is None:
            return "".join(blank)
        at = m.end()
        if m["string"]:
            continue
        if m["attribute"]:
            at = balanced(text, m.end() - 1)
        elif m["names"]:
            at = text.index(";", m.end()) + 1
        elif m["test"]:
            at = balanced(text, text.index("{", m.end()))
        elif m["clause"]:
            at = balanced(text, m.end())
            at += text[at : at + 1] in (",", ";")
        for i in range(m.start(), at):
            if blank[i] != "\n":
                blank[i] = " "


def tokens_of(code, start=0, end=None):
    scan = TOKEN.finditer(code, start, len(code) if end is None else end)
    return [Token(m.lastgroup, m.group(), m.start(), m.end()) for m in scan]


def closing(tokens, i):
    """The index of the token that closes the bracket at `i`."""
    depth = 0
    for j in range(i, len(tokens)):
        if tokens[j].kind == "op" and tokens[j].text in OPENS:
            depth += 1
        elif tokens[j].kind == "op" and tokens[j].text in CLOSES:
            depth -= 1
            if depth == 0:
                return j
    return len(tokens) - 1


def opening(tokens, i):
    """The index of the token that opens the bracket that closes at `i`."""
    depth = 0
    for j in range(i, -1, -1):
        if tokens[j].kind == "op" and tokens[j].text in CLOSES:
            depth += 1
        elif tokens[j].kind == "op" and tokens[j].text in OPENS:
            depth -= 1
            if depth == 0:
                return j
    return 0


def parts(tokens, start, end, mark=","):
    """The ranges of tokens between the commas that stand outside of brackets."""
    out, begin, i = [], start, start
    while i < end:
        if tokens[i].text in OPENS and tokens[i].kind == "op":
            i = closing(tokens, i)
        elif tokens[i].text == mark:
            out.append((begin, i))
            begin = i + 1
        i += 1
    if begin < end:
        out.append((begin, end))
    return out


def owner_of(header):
    """The type that an impl is of, with the trait's argument: `Column`, or `u64` and `<Refusal>`."""
    header = re.sub(r"\s+", " ", header).strip()
    if header.startswith("<"):
        header = header[header.index(">") + 1 :].strip()
    trait, _, of = header.rpartition(" for ")
    argument = re.search(r"<[A-Z]\w*>", trait)
    return re.sub(r"<.*", "", of), argument.group() if argument else ""


def params_of(tokens, start, end):
    out = {}
    for a, b in parts(tokens, start, end):
        words = [t.text for t in tokens[a:b]]
        if ":" in words:
            name = words[words.index(":") - 1]
            out[name] = "".join(words[words.index(":") + 1 :])
    return out


def items_of(crate, file, text):
    code = code_of(text)
    tokens = tokens_of(code)
    owners, i = [], 0
    while i < len(tokens):
        t = tokens[i]
        owners = [o for o in owners if o[0] > i]
        if t.text == "impl" and (i == 0 or tokens[i - 1].text in ("}", ";")):
            brace = next(j for j in range(i, len(tokens)) if tokens[j].text == "{")
            owners.append((closing(tokens, brace), owner_of(code[t.end : tokens[brace].start])))
            i = brace
        elif t.text == "fn" and tokens[i + 1].kind == "word":
            name, paren = tokens[i + 1].text, next(j for j in range(i, len(tokens)) if tokens[j].text == "(")
            brace = next(j for j in range(closing(tokens, paren), len(tokens)) if tokens[j].text == "{")
            end = closing(tokens, brace)
            of, argument = owners[-1][1] if owners else ("", "")
            if not name.endswith("_stands"):
                whole = f"{of}::{name}{argument}" if of else name
                params = params_of(tokens, paren + 1, closing(tokens, paren))
                yield Item(crate, file, whole, t.start, tokens[brace].start, tokens[end].end, params, text, tokens[brace : end + 1])
            i = end
        elif t.text == "const" and tokens[i + 1].kind == "word":
            equals = next(j for j in range(i, len(tokens)) if tokens[j].text == "=")
            end = parts(tokens, equals + 1, len(tokens), ";")[0][1]
            of = owners[-1][1][0] + "::" if owners else ""
            yield Item(crate, file, of + tokens[i + 1].text, t.start, tokens[equals].end, tokens[end].start, {}, text, tokens[equals + 1 : end])
            i = end
        i += 1


def fields_in(tokens, start, end):
    """The named fields of a struct or a variant, with their types."""
    out = []
    for a, b in parts(tokens, start, end):
        words = [t.text for t in tokens[a:b]]
        if ":" in words:
            at = words.index(":")
            out.append((words[at - 1], "".join(words[at + 1 :])))
    return out


def variants_in(tokens, start, end, fields):
    """The variants of an enum, with what each holds."""
    out = {}
    for a, b in parts(tokens, start, end):
        name = tokens[a].text
        out[name] = "".join(t.text for t in tokens[a + 1 : b])
        if b > a + 1 and tokens[a + 1].text == "{":
            fields.setdefault(name, fields_in(tokens, a + 2, b - 1))
    return out


def words_of(sources):
    """What the crates declare, from the texts by crate and file."""
    words = Words({}, {"ControlFlow": {"Break": "(_)", "Continue": "(_)"}}, {}, {})
    for (crate, file), text in sources.items():
        tokens = tokens_of(code_of(text))
        for i, t in enumerate(tokens):
            if t.text in ("struct", "enum"):
                brace = next((j for j in range(i, len(tokens)) if tokens[j].text in "{;"), i)
                if tokens[brace].text != "{":
                    continue
                name, end = tokens[i + 1].text, closing(tokens, brace)
                if t.text == "struct":
                    words.fields[name] = fields_in(tokens, brace + 1, end)
                else:
                    words.variants[name] = variants_in(tokens, brace + 1, end, words.fields)
            elif t.text == "const" and tokens[i + 2].text == ":":
                words.consts[crate, tokens[i + 1].text] = tokens[i + 3].text
        words.imports[crate, file] = imports_of(crate, text)
    return words


def imports_of(crate, text):
    """The constants that a file knows by name, each with the crate that declares it."""
    out = {n: crate for n in re.findall(r"^\s*(?:pub(?:\([a-z]+\))? )?const (\w+):", text, re.M)}
    for path, names in re.findall(r"^use (\w+)(?:::\w+)*::(?:\{([^}]*)\}|\w+)", text, re.M):
        for name in re.findall(r"\b[A-Z][A-Z0-9_]+\b", names):
            out[name] = crate if path == "crate" else path
    return out


def sources_of(root):
    """The texts of the crates' code, by crate and file; those of the tests' crates are left out."""
    out = {}
    for path in sorted(glob.glob(f"{root}/crates/*/src/*.rt")):
        crate, file = path.split("/")[-3], os.path.basename(path)
        if not crate.endswith("_tests"):
            with open(path, encoding="utf-8") as it:
                out[crate, file] = it.read()
    return out


def read_all(root):
    """All functions and constants with code, and what the crates declare."""
    sources = sources_of(root)
    items = [item for (crate, file), text in sources.items() for item in items_of(crate, file, text)]
    return items, words_of(sources)
