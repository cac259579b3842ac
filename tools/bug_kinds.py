"""The bugs that can be planted in a function: each kind says what may be changed, as lists of replacements (start, end, new) in the file's text."""
import re
from collections import namedtuple

from rt_source import OPENS, CLOSES, closing, opening, parts

Bug = namedtuple("Bug", "item kind changes old new")
# What the kinds look at: the tokens of a function, which of them stand in a pattern, the statements and arms, and what the crates declare.
Body = namedtuple("Body", "item tokens patterns statements arms words")

COMPARED = {"<": ("<=", ">"), "<=": ("<", ">="), ">": (">=", "<"), ">=": (">", "<="), "==": ("!=",), "!=": ("==",), "&&": ("||",), "||": ("&&",)}
REASONED = {"+": "-", "-": "+", "*": "+", "/": "*", "%": "/", "<<": ">>", ">>": "<<", "&": "|", "^": "|", "+=": "-="}
BACKWARD = ("-", "/", "%", "<<", ">>")
PAIRS = (
    "saturating_add saturating_sub arithmetic", "wrapping_add wrapping_sub arithmetic", "checked_sub checked_add arithmetic",
    "wrapping_mul wrapping_add arithmetic", "min max arithmetic", "next_up next_down name", "rise sink name", "up_from down_from name",
    "word_up word_down name", "trailing_zeros leading_zeros name", "from_of to_of name", "is_some is_none name", "is_ok is_err name", "all any name",
    "add remove name", "insert remove name", "comes goes name", "save reseat name", "SUCCESS FAILURE name", "from_le_bytes from_be_bytes name",
    "take skip name", "is_some_and is_none_or name", "find rfind name", "near far operands", "low high operands", "from to operands",
    "fore hind operands", "first second operands", "first last operands", "one other operands", "place slot operands", "entry next operands",
    "live dead operands", "slot place operands", "i slot operands", "row links operands", "slot to operands", "first end operands",
)  # fmt: skip
OTHERS = {}
for pair in PAIRS:
    one, other, kind = pair.split()
    OTHERS.setdefault(one, []).append((other, kind))
    OTHERS.setdefault(other, []).append((one, kind))
CHAINED = ("min", "max", "saturating_add", "saturating_sub", "wrapping_add", "wrapping_mul", "map", "or", "other", "take", "rev", "or_else")
NOT_CALLS = ("if", "match", "while", "for", "in", "return", "let", "mut", "Some", "Ok", "Err", "FnOnce", "Fn", "as")
LENT = ("memory", "out", "rt", "self")


def is_camel(text):
    return re.fullmatch(r"[A-Z]\w*[a-z]\w*", text) is not None


def is_operand(t):
    return t.kind in ("word", "number", "string", "char") and t.text not in NOT_CALLS or t.text in (")", "]", "?")


def body_of(item, words):
    body = Body(item, item.tokens, set(), [], [], words)
    for i, t in enumerate(item.tokens):
        if t.text == "{" and not (i and is_camel(item.tokens[i - 1].text)):
            read_block(body, i, closing(item.tokens, i))
        if t.text == "let":
            end = next(j for j in range(i, len(item.tokens)) if item.tokens[j].text == "=")
            body.patterns.update(range(i, end))
    return body


def is_match(tokens, brace):
    """Whether a block is that of a `match`."""
    i = brace - 1
    while i >= 0 and tokens[i].text not in (";", "{", "}", "=>", ","):
        if tokens[i].text in CLOSES and tokens[i].kind == "op":
            i = opening(tokens, i)
        elif tokens[i].text == "match":
            return True
        i -= 1
    return False


def read_block(body, start, end):
    (read_arms if is_match(body.tokens, start) else read_statements)(body, start, end)


def read_arms(body, start, end):
    tokens, i, arms = body.tokens, start + 1, []
    while i < end:
        arrow = next((j for j in range(i, end) if tokens[j].text == "=>"), None)
        if arrow is None:
            return
        guard = next((j for j in range(i, arrow) if tokens[j].text == "if"), arrow)
        body.patterns.update(range(i, guard))
        arms.append((i, arrow, guard < arrow))
        if tokens[arrow + 1].text == "{":
            i = closing(tokens, arrow + 1) + 1
        else:
            i = parts(tokens, arrow + 1, end)[0][1]
        i += i < end and tokens[i].text == ","
    body.arms.append(arms)


def read_statements(body, start, end):
    tokens, begin, i = body.tokens, start + 1, start + 1
    while i < end:
        t = tokens[i]
        if t.kind == "op" and t.text in OPENS:
            i = closing(tokens, i)
            is_block = tokens[begin].text in ("if", "for", "while", "match") and t.text == "{"
            if is_block and tokens[i + 1].text not in ("else", ".", "?") and tokens[begin + 1].text != "let" or is_block and tokens[i + 1].text not in ("else", "."):
                body.statements.append((begin, i))
                begin = i + 1
        elif t.text == ";":
            body.statements.append((begin, i))
            begin = i + 1
        i += 1


def whole(tokens, a, b, new):
    """What puts `new` in the place of the tokens from `a` up to and with `b`."""
    return [(tokens[a].start, tokens[b].end, new)]


def text_of(body, a, b):
    return body.item.text[body.tokens[a].start : body.tokens[b].end]


def exchanged(body, one, other):
    """Two ranges of tokens in each other's place, if they aren't alike."""
    a, b = text_of(body, *one), text_of(body, *other)
    return whole(body.tokens, *one, b) + whole(body.tokens, *other, a) if a != b else None


def is_binary(tokens, i):
    """Whether an operator stands between two operands: the format puts spaces on both sides."""
    if not 0 < i < len(tokens) - 1 or not is_operand(tokens[i - 1]):
        return False
    return tokens[i - 1].end < tokens[i].start and tokens[i].end < tokens[i + 1].start


def comparisons(body):
    for i, t in enumerate(body.tokens):
        if t.text in COMPARED and is_binary(body.tokens, i):
            for new in COMPARED[t.text]:
                yield "comparison", whole(body.tokens, i, i, new)


def arithmetic(body):
    for i, t in enumerate(body.tokens):
        if t.text in REASONED and is_binary(body.tokens, i):
            yield "arithmetic", whole(body.tokens, i, i, REASONED[t.text])


def others(body):
    """A word in the place of its counterpart: `next_down` for `next_up`, `max` for `min`, `to` for `from`."""
    known = {t.text for t in body.tokens} | set(body.item.params)
    for i, t in enumerate(body.tokens):
        if t.kind != "word" or i in body.patterns:
            continue
        before, after = body.tokens[i - 1].text if i else "", body.tokens[i + 1].text if i + 1 < len(body.tokens) else ""
        for new, kind in OTHERS.get(t.text, ()):
            is_value = before not in (".", "::", "{", "|") and after not in ("(", ":", "::", "|") and not (before == "," and after in (",", "}"))
            if is_value == (kind == "operands") and (kind != "operands" or new in known):
                yield kind, whole(body.tokens, i, i, new)


def parameters(body):
    """Another parameter of the same type."""
    params = body.item.params
    for i, t in enumerate(body.tokens):
        if t.text in params and i and body.tokens[i - 1].text not in (".", "::", "{", "|") and body.tokens[i + 1].text not in ("(", ":", "}"):
            for new, of in params.items():
                if new != t.text and of == params[t.text] and i not in body.patterns:
                    yield "operands", whole(body.tokens, i, i, new)


def constants(body):
    """A number off by one, `true` for `false`, a bound of a range off by one."""
    for i, t in enumerate(body.tokens):
        if t.kind == "number":
            m = re.fullmatch(r"(0x[0-9A-Fa-f_]+|[\d_]+?)([ui]\w+)?", t.text)
            n, show = int(m[1].replace("_", ""), 0), hex if t.text.startswith("0x") else str
            for new in [n + 1] + [n - 1] * (n > 0):
                yield "constant", whole(body.tokens, i, i, show(new) + (m[2] or ""))
        elif t.text in ("true", "false"):
            yield "constant", whole(body.tokens, i, i, "false" if t.text == "true" else "true")
        elif body.words.consts.get((body.words.imports[body.item.crate, body.item.file].get(t.text), t.text)) in ("u64", "usize"):
            is_alone = i and body.tokens[i - 1].text not in "./*%" and i + 1 < len(body.tokens) and body.tokens[i + 1].text not in ("as", ".", "*")
            for sign in "-+":
                yield "constant", whole(body.tokens, i, i, f"{t.text} {sign} 1" if is_alone else f"({t.text} {sign} 1)")
        elif t.text == ".." and i and body.tokens[i - 1].kind == "word" and i not in body.patterns and body.tokens[i - 1].text != "_":
            yield "constant", whole(body.tokens, i, i, " + 1..")
        elif t.kind == "word" and i and body.tokens[i - 1].text == ".." and t.text.islower() and body.tokens[i + 1].text in ("]", "{", ",", ")"):
            yield "constant", whole(body.tokens, i, i, f"{t.text}.saturating_sub(1)")


def names(body):
    """Another constant that isn't a number off by one: of the same type, and known in the same file."""
    known = body.words.imports[body.item.crate, body.item.file]
    for i, t in enumerate(body.tokens):
        of = body.words.consts.get((known.get(t.text), t.text))
        for new, crate in sorted(known.items()):
            if of and new != t.text and body.words.consts.get((crate, new)) == of:
                yield "name", whole(body.tokens, i, i, new)


def fields(body):
    """Another field of the same type, where one is read."""
    for i, t in enumerate(body.tokens):
        if i and body.tokens[i - 1].text == "." and t.kind == "word" and (i + 1 == len(body.tokens) or body.tokens[i + 1].text != "("):
            new = {f for had in body.words.fields.values() for f, of in had if (t.text, of) in had and f != t.text}
            for f in sorted(new):
                yield "operands", whole(body.tokens, i, i, f)


def literals(body):
    """Two fields of a struct exchanged, where one is made or taken apart; two elements of an array as well."""
    for i, t in enumerate(body.tokens):
        if t.text == "{" and i and body.tokens[i - 1].text in body.words.fields:
            had = body.words.fields[body.tokens[i - 1].text]
            given = {body.tokens[a].text: (a, b) for a, b in parts(body.tokens, i + 1, closing(body.tokens, i)) if body.tokens[a].kind == "word"}
            for n, (one, of) in enumerate(had):
                for other, _ in [it for it in had[n + 1 :] if it[1] == of and it[0] in given and one in given]:
                    yield "operands", renamed(body, given[one], other) + renamed(body, given[other], one)
        elif t.text == "[" and i and not is_operand(body.tokens[i - 1]):
            ends = parts(body.tokens, i + 1, closing(body.tokens, i))
            for (a, b), (c, d) in zip(ends, ends[1:]):
                if b == a + 1 and d == c + 1 and body.tokens[a].kind == body.tokens[c].kind == "word":
                    yield "operands", exchanged(body, (a, a), (c, c))


def renamed(body, ends, new):
    a, b = ends
    is_short = b == a + 1
    return whole(body.tokens, a, a, f"{new}: {body.tokens[a].text}" if is_short else new)


def is_column(body, a, b):
    known = body.words.imports[body.item.crate, body.item.file]
    return b == a + 1 and body.words.consts.get((known.get(body.tokens[a].text), body.tokens[a].text)) in ("Column", "Family", "Marks")


def arguments(body):
    """Two arguments of a call, or two elements of a tuple, exchanged."""
    for i, t in enumerate(body.tokens):
        if t.text != "(" or not i or body.tokens[i - 1].text in NOT_CALLS or body.tokens[i - 1].text == "!" or i in body.patterns:
            continue
        ends = parts(body.tokens, i + 1, closing(body.tokens, i))
        for (a, b), (c, d) in zip(ends, ends[1:]):
            lent = [any(t.text in LENT for t in body.tokens[x : min(x + 3, y)]) and y - x < 4 for x, y in ((a, b), (c, d))]
            if lent[0] == lent[1] and is_column(body, a, b) == is_column(body, c, d) and "|" not in (body.tokens[a].text, body.tokens[c].text):
                yield "operands", exchanged(body, (a, b - 1), (c, d - 1))


def operand_before(tokens, i):
    """The first token of the operand that ends before the operator at `i`."""
    j = i - 1
    while True:
        if tokens[j].text in (")", "]"):
            j = opening(tokens, j)
            if tokens[j - 1].kind == "word" and tokens[j - 1].text not in NOT_CALLS:
                j -= 1
        if j >= 2 and tokens[j - 1].text in (".", "::"):
            j -= 2
        else:
            return j


def operand_after(tokens, i):
    """The last token of the operand that begins behind the operator at `i`."""
    j = i + 1
    if tokens[j].text == "(":
        j = closing(tokens, j)
    while j + 1 < len(tokens):
        if tokens[j + 1].text in ("(", "["):
            j = closing(tokens, j + 1)
        elif tokens[j + 1].text in (".", "::"):
            j += 2
        else:
            break
    return j


def operands(body):
    """The two sides of `-`, `/`, `%` or a shift exchanged."""
    for i, t in enumerate(body.tokens):
        if t.text in BACKWARD and is_binary(body.tokens, i):
            yield "operands", exchanged(body, (operand_before(body.tokens, i), i - 1), (i + 1, operand_after(body.tokens, i)))


def dropped(body):
    """A write or a call less: a statement, or a call in a chain."""
    for a, b in body.statements:
        head = body.tokens[a].text
        is_for_nothing = head == "let" and body.tokens[a + 1].text.startswith("_")
        if body.tokens[b].text == ";" and (is_for_nothing or head not in ("let", "return", "break", "continue", "if", "match", "for", "while")):
            yield "dropped", whole(body.tokens, a, b, "")
    for i, t in enumerate(body.tokens):
        if t.text in CHAINED and i and body.tokens[i - 1].text == "." and body.tokens[i + 1].text == "(":
            yield "dropped", whole(body.tokens, i - 1, closing(body.tokens, i + 1), "")


def negated(body):
    """A branch the other way round."""
    for i, t in enumerate(body.tokens):
        if t.text in ("if", "while") and body.tokens[i + 1].text != "let":
            ends, end = ("=>",) if i - 1 in body.patterns else ("{",), i + 1
            while body.tokens[end].text not in ends:
                end = closing(body.tokens, end) if body.tokens[end].text in OPENS else end
                end += 1
            condition = text_of(body, i + 1, end - 1)
            is_not = condition.startswith("!") and operand_after(body.tokens, i + 1) == end - 1
            yield "negated", whole(body.tokens, i + 1, end - 1, condition[1:] if is_not else f"!({condition})")
        elif t.text == "!" and i and body.tokens[i - 1].text in ("||", "&&", "|", "(", "{", ";"):
            yield "negated", whole(body.tokens, i, i, "")


def returns(body):
    """An early return less, with its condition."""
    for a, b in body.statements:
        if body.tokens[a].text == "if" and body.tokens[b].text == "}":
            brace = opening(body.tokens, b)
            inner = [it for it in body.statements if brace < it[0] and it[1] < b]
            if inner and body.tokens[inner[-1][0]].text in ("return", "break", "continue") and not any(t.text == "else" for t in body.tokens[a:b]):
                yield "return", whole(body.tokens, a, b, "")


def variants(body):
    """Another variant of the same enum, which holds the same."""
    for i, t in enumerate(body.tokens):
        if i > 1 and i not in body.patterns and body.tokens[i - 1].text == "::" and body.tokens[i - 2].text in body.words.variants:
            had = body.words.variants[body.tokens[i - 2].text]
            for new in had:
                if t.text in had and new != t.text and had[new] == had[t.text]:
                    yield "variant", whole(body.tokens, i, i, new)
        elif t.text == "Some" and i not in body.patterns and i + 1 < len(body.tokens) and body.tokens[i + 1].text == "(":
            yield "variant", whole(body.tokens, i, closing(body.tokens, i + 1), "None")


def arms(body):
    """Two arms of a match exchanged."""
    for had in body.arms:
        for (a, b, guarded), (c, d, guarded_too) in zip(had, had[1:]):
            bound = [sorted(t.text for t in body.tokens[x:y] if t.kind == "word" and t.text[0].islower()) for x, y in ((a, b), (c, d))]
            is_open = [y == x + 1 and body.tokens[x].kind == "word" and not body.tokens[x].text[0].isupper() for x, y in ((a, b), (c, d))]
            if not guarded and not guarded_too and bound[0] == bound[1] and not any(is_open):
                yield "variant", exchanged(body, (a, b - 1), (c, d - 1))


KINDS = (comparisons, arithmetic, others, parameters, constants, names, fields, literals, arguments, operands, dropped, negated, returns, variants, arms)
NAMES = ("comparison", "arithmetic", "constant", "operands", "name", "variant", "dropped", "negated", "return")


def applied(text, changes):
    for start, end, new in sorted(changes, reverse=True):
        text = text[:start] + new + text[end:]
    return text


def lines_of(item, changes):
    """The lines that a bug changes, before and after, in one line each."""
    text = item.text
    start = text.rindex("\n", 0, min(c[0] for c in changes)) + 1
    end = text.find("\n", max(c[1] for c in changes))
    moved = [(a - start, b - start, new) for a, b, new in changes]
    return [" ".join(it.split()) for it in (text[start:end], applied(text[start:end], moved))]


def bugs_of(item, words):
    """All bugs that can be planted in a function, each once."""
    body, out = body_of(item, words), {}
    for kind_of in KINDS:
        for kind, changes in kind_of(body):
            if changes and applied(item.text, changes) != item.text:
                old, new = lines_of(item, changes)
                out.setdefault(applied(item.text, changes), Bug(item, kind, tuple(changes), old, new))
    return list(out.values())
