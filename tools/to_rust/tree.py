"""The lexer, and the tree of tokens that every rule works on.

A token is a `Token` with its kind and its text; what stands between brackets is a `Group` of items. Blanks,
comments and docs are tokens too, so that `written(parse(text)) == text`.
"""

import re


class Refused(Exception):
    """A form that no rule knows, or that may not stand in the output."""


class Token:
    """`is_decided` is set where a rule wrote a call for which there is room (`calls`)."""

    def __init__(self, kind, text, is_decided=False):
        self.kind, self.text, self.is_decided = kind, text, is_decided


class Group:
    """What stands between brackets; `text` is the opening one."""

    kind = "group"

    def __init__(self, text, items):
        self.text, self.items = text, items


CLOSING = {"(": ")", "[": "]", "{": "}"}
LEXEMES = re.compile(
    r"""(?P<space>\s+)
      | (?P<doc>///(?!/)[^\n]*|//![^\n]*)
      | (?P<comment>//[^\n]*|/\*)
      | (?P<string>b?r(?P<hash>\#*)".*?"(?P=hash)|b?"(?:\\.|[^"\\])*")
      | (?P<char>b?'(?:\\(?:u\{[^}]*\}|x[0-9a-fA-F]{2}|.)|[^'\\\n])')
      | (?P<lifetime>'[A-Za-z_]\w*)
      | (?P<number>0x[0-9a-fA-F_]+\w*|\d[\d_]*(?:\.\d[\d_]*)?(?:[a-z]\w*)?)
      | (?P<word>[^\W\d]\w*)
      | (?P<sign>::|->|=>|.)""",
    re.VERBOSE | re.DOTALL)


def lexemes(text):
    """Each lexeme of a text, as its kind and itself."""
    place = 0
    while place < len(text):
        lexeme = LEXEMES.match(text, place)
        end = comment_end(text, place) if lexeme.group() == "/*" else lexeme.end()
        yield "string" if lexeme.lastgroup == "hash" else lexeme.lastgroup, text[place:end]
        place = end


def comment_end(text, place):
    """The place behind the comment `/* .. */` that begins at a place; comments may stand in it."""
    depth = 0
    for mark in re.compile(r"/\*|\*/").finditer(text, place):
        depth += 1 if mark.group() == "/*" else -1
        if depth == 0:
            return mark.end()
    raise Refused("a comment that nothing closes")


def parse(text):
    """The items of a text."""
    stack = [Group("", [])]
    for kind, it in lexemes(text):
        if it in CLOSING and kind == "sign":
            stack.append(Group(it, []))
        elif kind == "sign" and it in ")]}":
            group = stack.pop()
            if not stack or CLOSING[group.text] != it:
                raise Refused(f"a bracket {it} that nothing opened")
            stack[-1].items.append(group)
        else:
            stack[-1].items.append(Token(kind, it))
    if len(stack) != 1:
        raise Refused("a bracket that nothing closes")
    return stack[0].items


def written(items):
    """The text of items."""
    return "".join(it.text + written(it.items) + CLOSING[it.text] if it.kind == "group" else it.text
                   for it in items)


def is_pub(it):
    """`pub`, also where a rule has made it `pub(crate)`."""
    return is_word(it, "pub", "pub(crate)")


def is_trivia(it):
    return it.kind in ("space", "comment", "doc")


def is_word(it, *words):
    return it is not None and it.kind == "word" and (not words or it.text in words)


def is_among(it, words):
    return it is not None and it.kind == "word" and it.text in words


def is_sign(it, *signs):
    return it is not None and it.kind == "sign" and it.text in signs


def is_group(it, bracket):
    return it is not None and it.kind == "group" and it.text == bracket


def at(items, i):
    return items[i] if 0 <= i < len(items) else None


def after(items, i):
    """The place of the next item behind `i` that counts."""
    i += 1
    while i < len(items) and is_trivia(items[i]):
        i += 1
    return i


def before(items, i):
    """The place of the item before `i` that counts; -1 where there is none."""
    i -= 1
    while i >= 0 and is_trivia(items[i]):
        i -= 1
    return i


def last(items):
    """The last item that counts."""
    return at(items, before(items, len(items)))


def bare(items):
    """The text of the items that count, with a blank between them."""
    return " ".join(it.text + bare(it.items) + CLOSING[it.text] if it.kind == "group" else it.text
                    for it in items if not is_trivia(it))


def bare_words(items):
    """The text of all that counts, without brackets."""
    return " ".join(bare_words(it.items) if it.kind == "group" else it.text
                    for it in items if not is_trivia(it))


def deep(items, change):
    """Changes the items of each bracket, innermost first, and then these."""
    for it in items:
        if it.kind == "group":
            it.items = deep(it.items, change)
    return change(items)


def commas(items, is_typed=False):
    """What stands between the commas; where types do, but for those between `<` and `>`."""
    parts, depth = [[]], 0
    for it in items:
        depth += is_typed * (is_sign(it, "<") - is_sign(it, ">"))
        if is_sign(it, ",") and depth == 0:
            parts.append([])
        else:
            parts[-1].append(it)
    return parts


def joined(parts):
    out = []
    for n, part in enumerate(parts):
        if n:
            out.append(Token("sign", ","))
        out += part
    return out


def is_attribute(items, i):
    """Whether an attribute `#[..]` begins here."""
    return is_sign(at(items, i), "#") and is_group(at(items, after(items, i)), "[")


def generics_end(items, i):
    """The place behind `<..>`, where that begins at `i`; else `i`."""
    if not is_sign(at(items, i), "<"):
        return i
    depth = 0
    while True:
        depth += is_sign(items[i], "<") - is_sign(items[i], ">")
        i = after(items, i)
        if depth == 0:
            return i


def heading_start(items, i):
    """Where the heading of the item at `i` begins: its visibility, attributes, docs and comments."""
    start = i
    while True:
        j = before(items, start)
        if is_pub(at(items, j)) or is_word(at(items, j), "const", "unsafe"):
            start = j
        elif is_group(at(items, j), "(") and is_word(at(items, before(items, j)), "pub"):
            start = before(items, j)
        elif is_group(at(items, j), "[") and is_sign(at(items, before(items, j)), "#"):
            start = before(items, j)
        else:
            break
    # Docs and comments before it, up to an empty line.
    while start > 0:
        it = items[start - 1]
        if it.kind in ("doc", "comment") or it.kind == "space" and it.text.count("\n") < 2:
            start -= 1
        else:
            break
    return start


def drop_heading(out):
    """Takes what stands before an item that is dropped, off the end of what is written so far."""
    del out[heading_start(out, len(out)):]
    # A comment stays before what it is of: this was the last line of it, or none.
    if out and out[-1].kind != "space":
        out.append(Token("space", "\n"))


class Function:
    """Where a function's parts stand among items; `i` is the place of `fn`."""

    def __init__(self, items, i):
        self.items, self.keyword = items, i
        self.name_at = after(items, i)
        self.name = items[self.name_at].text
        j = generics_end(items, after(items, self.name_at))
        self.parameters = items[j]
        j = after(items, j)
        self.answers = is_sign(at(items, j), "->")
        start = j
        while not is_group(at(items, j), "{") and not is_sign(at(items, j), ";"):
            if j >= len(items):
                raise Refused(f"the function {self.name} has no end")
            j += 1
        self.answer = items[start:j]
        self.end = j
        self.body = items[j] if is_group(items[j], "{") else None


def is_function(items, i):
    return is_word(items[i], "fn") and is_word(at(items, after(items, i)))


def functions(items):
    for i, it in enumerate(items):
        if is_function(items, i):
            yield Function(items, i)
        elif it.kind == "group":
            yield from functions(it.items)


def words_of(items):
    """The words that a file has outside of its imports and docs, and those that docs link to."""
    out, in_use = set(), False
    for it in items:
        if is_word(it, "use"):
            in_use = True
        elif in_use:
            in_use = not is_sign(it, ";")
        elif it.kind == "group":
            out |= words_of(it.items)
        elif it.kind == "word":
            out.add(it.text)
        elif it.kind == "doc":
            links = re.findall(r"\[`([\w:]+)`\](?!\()", it.text)
            out |= {word for link in links for word in link.split("::")}
    return out


def add_use(items, text):
    """Adds an import behind the file's others, or behind its docs."""
    use = parse(text + "\n")
    place = max((i for i, it in enumerate(items) if is_word(it, "use")), default=None)
    if place is None:
        i = 0
        while i < len(items) and (items[i].kind in ("space", "comment") or items[i].text.startswith("//!")):
            i += 1
    else:
        i = place
        while not is_sign(items[i], ";"):
            i += 1
        i += 1
    return items[:i] + [Token("space", "\n")] + use + items[i:]
