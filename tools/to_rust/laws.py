"""Rules for laws: functions that stand there for their contracts alone.

A function without an answer, whose parameters are borrowed without `mut` or are numbers, does nothing that a caller
can see, since nothing in Rattle is changed, written or ended but through a parameter. It is dropped, and so are the
calls of it, what then is left empty, and imports of what is gone. That it does nothing is looked at too: a law's body
may call laws and look at values; one that does more stops the translation, and so does a call of one that isn't a
statement, or is given what has an effect (`effects`).
"""

import re

from . import effects
from .tree import (Function, Group, Refused, after, at, bare, bare_words, before, commas, drop_heading, functions,
                   is_among, is_group, is_sign, is_trivia, is_word, joined)


# What a law is given: what is borrowed to be looked at, or a number. Anything else ends by the call.
GIVEN = re.compile(r"(?:\w+ : )?& (?:'\w+ )?(?!.*\bmut\b|.*\bimpl\b|.*\brt\b).*|\w+ : (?:[ui](?:8|16|32|64|128|size)|bool|char)")


def is_law(function):
    parts = [part for part in commas(function.parameters.items, is_typed=True) if bare(part)]
    return not function.answers and all(GIVEN.fullmatch(bare(part)) for part in parts)


def laws_among(files, exports=()):
    """The names of laws, of all crates' files together. A name that something else has too is none, nor is an
    export, which may end what C gives it."""
    every = [function for items in files for function in functions(items)]
    laws = {f.name for f in every if is_law(f)} - {f.name for f in every if not is_law(f)} - set(exports)
    texts = [bare_words(items) for items in files]
    aliases = {alias for text in texts for name, alias in re.findall(r"(\w+) as (\w+)", text) if name in laws}
    methods = {f.name for f in every if re.search(r"\bself\b", bare(f.parameters.items))}
    for items in files:
        check_methods(items, laws - methods)
    for function in every:
        if function.name in laws:
            check_law(function, laws | aliases)
    return laws


def check_methods(items, laws):
    """Refuses the call of a method that has the name of a law that is none: it would be dropped with the law's."""
    for i, it in enumerate(items):
        if it.kind == "group":
            check_methods(it.items, laws)
        elif is_among(it, laws) and is_sign(at(items, before(items, i)), ".") \
                and is_group(at(items, after(items, i)), "("):
            raise Refused(f"a method by the name of the law {it.text}")


def check_law(function, laws):
    """Refuses a law whose body does more than to call laws and to look at a value."""

    def look(items):
        for i, it in enumerate(items):
            if it.kind == "group":
                look(it.items)
            if is_sign(it, "!") or is_word(it, "mut", "unsafe", "loop", "while", "for", "return"):
                raise Refused(f"the law {function.name} does something: {it.text}")
            called = is_word(it) and is_group(at(items, after(items, i)), "(")
            # A name that begins with a capital is a pattern's.
            if called and it.text not in laws and not it.text[0].isupper():
                raise Refused(f"the law {function.name} calls {it.text}")

    if function.body is not None:
        look(function.body.items)


def erase_laws(items, laws):
    """Drops laws and the calls of them."""
    out, i = [], 0
    while i < len(items):
        it = items[i]
        if is_word(it, "fn") and is_among(at(items, after(items, i)), laws):
            drop_heading(out)
            i = Function(items, i).end + 1
            continue
        j = after(items, i)
        if is_among(it, laws) and is_group(at(items, j), "("):
            k = after(items, j)
            if not is_sign(at(items, k), ";"):
                raise Refused(f"a law that isn't called by a statement: {it.text}")
            start = len(out)
            while start and not is_sign(out[start - 1], ";") and not is_group(out[start - 1], "{"):
                start -= 1
            effects.check_arguments(it.text, items[j].items)
            effects.check_front(it.text, out[start:])
            del out[start:]
            i = k + 1
            continue
        out.append(it)
        i += 1
    for it in out:
        if it.kind == "group":
            it.items = erase_laws(it.items, laws)
    return out


def is_empty(items):
    """Whether a file has nothing but what it uses."""
    rest = re.sub(r"(?:pub(?:\(crate\))? )?use [^;]*;", "", bare(items))
    return not rest.strip()


def file_of(place, module):
    """The place of a module that the file at a place names."""
    folder = place[:-len("lib.rt")] if place.endswith("lib.rt") else place[:-len(".rt")] + "/"
    return folder + module + ".rt"


def erase_modules(place, empty):
    """Drops modules whose file has nothing left."""

    def change(items):
        out, i = [], 0
        while i < len(items):
            j = after(items, i)
            if is_word(items[i], "mod") and is_word(at(items, j)) and file_of(place, items[j].text) in empty:
                drop_heading(out)
                i = after(items, j) + 1
                continue
            out.append(items[i])
            i += 1
        return out

    return change


def erase_uses(items, names, modules):
    """Drops imports of names, and of what is in modules, that are gone."""
    out, i = [], 0
    while i < len(items):
        if is_word(items[i], "use"):
            j = i
            while not is_sign(items[j], ";"):
                j += 1
            tree = used(items[i + 1:j], names, modules)
            if tree is None:
                drop_heading(out)
                behind = at(items, j + 1)
                j += behind is not None and behind.kind == "space" and behind.text.count("\n") < 2
            else:
                out += [items[i]] + tree + [items[j]]
            i = j + 1
            continue
        out.append(items[i])
        i += 1
    return out


def used(tree, names, modules):
    """What is left of an import; None where that is nothing."""
    path = [it for it in tree if not is_trivia(it)]
    if is_group(path[-1], "{"):
        parts = [used(part, names, modules) for part in commas(path[-1].items) if bare(part)]
        parts = [part for part in parts if part is not None]
        if not parts or any(is_among(it, modules) for it in path[:-1]):
            return None
        return tree[:-1] + [Group("{", joined(parts))]
    name = path[-3] if len(path) > 2 and is_word(path[-2], "as") else path[-1]
    if is_among(name, names) or any(is_among(it, modules) for it in path):
        return None
    return tree
