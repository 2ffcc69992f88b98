"""Which names an edit outside of functions turns the meaning of, and which names a function rests on: its
own text's, its answers', and those of what these name, as far as it goes in the crate. Both are read off
the texts, so what rests on more than it seems to is told, and nothing else."""

import functools
import re

from edits.functions import HEAD, first_of_item, functions, head_of, outer_of

WORD = re.compile(r"[^\s(){}\[\],;.:&*!?'\"=<>|+/-][^\s(){}\[\],;.:&*!?'\"=<>|+/]*")
KEYWORDS = {"abbrev", "unfoldable", "opaque", "instance", "pub", "record", "data", "def"}
ITEM = re.compile(r"( *)(pub(?:\([^)]*\))? )?(?:static|const|struct|enum|trait|type) (\w+)")
MODEL = re.compile(r"(?:unsafe )?impl\b.*\bModel for (\w+)")


def words(text):
    return set(WORD.findall(text))


def name_of(line):
    """The name of the definition or lemma that begins in a line, or None."""
    tokens = line.split()
    if line[:1].isspace() or "mod" in tokens[:2]:
        return None
    begins = tokens[:1] and (tokens[0] in KEYWORDS or tokens[1:2] == [":"])
    return next((it for it in tokens if it not in KEYWORDS), None) if begins else None


def definitions(text):
    """The lines of each definition or lemma of a file, by its name."""
    found, name = {}, None
    for line in text.split("\n"):
        name = name_of(line) or name
        if name:
            found.setdefault(name, []).append(line.partition("--")[0])
    return found


def definition_at(text, place):
    """The name of the definition or lemma that a place stands in, or None."""
    return next((it for it in map(name_of, reversed(whole_lines(text, place))) if it), None)


def whole_lines(text, place):
    """The lines up to the one that a place stands in."""
    return text[: text.find("\n", place) % (len(text) + 1)].split("\n")


def item_at(file, text, place):
    """The item of a source file, other than a function, in which a place stands, as it is named in the
    file or, where it is public, anywhere; or None."""
    lines, at = text.split("\n"), len(whole_lines(text, place)) - 1
    begin = next((n for n in range(at, -1, -1) if ITEM.match(lines[n])), None)
    if begin is None:
        return None
    indent, is_public, name = ITEM.match(lines[begin]).groups()
    if at > end_of(lines, begin, indent):
        return None
    return name if is_public else f"{file}:{name}"


def end_of(lines, begin, indent):
    """The last line of an item that begins in this one."""
    end = re.compile(rf"{indent}[}}\])].*|{indent}\S.*[;}}]$")
    return next((n for n in range(begin, len(lines)) if end.match(lines[n])), len(lines) - 1)


def items(text):
    """The lines of each item of a source file, by its name: of functions the contract, on which whoever
    calls one rests."""
    found, lines = {}, text.split("\n")
    for first, last in functions(text):
        name = HEAD.match(lines[first - 1])[2]
        found.setdefault(name, []).extend(contract(lines[first - 1 : last]))
    for at, line in enumerate(lines):
        item, model = ITEM.match(line), MODEL.match(line)
        name = item[3] if item else model and model[1]
        if name:
            indent = item[1] if item else ""
            found.setdefault(name, []).extend(lines[at : end_of(lines, at, indent) + 1])
    return found


def contract(lines):
    """The lines of a function above its body, as `rt fmt` lays them out."""
    has_clauses = any(re.match(r" *(?:ensures|requires|ghost)\b", it) for it in lines)
    begins = re.compile(rf"{HEAD.match(lines[0])[1]}\{{" if has_clauses else r".*\{")
    end = next((n for n, line in enumerate(lines) if begins.match(line)), len(lines) - 1)
    return lines[: end + 1]


class Names:
    """The names of a crate's texts, with what each names in turn."""

    def __init__(self, texts):
        self.named = {}
        for file, text in texts.items():
            for name, lines in (items if file.endswith(".rt") else definitions)(text).items():
                for part in {name, *name.split("◌")} - {""}:
                    self.named.setdefault(part, set()).update(words("\n".join(lines)))

    def behind(self, begin):
        """These words, and all that they lead to."""
        found, left = set(), list(begin)
        while left:
            word = left.pop()
            if word not in found:
                found.add(word)
                left += self.named.get(word, ())
        return found

    def of_function(self, file, text, line, answers):
        """What a function rests on: all that its item, the heads of the impls around it and its answers
        lead to, and the items of its file and of the modules around it that it may mean."""
        lines = text.split("\n")
        last = next(end for first, end in functions(text) if first == line)
        own = "\n".join(lines[first_of_item(text, line) - 1 : last])
        heads = " ".join(head_of(lines, at) for at in outer_of(lines, line))
        found = self.behind(words(own) | words(heads) | words("\n".join(answers)))
        return found | {f"{it}:{word}" for it in modules_around(file) for word in found}


@functools.cache
def modules_around(file):
    """The file of a module, and those of the modules around it."""
    parts = file[: -len(".rt")].split("/")
    above = ["/".join(parts[:n]) + ".rt" for n in range(2, len(parts) + 1)]
    return [*above, "src/lib.rt", "src/main.rt"]
