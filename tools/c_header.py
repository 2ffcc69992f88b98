"""What bindings/include/h26x.h says: its calls, its structs and its numbers. tools/check-calls and tools/abi read it."""
import re
from pathlib import Path

TOP = Path(__file__).resolve().parent.parent
HEADER = TOP / "bindings" / "include" / "h26x.h"


class Kind:
    """The type of a parameter, an answer or a field: a word of C, or a pointer to it."""

    def __init__(self, text):
        words = [word for word in re.findall(r"\w+|\*", text) if word != "const"]
        self.is_const = bool(re.search(r"\bconst\b", text))
        self.base = words[0]
        self.is_pointer = "*" in words

    def __str__(self):
        return f"{'const ' if self.is_const else ''}{self.base}{' *' if self.is_pointer else ''}"


def without_comments(text):
    return re.sub(r"/\*.*?\*/|^#.*?(?<!\\)$", "", text, flags=re.DOTALL | re.MULTILINE)


def parameters(given):
    """The names and kinds of a list of parameters."""
    each = [re.fullmatch(r"\s*(.*?)(\w+)\s*", it, re.DOTALL) for it in given.split(",") if it.strip() != "void"]
    return [(it[2], Kind(it[1])) for it in each]


def calls(text):
    """Of each call its name, what it answers, and its parameters."""
    found = re.findall(r"H26X_API\s+([\w\s*]+?)(h26x_\w+)\(([^)]*)\)", without_comments(text))
    return {name: (Kind(answer), parameters(given)) for answer, name, given in found}


def structs(text):
    """Of each struct its name, and the names and kinds of its fields, in their order."""
    found = {}
    for body, name in re.findall(r"typedef struct \{([^}]*)\} (\w+);", without_comments(text)):
        fields = [it.strip() for it in body.split(";") if it.strip()]
        found[name] = []
        for field in fields:
            kind, names = re.fullmatch(r"([\w ]+?[\s*]+)(\w+(?:\s*,\s*\w+)*)", field).groups()
            found[name] += [(each.strip(), Kind(kind)) for each in names.split(",")]
    return found


def numbers(text):
    """The constants of its enums, each with the enum's name."""
    found = {}
    for name, body in re.findall(r"enum (\w*)\s*\{([^}]*)\}", without_comments(text)):
        for constant, value in re.findall(r"(\w+)\s*=\s*(\w+)", body):
            found[constant] = (name, int(value, 0))
    return found
