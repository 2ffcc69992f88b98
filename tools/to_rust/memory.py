"""Rules for memory: Rattle hands an allocator on and asks for memory by calls that may fail.

| In Rattle | In Rust | Reason |
|---|---|---|
| the allocator: parameters, arguments, fields, `let alloc = ..`, the method `allocator` | nothing | it is always `Global`, Rust's own |
| `x.push(y)?`, `Vec::with_capacity(n)?`, .. and functions of such names | `x.try_push(y)?`, .. | they answer a `Result`; std's `try_reserve` has that prefix, and `support.rs` the others |
| `x.push(y).unwrap()` and others of `ROOM`, `x.push_back_reserved(y)` | `x.push(y)`, `x.push_back(y)`; of bytes `append_bytes` | it is proved that there is room |
| an end `x.reserve(n)` of a function that answers `AllocError` | `Ok(x.try_reserve(n)?)` | std's error is another type |
| such an end `Vec::reserve(x, n)`, as sinks have it | `crate::support::try_reserve(x, n)` | it is asked for each unit: no call where there is room |
| `mem::replace(x, Vec::new())` | `mem::take(x)` | idiom |
| `format!(in alloc; ..)` | `crate::support::try_format(format_args!(..))` | std's asks for memory by calls that abort |

No type is looked at: where a name is wrong, rustc says so.
"""

import re

from . import effects
from .tree import (Function, Group, Refused, Token, after, at, bare, bare_words, before, commas,
                   drop_heading, functions, is_among, is_group, is_sign, is_word, joined, parse)

# Calls that fail for want of memory, and so answer a Result in Rattle.
FALLIBLE = {"push", "push_back", "reserve", "extend_from_slice", "append", "resize", "insert", "clone",
            "to_vec", "with_capacity", "from_slice", "push_str"}
# Those of them whose answer may be unwrapped: that there is room is proved then.
ROOM = {"push", "push_back", "extend_from_slice", "append", "resize", "insert", "push_str"}
# Calls for which room was reserved, and which std has by other names.
RESERVED = {"push_front_reserved": "push_front", "push_back_reserved": "push_back"}
# std has a name of its own for what isn't stable yet.
NAMES = {"try_with_capacity": "try_with_room"}
# The traits of `support.rs`, with the fallible calls that std lacks: those of lists, of queues, of slices and of texts.
LISTS = {"try_push", "try_append", "try_from_slice", "try_with_room"}
QUEUES = {"try_push_back", "try_insert", "try_append"}
SLICES = {"try_to_vec"}
TEXTS = {"try_push_str"}

ALLOCATOR = re.compile(r"alloc|self \. alloc|(?:\* )?(?:\w+ \. )+allocator \(\)")
LET_ALLOCATOR = re.compile(f"let alloc (?:: Global )?= (?:{ALLOCATOR.pattern})")
OF_ALLOCATOR = re.compile(r"(?:pub (?:\(\w+\) )?)?alloc : (?:Global|" + ALLOCATOR.pattern + ")")


def erase_allocators(items):
    """Drops the allocator."""
    out, i = [], 0
    while i < len(items):
        it = items[i]
        if it.kind == "group" and it.text in "({":
            parts = commas(it.items)
            kept = [p for p in parts if not re.fullmatch(
                ALLOCATOR.pattern + "|" + OF_ALLOCATOR.pattern, bare(without_attributes(p)))]
            if len(kept) < len(parts):
                while kept and kept[0] and it.text == "(" and kept[0][0].kind == "space":
                    kept[0] = kept[0][1:]
                it.items = joined(kept)
        if is_word(it, "let") and is_word(at(items, after(items, i)), "alloc"):
            start = i
            while not is_sign(items[i], ";"):
                i += 1
            effects.check_allocator(items[start:i], LET_ALLOCATOR, "a `let`")
            i += 1
            continue
        if is_word(it, "fn") and is_word(at(items, after(items, i)), "allocator"):
            function = Function(items, i)
            if function.body is not None:
                effects.check_allocator(function.body.items, ALLOCATOR, "a method `allocator`")
            drop_heading(out)
            i = function.end + 1
            continue
        out.append(it)
        i += 1
    return out


def without_attributes(items):
    return [it for n, it in enumerate(items)
            if not is_sign(it, "#") and not (is_group(it, "[") and is_sign(at(items, before(items, n)), "#"))]


class Fallible:
    """Gives calls that want memory their names of Rust, and notes which traits of `support.rs` a file needs."""

    def __init__(self, items):
        text = bare_words(items)
        self.queues = set(re.findall(r"(\w+) : (?:& (?:'\w+ )?(?:mut )?)?VecDeque <", text))
        self.lists = set(re.findall(r"(\w+) : (?:& (?:'\w+ )?(?:mut )?)?Vec <", text))
        self.lists |= set(re.findall(r"let (?:mut )?(\w+) = Vec ::", text))
        self.traits = set()

    def change(self, items):
        out, i = [], 0
        while i < len(items):
            it = items[i]
            if is_among(it, FALLIBLE):
                before_it = at(out, before(out, len(out)))
                j = after(items, i)
                if is_sign(before_it, ".") and is_group(at(items, j), "("):
                    behind = unwrapped(items, j)
                    if behind and it.text not in ROOM:
                        raise Refused(f"nothing shows that there is memory: {it.text}(..).unwrap()")
                    if behind:
                        out += [self.with_room(it), *items[i + 1:j + 1]]
                        i = behind
                        continue
                    it = Token("word", "try_" + it.text)
                    self.note(it.text, at(out, before(out, before(out, len(out)))))
                elif is_sign(before_it, "::") and is_word(at(out, before(out, before(out, len(out)))), "Vec"):
                    it = Token("word", NAMES.get("try_" + it.text, "try_" + it.text))
                    if it.text in LISTS:
                        self.traits.add("TryVec")
                    if it.text == "try_push":
                        out[before(out, before(out, len(out)))] = Token("word", "TryVec")
                elif is_word(before_it, "fn") or is_group(at(items, j), "(") and not is_sign(before_it, "::"):
                    it = Token("word", "try_" + it.text)
            elif is_among(it, RESERVED):
                it = Token("word", RESERVED[it.text], is_decided=True)
            out.append(it)
            i += 1
        return out

    def with_room(self, call):
        """The call for which there is room."""
        if call.text != "extend_from_slice":
            return Token("word", call.text, is_decided=True)
        self.traits.add("AppendBytes")
        return Token("word", "append_bytes", is_decided=True)

    def note(self, call, receiver):
        """Which trait a call needs: that of a list or a queue, where its receiver is one."""
        if call in QUEUES and is_among(receiver, self.queues):
            self.traits.add("TryDeque")
        elif call in LISTS and is_among(receiver, self.lists):
            self.traits.add("TryVec")
        elif call in SLICES:
            self.traits.add("TrySlice")
        elif call in TEXTS:
            self.traits.add("TryText")
        elif call == "try_extend_from_slice" and is_among(receiver, self.lists):
            self.traits.add("AppendBytes")


def unwrapped(items, j):
    """The place behind `.unwrap()` where that follows; else None."""
    a = after(items, j)
    b = after(items, a)
    c = after(items, b)
    if is_sign(at(items, a), ".") and is_word(at(items, b), "unwrap") and is_group(at(items, c), "("):
        return c + 1
    return None


def convert_ends(items, lists):
    """`try_reserve` of one of std's lists fails otherwise than the function does whose last call it is."""
    for function in functions(items):
        if function.body is None or "AllocError" not in bare(function.answer):
            continue
        body = function.body.items
        end = before(body, len(body))
        name = before(body, end)
        if not (is_group(at(body, end), "(") and is_word(at(body, name), "try_reserve")):
            continue
        if not is_among(at(body, before(body, before(body, name))), lists | {"Vec", "VecDeque"}):
            continue
        start = name
        while start > 0 and not is_sign(body[start - 1], ";") and not is_group(body[start - 1], "{"):
            start -= 1
        start = after(body, start - 1)
        body[start:end + 1] = [Token("word", "Ok"), Group("(", body[start:end + 1] + [Token("sign", "?")])]
    return items


def ask_first(items):
    """A sink's `try_reserve` calls std's where there is no room."""
    for i, it in enumerate(items):
        inside = at(items, after(items, i))
        if is_word(it, "Ok") and is_group(inside, "(") and bare(inside.items[:3]) == "Vec :: try_reserve":
            arguments = inside.items[3]
            items[i:after(items, i) + 1] = [*parse("crate::support::try_reserve"), arguments]
    return items


def write_formats(items):
    """A text that is put together asks for memory by calls that may fail."""
    out, i = [], 0
    while i < len(items):
        it, j = items[i], after(items, i)
        arguments = at(items, after(items, j))
        if is_word(it, "format") and is_sign(at(items, j), "!") and is_group(arguments, "("):
            inner = arguments.items
            if bare(inner[:4]) != "in alloc ;":
                raise Refused("`format!` without its allocator")
            of = [Token("word", "format_args"), Token("sign", "!"), Group("(", inner[4:])]
            out += [*parse("crate::support::try_format"), Group("(", of)]
            i = after(items, j) + 1
            continue
        out.append(it)
        i += 1
    return out


def write_takes(items):
    """What is replaced by an empty list is taken."""
    out = []
    for i, it in enumerate(items):
        arguments = at(items, after(items, i))
        if is_word(it, "replace") and is_group(arguments, "(") and is_word(at(out, before(out, len(out) - 1)), "mem"):
            parts = commas(arguments.items)
            if len(parts) == 2 and bare(parts[1]) in ("Vec :: new ()", "VecDeque :: new ()"):
                it, arguments.items = Token("word", "take"), parts[0]
        out.append(it)
    return out
