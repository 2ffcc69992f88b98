"""Rules for contracts: what they say is dropped, and what a caller owes is looked at or kept in the crate.

| In Rattle | In Rust | Reason |
|---|---|---|
| `ensures {..}`, `ghost ..`, `#[tactic]`, `#[cycle]`, `impl Model`, derived `Drop`, the bound `Drop` | nothing | they say, and do nothing |
| `requires` of a public function that compares a parameter with a number | `assert!`, and `# Panics` in its docs | a caller of Rust has no prover |
| any other `requires` of a public function, or of a trait's method | the function, or the trait, is `pub(crate)` | nobody outside can call it; the layer keeps it |
| a public function that answers `AllocError` | it is `pub(crate)` | callers are told `PacketError` |
| the methods of `INNER` | they are `pub(crate)` | the crates call them of one another |
| items behind `#[cfg(test)]` | nothing | tests are of the sources |
"""

import re

from . import effects
from .tree import (Function, Refused, Token, after, at, bare, before, commas, deep, drop_heading, functions,
                   generics_end, heading_start, is_attribute, is_function, is_group, is_sign, is_word, joined, parse)

# Methods by which the proved crates make and take apart what callers only look at.
INNER = {"empty", "of", "set", "into_buffer", "into_units", "try_clone", "zero_rule"}
# What a caller owes of a number, which a public function can look at.
OWED = re.compile(r"(\w+) [<≤] (\w+(?: \^ \d+)?)")


def clause_at(items, i):
    """The braces of the clause that begins at `i`, and the place behind it."""
    j = after(items, i)
    if is_sign(at(items, j), "*"):
        j = after(items, j)
    if is_word(at(items, j)):
        j = after(items, j)
    if not is_group(at(items, j), "{"):
        raise Refused("a clause without braces")
    return items[j], j + 1


def condition(clause):
    """What a `requires` asks that compares a parameter with a number; None of another."""
    owed = OWED.fullmatch(bare(clause.items))
    if not owed or owed[1][0].isdigit() == owed[2][0].isdigit():
        return None
    text = re.sub(r"(\d+) \^ (\d+)", lambda power: str(int(power[1]) ** int(power[2])), owed[0])
    return text.replace("≤", "<=")


def owed_clauses(items, i):
    """The `requires` of the function at `i`."""
    j, owed = Function(items, i).name_at, []
    while j < len(items) and not is_group(items[j], "{") and not is_sign(items[j], ";"):
        if is_word(items[j], "requires", "ensures"):
            clause, end = clause_at(items, j)
            if is_word(items[j], "requires"):
                owed.append(clause)
            j = end
        else:
            j += 1
    return owed


def owing_functions(block):
    """The functions of a block that have a `requires`."""
    return [f for f in functions(block.items) if f.items is block.items and owed_clauses(block.items, f.keyword)]


def visibility(items, i):
    """The place of the `pub` of the item at `i`; None where it has none, or one for a part of the crate."""
    j = before(items, i)
    while is_word(at(items, j), "const", "unsafe"):
        j = before(items, j)
    return j if is_word(at(items, j), "pub") else None


class Owed:
    """Lowers what a caller outside could break, and notes it: the names that become `pub(crate)`."""

    def __init__(self, renamed=()):
        self.renamed = renamed
        self.names, self.said, self.owing_impls = set(), [], []

    def lower(self, items, place):
        """Goes through a file before its contracts are dropped."""
        for i, it in enumerate(items):
            if is_word(it, "impl", "trait"):
                self.lower_block(items, i, place)
            if is_function(items, i):
                self.lower_function(items, i, place, "")

    def lower_block(self, items, i, place):
        """An `impl` or a `trait`."""
        j = i
        while j < len(items) and not is_group(items[j], "{") and not is_sign(items[j], ";"):
            j += 1
        if not is_group(at(items, j), "{"):
            return
        block = items[j]
        if is_word(items[i], "trait"):
            name = items[after(items, i)].text
            owing = [f.name for f in owing_functions(block)]
            pub = visibility(items, i)
            if owing and pub is not None:
                items[pub].text = "pub(crate)"
                self.note(name, name, f"{place}: trait {name}: what a caller of {', '.join(owing)} owes")
            return
        head = bare(items[generics_end(items, after(items, i)):j]).split(" for ")
        of = head[0].split(" <")[0].split(" ")[-1]
        if len(head) > 1:
            self.owing_impls += [(of, f"{place}: {f.name} of {of}") for f in owing_functions(block)]
            return
        for n in range(len(block.items)):
            if is_function(block.items, n):
                self.lower_function(block.items, n, place, of)

    def check(self):
        """Refuses an implementation of a public trait whose callers owe what those of the trait don't."""
        for trait, said in self.owing_impls:
            if trait not in self.names:
                raise Refused(f"{said}: nothing checks what a caller owes")

    def lower_function(self, items, i, place, of):
        pub = visibility(items, i)
        if pub is None:
            return
        function = Function(items, i)
        owed = [clause for clause in owed_clauses(items, i) if condition(clause) is None]
        name = f"{of}::{function.name}" if of else function.name
        reason = None
        if owed:
            reason = "a caller owes " + "; ".join(bare(clause.items) for clause in owed)
        elif (of, function.name) in self.renamed:
            reason = "the layer has a checked one by this name"
        elif "AllocError" not in bare(function.answer) and not (of and function.name in INNER):
            return
        items[pub].text = "pub(crate)"
        self.note(function.name, None if of else function.name, reason and f"{place}: {name}: {reason}")

    def note(self, name, imported, said):
        """`imported` is the name by which imports bring it in."""
        if imported:
            self.names.add(imported)
        if said:
            self.said.append((name, said))

    def lower_uses(self, items):
        """Splits `pub use` of a name that is the crate's own now."""
        out, i = [], 0
        while i < len(items):
            if is_word(items[i], "pub") and is_word(at(items, after(items, i)), "use"):
                start = after(items, after(items, i))
                end = start
                while not is_sign(items[end], ";"):
                    end += 1
                out += self.split_use(items[start:end])
                i = end + 1
                continue
            out.append(items[i])
            i += 1
        return out

    def split_use(self, tree):
        """A `pub use` of what stays public, and one for the crate of what doesn't."""
        if is_group(tree[-1], "{"):
            parts = [part for part in commas(tree[-1].items) if bare(part)]
        else:
            parts = [tree]
        kept = [part for part in parts if bare(part).split(" ")[-1] not in self.names]
        lowered = [part for part in parts if bare(part).split(" ")[-1] in self.names]
        if not lowered:
            return parse("pub use ") + tree + parse(";")
        out = []
        for word, some in (("pub", kept), ("pub(crate)", lowered)):
            if some:
                text = "{" + ", ".join(bare(part) for part in some) + "}" if is_group(tree[-1], "{") else ""
                front = tree[:-1] if text else tree
                out += parse(f"{word} use ") + front + parse(text + ";\n")
        return out


def erase_contracts(items):
    """Drops clauses with the comments among them, and ghost items; asserts what a caller of a public function
    owes of a number, and says so in its docs."""
    out, i, is_public, owed, keyword = [], 0, False, [], 0
    while i < len(items):
        it = items[i]
        if is_word(it, "fn"):
            pub = visibility(out, len(out))
            is_public, owed, keyword = pub is not None and out[pub].text == "pub", [], len(out)
        if is_group(it, "{") and owed:
            it.items = parse("\n" + "".join(f"assert!({asked});\n" for asked in owed)) + it.items
            out = with_panics(out, keyword, owed)
            owed = []
        if is_word(it, "requires", "ensures"):
            while out and out[-1].kind in ("space", "comment", "doc"):
                out.pop()
            out.append(Token("space", "\n"))
            clause, i = clause_at(items, i)
            if is_public and it.text == "requires":
                owed.append(condition(clause))
            continue
        if is_word(it, "ghost"):
            drop_heading(out)
            start = i
            while i < len(items) and not is_sign(items[i], ";", ","):
                i += 1
            effects.check_ghost(items[start:i])
        else:
            out.append(it)
        i += 1
    return out


def with_panics(items, keyword, owed):
    """Says in a function's docs, if it has any, where it panics."""
    docs = [i for i in range(heading_start(items, keyword), keyword) if items[i].kind == "doc"]
    if not docs:
        return items
    asked = " and ".join(f"`{one}`" for one in owed)
    lines = parse(f"\n///\n/// # Panics\n///\n/// Unless {asked}.")
    return items[:docs[-1] + 1] + lines + items[docs[-1] + 1:]


def erase_attributes(items):
    """Drops `tactic` and `cycle`, and of derives `Drop`, which every type of Rust is."""
    out, i = [], 0
    while i < len(items):
        if is_sign(items[i], "#"):
            j = after(items, i)
            if is_sign(at(items, j), "!"):
                j = after(items, j)
            if is_group(at(items, j), "["):
                inner = items[j].items
                name = at(inner, after(inner, -1))
                if is_word(name, "tactic", "cycle") or is_word(name, "derive") and not keep_traits(inner):
                    i = after(items, j)
                    continue
        out.append(items[i])
        i += 1
    return out


def keep_traits(inner):
    """Leaves of a derive the traits of Rust; whether there are any."""
    traits = [t for t in commas(inner[-1].items) if bare(t) and bare(t) != "Drop"]
    inner[-1].items = joined(traits)
    return bool(traits)


def erase_bounds(items):
    """Drops the bound `Drop`."""
    out = []
    for it in items:
        if is_word(it, "Drop"):
            j = before(out, len(out))
            if not is_sign(at(out, j), "+", ":"):
                raise Refused("`Drop` that is neither derived nor a bound")
            del out[j:]
        else:
            out.append(it)
    return out


def erase_impls(items):
    """Drops `impl Model`, which is a view, and `impl From<AllocFailed<..>>`, since that error is `AllocError`."""
    out, i = [], 0
    while i < len(items):
        if is_word(items[i], "impl"):
            j = i
            while j < len(items) and not is_group(items[j], "{") and not is_sign(items[j], ";"):
                j += 1
            head = bare(items[i:j])
            if is_group(at(items, j), "{") and re.search(r"\bModel for\b|\bAllocFailed <", head):
                effects.check_impl(head, items[j])
                drop_heading(out)
                i = j + 1
                continue
        out.append(items[i])
        i += 1
    return out


def erase_tests(items):
    """Drops items behind `#[cfg(test)]`."""
    out, i = [], 0
    while i < len(items):
        if is_attribute(items, i) and bare(items[after(items, i)].items) == "cfg (test)":
            j = after(items, i)
            while not is_sign(items[j], ";") and not is_group(items[j], "{"):
                j += 1
            i = j + 1
            continue
        out.append(items[i])
        i += 1
    return out


def without_contracts(items):
    """A file without contracts, ghost items and tests."""
    items = deep(items, erase_contracts)
    items = deep(deep(items, erase_attributes), erase_bounds)
    return erase_impls(erase_tests(items))
