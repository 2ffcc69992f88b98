"""Rules for names, paths and forms that Rust has otherwise.

| In Rattle | In Rust | Reason |
|---|---|---|
| `crate::x` of the crate `c`, `c::x` in another | `crate::proved::c::x` | crates are modules of one crate |
| `std::alloc` | `crate::support` | it has the error of a failed request |
| `base64::x`, `hex::x` | `crate::support::base64::x`, .. | Rust's crates have no call that fails for want of memory, or Debian's two versions have none in common |
| `std::x` | `core::x`, `alloc::x` | without the feature `std` the crate is `no_std` |
| a function that takes a `HashMap`, and imports of it | behind the feature `std` | it is std's alone |
| `Vec`, `String`, `Box` | imported | they aren't in core's prelude |
| a module beside `portable`, which has the same functions by the same contracts | `portable` | `std::simd` isn't stable |
| the functions of `RENAMED` | by another name, `pub(crate)` | they want memory: the layer has ones that panic |
| `fn fmt<W: fmt::Write>(.., f: &mut Formatter<W>)` | `fn fmt(.., f: &mut Formatter<'_>)` | a formatter of Rust has no parameter |
| parameters that only contracts read | with an underscore | rustc has a warning for them |
| `inline(always)` of the functions of `UNHINTED` | nothing | the proved build gains by it, and rustc's loses |
| `inline(always)` of the functions of `HINTED_WITH_STD` | the same, with std alone | without std each `append_bytes` in them is a call, so one call of the function is cheaper |
| examples of docs | nothing | the layer has its own, over what callers have |
"""

import re

from .laws import erase_modules
from .layer import OVER
from .tree import (Function, Refused, Token, add_use, after, at, bare, bare_words, before, commas, deep, functions, is_among,
                   is_function, is_group, is_pub, is_sign, is_word, parse, words_of)

RENAMED = {("H265AggregationPacket", "nal_units"): "try_nal_units"}
# By crate.
UNHINTED = {"h26x_depacketizer": "write_units"}
# By file.
HINTED_WITH_STD = {"h26x_depacketizer/sink.rt": "put_behind"}
# Words of Rattle that no output may have, and of a Rust that isn't stable.
RATTLE = {"ghost", "requires", "ensures", "prove", "prove_eq", "prove_ne", "Model", "Global",
          "HostRuntime", "allocator", "thiserror", "simd"}
# What std's prelude has and core's has not.
PRELUDE = {"Vec": "vec::Vec", "Box": "boxed::Box", "String": "string::String"}
# Where what is std's lies below it. What isn't named stops the translation.
PLACES = {"fmt": "core", "mem": "core", "ops": "core", "cmp": "core", "iter": "core", "slice": "core", "str": "core",
          "convert": "core", "num": "core", "option": "core", "result": "core", "marker": "core", "hash": "core",
          "vec": "alloc", "boxed": "alloc", "string": "alloc", "borrow": "alloc", "collections": "alloc"}

# What Rust has in scope without an import, and docs link to.
IN_SCOPE = {"Box", "Clone", "Default", "Drop", "Err", "Iterator", "None", "Ok", "Option", "Result", "Some", "String", "Vec"}

# Libraries of Rattle that have another one in their place, by the names of theirs.
LIBRARIES = ("base64", "hex")


def public_functions(items):
    """The functions of a file that others may call."""
    heads = {f.name: before(f.items, f.keyword) for f in functions(items) if f.items is items}
    return {name for name, j in heads.items() if is_pub(at(items, j)) or is_group(at(items, j), "(")}


def use_portable(crate, files):
    """The files of a crate, by their places, with its module `portable` in the place of the one that has the same
    functions; modules of `std::simd` that nobody names then are dropped."""
    if "portable.rt" not in files:
        return files
    wanted = public_functions(files["portable.rt"])
    if not wanted:
        raise Refused(f"{crate}: `portable` has no function for others")
    same = [place for place, items in files.items()
            if place != "portable.rt" and wanted <= public_functions(items)]
    if len(same) != 1:
        raise Refused(f"{crate}: `portable` stands in the place of one module, not of {same}")
    replaced = same[0].removesuffix(".rt")
    files = {place: deep(items, name_otherwise(replaced, "portable"))
             for place, items in files.items() if place != same[0]}
    gone = {replaced} | {place.removesuffix(".rt") for place, items in files.items() if takes_vectors(items)}
    for module in sorted(gone):
        naming = [place for place, items in files.items()
                  if place != f"{module}.rt" and f"{module} ::" in bare_words(items)]
        if naming:
            raise Refused(f"{crate}/{naming[0]}: {module} takes std::simd, which isn't stable")
    files = {place: items for place, items in files.items() if place.removesuffix(".rt") not in gone}
    return {place: erase_modules(place, {f"{module}.rt" for module in gone})(items) for place, items in files.items()}


def takes_vectors(items):
    return "std :: simd" in bare_words(items)


def name_otherwise(module, other):
    """Names a module of the crate by another name."""

    def change(items):
        for i, it in enumerate(items):
            if is_word(it, module) and is_sign(at(items, after(items, i)), "::") \
                    and is_word(at(items, before(items, before(items, i))), "crate", "self", "super"):
                it.text = other
        return items

    return change


def rename(items):
    """Gives functions their other names, where they are written and where they are called by their type."""
    for i, it in enumerate(items):
        if is_word(it, "impl"):
            j = i
            while not is_group(at(items, j), "{") and j < len(items):
                j += 1
            of = bare(items[i + 1:j])
            for function in functions(items[j].items) if j < len(items) else []:
                if (of, function.name) in RENAMED:
                    function.items[function.name_at].text = RENAMED[of, function.name]
        j = after(items, i)
        k = after(items, j)
        if is_word(it) and is_sign(at(items, j), "::") and is_word(at(items, k)):
            items[k].text = RENAMED.get((it.text, items[k].text), items[k].text)
    return items


def write_formatters(items):
    """A formatter of Rust has no type parameter."""
    out, i = [], 0
    while i < len(items):
        it = items[i]
        j = after(items, i)
        if is_word(it, "Formatter") and is_sign(at(items, j), "<") and is_word(at(items, j + 1), "W"):
            out += parse("Formatter<'_>")
            i = j + 3
            continue
        if is_word(it, "fmt") and is_sign(at(items, j), "<"):
            while not is_sign(items[j], ">"):
                j += 1
            if bare(items[i:j + 1]) == "fmt < W : fmt :: Write >":
                out.append(it)
                i = j + 1
                continue
        out.append(it)
        i += 1
    return out


def mark_unread(items):
    """A parameter that nothing reads gets an underscore."""
    for function in functions(items):
        if function.body is None:
            continue
        read = set(re.findall(r"\w+", bare_words(function.body.items)))
        inner = function.parameters.items
        for i, it in enumerate(inner):
            if (it.kind == "word" and it.text not in read and it.text != "self" and not it.text.startswith("_")
                    and is_sign(at(inner, after(inner, i)), ":") and not is_sign(at(inner, before(inner, i)), ":")
                    and not is_word(at(inner, before(inner, i)), "mut")):
                it.text = "_" + it.text
    return items


def erase_hints(crate):
    """Drops `inline(always)` where rustc's code gets dearer by it."""

    def change(items):
        for function in functions(items):
            if function.items is items and function.name == UNHINTED.get(crate):
                j = before(items, function.keyword)
                while is_group(at(items, j), "(") or is_pub(at(items, j)):
                    j = before(items, j)
                if not is_group(at(items, j), "[") or bare(items[j].items) != "inline (always)":
                    raise Refused(f"{crate}: {function.name} has no `inline(always)`, which `UNHINTED` drops")
                return items[:before(items, j)] + items[after(items, j):]
        return items

    return change


def hint_with_std(place):
    """Keeps `inline(always)` with std alone, since what is called there is inlined with std only."""

    def change(items):
        for function in functions(items):
            if function.items is items and function.body is not None and function.name == HINTED_WITH_STD.get(place):
                hint = at(items, before(items, function.keyword))
                if not is_group(hint, "[") or bare(hint.items) != "inline (always)":
                    raise Refused(f"{place}: {function.name} has no `inline(always)`, which `HINTED_WITH_STD` asks of std")
                hint.items = parse('cfg_attr(feature = "std", inline(always))')
        return items

    return change


def rewrite_paths(module, crate, crates):
    """Crates are modules, and std is core, alloc and `support`."""

    def change(items):
        out = []
        for i, it in enumerate(items):
            follows = is_sign(at(items, after(items, i)), "::")
            behind = is_sign(at(out, before(out, len(out))), "::", ".")
            if is_word(it, "crate") and follows:
                out += parse(f"crate::{module}::{crate}")
            elif is_among(it, crates) and follows and not behind:
                out += parse("crate" if crate in OVER else f"crate::{module}::{it.text}")
            elif is_word(it, *LIBRARIES) and follows and not behind:
                out += parse(f"crate::support::{it.text}")
            elif is_word(it, "std") and follows and not behind:
                out += parse(place_of_std(items, i))
            elif is_word(it, "alloc") and bare(out[-4:]) == "crate :: support ::":
                out.pop()
                out.pop()
                out += parse("support")
            elif it.kind == "doc":
                out.append(Token("doc", re.sub(r"\bcrate::", f"crate::{module}::{crate}::", it.text)))
            else:
                out.append(it)
        return out

    return change


def place_of_std(items, i):
    """What stands for `std` at a place: core, alloc or the crate's own."""
    part = at(items, after(items, after(items, i)))
    if is_group(part, "{"):
        places = {PLACES.get(bare(it).split(" ")[0]) for it in commas(part.items)}
        if len(places) == 1 and None not in places:
            return places.pop()
    if is_word(part, "alloc"):
        return "crate::support"
    if is_word(part, "collections") and "HashMap" in bare(items[i:after(items, i) + 6]):
        return "std"
    if not is_word(part) or part.text not in PLACES:
        raise Refused(f"std::{part.text if part else ''} has no place, or several")
    return PLACES[part.text]


def names_in(items):
    """The words that a file has outside of its docs."""
    here = {it.text for it in items if it.kind == "word"}
    return here.union(*(names_in(it.items) for it in items if it.kind == "group"))


def unlink(items):
    """A link in a doc to what a file doesn't name leads nowhere in Rust: the name alone is left."""
    names = names_in(items) | IN_SCOPE

    def alone(link):
        return link[0] if link[1] in names else f"`{link[1]}`"

    def change(inner):
        return [Token("doc", re.sub(r"\[`(\w+)`\](?![(\[:])", alone, it.text)) if it.kind == "doc" else it for it in inner]

    return deep(items, change)


def std_alone(items):
    """The names of functions that take a `HashMap`, which is std's alone."""
    return {f.name for f in functions(items) if "HashMap" in bare(f.parameters.items)}


def put_behind_std(names):
    """What takes a `HashMap` stands behind the feature `std`, and so does an import of it."""
    mark = '#[cfg(feature = "std")]\n'

    def change(items):
        out = []
        for i, it in enumerate(items):
            if is_word(it, "use"):
                end = i
                while not is_sign(items[end], ";"):
                    end += 1
                brought = words_of(items[i + 1:end])
                if "HashMap" in brought or brought & names:
                    if "{" in bare(items[i:end]):
                        raise Refused(f"an import of several, of which one is std's: {bare(items[i:end])}")
                    out += parse(mark)
            if is_function(items, i) and Function(items, i).name in names:
                place = len(out)
                while is_pub(at(out, before(out, place))) or is_group(at(out, before(out, place)), "("):
                    place = before(out, place)
                out[place:place] = parse(mark)
            out.append(it)
        return out

    return change


def erase_examples(items):
    """Drops the examples of docs, with the empty line before each. Other blocks stay."""
    out, fence = [], None
    for it in items:
        text = it.text[3:].strip() if it.kind == "doc" else ""
        if text.startswith("```"):
            is_end, was_example = fence is not None, fence == "```rust"
            fence = None if is_end else text
            if not is_end and text == "```rust":
                place = before_blank(out)
                if place >= 0 and out[place].kind == "doc" and not out[place].text[3:].strip():
                    del out[place:]
                continue
            if is_end and was_example:
                continue
        elif fence == "```rust" and it.kind in ("doc", "space"):
            continue
        if it.kind == "space" and it.text.count("\n") < 2 and out and out[-1].kind == "space":
            continue
        out.append(it)
    return out


def before_blank(out):
    """The place of the last item that is no blank."""
    place = len(out) - 1
    while place >= 0 and out[place].kind == "space":
        place -= 1
    return place


def add_imports(items, traits):
    """Imports the traits of fallible calls, and what core's prelude hasn't."""
    if traits:
        items = add_use(items, "use crate::support::{" + ", ".join(sorted(traits)) + "};")
    named = [PRELUDE[word] for word in sorted(PRELUDE) if word in words_of(items)]
    return add_use(items, "use alloc::{" + ", ".join(named) + "};") if named else items


# What docs say of the allocator.
OF_MEMORY = re.compile(r"[;.]_[Ii]ts_memory_comes_from_`alloc`(?:;_none_is_taken_here)?".replace(
    "_", r"(?:\s|///)+"))


def check_words(items, place):
    """Refuses what is left of Rattle, and what no stable Rust has."""
    for it in items:
        if it.kind == "group":
            check_words(it.items, place)
        elif is_among(it, RATTLE):
            raise Refused(f"{place}: {it.text} is left")
