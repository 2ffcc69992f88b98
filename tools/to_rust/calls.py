"""Which calls of std and of crates may stand in what is made: those that want no memory, and those that answer an
error where it lacks. Rust's other calls end the process then, where Rattle's answer an error or do nothing.

| A call | May stand |
|---|---|
| of a function of the sources | yes |
| a method of `METHODS`, a function or a path of `PATHS`, a macro of `MACROS` | yes: it wants no memory |
| a macro of the sources | yes: what it is made of and what it is given are looked at |
| `try_reserve` and the calls of `support.rs` (`HANDED_ON`) | yes: they answer an error, and rustc warns where nobody takes it |
| `push`, `append`, .. | where a rule wrote it, for `.unwrap()` of a call that may fail or for a `.._reserved`: there is room |
| a name of `TAKING`, whatever it is called of | no, but in the files of `OWN`, whose types have one of their own |
| `shrink_to_fit`, `shrink_to` | no: a smaller place is asked for by a call that may fail, as `give_back` of h26x_depacketizer does |
| `write!`, `write_str` | into the caller's `Formatter`, in a function that has one |
| `+` and `+=` with a text or what is borrowed | no: of a `String` it wants memory |
| anything else | no |

Names are looked at, and no types. What is imported from outside of the sources is known by its import.
"""

from .tree import (Function, Refused, after, at, bare, before, commas, functions, generics_end, is_among, is_attribute,
                   is_function, is_group, is_sign, is_trivia, is_word)

NUMBERS = {"u8", "u16", "u32", "u64", "u128", "usize", "i8", "i16", "i32", "i64", "i128", "isize", "char", "bool"}
# Methods of std and of crates that want no memory.
METHODS = set("""
    abs_diff as_bytes as_deref as_mut as_ref as_slice as_str back back_mut capacity checked_add checked_mul checked_sub
    chunks_exact clear cmp contains copied copy_from_slice copy_within debug_struct div_ceil drain ends_with enumerate eq
    eq_ignore_ascii_case field fill find finish first front front_mut get get_mut into_bytes is_digit is_empty is_err
    is_none is_null is_ok is_some iter iter_mut last len map map_err map_or max min next ok ok_or or pop pop_back
    pop_front position remove retain rev rotate_left saturating_add saturating_mul saturating_sub skip split_at
    split_first starts_with swap swap_remove take to_be_bytes trim_ascii truncate unwrap unwrap_or wrapping_add
    wrapping_mul wrapping_sub write
    """.split())
# Functions by their owner: a type, a module, or none where they are imported by their name.
PATHS = {
    "Vec": {"new"}, "VecDeque": {"new"}, "String": {"new", "from_utf8"}, "Box": {"from_raw", "into_raw"},
    "MaybeUninit": {"uninit"}, "mem": {"replace", "swap", "take"}, "cmp": {"max", "min"}, "slice": {"from_ref"},
    "str": {"from_utf8"}, "memmem": {"find"}, "": {"drop", "memchr"},
    **{number: {"from", "from_be_bytes", "from_str_radix", "try_from"} for number in NUMBERS},
}
MACROS = {"assert", "debug_assert", "format_args", "matches", "unreachable"}
# Calls that answer an error where memory lacks: `try_reserve` is std's, and the others are of `support.rs`.
HANDED_ON = {"try_append", "try_extend_from_slice", "try_insert", "try_push", "try_push_back", "try_push_str",
             "try_reserve", "try_reserve_exact", "try_to_vec"}
# What `support` and `pointers` have instead of a crate's: the texts that they make are handed on.
METHODS_OF_SUPPORT = {"decode", "encode", "encode_string"}
PATHS_OF_SUPPORT = {
    "Vec": {"try_from_slice", "try_reserve", "try_with_room"}, "TryVec": {"try_push"}, "support": {"try_format", "try_reserve"},
    "pointers": {"try_box"}, "hex": {"encode", "encode_upper"}, "<": {"from_hex"},
}
# Calls for which a rule has found that there is room.
WITH_ROOM = {"append", "append_bytes", "insert", "push", "push_back", "push_front", "push_str", "resize"}
# std's calls that end the process where memory lacks, and those that may be such by their type.
TAKING = WITH_ROOM | set("""
    clone clone_from clone_into collect collect_into concat connect default_in entry escape_debug extend
    extend_from_slice extend_from_within extend_one format from_fn from_iter from_utf16 from_utf16_lossy
    from_utf8_lossy insert_str into into_boxed_slice into_boxed_str into_iter into_owned join leak make_mut
    new_uninit new_uninit_slice or_default or_insert or_insert_with parse partition pin prepend repeat replace_range
    replacen reserve reserve_exact resize_with shrink_to shrink_to_fit sort sort_by sort_by_cached_key sort_by_key
    splice split_off to_ascii_lowercase to_ascii_uppercase to_lowercase to_mut to_owned to_string to_uppercase to_vec
    unzip with_capacity zeroed
    """.split())
# Calls by a name that std has too, of a function of the sources: in these files alone.
OWN = {"extend": {"h26x_depacketizer/reassembly.rt"}, "parse": {"h26x_profile/fmtp.rt"}}
# What is in scope of Rust without an import.
PRELUDE = {"AsRef", "Box", "Clone", "Default", "Extend", "From", "FromIterator", "Into", "IntoIterator", "Iterator", "Option",
           "Result", "String", "ToOwned", "ToString", "TryFrom", "TryInto", "Vec", "str"} | NUMBERS
OUTSIDE = {"core", "alloc", "std", "memchr"}
MODULES = {"alloc", "boxed", "cmp", "collections", "core", "fmt", "mem", "memmem", "self", "slice", "std", "str", "string", "vec"}
KEYWORDS = {"as", "break", "dyn", "else", "extern", "fn", "for", "if", "impl", "in", "let", "loop", "match", "move", "mut",
            "pub", "pub(crate)", "ref", "return", "unsafe", "where", "while", "crate", "self", "super"}


class Calls:
    """What the sources have themselves, and the check of a file that is made."""

    def __init__(self, files, named):
        """`files` are the trees of all sources, and `named` gives the name that a function of them has in Rust."""
        self.own = {named(function.name) for items in files for function in functions(items)}
        self.types = {name for items in files for name in types_of(items)}
        self.macros = MACROS | {name for items in files for name in macros_of(items)}
        self.foreign = PRELUDE | {here for items in files for tree in imports(items) for _, here in leaves(tree)}

    def check(self, items, place):
        """Refuses a call that nothing is known of."""
        self.place = place
        try:
            for tree in imports(items):
                check_import(tree)
            self.look(items, False)
        except Refused as refused:
            raise Refused(f"{place}: {refused}") from None

    def look(self, items, has_formatter):
        i = 0
        while i < len(items):
            it = items[i]
            if is_word(it, "use"):
                while not is_sign(items[i], ";"):
                    i += 1
            elif is_sign(it, "#") and is_attribute(items, i):
                i = after(items, i)
            elif is_sign(it, "#") and is_sign(at(items, i + 1), "!"):
                i += 2
            elif is_function(items, i):
                function = Function(items, i)
                inside = "Formatter" in bare(function.parameters.items)
                self.look([function.parameters], inside)
                if function.body is not None:
                    self.look(function.body.items, inside)
                i = function.end
            elif it.kind == "group":
                self.look(it.items, has_formatter)
            elif is_sign(it, "+"):
                check_sum(items, i)
            elif is_word(it) and it.text not in KEYWORDS:
                self.word(items, i, has_formatter)
            i += 1

    def word(self, items, i, has_formatter):
        """A word: a call, a path to a function, a macro, or none of these."""
        name, j = items[i].text, after(items, i)
        in_front = at(items, before(items, i))
        if is_sign(at(items, j), "!") and at(items, j + 1) is not None and at(items, j + 1).kind == "group":
            self.macro(name, items[j + 1], has_formatter)
        elif name[0].isupper() or is_sign(at(items, j), "::") and not is_sign(at(items, after(items, j)), "<"):
            return
        elif is_sign(in_front, "::"):
            self.path(items, i)
        elif is_called(items, i):
            if is_sign(in_front, "."):
                self.method(items, i, has_formatter)
            elif name not in self.own - TAKING and name not in PATHS[""]:
                unknown(name)

    def macro(self, name, arguments, has_formatter):
        is_write = name == "write" and has_formatter and bare(commas(arguments.items)[0]) == "f"
        if name not in self.macros and not is_write:
            unknown(name + "!")

    def method(self, items, i, has_formatter):
        name = items[i].text
        if name == "write_str" and has_formatter and is_word(at(items, before(items, before(items, i))), "f"):
            return
        if name in METHODS | HANDED_ON | METHODS_OF_SUPPORT or name in self.own - TAKING:
            return
        if name in WITH_ROOM and items[i].is_decided or self.place in OWN.get(name, ()):
            return
        unknown("." + name)

    def path(self, items, i):
        segments = path_to(items, i)
        name, owner = segments[-1], segments[-2]
        if name in PATHS.get(owner, ()) or name in PATHS_OF_SUPPORT.get(owner, ()):
            return
        is_foreign = segments[0] in OUTSIDE | {"<"} or owner in self.foreign
        if is_foreign or name not in self.own or name in TAKING | {"from"} and owner not in self.types:
            unknown("::".join(segments[-2:]))


def unknown(call):
    raise Refused(f"`{call}`: nothing says that it wants no memory, or that it answers an error where that lacks")


def check_sum(items, i):
    """Refuses what could be the sum of texts."""
    j = after(items, i)
    if is_sign(at(items, j), "="):
        j = after(items, j)
    if is_sign(at(items, j), "&") or at(items, j) is not None and at(items, j).kind == "string":
        unknown("+ " + items[j].text)


def is_called(items, i):
    """Whether the word at `i` is called, also with types between `::<` and `>`."""
    j = after(items, i)
    if is_sign(at(items, j), "::") and is_sign(at(items, after(items, j)), "<"):
        j = generics_end(items, after(items, j))
    return is_group(at(items, j), "(")


def path_to(items, i):
    """The segments of the path that ends at `i`. A type in `<..>` in front of it is `<`."""
    segments, j = [items[i].text], before(items, i)
    while is_sign(at(items, j), "::"):
        j = before(items, j)
        if is_sign(at(items, j), ">"):
            j = before(items, generics_start(items, j))
            if not is_sign(at(items, j), "::"):
                return ["<"] + segments
            j = before(items, j)
        if not is_word(at(items, j)):
            return ["<"] + segments
        segments.insert(0, items[j].text)
        j = before(items, j)
    return segments


def generics_start(items, i):
    """The place of the `<` of the `>` at `i`."""
    depth = 0
    while True:
        depth += is_sign(items[i], ">") - is_sign(items[i], "<")
        if depth == 0:
            return i
        i = before(items, i)


def macros_of(items):
    """The names of macros that a file has."""
    for i, it in enumerate(items):
        if is_word(it, "macro_rules"):
            yield items[after(items, after(items, i))].text


def types_of(items):
    """The names of the types and traits of a file."""
    for i, it in enumerate(items):
        if is_word(it, "struct", "enum", "trait", "type") and is_word(at(items, after(items, i))):
            yield items[after(items, i)].text


def imports(items):
    """The trees of what a file imports from outside of the sources."""
    for i, it in enumerate(items):
        if is_word(it, "use") and is_among(items[after(items, i)], OUTSIDE):
            end = next(j for j in range(i, len(items)) if is_sign(items[j], ";"))
            yield [it for it in items[after(items, i):end] if not is_trivia(it)]
        elif it.kind == "group":
            yield from imports(it.items)


def leaves(tree):
    """Of a tree of imports each name, with the one that it has here."""
    if is_group(tree[-1], "{"):
        for part in commas(tree[-1].items):
            if bare(part):
                yield from leaves([it for it in part if not is_trivia(it)])
    elif len(tree) > 2 and is_word(tree[-2], "as"):
        yield tree[-3].text, tree[-1].text
    else:
        yield tree[-1].text, tree[-1].text


def check_import(tree):
    """Refuses the import of a function that isn't among `PATHS`, and of a function by another name."""
    for name, here in leaves(tree):
        if not name[0].isupper() and name not in MODULES and (name not in PATHS[""] or name != here):
            unknown("use " + bare(tree))
