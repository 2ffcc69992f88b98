"""Rules for what C calls: a crate's exports, of which Rattle makes pointers and lengths by itself.

| In Rattle | In Rust | Reason |
|---|---|---|
| `#[unsafe(no_mangle)] pub extern "C" fn h26x_x(..)` | `pub fn h26x_x(..)` of the same body; in a module `exports` of the crate a function of C's form that calls it | the body stays safe, and all that C gives is taken in one file |
| `x: &[u8]`, `x: &[u16]`, `x: &[RtpPayload]` of an export | `x: *const u8, x_len: usize`, then `items(x, x_len)` | NULL has length 0 |
| `to: &mut [u8]`, `name_to: &mut [u8]`, `ends: &mut [usize]`, `numbers: &mut [u16]`, `points: &mut [PointNumbers]`, `told: &mut [PushTold]`, `told: &mut [ReceivedTold]`, `blocks: &mut [BlockPlace]`, `packet: &mut [u8]` | the same, as `room`, `name_room`, `ends_room`, `numbers_room`, `points_room`, `told_room`, `blocks_room` and `packet_len`, then `room(..)` | as the header names them; a struct of `ENTRIES` is of numbers alone, so that any memory is one |
| `x: &Config` of an export, and the other types of `LOOKED_AT` | `x: *const Config`, then `shared(x)` | it is there |
| `x: &mut usize`, and the other types of `OUTPUTS`, which nothing reads; of all functions of the crates that C reaches | `x: &mut MaybeUninit<usize>`, `*x = y` is `x.write(y)`; of an export `x: *mut usize`, then `output(x, ..)` | C leaves it uninitialised; NULL isn't wanted |
| `extra: &mut u8` of an export, which it reads | `extra: *mut u8`, then `in_out(extra, ..)` | NULL is read as 0 |
| `counted: &mut Statistics` | as other outputs | nothing reads it, though other calls lend one |
| `x: &mut Place`, `x: &mut Handle`, `x: &mut Statistics`, `x: &ConstHandle` | `x: *mut Place`, then `made(x)`; `x: *mut Handle`, then `lent(x)`; `x: *const ConstHandle`, then `shared(x)` | they are there |
| `x: Handle` | by value; of NULL the call returns | it is nothing to be freed |
| numbers and `bool` | the same | |
| `Box::new(x)` that answers a `Result` | `try_box(x)` | std's isn't stable |
| `let (p, alloc) = Box::into_raw_with_allocator(x)` | `let p = Box::into_raw(x)` | the allocator is always `Global` |

Any other parameter of an export stops the translation.
"""

import re

from .tree import (Function, Group, Refused, add_use, after, at, bare, before, commas, functions, is_attribute,
                   is_group, is_sign, is_word, parse, words_of, written)

# The crates whose outputs are C's, and of those the one that has pointers.
REACHED = {"h26x_codes", "h26x_sdp_handles", "h26x_handles", "h26x_endpoint", "h26x_c"}
UNSAFE = {"h26x_c"}
NUMBERS = {"u8", "u16", "u32", "u64", "usize"}
# What a call writes for C. `Place` is where a handle is written.
OUTPUTS = NUMBERS | {"Refusal", "Shown", "Place", "UnitTold", "SoFarTold", "Counts", "ConstraintNumbers",
                     "RtpPlaces", "Report", "Sources", "DatagramTold", "Streams", "SentCounts", "RtxNumbers",
                     "StreamNumbers", "ElementPlace"}
# What C gives rows of to be written: numbers, and structs of nothing else.
ENTRIES = {"u8", "u16", "usize", "PointNumbers", "PushTold", "ReceivedTold", "BlockPlace"}
# What C gives rows of to be looked at.
ROWS = {"u8", "u16", "usize", "RtpPayload"}
# What a call only looks at: a handle, and what a caller sets.
LOOKED_AT = {"ConstHandle", "Config", "NackTimes", "RtpFields", "Report", "PayloadTypes", "Sources", "Streams",
             "RtxNumbers"}
# What a call reads and changes.
LENT = {"Handle", "Statistics"}
# Of these the outputs that are only written, with their names.
WRITTEN = {("counted", "Statistics")}
# What the header says is in and out: C gives a number there, and of no other output.
IN_OUT = {"extra"}
# Parameters that the header names otherwise.
NAMES = {"is_avc": "avc"}
HEAD = """\
//! The calls of `h26x.h`, by what C gives for them.
//!
//! A caller owes what the header says. So a pointer is NULL, where it may be, or that of a buffer of the length
//! behind it, of a handle or of an output, which nothing else reads or writes while the call runs.
"""


def take_exports(items):
    """Makes plain functions of exports, and tells their names."""
    names, out, i = [], [], 0
    while i < len(items):
        j = after(items, i)
        if is_attribute(items, i) and bare(items[j].items) == "unsafe (no_mangle)":
            i = after(items, j)
            continue
        if is_word(items[i], "extern"):
            i = after(items, j)
            names.append(Function(items, i).name)
        out.append(items[i])
        i += 1
    return out, names


def parameters(function):
    """The names of a function's parameters, with the types as texts."""
    for part in commas(function.parameters.items):
        if " : " in bare(part):
            name, kind = bare(part).split(" : ", 1)
            yield name.removeprefix("mut "), kind


def is_output(name, kind):
    """Whether C is told by a parameter of this type."""
    return kind in OUTPUTS or (name, kind) in WRITTEN


def write_outputs(items):
    """Gives parameters that are only written the type of memory that may be uninitialised."""
    for function in functions(items):
        if function.body is None:
            continue
        inner = function.parameters.items
        for name, kind in parameters(function):
            of = re.fullmatch(r"& mut (\w+)", kind)
            if of and is_output(name, of[1]) and not is_read(name, function.body.items):
                place = next(i for i, it in enumerate(inner)
                             if is_word(it, name) and is_sign(at(inner, after(inner, i)), ":"))
                place = next(i for i in range(place, len(inner)) if is_word(inner[i], of[1]))
                inner[place:place + 1] = parse(f"MaybeUninit<{of[1]}>")
                write_each(name, function.body)
    return items


def add_import(items):
    return add_use(items, "use core::mem::MaybeUninit;") if "MaybeUninit" in words_of(items) else items


def assigned(items, i, name):
    """Whether `*name = ` begins at `i`."""
    j = after(items, i)
    k = after(items, j)
    return (is_sign(items[i], "*") and is_word(at(items, j), name) and is_sign(at(items, k), "=")
            and not is_sign(at(items, k + 1), "="))


def among_assigned(items, i):
    """The names in `(*a, *b) = `, where that begins at `i`; else None."""
    j = after(items, i)
    if not is_group(items[i], "(") or not is_sign(at(items, j), "=") or is_sign(at(items, j + 1), "="):
        return None
    parts = [re.fullmatch(r"\* (\w+)", bare(part)) for part in commas(items[i].items)]
    return [part[1] for part in parts] if all(parts) else None


def is_read(name, items):
    """Whether `*name` stands where it isn't assigned."""
    for i, it in enumerate(items):
        if it.kind == "group" and is_read(name, it.items):
            return True
        if is_sign(it, "*") and is_word(at(items, after(items, i)), name) and not assigned(items, i, name):
            return True
    return False


def write_each(name, body):
    """Writes assignments of `*name` as calls."""
    items, out, i = body.items, [], 0
    while i < len(items):
        if items[i].kind == "group":
            write_each(name, items[i])
        if assigned(items, i, name):
            start, end = value_of(items, after(items, after(items, i)))
            out += [*parse(f"{name}.write"), Group("(", items[start:end])]
            i = end
            continue
        out.append(items[i])
        i += 1
    body.items = out


def value_of(items, equals):
    """The places of what is assigned behind a `=`, and of the end of that."""
    start = after(items, equals)
    return start, next(j for j in range(start, len(items)) if is_sign(items[j], ";"))


def write_pairs(items):
    """Writes `(*a, *b) = x;` as an assignment of each."""
    out, i = [], 0
    while i < len(items):
        names = among_assigned(items, i)
        if names is None:
            out.append(items[i])
            i += 1
            continue
        start, end = value_of(items, after(items, i))
        each = "".join(f"*{name} = values.{n};\n" for n, name in enumerate(names))
        out.append(Group("{", [*parse("let values = "), *items[start:end], *parse(";\n" + each)]))
        i = end + 1
    return out


def write_boxes(items):
    """A box that wants memory is made by a call, and one that is taken apart has no allocator."""
    out, i = [], 0
    while i < len(items):
        j = after(items, i)
        call = at(items, after(items, j))
        if is_word(items[i], "Box") and is_sign(at(items, j), "::") and is_word(call, "new"):
            out += parse("crate::pointers::try_box")
            i = after(items, j) + 1
            continue
        if is_word(items[i], "Box") and is_sign(at(items, j), "::") and is_word(call, "into_raw_with_allocator"):
            call.text = "into_raw"
            pattern = before(out, before(out, len(out)))
            if is_group(at(out, pattern), "("):
                out[pattern:pattern + 1] = out[pattern].items
        out.append(items[i])
        i += 1
    return out


class Exports:
    """The functions of C's form, which are written from the plain ones beside them."""

    def __init__(self):
        self.calls = []

    def note(self, place, items, names):
        """The exports of a file, as they are translated."""
        for function in functions(items):
            if function.items is items and function.name in names:
                self.calls.append((place, function))

    def text(self):
        calls = [self.call(*call) for call in self.calls]
        used = "\n".join(calls)
        uses = ["use crate::pointers;"] if "pointers::" in used else []
        uses += ["use core::mem::MaybeUninit;"] if "MaybeUninit" in used else []
        kinds = {"ConstHandle": "const_handle", "Handle": "handle", "Place": "place", "Shown": "shown",
                 "Config": "access_units", "Counts": "access_units",
                 "NackTimes": "access_units", "RtpFields": "rtp", "RtpPlaces": "rtp", "Report": "rtcp",
                 "Statistics": "rtcp", "PayloadTypes": "rtp_receiver", "Sources": "rtp_receiver",
                 "DatagramTold": "rtp_receiver", "Streams": "rtp_sender", "SentCounts": "rtp_sender",
                 "SoFarTold": "so_far", "ElementPlace": "parts", "BlockPlace": "parts"}
        uses += [f"pub use super::{file}::{kind};" for kind, file in kinds.items() if re.search(rf"\b{kind}\b", used)]
        below = {"Refusal": "h26x_codes::code", "UnitTold": "h26x_handles::access_units",
                 "RtpPayload": "h26x_handles::payloads", "PushTold": "h26x_handles::push_all",
                 "ReceivedTold": "h26x_handles::receive_all",
                 "ConstraintNumbers": "h26x_sdp_handles::sdp_values", "PointNumbers": "h26x_sdp_handles::sdp_values",
                 "RtxNumbers": "h26x_sdp_handles::repair", "StreamNumbers": "h26x_sdp_handles::streams"}
        uses += [f"pub use crate::proved::{file}::{kind};" for kind, file in below.items() if kind in used]
        return "\n".join([HEAD, *uses, "", *calls])

    def call(self, place, function):
        """A function of C's form."""
        taken, given, first = [], [], []
        for name, kind in parameters(function):
            name = NAMES.get(name.lstrip("_"), name.lstrip("_"))
            items = re.fullmatch(r"& (mut )?\[(\w+)\]", kind)
            items = items if items and items[2] in (ENTRIES if items[1] else ROWS) else None
            output = re.fullmatch(r"& mut (?:MaybeUninit < (\w+) >|(\w+))", kind)
            looked_at = re.fullmatch(r"& (\w+)", kind)
            if items and items[1]:
                is_place = items[2] != "u8" or name.endswith("_to")
                room = "room" if name == "to" else f"{name.removesuffix('_to')}_{'room' if is_place else 'len'}"
                taken.append(f"{name}: *mut {items[2]}, {room}: usize")
                given.append(f"pointers::room({name}, {room})")
            elif items:
                taken.append(f"{name}: *const {items[2]}, {name}_len: usize")
                given.append(f"pointers::items({name}, {name}_len)")
            elif output and (output[1] == "Place" or output[2] in LENT):
                taken.append(f"{name}: *mut {output[1] or output[2]}")
                given.append(f"pointers::{'made' if output[1] else 'lent'}({name})")
            elif looked_at and looked_at[1] in LOOKED_AT:
                taken.append(f"{name}: *const {looked_at[1]}")
                given.append(f"pointers::shared({name})")
            elif output and is_output(name, output[1]):
                taken.append(f"{name}: *mut {output[1]}")
                first.append(f"let mut no_{name} = MaybeUninit::uninit();")
                given.append(f"pointers::output({name}, &mut no_{name})")
            elif output and output[2] in NUMBERS and name in IN_OUT:
                taken.append(f"{name}: *mut {output[2]}")
                first.append(f"let mut no_{name} = 0;")
                given.append(f"pointers::in_out({name}, &mut no_{name})")
            elif kind == "Handle":
                taken.append(f"{name}: Handle")
                first.append(f"if {name}.ptr.is_null() {{ return; }}")
                given.append(name)
            elif kind in NUMBERS | {"bool"}:
                taken.append(f"{name}: {kind}")
                given.append(name)
            else:
                raise Refused(f"C can't give {kind} to {function.name}")
        module = "" if place == "lib.rt" else place.removesuffix(".rt").replace("/", "::") + "::"
        inner = f"super::{module}{function.name}({', '.join(given)})"
        if "pointers::" in inner:
            inner = f"// SAFETY: a caller owes what the header says.\nunsafe {{ {inner} }}"
        owes = "unsafe " if "unsafe" in inner or first else ""
        return "\n".join([
            "#[unsafe(no_mangle)]",
            f"pub {owes}extern \"C\" fn {function.name}({', '.join(taken)}) {written(function.answer)} {{",
            *first, inner, "}", ""])
