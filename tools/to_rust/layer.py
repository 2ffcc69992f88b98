"""Rules for what callers of the Rust crate have as it is: their names are those of the layer, which stands by hand over
the proved modules, and their types those that a caller of Rust expects.

| In Rattle | In Rust | Reason |
|---|---|---|
| `c::x` in the crates of `OVER` | `crate::x` | these stand over the layer's traits and ends, which callers have |
| the types of `LISTS`, and `X::from_vec(list)` | `Vec<..>`, `list` | contracts see a field as a list only where its type is the crate's own |
| `&mut CodecPacketizer`, `&mut CodecDepacketizer` as parameters in the files of `ANY_ENDS` | `&mut (impl Packetizer + ?Sized)`, .. | any end will do |
| lists of `Vec<u8>` as parameters in those of `ANY_BYTES`, and what a `for` takes out of one | `impl AsRef<[u8]>`, `x.as_ref()` | so will any bytes |
| `Box<dyn X>` in the crates of `OVER` | `Box<dyn X + Send + Sync + UnwindSafe>` | what holds it goes from thread to thread |
| `impl Debug` of a type in these crates | `#[derive(Debug)]` | of a box Rattle can show nothing |
| the functions of `HINTED` | `#[inline]` | they hand a call on, and are compiled where they are called |
"""

from .laws import erase_uses
from .tree import (Refused, add_use, after, at, bare, before, commas, deep, drop_heading, functions, heading_start,
                   is_among, is_attribute, is_group, is_sign, is_word, joined, parse)

OVER = {"h26x_transmission"}
# By their files.
LISTS = {"h26x_transmission": {"Packets": "Vec<Vec<u8>>", "Marks": "Vec<bool>"}}
ANY_ENDS = {"h26x_transmission/take.rt", "h26x_transmission/transmissions.rt"}
ANY_BYTES = ANY_ENDS | {"h26x_transmission/repeated.rt", "h26x_receiver/delivery.rt"}
HINTED = {"h26x_transmission/packetizer.rt": {"new", "configure_for", "packetize", "is_marker", "marks_talkspurt", "nackable"},
          "h26x_transmission/depacketizer.rt": {"new", "give_up_run"}}
ENDS = {"& mut CodecPacketizer": "Packetizer", "& mut CodecDepacketizer": "Depacketizer"}


def change(crate, place, items):
    """A file as callers have it."""
    if crate in OVER:
        items = widen_boxes(derive_debug(items))
    if crate in LISTS:
        items = write_lists(items, LISTS[crate])
    place = f"{crate}/{place}"
    if place in ANY_BYTES:
        widen(items, ENDS if place in ANY_ENDS else {})
    return deep(items, lambda inner: hint(inner, HINTED.get(place, ())))


def hint(items, names):
    """Has functions inlined where they are called."""
    out = []
    for i, it in enumerate(items):
        if is_word(it, "fn") and is_among(at(items, after(items, i)), names):
            start = len(out) - 2 if is_word(at(out, len(out) - 2), "pub") else len(out)
            out[start:start] = parse("#[inline]\n")
        out.append(it)
    return out


def items_of_type(items, i):
    """The name that an `impl` or a `struct` at `i` is of, and the place behind it."""
    end = next(j for j in range(i, len(items)) if is_group(items[j], "{") or is_sign(items[j], ";"))
    return bare(items[i + 1:end]), end + 1


def write_lists(items, lists):
    """Drops types that are lists, and names what they hold."""
    out, i = [], 0
    while i < len(items):
        if is_word(items[i], "struct", "impl"):
            name, end = items_of_type(items, i)
            if name in lists:
                drop_heading(out)
                i = end
                continue
        out.append(items[i])
        i += 1
    return deep(erase_uses(out, set(lists), set()), lambda inner: name_lists(inner, lists))


def name_lists(items, lists):
    out, i = [], 0
    while i < len(items):
        call = after(items, after(items, i))
        if is_word(items[i], *lists) and is_sign(at(items, after(items, i)), "::"):
            if not is_word(at(items, call), "from_vec"):
                raise Refused(f"a call of {items[i].text}, which is a list in Rust")
            out += items[after(items, call)].items
            i = after(items, call) + 1
        elif is_word(items[i], *lists):
            out += parse(lists[items[i].text])
            i += 1
        else:
            out.append(items[i])
            i += 1
    return out


def derive_debug(items):
    """Types with a `Debug` of their own derive it."""
    out, shown, i = [], set(), 0
    while i < len(items):
        if is_word(items[i], "impl"):
            name, end = items_of_type(items, i)
            if name.startswith("fmt :: Debug for "):
                shown.add(name.split()[-1])
                drop_heading(out)
                i = end
                continue
        out.append(items[i])
        i += 1
    for i in reversed(range(len(out))):
        if is_word(out[i], "enum", "struct") and at(out, after(out, i)).text in shown:
            start = heading_start(out, i)
            if any(is_attribute(out, j) for j in range(start, i)):
                raise Refused(f"attributes of {out[after(out, i)].text}")
            start = next((j for j in range(start, i) if out[j].kind == "word"), i)
            out[start:start] = parse("#[derive(Debug)]\n")
    return out


def widen_boxes(items):
    """What stands in a box may go from thread to thread."""
    found = []

    def widen_each(inner):
        out, i = [], 0
        while i < len(inner):
            out.append(inner[i])
            if is_word(inner[i], "dyn") and bare(inner[max(0, i - 3):i]).endswith("Box <"):
                end = next(j for j in range(i, len(inner)) if is_sign(inner[j], ">"))
                out += [*inner[i + 1:end], *parse(" + Send + Sync + UnwindSafe")]
                found.append(i)
                i = end - 1
            i += 1
        return out

    items = deep(items, widen_each)
    return add_use(items, "use core::panic::UnwindSafe;") if found else items


def widen(items, ends):
    """Gives functions parameters of any end, and of lists of any bytes."""
    for function in functions(items):
        parts = commas(function.parameters.items, is_typed=True)
        for n, part in enumerate(parts):
            if " : " not in bare(part):
                continue
            name, kind = bare(part).split(" : ", 1)
            if kind in ends:
                parts[n] = parse(f"{name}: &mut (impl {ends[kind]} + ?Sized)")
            elif kind.startswith("& [") and "Vec < u8 >" in kind:
                parts[n] = parse(f"{name}: " + kind.replace("Vec < u8 >", "impl AsRef<[u8]>"))
                lend(function.body.items, name)
        function.parameters.items = joined(parts)


def lend(body, name):
    """What a `for` takes out of a list of this name, as the last of each entry, is lent as bytes."""
    for i, it in enumerate(body):
        if not is_word(it, "for"):
            continue
        of = next(j for j in range(i, len(body)) if is_word(body[j], "in"))
        if is_word(body[after(body, of)], name):
            pattern = body[before(body, of)]
            taken = bare(pattern.items).split(" ")[-1] if is_group(pattern, "(") else pattern.text
            lend_in(next(it for it in body[of:] if is_group(it, "{")).items, taken)


def lend_in(items, name):
    """Lends what is given to calls by this name."""
    for it in items:
        if it.kind == "group":
            lend_in(it.items, name)
        if is_group(it, "("):
            it.items = joined([parse(f"{name}.as_ref()") if bare(part) == name else part for part in commas(it.items)])
