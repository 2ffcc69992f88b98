"""Rules for what Rust's callers don't reach. rustc looks for it: its lint for dead code is on in the proved modules, so
what nobody calls and no list has fails tools/check-rust, and so does what a list has and the sources haven't.

| In Rattle | In Rust | Reason |
|---|---|---|
| a worked case: a function without parameters, answer and body | nothing | its contract is all that it is |
| the functions of `UNCALLED`, and its types with all that they do | nothing | no caller of Rust and nothing of the C library calls them |
| the items of `OTHERS` | `#[allow(dead_code, reason = ..)]`, and what they call is called | the C library, or tests, call them |
"""

from .tree import (Function, Refused, after, at, bare, drop_heading, generics_end, heading_start, is_among, is_function,
                   is_group, is_sign, is_trivia, is_word, parse)

# By their files: functions, where another in the file has the same name behind their type's, and types.
UNCALLED = {
    "h265_packets/other_unit.rt": {"of"},
    "h26x_access_units/jitter.rt": {"bytes_len"},
    "h26x_answers/answer.rt": {"Format", "answer_to"},
    "h26x_codec/any_depacketizer.rt": {"run_memory"},
    "h26x_codec/any_packetizer.rt": {"packetize_units"},
    "h26x_codec/any_payload_depacketizer.rt": {"run_memory"},
    "h26x_depacketizer/depacketizer.rt": {"run_memory"},
    "h26x_depacketizer/run.rt": {"memory"},
    "h26x_packetizer/buffer.rt": {"PacketBuffer::is_empty", "PacketBuffer::iter", "PacketBuffer::push",
                                  "PacketBuffer::push_all", "PacketBuffer::reserve", "PacketBuffer::with_headroom",
                                  "PacketBuffer::write_header", "push_packet", "push_packets"},
    "h26x_packetizer/buffer/loan.rt": {"bytes_mut"},
    "h26x_packetizer/buffer_packets.rt": {"BufferPackets", "next_bounds"},
    "h26x_packetizer/packetizer.rt": {"codec"},
    "h26x_profile/bit_pattern.rt": {"new"},
    "h26x_reorder/buffer.rt": {"copy"},
    "h26x_reorder/reorder.rt": {"reorder_all"},
    "h26x_rtp_sender/sender.rt": {"send", "send_unit"},
    "h26x_rtp_sender/unit.rt": {"put", "put_all"},
    # The layer has these with its own buffer, and of the codecs whose packets have a largest size alone.
    "h26x_transmission/packetizer.rt": {"packetize_into", "packetize_unit_into", "packetize_units_into",
                                        "with_max_packet_size"},
}
C, TESTS = "the C library has it", "tests have it"
# By their files: functions, types, and modules with all that is in them.
OTHERS = {
    "h26x_codec/any_depacketizer.rt": {"depacketize_as": C},
    "h26x_codec/lib.rt": {"any_packetizer": C},
    "h26x_core/traits.rt": {"marks_talkspurt": TESTS, "nackable": TESTS},
    "h26x_depacketizer/lib.rt": {"memory": C},
    "h26x_packetizer/buffer.rt": {"bytes": C, "clear": C, "packet": C, "packet_ends": C},
    "h26x_rtp_sender/payloads.rt": {"are_in_memory": C},
}


def erase_cases(items):
    """Drops worked cases."""
    return erased(items, lambda name, owner, function: function is not None and not function.answers
                  and function.body is not None and not bare(function.parameters.items)
                  and not bare(function.body.items))


def unnamed(crate):
    """What is dropped that a crate may import: types of any crate, and functions of this one."""
    return {name for place, names in UNCALLED.items() for name in names
            if "::" not in name and (name[0].isupper() or place.startswith(crate + "/"))}


def erase_uncalled(place, items):
    """Drops what nobody calls."""
    names, found = UNCALLED.get(place, set()), set()

    def is_gone(name, owner, _):
        said = {name, f"{owner}::{name}"} & names
        found.update(said)
        return bool(said)

    items = erased(items, is_gone)
    if names - found:
        raise Refused(f"{place}: no function by the name of: {', '.join(sorted(names - found))}")
    return items


def erased(items, is_gone, owner=""):
    """The items without the functions and types of which something is so, by their name and whose they are, and without
    blocks of which nothing is left."""
    out, i = [], 0
    while i < len(items):
        end = None
        if is_function(items, i):
            function = Function(items, i)
            end = function.end + 1 if is_gone(function.name, owner, function) else None
        elif is_word(items[i], "struct", "impl") and (block := block_of(items, i)):
            of = whose(items[after(items, i):block])
            if is_gone(of, "", None):
                end = block + 1
            elif is_word(items[i], "impl"):
                before_it = bare(items[block].items)
                items[block].items = erased(items[block].items, is_gone, of)
                if before_it and not bare(items[block].items):
                    end = block + 1
                else:
                    out += items[i:block + 1]
                    i = block + 1
                    continue
        if end is not None:
            drop_heading(out)
            i = end
            continue
        if items[i].kind == "group":
            items[i].items = erased(items[i].items, is_gone, owner)
        out.append(items[i])
        i += 1
    return out


def block_of(items, i):
    """The place of the braces, or of the end, of the item at `i`; None where it is no item."""
    return next((j for j in range(i, len(items)) if is_group(items[j], "{") or is_sign(items[j], ";")), None)


def whose(items):
    """The name of the type that a heading is of, without parameters."""
    start = generics_end(items, next(i for i, it in enumerate(items) if not is_trivia(it)))
    names = bare(items[start:]).split(" for ")[-1].split(" ")
    return names[0]


def mark_others(place, items):
    """Marks what others call."""
    others = OTHERS.get(place, {})
    marked, found = marked_in(items, others)
    missing = set(others) - found
    if missing:
        raise Refused(f"{place}: no item by the name of: {', '.join(sorted(missing))}")
    return marked


def marked_in(items, others):
    """The items with marks, and the names that were found."""
    out, found = [], set()
    for i, it in enumerate(items):
        name = at(items, after(items, i))
        if is_word(it, "fn", "struct", "enum", "mod") and is_among(name, others):
            start = heading_end(out)
            out[start:start] = parse(mark(others[name.text]) + "\n")
            found.add(name.text)
        if it.kind == "group":
            it.items, more = marked_in(it.items, others)
            found |= more
        out.append(it)
    return out, found


def heading_end(out):
    """Where an item begins whose docs stand at the end of what is written so far."""
    start = heading_start(out, len(out))
    while start < len(out) and out[start].kind in ("doc", "space", "comment"):
        start += 1
    return start


def mark(who):
    return f'#[allow(dead_code, reason = "{who}")]'
