"""Rules for types: what a caller of Rust expects of plain data, and Rattle's derives don't have.

| In Rattle | In Rust | Reason |
|---|---|---|
| derived `Serialize`, `Deserialize` | behind the feature `serde` | it is a choice |
| the types of `ADDED` | those derives too | they are data; each name must be found |
| the enums of `GROWING` | `#[non_exhaustive]` | a codec or a parameter may come |
| the enums of `LISTED` | `ALL`, each of their values in order | who has a table goes through it |
| a derived `Debug` of a struct with bytes in a field | one that tells how many | payloads aren't printed |
| derived `thiserror::Error` with `#[error("..")]` | `#[non_exhaustive]`, `Display` and `core::error::Error` | it is what thiserror makes, without the crates that it brings |
| a field `fault` of an error | told behind its text | who prints an error wants the reason |
"""

import re

from .tree import (Refused, after, at, bare, commas, generics_end, is_attribute, is_group, is_sign, is_trivia,
                   is_word, parse)

SERDE = ("Serialize", "Deserialize")
STORED = "Serialize Deserialize"
WORD = f"Hash {STORED}"
ADDED = {
    "Codec": WORD, "CodecExtra": WORD, "H264CodecExtra": WORD, "H265CodecExtra": WORD, "H266CodecExtra": WORD,
    "H265NALUHeader": WORD, "H265FragmentationUnitHeader": WORD, "H265TSCI": WORD,
    "H266NALUHeader": WORD, "H266FragmentationUnitHeader": WORD,
    "PacketError": "Hash", "Received": "Hash", "Pushed": "Hash",
    "H264Profile": STORED, "H264ProfileIdc": STORED, "H264LevelIdc": STORED, "H264ProfileLevel": STORED,
    "RtpPacket": "Clone Copy PartialEq Eq Hash", "HeldPacket": "Clone PartialEq Eq Hash",
    "AccessUnit": "Clone PartialEq Eq Hash", "OpenAccessUnit": "Clone PartialEq Eq", "AccessUnitSoFar": "Clone PartialEq Eq",
    "OpenText": "Clone", "OpenRun": "Clone", "ReorderBuffer": "Clone", "NumberOrder": "Clone", "Parted": "Clone",
    "SparePayloads": "Clone", "UnitSlices": "Clone",
    "NotHeld": "Clone PartialEq Eq Hash", "NotHeldReason": "Hash",
    "ReceivedAccessUnit": "Clone PartialEq Eq Hash", "NotPushed": "Clone PartialEq Eq Hash", "NotPushedReason": "Hash",
    "AccessUnitConfig": "Hash", "Counts": "Hash",
    "CodecParameters": "Clone PartialEq Eq Hash", "FormatParameters": "Clone PartialEq Eq Hash",
    "OtherParameter": "Clone PartialEq Eq Hash", "H264Parameter": "PartialOrd Ord Hash",
    "H265Parameter": "PartialOrd Ord Hash", "H266Parameter": "PartialOrd Ord Hash",
    "LevelSets": "Clone PartialEq Eq Hash", "InteropConstraints": "Clone PartialEq Eq Hash",
    "Fault": "Hash", "ParametersError": "Hash", "UnitsError": "Hash", "RtpMapError": "Hash",
    "RepairFormat": "Hash", "RepairMap": "Hash", "RtxFormat": "Hash", "RtxError": "Hash",
    "ConstraintsError": "Hash", "LevelSetsError": "Hash", "CapabilityPointsError": "Hash",
    "ParallelTool": "Hash", "CapabilityPoint": "Hash",
    "Carried": "Clone PartialEq Eq Hash", "Repeated": "Clone PartialEq Eq Hash",
}
LISTED = {"H264Parameter", "H265Parameter", "H266Parameter"}
GROWING = {"CodecExtra", "Fault", "RepairFormat"} | LISTED

# A field's type that is bytes, and what is shown of `it`.
BYTES = [
    (re.compile(r"Vec < u8 >|& (?:'\w+ )?(?:mut )?\[u8\]"), "Count(it.len())"),
    (re.compile(r"Option < Vec < u8 > >"), "it.as_ref().map(|it| Count(it.len()))"),
    (re.compile(r"& (?:'\w+ )?Option < Vec < u8 > >"), "it.as_ref().map(|it| Count(it.len()))"),
]
# Types whose lists of bytes are packets, and how such a list is shown.
OF_PACKETS = {"Carried", "Repeated"}
PACKETS = [(re.compile(r"Vec < Vec < u8 > >"), "Counts(&it)")]


class Types:
    """Rewrites the types of a file; `found` are the names of `ADDED` that were met."""

    def __init__(self):
        self.found = set()

    def change(self, items):
        out, i = [], 0
        while i < len(items):
            if is_attribute(items, i) and is_word(at(items[after(items, i)].items, 0), "derive"):
                end = self.type_end(items, i)
                if end is not None:
                    out += self.type(items[i:end])
                    i = end
                    continue
            out.append(items[i])
            i += 1
        return out

    @staticmethod
    def type_end(items, i):
        """The place behind the struct or enum that a derive at `i` is of."""
        j = i
        while j < len(items) and not is_word(items[j], "struct", "enum"):
            if is_word(items[j], "fn", "impl", "trait", "use"):
                return None
            j += 1
        while j < len(items) and not is_group(items[j], "{") and not is_sign(items[j], ";"):
            j += 1
        return j + 1 if j < len(items) else None

    def type(self, items):
        """A type, from its derive on."""
        keyword = next(i for i, it in enumerate(items) if is_word(it, "struct", "enum"))
        name = items[after(items, keyword)].text
        derive = items[after(items, 0)].items[-1]
        traits = [bare(t) for t in commas(derive.items) if bare(t)]
        traits += ADDED.get(name, "").split()
        self.found.add(name)
        behind = []
        if "Error" in traits:
            traits.remove("Error")
            items, more = self.error(items, keyword, name)
            behind += more
        if name in LISTED:
            behind += self.all_of(items, name)
        if "Debug" in traits and (debug := self.debug(items, keyword, name)):
            traits.remove("Debug")
            behind += parse("\n\n" + debug + "\n")
        text = "#[non_exhaustive]\n" if name in GROWING else ""
        if set(traits) & set(SERDE):
            names = ", ".join("serde::" + t for t in traits if t in SERDE)
            text += f'#[cfg_attr(feature = "serde", derive({names}))]\n'
            traits = [t for t in traits if t not in SERDE]
        front = parse(text + (f"#[derive({', '.join(traits)})]\n" if traits else ""))
        return front + items[after(items, after(items, 0)):] + behind

    @staticmethod
    def all_of(items, name):
        """The values of an enum, none of which has a field."""
        values = [it for it in items[-1].items if not is_trivia(it) and not is_sign(it, ",")]
        if not all(is_word(it) for it in values):
            raise Refused(f"a value of {name} with a field")
        every = ", ".join(f"Self::{it.text}" for it in values)
        return parse(f"\n\nimpl {name} {{\n/// All of them, in their order.\n"
                     f"pub const ALL: [Self; {len(values)}] = [{every}];\n}}\n")

    @staticmethod
    def debug(items, keyword, name):
        """`Debug` of a struct that has bytes in a field; nothing of another type."""
        if not is_word(items[keyword], "struct") or not is_group(items[-1], "{"):
            return None
        shown, helpers = [], set()
        for part in commas(items[-1].items, is_typed=True):
            field = re.search(r"(?:^|\b)(\w+) : (.*)$", bare(part))
            if not field:
                continue
            what = f"&self.{field[1]}"
            for kind, how in BYTES + PACKETS * (name in OF_PACKETS):
                if kind.fullmatch(field[2]):
                    what = "&" + re.sub(r"\bit\b", f"self.{field[1]}", how, count=1)
                    helpers.add(re.search(r"Counts?", how)[0])
            shown.append(f'.field("{field[1]}", {what})')
        if not helpers:
            return None
        start = after(items, after(items, keyword))
        generics = [it for it in items[start:generics_end(items, start)] if not is_trivia(it)]
        names = ", ".join(bare(p).split(" :")[0] for p in commas(generics[1:-1], is_typed=True)) if generics else ""
        of = f"{name}<{names}>" if names else name
        return "\n".join([
            "/// Of bytes it tells how many there are.",
            f"impl{bare(generics)} core::fmt::Debug for {of} {{",
            "fn fmt(&self, f: &mut core::fmt::Formatter<'_>) -> core::fmt::Result {",
            *(f"use crate::support::{helper};" for helper in sorted(helpers)),
            f'f.debug_struct("{name}"){"".join(shown)}.finish()', "}", "}"])

    @staticmethod
    def error(items, keyword, name):
        """An error without thiserror."""
        arms, texts = [], {}
        variants = items[-1].items
        for i, it in enumerate(variants):
            if is_attribute(variants, i) and is_word(at(variants[after(variants, i)].items, 0), "error"):
                variant = variants[after(variants, after(variants, i))]
                texts[variant.text] = bare(variants[after(variants, i)].items[1].items)
            if is_word(it) and it.text in texts:
                bound, text = told(at(variants, after(variants, i)), texts[it.text])
                arms.append(f"{name}::{it.text}{bound} => write!(f, {text}),")
        kept, i = [], 0
        while i < len(variants):
            if is_attribute(variants, i) and is_word(at(variants[after(variants, i)].items, 0), "error"):
                i = after(variants, after(variants, i))
                continue
            kept.append(variants[i])
            i += 1
        if not arms or len(arms) != len([p for p in commas(kept) if bare(p)]):
            raise Refused(f"an error of {name} without a text")
        items[-1].items = kept
        text = "\n".join([
            "", "", f"impl core::fmt::Display for {name} {{",
            "fn fmt(&self, f: &mut core::fmt::Formatter<'_>) -> core::fmt::Result {", "match self {", *arms,
            "}", "}", "}", "", f"impl core::error::Error for {name} {{}}", ""])
        marked = items[:keyword]
        place = next((i for i, it in enumerate(marked) if is_word(it, "pub", "pub(crate)")), keyword)
        return items[:place] + parse("#[non_exhaustive]\n") + items[place:], parse(text)


def told(fields, text):
    """The pattern of an error's fields that its text tells, and the text."""
    if is_group(fields, "{"):
        names = [bare(part).split(" : ")[0].split(" ")[-1] for part in commas(fields.items, is_typed=True) if bare(part)]
        if "fault" in names and "{fault}" not in text:
            text = text[:-1] + ': {fault}"'
        named = [one for one in names if "{" + one + "}" in text]
        return "{ " + ", ".join(named + [".."] * (len(named) < len(names))) + " }", text
    count = len([p for p in commas(fields.items) if bare(p)]) if is_group(fields, "(") else 0
    bound = f"({', '.join(f'of_{n}' for n in range(count))})" if count else ""
    return bound, re.sub(r"\{(\d)\}", r"{of_\1}", text)


def check_added(found):
    """Each type that gets derives must be there."""
    missing = sorted(set(ADDED) - found)
    if missing:
        raise Refused("no type by the name of: " + ", ".join(missing))
