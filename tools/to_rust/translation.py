"""The order of the rules, and the files that they are used on."""

from pathlib import Path

from . import calls, contracts, exports, idiom, laws, layer, memory, types, uncalled
from .tree import after, at, deep, functions, is_group, is_sign, is_word, parse, words_of, written


# Crates that stand behind a feature of the package.
FEATURES = dict.fromkeys(["h26x_fmtp", "h26x_sdp", "h26x_answers", "h26x_stream_parameters"], "sdp")


class Crate:
    """The files of a crate by their places below its `src`."""

    def __init__(self, folder, name, owed):
        self.name, self.root, self.owed = name, folder / name / "src", owed
        self.files, self.words, self.exports, self.uncalled = {}, {}, {}, set()
        self.read("lib.rt", self.root / "lib.rt", self.root)
        self.files = idiom.use_portable(name, self.files)

    def read(self, place, path, folder):
        """Reads a file and those that its modules name; tests are left out."""
        items, self.exports[place] = exports.take_exports(parse(path.read_text(encoding="utf-8")))
        self.words[place] = words_of(items)
        self.owed.lower(items, f"{self.name}/src/{place}")
        self.files[place] = items = contracts.without_contracts(items)
        for name in modules(items):
            inner = folder / f"{name}.rt"
            self.read(str(inner.relative_to(self.root)), inner, folder / name)

    def thin(self, names):
        """Leaves what runs; files of which nothing is left are dropped, with their modules."""
        files = {place: layer.change(self.name, place, items) for place, items in self.files.items()}
        files = {place: self.called(place, items) for place, items in files.items()}
        files = {place: laws.erase_laws(items, names) for place, items in files.items()}
        files = {place: deep(items, memory.erase_allocators) for place, items in files.items()}
        empty = set()
        while True:
            files = {place: laws.erase_modules(place, empty)(items) for place, items in files.items()}
            more = {place for place, items in files.items() if laws.is_empty(items)} - empty
            if not more:
                break
            empty |= more
        self.files = {place: items for place, items in files.items() if place not in empty}
        self.gone = {place.removesuffix(".rt").split("/")[-1] for place in empty} - {"lib"}

    def called(self, place, items):
        """A file without what nobody calls; what goes is noted."""
        before = [function.name for function in functions(items)]
        items = uncalled.erase_cases(uncalled.erase_uncalled(f"{self.name}/{place}", items))
        left = [function.name for function in functions(items)]
        self.uncalled |= {f"{self.name}/src/{place}: {name}" for name in before if before.count(name) > left.count(name)}
        return items


def modules(items):
    for i, it in enumerate(items):
        if is_word(it, "mod") and is_sign(at(items, after(items, after(items, i))), ";"):
            yield items[after(items, i)].text


def named(name):
    """The name that a function of the sources has in Rust, by the rules of `memory` and `idiom`."""
    others = {of_rattle: name for (_, of_rattle), name in idiom.RENAMED.items()}
    return "try_" + name if name in memory.FALLIBLE else others.get(name, name)


def methods_of_traits(items):
    """Each trait with the names of its methods."""
    for i, it in enumerate(items):
        if is_word(it, "trait"):
            block = next(of for of in items[i:] if is_group(of, "{"))
            yield items[after(items, i)].text, {f.name for f in functions(block.items)}


class Translation:
    """The proved crates of a folder as modules of one module of Rust."""

    def __init__(self, folder, module, crates):
        self.module, self.names = module, set(crates)
        self.owed = contracts.Owed(idiom.RENAMED)
        self.types = types.Types()
        self.crates = [Crate(Path(folder), name, self.owed) for name in crates]
        self.owed.check()
        called = {name for crate in self.crates for names in crate.exports.values() for name in names}
        self.laws = laws.laws_among([items for crate in self.crates for items in crate.files.values()], called)
        for crate in self.crates:
            every = {f.name for items in crate.files.values() for f in functions(items)}
            crate.laws = every & self.laws
            crate.thin(self.laws)
        self.traits = {name: methods for crate in self.crates for items in crate.files.values()
                       for name, methods in methods_of_traits(items)}
        self.of_std = {name for crate in self.crates for items in crate.files.values()
                       for name in idiom.std_alone(items)}
        self.without = {crate.name for crate in self.crates if not crate.files}
        self.calls = calls.Calls([items for crate in self.crates for items in crate.files.values()], named)

    def texts(self, names, shared=(), folder=""):
        """The text of each file of these crates, by its path. `shared` are crates whose modules stand in a folder
        of another package."""
        out, crates = {}, [crate for crate in self.crates if crate.name in names]
        for crate in crates:
            of_c = exports.Exports()
            for place, items in crate.files.items():
                out[self.path(crate, place)] = self.file(crate, place, items, of_c)
            if of_c.calls:
                out[self.path(crate, "lib.rt")] += "pub mod exports;\n"
                out[self.path(crate, "exports.rt")] = f"// Made from crates/{crate.name} by tools/to-rust.\n\n{of_c.text()}"
        kept = sorted(crate.name for crate in crates if crate.files)
        out[f"{self.module}.rs"] = self.modules(kept, sorted(set(shared) - self.without), folder)
        out[f"{self.module}/erased.txt"] = self.erased(crates)
        return out

    def path(self, crate, place):
        inner = f"{crate.name}.rs" if place == "lib.rt" else f"{crate.name}/{place[:-3]}.rs"
        return f"{self.module}/{inner}"

    def modules(self, kept, shared, folder):
        """The text of the module that has the crates'."""
        lines = ["//! The proved modules, translated from the sources in `crates`. `tools/to-rust` makes them: edit none.", ""]
        if shared:
            lines += ["#[forbid(unsafe_code)]", f'#[path = "{folder}/{self.module}"]', "mod shared {",
                      *(f"pub mod {name};" for name in shared), "}", "", "pub use shared::*;", ""]
        for name in kept:
            lines += ["#[forbid(unsafe_code)]"] * (bool(shared) and name not in exports.UNSAFE)
            lines += [f'#[cfg(feature = "{FEATURES[name]}")]'] if name in FEATURES else []
            lines += [f"pub mod {name};"]
        return "\n".join([*lines, ""])

    def file(self, crate, place, items, of_c):
        # What only contracts and laws named is not imported, but traits of which a method may be called.
        named = words_of(items)
        unnamed = crate.words[place] - named
        unnamed -= {name for name, methods in self.traits.items() if methods & named}
        gone = self.laws | unnamed | uncalled.unnamed(crate.name) | {"Model", "Global", "Serialize", "Deserialize", "Error"}
        items = laws.erase_uses(items, gone, crate.gone | self.without)
        items = idiom.mark_unread(self.owed.lower_uses(items))
        fallible = memory.Fallible(items)
        items = memory.convert_ends(deep(items, fallible.change), fallible.lists | fallible.queues)
        items = deep(deep(items, idiom.write_formatters), memory.write_takes)
        items = deep(items, idiom.rename)
        if crate.name in exports.REACHED:
            items = exports.write_outputs(deep(items, exports.write_pairs))
        of_c.note(place, items, crate.exports[place])
        items = deep(items, idiom.erase_hints(crate.name))
        items = deep(items, idiom.hint_with_std(f"{crate.name}/{place}"))
        items = deep(items, idiom.erase_examples)
        items = deep(items, idiom.put_behind_std(self.of_std))
        items = deep(items, idiom.rewrite_paths(self.module, crate.name, self.names))
        items = deep(deep(deep(items, exports.write_boxes), memory.ask_first), memory.write_formats)
        items = deep(items, self.types.change)
        items = idiom.unlink(exports.add_import(idiom.add_imports(items, fallible.traits)))
        items = uncalled.mark_others(f"{crate.name}/{place}", items)
        idiom.check_words(items, f"{crate.name}/{place}")
        self.calls.check(items, f"{crate.name}/{place}")
        text = idiom.OF_MEMORY.sub("", written(items))
        return f"// Made from crates/{crate.name}/src/{place} by tools/to-rust.\n\n{text}"

    def uncalled(self, crates):
        """What was dropped since nobody calls it, but for laws."""
        said = sorted(said for crate in crates for said in crate.uncalled if said.split(": ")[1] not in self.laws)
        return ["Functions that are dropped, since nobody calls them.", "", *(f"    {one}" for one in said), ""] * bool(said)

    def erased(self, crates):
        """What a reviewer looks through: what was dropped, and what was kept from callers."""
        places = {f"{crate.name}/src/{place}" for crate in crates for place in crate.files}
        owed = [said for name, said in self.owed.said if name not in self.laws and said.split(":")[0] in places]
        return "\n".join([
            "Functions that are dropped, with the calls of them: they do nothing, and stand there for a contract.", "",
            *(f"    {name}" for name in sorted({name for crate in crates for name in crate.laws})), "",
            *self.uncalled(crates),
            "Functions that only the crate may call, since nothing checks what a caller owes.", "",
            *(f"    {said}" for said in sorted(owed)), ""])
