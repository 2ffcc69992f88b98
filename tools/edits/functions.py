"""Where functions stand in a source file, and how the prover names them."""

import functools
import re

HEAD = re.compile(r'(\s*)(?:pub(?:\([^)]*\))? )?(?:const )?(?:unsafe )?(?:extern "C" )?fn (\w+)')
OUTER = re.compile(r"\s*(?:pub(?:\(.*\))? )?(?:(?:unsafe )?(impl)\b|(?:trait|mod) (\w+))")
IMPL = re.compile(r"(?:unsafe )?impl\b")
TYPE = re.compile(r"[&\s]*(?:mut )?(?:\w+::)*(\w+)")


@functools.cache
def functions(text):
    """The first and the last line of each function, counted from 1, as `rt fmt` lays them out."""
    lines, found = text.split("\n"), []
    for at, line in enumerate(lines):
        head = HEAD.match(line)
        if head:
            found.append((at + 1, last_line(lines, at, head[1]) + 1))
    return found


def first_of_item(text, line):
    """The first line of the attributes and comments right above a function, or its own."""
    lines = text.split("\n")
    while line > 1 and lines[line - 2].strip() and not re.search(r"[{};]$", lines[line - 2]):
        line -= 1
    return line


def last_line(lines, at, indent):
    one_line = re.compile(rf"{indent}\S.*(;|\{{.*\}})$|{indent}\{{.*\}}$")
    while at < len(lines) - 1:
        if lines[at].startswith(f"{indent}}}") or one_line.match(lines[at]):
            break
        at += 1
    return at


def function_at(text, place):
    """Which of the file's functions a place stands in, counted from 0: the innermost, or None."""
    line = text.count("\n", 0, place) + 1
    around = [n for n, (first, last) in enumerate(functions(text)) if first <= line <= last]
    return around[-1] if around else None


def outer_of(lines, line):
    """The lines, counted from 0, in which the items around this one begin, the innermost first."""
    indent = len(HEAD.match(lines[line - 1])[1])
    for at in range(line - 2, -1, -1):
        its = len(lines[at]) - len(lines[at].lstrip())
        if lines[at].strip() and its < indent and OUTER.match(lines[at]):
            yield at
            indent = its


def path_of(file, text, line):
    """The path below its crate of the function that begins in this line of a file."""
    lines = text.split("\n")
    inside = [HEAD.match(lines[line - 1])[2]]
    for at in outer_of(lines, line):
        outer = OUTER.match(lines[at])
        inside.insert(0, name_of_impl(head_of(lines, at)) if outer[1] else outer[2])
    modules = file[len("src/") : -len(".rt")].split("/")
    modules = [] if modules in (["lib"], ["main"]) else modules
    return "::".join([*modules, *inside])


def stands_alone(text, number):
    """Whether a function is in no cycle of calls, and has no function in it, nor is it in one."""
    lines, found = text.split("\n"), functions(text)
    first, last = found[number]
    others = found[:number] + found[number + 1 :]
    if any(its_first <= last and first <= its_last for its_first, its_last in others):
        return False
    return "#[cycle" not in "\n".join(lines[first_of_item(text, first) - 1 : first])


def heads_around(text, number):
    """The heads of the items around a function, the innermost first."""
    lines, (first, _) = text.split("\n"), functions(text)[number]
    return [head_of(lines, at) for at in outer_of(lines, first)]


def may_stand_twice(text, number):
    """Whether a function can stand beside itself under another name: it stands alone, and is no trait's."""
    heads = heads_around(text, number)
    are_plain = not any(re.search(r"\btrait\b", it) or parted_at_for(it)[1] for it in heads)
    return are_plain and stands_alone(text, number)


def is_plain(text, number):
    """Whether a function has its path from where it or its type stands: it stands alone, with a body, and
    if it is a trait's, the type has a name."""
    heads = heads_around(text, number)
    if not stands_alone(text, number) or any(re.search(r"\btrait\b", it) for it in heads):
        return False
    return not any(has_trait and not TYPE.match(it) for _, has_trait, it in map(parted_at_for, heads))


def type_of(text, line):
    """The type whose own the function is that begins in this line, or None."""
    lines = text.split("\n")
    heads = (head_of(lines, at) for at in outer_of(lines, line))
    types = (name_of_impl(it) for it in heads if IMPL.match(it) and not parted_at_for(it)[1])
    return next(types, None)


def has_type(text, name):
    """Whether a type is declared in a text."""
    return bool(re.search(rf"\b(?:struct|enum) {name}\b", text))


def tests_in(file, text):
    """What the paths of modules begin with that a file has for tests alone."""
    folder = re.sub(r"(/lib|/main)?\.rt$", "", file)
    names = re.findall(r"^#\[cfg\(test\)\]\n(?:pub(?:\(.*\))? )?mod (\w+);", text, re.M)
    return [f"{folder}/{it}{end}" for it in names for end in (".rt", "/")]


def renamed(lines, name):
    """The lines of a function's item under another name."""
    at = next(at for at, line in enumerate(lines) if HEAD.match(line))
    first, end = HEAD.match(lines[at]).span(2)
    return [*lines[:at], lines[at][:first] + name + lines[at][end:], *lines[at + 1 :]]


def with_clauses(lines, names):
    """The lines of a function's item with these of its `ensures` clauses alone."""
    head = next(at for at, line in enumerate(lines) if HEAD.match(line))
    indent = HEAD.match(lines[head])[1]
    body = next(at for at in range(head + 1, len(lines)) if lines[at].startswith(f"{indent}{{"))
    begins = re.compile(rf"{indent}    (?:(?:requires|ghost)\b|ensures (\w+)?)")
    kept, found, keeps = [], set(), True
    for line in lines[head:body]:
        clause = begins.match(line)
        if clause:
            keeps = "ensures" not in clause[0] or clause[1] in names
            found.add(clause[1])
        kept += [line] if keeps else []
    if not found.issuperset(names):
        raise SystemExit(f"try-edits: {lines[head].strip()} has no clause {', '.join(set(names) - found)}")
    return [*lines[:head], *kept, *lines[body:]]


def head_of(lines, at):
    """The lines of an impl as far as its brace, as one."""
    end = at
    while "{" not in lines[end]:
        end += 1
    return " ".join(it.strip() for it in lines[at : end + 1])


def name_of_impl(head):
    """How the prover names an impl: by its type, behind which the one argument stands that it may
    have, and its trait."""
    head = re.sub(r"^(unsafe )?impl\s*", "", head)
    is_whole = not head.startswith("<")
    if not is_whole:
        head = head[closing(head) + 1 :].strip()
    head = re.split(r"\bwhere\b|\{", head)[0].strip()
    trait, has_trait, type_of = parted_at_for(head)
    found = re.fullmatch(r"[^<]*<(\w+)>", type_of if has_trait else head) if is_whole else None
    argument = found[1] if found else ""
    if not has_trait:
        return TYPE.match(head)[1] + (f"+{argument}" if argument else "")
    its = TYPE.match(type_of)[1]
    return its[0].upper() + its[1:] + argument[:1].upper() + argument[1:] + words_of(trait)


def closing(text):
    """Where the bracket ends with which a text begins."""
    depth = 0
    for at, sign in enumerate(text):
        depth += (sign == "<") - (sign == ">" and text[at - 1] != "-")
        if not depth:
            return at
    return len(text) - 1


def parted_at_for(head):
    """What stands before the ` for ` outside of brackets, whether there is one, and what behind it."""
    depth = 0
    for at, sign in enumerate(head):
        depth += (sign == "<") - (sign == ">" and head[at - 1] != "-")
        if not depth and head.startswith(" for ", at):
            return head[:at], True, head[at + len(" for ") :]
    return head, False, ""


def words_of(trait):
    """The words of a trait in the prover's name of an impl, without the types' own parameters."""
    names = re.sub(r"\w+::|'\w+", "", trait)
    names = re.sub(r"<(\w+)<.*>>$", r"<\1>", names)
    tuple_of = re.search(r"\((.*)\)", names)
    if tuple_of:
        count = tuple_of[1].count(",") + 1
        names = names.replace(tuple_of[0], f"Tuple{count} {tuple_of[1]}")
    return "".join(it[0].upper() + it[1:] for it in re.findall(r"\w+", names))
