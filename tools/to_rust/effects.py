"""What the translation may erase: what has no effect when it runs.

| Erased | Only where |
|---|---|
| a law | its parameters are borrowed or numbers, so that nothing ends by it, and its body looks and calls laws (`laws`) |
| the call of a law | it is a statement of its own; what it is given and called of are names, fields and numbers |
| `let alloc = ..;`, an argument or a field `alloc` | it is the allocator, or the method `allocator` of a field |
| a method `allocator` | it answers that |
| `.unwrap()` of a call that wants memory | the call is one of `memory.ROOM`: it is proved that there is room |
| `impl From<AllocFailed<..>>` | it answers a value that is named, or hands on the error without its value |
| `impl Model` | nothing is left in it without its ghost items |
| a ghost item, a clause | always, since Rattle runs none; it ends before the next item |

What isn't so is refused. Comments, docs and attributes do nothing.
"""

import re

from .tree import Refused, bare, functions, is_group, is_sign, is_trivia, is_word

# Words by which something is changed, or by which what follows isn't reached.
ACTING = ("mut", "return", "break", "continue", "loop", "while", "for", "if", "match", "unsafe", "move", "await", "let")
# Signs between names, fields and numbers.
QUIET = ("&", "*", ".", "::", ",")
# The bodies of a conversion from `AllocFailed`.
TOLD = re.compile(r"\w+(?: :: \w+)*|AllocError :: from \(\w+\) (?:\. into \(\))?")
# What can't stand in a ghost item: the next item has begun.
ITEMS = ("fn", "struct", "enum", "impl", "trait", "mod", "pub", "unsafe")


def has_no_effect(items):
    """Whether there are but names, fields and numbers, also borrowed and in lists: nothing is called."""
    for it in items:
        if is_trivia(it) or it.kind in ("number", "string", "char", "lifetime") or is_sign(it, *QUIET):
            continue
        if is_word(it) and it.text not in ACTING or is_group(it, "[") and has_no_effect(it.items):
            continue
        return False
    return True


def check_arguments(name, arguments):
    """Refuses what a law is given that does something."""
    if not has_no_effect(arguments):
        raise Refused(f"the law {name} is given what has an effect: {bare(arguments)}")


def check_front(name, items):
    """Refuses what stands before a law's name in its statement, but a path and what it is called of."""
    counted = [it for it in items if not is_trivia(it)]
    if not has_no_effect(counted) or counted and not is_sign(counted[-1], ".", "::") \
            or any(is_sign(it, ",", "&", "*") for it in counted):
        raise Refused(f"a law that isn't called by a statement: {bare(counted)} {name}")


def check_allocator(items, allocator, what):
    """Refuses what is dropped as the allocator and isn't it."""
    if not allocator.fullmatch(bare(items)):
        raise Refused(f"{what} that is more than the allocator: {bare(items)}")


def check_ghost(items):
    """Refuses a ghost item that reaches into the next item."""
    for it in items:
        if is_word(it, *ITEMS):
            raise Refused(f"a ghost item without an end: {bare(items)[:60]}")


def check_impl(head, block):
    """Refuses an `impl` that is dropped and does something."""
    if "AllocFailed" not in head:
        if bare(block.items):
            raise Refused(f"{head}: something is left in it")
        return
    inner = list(functions(block.items))
    if len(inner) != 1 or not TOLD.fullmatch(bare(inner[0].body.items)):
        raise Refused(f"{head}: it does more than to answer an error")
