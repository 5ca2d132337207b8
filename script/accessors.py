"""Methods `access$NNN`, which javac writes where one class uses a private member of another one of its source.

This goes, with the list of what is explored, where calls are.
"""

import re

from .class_file import PRIVATE, STATIC, SYNTHETIC, Unfit
from .instructions import CALLS, FIELD_ACCESSES, STATIC_CALL, entry_of, first_unexplored, instructions, is_explored
from .names import spelled

NAME = re.compile(r"access\$\d+")


class Accessor:
    """A method `access$NNN`: the private member that it is for, in words, or None, and whether its code can be explored."""

    def __init__(self, world, known, method):
        self.member = private_member(world, known.file, method.code.bytes)
        self.is_explored = first_unexplored(known.file, method.code.bytes) is None


def private_member(world, file, code):
    """The private field or method that code uses, in words, or None."""
    for at, opcode in instructions(code):
        if opcode in FIELD_ACCESSES or opcode in CALLS:
            named = file.member(entry_of(code, at))
            is_field = opcode in FIELD_ACCESSES
            found = world.find_field(*named) if is_field else world.find_method(*named)
            if found and found[1].access & PRIVATE:
                return f"the {'field' if is_field else 'method'} {spelled(named[0])}.{spelled(named[1])}"
    return None


def accessor_at(world, file, code, at):
    """The accessor that the instruction at that offset calls, or None."""
    if code[at] != STATIC_CALL:
        return None
    try:
        named, name, kind = file.member(entry_of(code, at))
        found = world.find_method(named, name, kind) if NAME.fullmatch(name) else None
        is_one = found and found[1].code and found[1].access & STATIC and found[1].access & SYNTHETIC
        return Accessor(world, *found) if is_one else None
    except Unfit:
        return None


def cure(world, target, file, code, at):
    """What can be done where the call at that offset of the target's code is in the way; nothing where it is of no accessor."""
    accessor = accessor_at(world, file, code, at)
    if accessor is None or accessor.member is None:
        return []
    why = f"javac writes that method since {accessor.member} is private and another class uses it"
    if not accessor.is_explored:
        return [why]
    others = [each for each, _ in instructions(code) if not is_explored(file, code, each)]
    accessors = [accessor_at(world, file, code, each) for each in others]
    if all(each and each.member and each.is_explored for each in accessors):
        return [f"{why}: without `private` there, and at other such members, {target} is explored"]
    return [f"{why}: without `private` there the call goes, but other instructions stay that are not explored yet"]
