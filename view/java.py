"""Conditions and values in Java."""

from .conditions import conditions_of
from .forms import COMPARISONS, read_int
from .names import read_kind

# Each operation with its sign and how tightly it binds (JLS 8 chapter 15).
SIGNS = {
    "mul": ("*", 12),
    "div": ("/", 12),
    "rem": ("%", 12),
    "add": ("+", 11),
    "sub": ("-", 11),
    "shl": ("<<", 10),
    "shr": (">>", 10),
    "ushr": (">>>", 10),
    "lt": ("<", 9),
    "eq": ("==", 8),
    "and": ("&", 7),
    "xor": ("^", 6),
    "or": ("|", 5),
}
OPPOSITE = {"<": ">=", "==": "!="}
UNARY, ATOM, RELATION, EQUALITY = 13, 14, 9, 8
# A term that is used twice and has more nodes than that keeps its name, and one that is used once from as many nodes on as
# nobody reads in a line.
MOST_NODES, MOST_IN_LINE = 8, 100


class Writer:
    """Writes the conditions and values of a path in Java; `named` are the terms that keep their names."""

    def __init__(self, names):
        self.names, self.path = names, names.path
        self.types = names.names.types
        least = [MOST_NODES if uses > 1 else MOST_IN_LINE for uses in self._uses()]
        self.named = {number for number, nodes in enumerate(self._nodes()) if nodes > least[number]}
        self._texts = {}

    def _nodes(self):
        """How many nodes each term has, as far as they count."""
        counts = []
        for _, operands in self.path.terms:
            nodes = 1 + sum(counts[int(each[1:])] if each[0] == "t" else 1 for each in operands)
            counts.append(min(nodes, MOST_IN_LINE + 1))
        return counts

    def _uses(self):
        """How often each term is used."""
        uses = [0] * len(self.path.terms)
        outs = [out for _, out in self.path.sets.values()] + [out for _, values in self.path.made for out in values]
        operands = [each for _, both in self.path.terms for each in both]
        for each in [*operands, *outs, *([self.path.value] if self.path.value else [])]:
            if each[0] == "t":
                uses[int(each[1:])] += 1
        for number, _ in self.path.conditions:
            uses[number] += 1
        return uses

    def definitions(self, more=()):
        """The terms that keep their names, each with what it is; `more` are others that are spoken of by name."""
        return [(f"t{number}", self._term(number)[0]) for number in sorted({*self.named, *more})]

    def number(self, operand):
        """An operand as an int, and how tightly it binds."""
        if operand[0] == "v":
            named = self.names.variable(operand)
            return (f"({named} ? 1 : 0)" if self.names.is_boolean(operand) else named), ATOM
        if operand[0] != "t":
            return operand, UNARY if operand[0] == "-" else ATOM
        number = int(operand[1:])
        return (operand, ATOM) if number in self.named else self._term(number)

    def _term(self, number):
        if number not in self._texts:
            self._texts[number] = self._written(*self.path.terms[number])
        return self._texts[number]

    def _written(self, operation, operands):
        if operation in COMPARISONS:
            return f"({self.comparison(operation, operands, True)} ? 1 : 0)", ATOM
        if len(operands) == 2:
            sign, level = SIGNS[operation]
            return f"{self.bound(operands[0], level)} {sign} {self.bound(operands[1], level + 1)}", level
        inner = self.bound(operands[0], UNARY)
        if operation == "neg":
            return (f"-({inner})" if inner.startswith("-") else f"-{inner}"), UNARY
        return f"({operation}) {inner}", UNARY

    def bound(self, operand, level):
        """An operand, in brackets where it binds less tightly than that."""
        text, own = self.number(operand)
        return text if own >= level else f"({text})"

    def comparison(self, operation, operands, truth):
        """A comparison that is true or false."""
        if operation == "ult":
            return f"Integer.compareUnsigned({', '.join(self.number(each)[0] for each in operands)}) {'<' if truth else '>='} 0"
        sign, level = SIGNS[operation]
        sign = sign if truth else OPPOSITE[sign]
        if operation == "eq" and any(map(self.is_truth, operands)):
            return self._same_truth(operands, truth)
        return f"{self.bound(operands[0], level + 1)} {sign} {self.bound(operands[1], level + 1)}"

    def is_truth(self, operand):
        """Whether an operand is 0 or 1, as that of a boolean is, and is written as one."""
        if operand[0] == "v":
            return self.names.is_boolean(operand)
        if operand[0] != "t" or int(operand[1:]) in self.named:
            return False
        operation, operands = self.path.terms[int(operand[1:])]
        return operation in COMPARISONS or (operation == "and" and operands[1] == "1" and self.is_truth(operands[0]))

    def _same_truth(self, operands, truth):
        """The comparison of an operand that is 0 or 1 with another operand."""
        first, second = operands if self.is_truth(operands[0]) else operands[::-1]
        if second in ("0", "1"):
            return self.truth(first, (second == "1") == truth)
        sign = "==" if truth else "!="
        if self.is_truth(second):
            return f"{self.bracketed(operands[0])} {sign} {self.bracketed(operands[1])}"
        return f"{self.bound(operands[0], RELATION)} {sign} {self.bound(operands[1], RELATION)}"

    def bracketed(self, operand):
        text = self.truth(operand)
        return f"({text})" if " " in text else text

    def truth(self, operand, truth=True):
        """An operand as a boolean, or its opposite."""
        if read_int(operand) is not None:
            return "true" if (operand != "0") == truth else "false"
        if operand[0] == "v" and self.names.is_boolean(operand):
            return self.names.variable(operand) if truth else f"!{self.names.variable(operand)}"
        if operand[0] == "t" and self.is_truth(operand):
            operation, operands = self.path.terms[int(operand[1:])]
            return self.truth(operands[0], truth) if operation == "and" else self.comparison(operation, operands, truth)
        return f"{self.bound(operand, RELATION)} {'!=' if truth else '=='} 0"

    def conditions(self):
        """The path's conditions, but for those that say nothing, as that a receiver is not null."""
        return [text for condition in conditions_of(self.path) for text in [self.condition(condition)] if text]

    def condition(self, condition):
        """A condition, or nothing where it always holds."""
        if condition.sort == "term":
            return self.comparison(*self.path.terms[condition.value], condition.truth)
        named = self.names.slot(condition.slot)
        if condition.sort == "null":
            return f"{named} == null"
        if condition.sort == "same":
            return f"{named} == {self.names.object(condition.value)}"
        if condition.sort == "some":
            return None if named == "this" else f"{named} != null"
        return self._new(condition, named)

    def _new(self, condition, named):
        """That a slot holds an object that was not met before."""
        typed = f"{named}.getClass() == {self.types.of_exact(condition.value)}.class" if self._may_differ(condition) else ""
        if condition.sort == "length":
            length = f"{named}.length {'>' if condition.above else '=='} {condition.length}"
            return f"{typed} && {length}" if typed else length
        return typed or (None if named == "this" else f"{named} != null")

    def _may_differ(self, condition):
        """Whether objects of several types may stand in the slot."""
        kind = self.names.kind(condition.slot)
        if kind is None:
            return False
        exact = condition.value if condition.value.startswith("[") else f"L{condition.value};"
        return kind != read_kind(exact) or self.names.names.classes.fitting(kind) > 1

    def value(self, out, kind):
        """A value that the path states, of that declared type."""
        if out == "null":
            return "null"
        if out[0] == "o":
            return self.names.object(out)
        if out[0] == "l":
            return self.names.location(out)
        if out[0] == "n":
            return f"new {self.types.of_exact(self.path.made[int(out[1:])][0])}"
        if out[0] == "s":
            return f"string literal {out}"
        return self.truth(out) if kind == "Z" else self.number(out)[0]
