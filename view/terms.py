"""The values of terms on 32 bits, as the Java virtual machine computes them (JVMS 8 section 6.5)."""

from .forms import read_int


def as_int(number):
    """The int that has the lowest 32 bits of a number."""
    return (number + 2**31) % 2**32 - 2**31


def unsigned(number):
    return number % 2**32


def divided(left, right):
    """The quotient, towards zero; 0 where the divisor is 0."""
    quotient = abs(left) // abs(right) if right else 0
    return quotient if (left < 0) == (right < 0) else -quotient


def narrowed(number, bits):
    """The lowest bits with a sign."""
    return (number + 2 ** (bits - 1)) % 2**bits - 2 ** (bits - 1)


RULES = {
    "add": lambda left, right: left + right,
    "sub": lambda left, right: left - right,
    "mul": lambda left, right: left * right,
    "div": divided,
    "rem": lambda left, right: left - right * divided(left, right) if right else 0,
    "neg": lambda operand: -operand,
    "shl": lambda left, right: left << (right & 31),
    "shr": lambda left, right: left >> (right & 31),
    "ushr": lambda left, right: unsigned(left) >> (right & 31),
    "and": lambda left, right: left & right,
    "or": lambda left, right: left | right,
    "xor": lambda left, right: left ^ right,
    "byte": lambda operand: narrowed(operand, 8),
    "short": lambda operand: narrowed(operand, 16),
    "char": lambda operand: operand % 2**16,
    "eq": lambda left, right: left == right,
    "lt": lambda left, right: left < right,
    "ult": lambda left, right: unsigned(left) < unsigned(right),
}


class Values:
    """The values of a path's terms, where its variables have those values."""

    def __init__(self, terms, variables):
        self.variables, self.terms = variables, []
        for operation, operands in terms:
            self.terms.append(as_int(int(RULES[operation](*map(self.of, operands)))))

    def of(self, operand):
        """The value of a constant, a variable or a term."""
        if operand[0] in "vt":
            return (self.variables if operand[0] == "v" else self.terms)[int(operand[1:])]
        return read_int(operand)
