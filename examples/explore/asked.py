"""What a solver is asked of a path: its conditions as clauses over the bits of its variables (Tseitin, 1968), with the gates of
bench/formulas.py."""

import sys
from pathlib import Path

ROOT = Path(__file__).resolve().parent.parent.parent
# bench/ has a logs.py too, which is a script
sys.path.insert(0, str(ROOT / "examples"))
sys.path.append(str(ROOT / "bench"))
from formulas import FALSE, WIDTH, Formula, constant  # noqa: E402
from logs import is_fresh  # noqa: E402


def of_bit(bit):
    return [bit] + [FALSE] * (WIDTH - 1)


def by_bits(gate):
    return lambda formula, left, right: [gate(formula, one, other) for one, other in zip(left, right)]


OPERATIONS = {
    "add": Formula.add, "sub": Formula.subtract, "neg": Formula.negate, "mul": Formula.multiply, "div": Formula.divide,
    "rem": Formula.remainder, "shl": Formula.shift_left, "shr": Formula.shift_right, "ushr": Formula.shift_right_unsigned,
    "and": by_bits(Formula.conjunction), "or": by_bits(Formula.disjunction), "xor": by_bits(Formula.exclusive_or),
    "byte": lambda formula, bits: bits[:8] + bits[7:8] * 24, "short": lambda formula, bits: bits[:16] + bits[15:16] * 16,
    "char": lambda formula, bits: bits[:16] + [FALSE] * 16,
    "lt": lambda formula, left, right: of_bit(formula.less(left, right)),
    "ult": lambda formula, left, right: of_bit(formula.less_unsigned(left, right)),
    "eq": lambda formula, left, right: of_bit(formula.equal(left, right)),
}  # fmt: skip


def clauses_of(pool, when):
    """The clauses of conditions: the bits of the variables come first, then those of the terms as a text numbers them."""
    formula, bits, kinds = Formula(), {}, {}
    for term, _ in when:
        kinds |= pool.variables(term)
    for number, kind in sorted(kinds.items()):
        bits[pool.number("var", number, kind)] = formula.new_int() if kind == "I" else of_bit(formula.new_variable())
    for term in pool.walked([term for term, _ in when]):
        op, *operands = pool.nodes[term]
        known = [constant(value) if value is not None else bits[of] for of, value in zip(operands, map(pool.constant, operands))]
        bits[term] = OPERATIONS[op](formula, *known)
    return formula.require_all(bits[term][0] if truth else -bits[term][0] for term, truth in when).clauses


def is_log_of(pool, when, lines):
    """Whether these lines of a report are a log that is fresh for the conditions."""
    return is_fresh(clauses_of(pool, when), [[int(number) for number in line.split(" ")[1:]] for line in lines])
