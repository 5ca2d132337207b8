"""Formulas in conjunctive normal form about ints of 32 bits.

A formula is built gate by gate (Tseitin, 1968): a gate has a variable of its own and the clauses that tie it to its inputs.
Literals are numbers as in the DIMACS format. An int is a list of 32 literals, low bit first. Variable 1 is true, so the
literals TRUE and FALSE are those of constants, which no gate simplifies away.
"""

WIDTH = 32
TRUE = 1
FALSE = -1


class Formula:
    """Clauses over the variables 1 to `variables`."""

    def __init__(self):
        self.variables = 1
        self.clauses = [(TRUE,)]

    def new_variable(self):
        self.variables += 1
        return self.variables

    def add_clause(self, *literals):
        """Adds a clause; a literal that is repeated is kept once."""
        self.clauses.append(tuple(dict.fromkeys(literals)))

    def new_int(self):
        """The bits of an int about which nothing is known yet."""
        return [self.new_variable() for _ in range(WIDTH)]

    def new_ints(self, count):
        return [self.new_int() for _ in range(count)]

    def require(self, literal):
        self.add_clause(literal)

    def require_all(self, literals):
        """Requires each of the literals; the formula itself is given back."""
        for literal in literals:
            self.require(literal)
        return self

    def dimacs(self):
        """The formula in the DIMACS format."""
        lines = [f"p cnf {self.variables} {len(self.clauses)}"]
        lines += [" ".join(map(str, clause)) + " 0" for clause in self.clauses]
        return "\n".join(lines) + "\n"

    # gates

    def conjunction(self, left, right):
        gate = self.new_variable()
        self.add_clause(-gate, left)
        self.add_clause(-gate, right)
        self.add_clause(gate, -left, -right)
        return gate

    def disjunction(self, left, right):
        return -self.conjunction(-left, -right)

    def exclusive_or(self, left, right):
        gate = self.new_variable()
        self.add_clause(-gate, left, right)
        self.add_clause(-gate, -left, -right)
        self.add_clause(gate, -left, right)
        self.add_clause(gate, left, -right)
        return gate

    def choice(self, test, when_true, when_false):
        return self.disjunction(self.conjunction(test, when_true), self.conjunction(-test, when_false))

    def full_adder(self, left, right, carry):
        """The sum and the next carry of three bits."""
        half = self.exclusive_or(left, right)
        total = self.exclusive_or(half, carry)
        both = self.conjunction(left, right)
        passed = self.conjunction(half, carry)
        return total, self.disjunction(both, passed)

    # ints

    def sum_with_carry(self, left, right, carry):
        """The sums, and the last carry."""
        sums = []
        for left_bit, right_bit in zip(left, right):
            total, carry = self.full_adder(left_bit, right_bit, carry)
            sums.append(total)
        return sums, carry

    def add(self, left, right):
        return self.sum_with_carry(left, right, FALSE)[0]

    def subtract(self, left, right):
        return self.sum_with_carry(left, inverted(right), TRUE)[0]

    def negate(self, operand):
        return self.sum_with_carry([FALSE] * WIDTH, inverted(operand), TRUE)[0]

    def multiply(self, left, right):
        """The low bits of the product, row by row."""
        product = [self.conjunction(bit, right[0]) for bit in left]
        for shift in range(1, WIDTH):
            row = [FALSE] * shift + [self.conjunction(bit, right[shift]) for bit in left[: WIDTH - shift]]
            product = self.sum_with_carry(product, row, FALSE)[0]
        return product

    def less_unsigned(self, left, right):
        return -self.sum_with_carry(left, inverted(right), TRUE)[1]

    def less(self, left, right):
        """Signed: as unsigned, with the sign bits turned."""
        return self.less_unsigned(left[:-1] + [-left[-1]], right[:-1] + [-right[-1]])

    def equal(self, left, right):
        same = -self.exclusive_or(left[0], right[0])
        for left_bit, right_bit in zip(left[1:], right[1:]):
            same = self.conjunction(same, -self.exclusive_or(left_bit, right_bit))
        return same

    def choose(self, test, when_true, when_false):
        return [self.choice(test, one, other) for one, other in zip(when_true, when_false)]

    def absolute(self, operand):
        return self.choose(operand[-1], self.negate(operand), operand)

    def divide_long(self, left, right):
        """The quotient and the remainder of the absolute values, by long division."""
        dividend = self.absolute(left)
        divisor = self.absolute(right)
        quotient = [FALSE] * WIDTH
        remainder = [FALSE] * WIDTH
        for place in reversed(range(WIDTH)):
            remainder = [dividend[place]] + remainder[:-1]
            difference, fits = self.sum_with_carry(remainder, inverted(divisor), TRUE)
            quotient[place] = fits
            remainder = self.choose(fits, difference, remainder)
        return quotient, remainder

    def some_bit(self, operand):
        """Whether an int is not 0."""
        some = operand[0]
        for bit in operand[1:]:
            some = self.disjunction(some, bit)
        return some

    def divide(self, left, right):
        """The quotient, rounded to 0; 0 where the divisor is 0."""
        quotient, _ = self.divide_long(left, right)
        sign = self.exclusive_or(left[-1], right[-1])
        return self.signed(sign, quotient, right)

    def remainder(self, left, right):
        """The remainder, with the sign of the dividend; 0 where the divisor is 0."""
        _, remainder = self.divide_long(left, right)
        return self.signed(left[-1], remainder, right)

    def signed(self, sign, magnitude, divisor):
        """The int of this sign and magnitude, or 0 where the divisor is 0."""
        turned = self.negate(magnitude)
        some = self.some_bit(divisor)
        return [self.conjunction(some, self.choice(sign, one, other)) for one, other in zip(turned, magnitude)]

    def shift(self, operand, distance, move):
        """A barrel of shifts by 1, 2, 4, 8 and 16; `move` gives the bits moved by so many places."""
        for place in range(5):
            operand = self.choose(distance[place], move(operand, 1 << place), operand)
        return operand

    def shift_left(self, operand, distance):
        return self.shift(operand, distance, lambda bits, by: [FALSE] * by + bits[:-by])

    def shift_right(self, operand, distance):
        return self.shift(operand, distance, lambda bits, by: bits[by:] + [bits[-1]] * by)

    def shift_right_unsigned(self, operand, distance):
        return self.shift(operand, distance, lambda bits, by: bits[by:] + [FALSE] * by)


def inverted(operand):
    return [-bit for bit in operand]


def constant(value):
    """The bits of an int that is known."""
    return [TRUE if value >> place & 1 else FALSE for place in range(WIDTH)]


# families: functions from a size to a formula


def order_cycle(size):
    """v0 < v1 < .. < v0 over `size` ints."""
    formula = Formula()
    ints = formula.new_ints(size)
    tests = [formula.less(left, right) for left, right in zip(ints, ints[1:] + ints[:1])]
    return formula.require_all(tests)


def chain(size, limit):
    """v0 < v1 < .. over `size` ints, between 0 and `limit`."""
    formula = Formula()
    ints = formula.new_ints(size)
    tests = [formula.less(left, right) for left, right in zip(ints, ints[1:])]
    tests += [formula.less(constant(-1), ints[0]), formula.less(ints[-1], constant(limit))]
    return formula.require_all(tests)


def order_chain(size):
    """v0 < v1 < .. over `size` ints, between 0 and `size`."""
    return chain(size, size)


def crowded_chain(size):
    """v0 < v1 < .. over `size` ints, between 0 and `size - 1`: one int too many."""
    return chain(size, size - 1)


def sum_cycle(size):
    """v0 < v1, v1 + 1 < v2 + 1, v2 + 2 < v3 + 2, .. back to v0, where no sum overflows."""
    formula = Formula()
    ints = formula.new_ints(size)
    tests = [formula.less(constant(-1), number) for number in ints]
    tests += [formula.less(number, constant(1 << 30)) for number in ints]
    for place, (left, right) in enumerate(zip(ints, ints[1:] + ints[:1])):
        tests.append(formula.less(formula.add(left, constant(place)), formula.add(right, constant(place))))
    return formula.require_all(tests)


def same_sums(size):
    """The sum of `size` ints from the left and from the right are not the same."""
    formula = Formula()
    ints = formula.new_ints(size)
    forward = ints[0]
    for number in ints[1:]:
        forward = formula.add(forward, number)
    backward = ints[-1]
    for number in reversed(ints[:-1]):
        backward = formula.add(number, backward)
    formula.require(-formula.equal(forward, backward))
    return formula


def known_sum(size):
    """`size` ints whose sum and whose differences to the first are known."""
    formula = Formula()
    ints = formula.new_ints(size)
    total = ints[0]
    tests = []
    for place, number in enumerate(ints[1:]):
        total = formula.add(total, number)
        tests.append(formula.equal(formula.subtract(number, ints[0]), constant(1000003 * (place + 1))))
    tests.append(formula.equal(total, constant(12345 * size + 1000003 * size * (size - 1) // 2)))
    return formula.require_all(tests)


def small_ints(formula, count, bits):
    """So many ints from 0 to 2^bits - 1."""
    ints = formula.new_ints(count)
    tests = []
    for number in ints:
        tests += [formula.less(constant(-1), number), formula.less(number, constant(1 << bits))]
    return ints, tests


def products_commute(size):
    """a * b and b * a of ints of `size` bits are not the same."""
    formula = Formula()
    (left, right), tests = small_ints(formula, 2, size)
    tests.append(-formula.equal(formula.multiply(left, right), formula.multiply(right, left)))
    return formula.require_all(tests)


def products_distribute(size):
    """a * (b + c) and a * b + a * c of ints of `size` bits are not the same."""
    formula = Formula()
    (left, right, other), tests = small_ints(formula, 3, size)
    whole = formula.multiply(left, formula.add(right, other))
    parts = formula.add(formula.multiply(left, right), formula.multiply(left, other))
    tests.append(-formula.equal(whole, parts))
    return formula.require_all(tests)


# primes below 2^size by their sizes
PRIMES = {9: 509, 10: 1021, 14: 16381, 15: 32749}

# primes of 2 size - 1 bits
WIDE_PRIMES = {8: 32749, 10: 524287, 15: 536870909}


def known_product(size, product):
    """Two ints of `size` bits, both above 1, with this product."""
    formula = Formula()
    (left, right), tests = small_ints(formula, 2, size)
    tests += [formula.less(constant(1), left), formula.less(constant(1), right)]
    tests.append(formula.equal(formula.multiply(left, right), constant(product)))
    return formula.require_all(tests)


def factors(size):
    """a * b is the product of two primes of `size` and `size - 1` bits."""
    return known_product(size, PRIMES[size] * PRIMES[size - 1])


def no_factors(size):
    """a * b is a prime."""
    return known_product(size, WIDE_PRIMES[size])


def quotient_and_remainder(size):
    """a / b * b + a % b is not a, for a of `size` bits and b from 1 to 7."""
    formula = Formula()
    (left,), tests = small_ints(formula, 1, size)
    (right,), more = small_ints(formula, 1, 3)
    tests += more + [formula.less(constant(0), right)]
    again = formula.add(formula.multiply(formula.divide(left, right), right), formula.remainder(left, right))
    tests.append(-formula.equal(again, left))
    return formula.require_all(tests)


def known_quotient(size):
    """a / b and a % b are known, for ints of `size` bits."""
    formula = Formula()
    (left, right), tests = small_ints(formula, 2, size)
    tests.append(formula.equal(formula.divide(left, right), constant(3)))
    tests.append(formula.equal(formula.remainder(left, right), constant((1 << (size - 3)) + 1)))
    return formula.require_all(tests)


def great_remainder(size):
    """a % b is b or more, for a of `size` bits and b above 0."""
    formula = Formula()
    (left, right), tests = small_ints(formula, 2, size)
    tests.append(formula.less(constant(0), right))
    tests.append(-formula.less(formula.remainder(left, right), right))
    return formula.require_all(tests)


def shifts_undone(size):
    """(a << k) >>> k is not a, for a of `32 - size` bits and k at most `size`."""
    formula = Formula()
    (operand,), tests = small_ints(formula, 1, WIDTH - 1 - size)
    distance = formula.new_int()
    tests += [formula.less(constant(-1), distance), formula.less(distance, constant(size + 1))]
    back = formula.shift_right_unsigned(formula.shift_left(operand, distance), distance)
    tests.append(-formula.equal(back, operand))
    return formula.require_all(tests)


# the families of a bench, each with its sizes
FAMILIES = [
    (order_cycle, [3, 6, 9, 12]),
    (order_chain, [3, 12]),
    (crowded_chain, [12]),
    (sum_cycle, [3, 6, 12]),
    (same_sums, [2, 3]),
    (known_sum, [4, 8, 12]),
    (products_commute, [4, 6, 7]),
    (products_distribute, [3, 4, 5]),
    (factors, [10, 15]),
    (no_factors, [8, 15]),
    (quotient_and_remainder, [4, 8, 12]),
    (known_quotient, [10, 16]),
    (great_remainder, [8, 12, 16]),
    (shifts_undone, [8, 16]),
]
