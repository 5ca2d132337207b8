"""Values of terms, beside values that a Java virtual machine computes."""

from script.tests.tools import same
from view.terms import Values

LEAST = "-2147483648"
# Operation, operands, and the int that JVMS 8 section 6.5 says.
WANTED = (
    ("add", ("2147483647", "1"), -2147483648),
    ("sub", (LEAST, "1"), 2147483647),
    ("mul", ("65536", "65536"), 0),
    ("mul", ("46341", "46341"), -2147479015),
    ("div", ("-7", "2"), -3),
    ("div", ("7", "-2"), -3),
    ("div", (LEAST, "-1"), -2147483648),
    ("div", ("5", "0"), 0),
    ("rem", ("-7", "2"), -1),
    ("rem", ("7", "-2"), 1),
    ("rem", (LEAST, "-1"), 0),
    ("rem", ("5", "0"), 0),
    ("neg", (LEAST,), -2147483648),
    ("shl", ("1", "31"), -2147483648),
    ("shl", ("1", "33"), 2),
    ("shr", ("-8", "1"), -4),
    ("shr", ("-1", "-1"), -1),
    ("shr", ("-8", "33"), -4),
    ("ushr", ("-1", "60"), 15),
    ("ushr", ("-1", "28"), 15),
    ("ushr", ("-1", "0"), -1),
    ("and", ("-1", "255"), 255),
    ("or", ("-256", "255"), -1),
    ("xor", ("-1", "1"), -2),
    ("byte", ("200",), -56),
    ("short", ("40000",), -25536),
    ("char", ("-1",), 65535),
    ("eq", ("3", "3"), 1),
    ("lt", ("-1", "0"), 1),
    ("lt", ("0", "0"), 0),
    ("ult", ("-1", "0"), 0),
    ("ult", ("0", "-1"), 1),
)


def test_operations():
    values = Values([(operation, operands) for operation, operands, _ in WANTED], [])
    for number, (operation, operands, wanted) in enumerate(WANTED):
        same(values.of(f"t{number}"), wanted, f"{operation} {operands}")


def test_terms_of_variables_and_terms():
    values = Values([("add", ("v0", "v1")), ("mul", ("t0", "t0"))], [3, 4])
    same([values.of(each) for each in ("v1", "t0", "t1", "-5")], [4, 7, 49, -5], "values")
