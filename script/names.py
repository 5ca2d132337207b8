"""Names, descriptors and targets in their one spelling (docs/USING.md, 'Words').

Inside the script a name is a text with one character for each byte of the class file (ISO 8859-1).
"""

PLAIN = frozenset("abcdefghijklmnopqrstuvwxyzABCDEFGHIJKLMNOPQRSTUVWXYZ0123456789_$/<>-")
HEXADECIMAL = frozenset("0123456789ABCDEF")
SIMPLE_TYPES = frozenset("ZBCSIJFD")


def spelled(name):
    """The name as reports and refusals write it."""
    return "".join(char if char in PLAIN else f"%{ord(char):02X}" for char in name)


def read_name(text):
    """The name that the text spells, or None."""
    name, at = [], 0
    while at < len(text):
        if text[at] in PLAIN:
            name.append(text[at])
            at += 1
            continue
        digits = text[at + 1 : at + 3]
        if text[at] != "%" or len(digits) != 2 or not HEXADECIMAL.issuperset(digits):
            return None
        byte = chr(int(digits, 16))
        if byte in PLAIN:
            return None
        name.append(byte)
        at += 3
    return "".join(name)


def type_end(text, at):
    """Where the type that begins at that place of a descriptor ends, or None."""
    while text[at : at + 1] == "[":
        at += 1
    if text[at : at + 1] in SIMPLE_TYPES:
        return at + 1
    end = text.find(";", at)
    if text[at : at + 1] != "L" or end <= at + 1:
        return None
    return end + 1


def split_method(text):
    """The parameters' types and the result of a method's descriptor, each a descriptor; None where it is none."""
    if not text.startswith("("):
        return None
    at, params = 1, []
    while text[at : at + 1] != ")":
        end = type_end(text, at)
        if end is None:
            return None
        params.append(text[at:end])
        at = end
    result = text[at + 1 :]
    if result == "V" or type_end(result, 0) == len(result) > 0:
        return params, result
    return None


def element(kind):
    """The type of the elements of an array's descriptor, below all its dimensions; of another type itself."""
    return kind.lstrip("[")


def class_of_type(kind):
    """The class that a type's descriptor names, by itself or as an array's element, or None."""
    inner = element(kind)
    return inner[1:-1] if inner.startswith("L") else None


def class_of_entry(name):
    """The class that the name of a Class entry names, by itself or as an array's element, or None."""
    return class_of_type(name) if name.startswith("[") else name


def spelled_type(kind):
    """A type's descriptor, with its class's name in the spelling of texts."""
    named = class_of_type(kind)
    return kind if named is None else f"{kind[: kind.index('L')]}L{spelled(named)};"


def spelled_method(kind):
    """A method's descriptor in the spelling of texts."""
    parts = split_method(kind)
    if parts is None:
        return spelled(kind)
    params, result = parts
    return f"({''.join(map(spelled_type, params))}){spelled_type(result)}"


def spelled_target(owner, name, kind):
    """The method as a TARGET."""
    return f"{spelled(owner)}.{spelled(name)}{spelled_method(kind)}"


def is_spelled_type(text):
    """Whether a descriptor of a type in the spelling of texts has a name that is spelled."""
    named = class_of_type(text)
    return text.count("[") <= 255 and (named is None or bool(read_name(named)))


def read_target(text):
    """The class's name, the method's name and the descriptor, as it is spelled, of a TARGET; None where it is none."""
    owner, dot, behind = text.partition(".")
    name, bracket, _ = behind.partition("(")
    kind = behind[len(name) :]
    parts = split_method(kind) if dot and bracket else None
    owner, name = read_name(owner), read_name(name)
    if parts is None or not owner or name is None:
        return None
    if not all(is_spelled_type(each) for each in [*parts[0], parts[1]]):
        return None
    return owner, name, kind


def guessed(text):
    """What a word that is no TARGET may mean: the class's name and the method's, as people write them."""
    head = text.partition("(")[0].replace("::", ".").replace("#", ".")
    owner, dot, name = head.rpartition(".")
    return owner.replace(".", "/"), name


def alike(name, wanted):
    """How much two names have in common, from 0 to 1; small and capital letters count as the same."""
    from difflib import SequenceMatcher

    return SequenceMatcher(None, name.lower(), wanted.lower()).ratio()


def is_near(name, wanted):
    """Whether the one name may be a slip for the other."""
    return alike(name, wanted) >= 0.7


def nearest(texts, wanted):
    """The texts that may be meant, those first that have most in common with the wanted one: at most 8."""
    last = wanted.rpartition("/")[2]

    def distance(text):
        return -max(alike(text, wanted), alike(text.rpartition("/")[2], last))

    near = sorted((distance(text), text) for text in texts)
    return [text for far, text in near if far <= -0.6][:8]
