"""Whether a report speaks of the classes that are given: their slots are those of its lines."""

from script.class_file import STATIC
from script.names import spelled
from script.say import Fault


def check_fits(report, classes):
    """The report fits the class files, or the end."""
    check_method(report, classes)
    for path in report.paths:
        for number, (kind, values) in enumerate(path.inputs):
            check_count(path, f"i{number}", kind, values, classes)
        for number, (kind, values) in enumerate(path.made):
            check_count(path, f"n{number}", kind, values, classes)
        for slot in [*(slot for slot, _ in path.sees), *(slot for slot, _ in path.sets.values())]:
            check_slot(path, slot, classes)


def check_method(report, classes):
    """The class of the target, where it is given, has the method, with a receiver or without as in the report."""
    known = classes.known(spelled(report.owner))
    if known is None or known.file is None:
        return
    method = classes.method(report)
    if method is None:
        raise Fault(9, f"the report is of another class file: {spelled(report.owner)} has no method {report.target}")
    receiver = [] if method.access & STATIC else ["this"]
    if [*receiver, *report.parameters] not in report.shapes:
        says = "needs a receiver" if receiver else "is static"
        raise Fault(9, f"the report is of another class file: {report.target} {says}")


def check_count(path, name, kind, values, classes):
    """An object has as many values as its class has slots."""
    layout = None if kind.startswith("[") else classes.layout(kind)
    if layout is not None and len(layout) != len(values):
        refuse(path, f"{name} has {len(values)} values, and the class file of {kind} says {len(layout)} slots")


def check_slot(path, slot, classes):
    """A slot is one of its object's class."""
    if slot.owner is None:
        return
    kind = path.objects[slot.holder].kind
    layout = classes.layout(kind)
    if layout is not None and slot.text.partition(".")[2] not in [field.key for field in layout]:
        refuse(path, f"the class file of {kind} has no slot {slot.text}")


def refuse(path, says):
    raise Fault(9, f"the report is of another class file: path {path.decisions}: {says}")
