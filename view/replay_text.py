"""The test of a path that has ended, in the lines that `kiasan tests` writes (docs/USING.md, 'Tests and their replay')."""

BOUNDS = ("alloc", "loops", "depth", "steps")


def replay_lines(path, report, given):
    """The lines of the test, with the input `given`; None where a class of an object is not there."""
    if not given.is_known:
        return None
    values = given.values()
    lines = [f"test {report.target}", "bounds " + " ".join(f"{name} {report.limits[name]}" for name in BOUNDS)]
    lines += [*path.input_lines, ending_line(path, given, values)]
    for number in range(len(path.inputs)):
        lines.append(" ".join(["out", f"i{number}", *last_values(path, given, values, number)]))
    for number, (kind, outs) in enumerate(path.made):
        lines.append(" ".join(["new", f"n{number}", kind, *(given.out(out, values) for out in outs)]))
    return [*lines, "end"]


def ending_line(path, given, values):
    if path.place:
        return f"illtyped {path.place[0]} {path.place[1]}"
    return f"{path.ending} {given.out(path.value, values)}" if path.value else path.ending


def last_values(path, given, values, number):
    """What the slots of object N of the input hold in the end."""
    found = []
    for key, first in zip(given.keys(number), path.inputs[number][1]):
        written = path.sets.get(f"o{number}{key}") if number < len(path.objects) else None
        found.append(given.out(written[1], values) if written else first)
    return found
