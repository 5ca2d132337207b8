"""Answers to many inputs in a row, told as runs of equal ones."""


def runs(answers):
    """The answers in order, each once where it stands several times in a row, behind the number of the first."""
    told, last = [], None
    for number, answer in enumerate(answers):
        if answer != last:
            told.append(f"\n{number} {answer}")
            last = answer
    return "".join(told)
