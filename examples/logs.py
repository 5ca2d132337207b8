"""Logs of resolutions: which of them are fresh.

A chain is the number of a clause, and then a pivot and the number of a clause for each step. Numbers count the clauses of the
formula, and then the earlier entries of the log.
"""


def propagated(clauses, first):
    """The literals that follow by unit propagation, and a clause that is false then, if there is one."""
    known, grows = set(first), True
    while grows:
        grows = False
        for clause in clauses:
            left = [literal for literal in clause if -literal not in known]
            if not left:
                return known, clause
            if len(left) == 1 and left[0] not in known:
                known.add(left[0])
                grows = True
    return known, None


def resolved(clauses, chain):
    """The clause that a chain gives."""
    clause = set(clauses[chain[0]])
    for pivot, number in zip(chain[1::2], chain[2::2], strict=True):
        right = set(clauses[number])
        literal = pivot if pivot in clause else -pivot
        assert literal in clause and -literal not in clause and -literal in right and literal not in right
        clause = clause - {literal} | right - {-literal}
    return clause


def is_new(clauses, clause):
    """Whether unit propagation misses some literal of the clause (Davis, Logemann and Loveland, 1962)."""
    if any(-literal in clause for literal in clause):
        return False
    for literal in clause:
        known, false = propagated(clauses, [-other for other in clause - {literal}])
        if false is None and literal not in known:
            return True
    return False


def is_fresh(clauses, log):
    """Whether each chain gives a clause that is new."""
    clauses = list(clauses)
    for chain in log:
        clause = resolved(clauses, chain)
        if not is_new(clauses, clause):
            return False
        clauses.append(list(clause))
    return True
