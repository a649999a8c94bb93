"""Sums over lists, and chains of decisions: finite_chance/specs/Sums.antt and Chains.antt."""


def sum_to(n, term):
    return sum(term(u) for u in range(n))


def over_spin(f):
    return f(True) + f(False)


def sum_lists(each, n, f):
    """The sum of f over all lists of n members, each summed over by `each`."""
    if n == 0:
        return f(())
    return each(lambda x: sum_lists(each, n - 1, lambda rest: f((x,) + rest)))


def after(act, decisions, draws, x):
    for decision, draw in zip(decisions, draws):
        x = act(decision, draw, x)
    return x


def outcomes(act, n, decisions, g, x):
    return sum_lists(lambda term: sum_to(n, term), len(decisions), lambda draws: g(after(act, decisions, draws, x)))
