"""Updates of the Potts glass, its weights and its equilibrium: potts_laws/specs/Changes.antt, Weights.antt and
Equilibrium.antt, over potts_glass/specs/Potts.antt. The number of equally likely draws is a parameter, 2^32 in the definitions."""
from collections import namedtuple

from reference.chance import outcomes, sum_lists
from reference.decisions import sites_of
from reference.lattice import bond_count, forward
from reference.sums import neighbours
from reference.words import count_below

# The thresholds for the gaps 1 to 6, in draws; `bonds` says of a bond's number whether J is -1.
Dynamics = namedtuple("Dynamics", "size thresholds bonds")
STATES = 4


def proposed(c, u, number):
    return (c + 1 + 3 * u // number) % STATES


def signs(l, bonds, i):
    """The six neighbours of a site, each with J of the bond to it."""
    return [(site, -1 if bonds(n) else 1) for site, n in neighbours(l, i)]


def gap(d, colours, i, new):
    """The sum over the neighbours of J ([s' = old] - [s' = new])."""
    return sum(j * ((colours[s] == colours[i]) - (colours[s] == new)) for s, j in signs(d.size, d.bonds, i))


def changed(colours, i, c):
    return colours[:i] + (c,) + colours[i + 1:]


def updated_by(d, colours, i, u, v, number):
    new = proposed(colours[i], u, number)
    cost = gap(d, colours, i, new)
    return changed(colours, i, new) if cost <= 0 or v < d.thresholds[cost - 1] else colours


def proposing_draws(c, other, number):
    return count_below(lambda u: proposed(c, u, number) == other, number)


def leading_draws(d, colours, i, c, number):
    return sum(count_below(lambda v: updated_by(d, colours, i, u, v, number)[i] == c, number) for u in range(number))


def height(l, bonds, colours):
    """The energy, minus the sum over all bonds of J where the two colours are equal, and one for each bond."""
    pairs = [(n, colours[n // 3] == colours[forward(l, n // 3, n % 3)]) for n in range(bond_count(l))]
    return bond_count(l) - sum(-1 if bonds(n) else 1 for n, equal in pairs if equal)


def weight(a, b, l, bonds, colours):
    high = height(l, bonds, colours)
    return a ** high * b ** (2 * bond_count(l) - high)


def weight_of(a, b, d, colours):
    return weight(a, b, d.size, d.bonds, colours)


def over_colour(f):
    return sum(f(c) for c in range(STATES))


def over_configurations(v, f):
    return sum_lists(over_colour, v, f)


def update_by(d, i, w, colours, number):
    return updated_by(d, colours, i, w // number, w % number, number)


def pair_of(draw_at, i, number):
    return draw_at(i, 0) * number + draw_at(i, 1)


# The sums over all configurations take one of `over`, which sums over some sites and leaves the others as they are: those that
# are never updated may be left.


def partition(a, b, d, over):
    return over(lambda x: weight_of(a, b, d, x))


def total(a, b, d, over, g):
    return over(lambda x: weight_of(a, b, d, x) * g(x))


def total_after(a, b, d, over, sites, g, number):
    def act(i, w, x):
        return update_by(d, i, w, x, number)
    return total(a, b, d, over, lambda x: outcomes(act, number ** 2, sites, g, x))


def sweeps_sites(l, n):
    return (sites_of(l, 0) + sites_of(l, 1)) * n
