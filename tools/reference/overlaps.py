"""The texts of `lines` and `age`, summed site by site: overlap_lines/specs/LineText.antt and Overlaps.antt, and
aging_run/specs/Aging.antt."""
from reference.lattice import backward, forward, volume
from reference.opening import dynamics_of, opening
from reference.sweep import Configuration, sweeps


def sign(up):
    return 1 if up else -1


def local_overlaps(first, second):
    """q of each site: the product of the spins of both replicas."""
    return [sign(a) * sign(b) for a, b in zip(first, second)]


def moved(l, i, d, r):
    for _ in range(r):
        i = forward(l, i, d)
    return i


def line_sum(l, q, d, r):
    """The sum over the sites of q times the q of the site r steps on."""
    return sum(q[i] * q[moved(l, i, d, r)] for i in range(volume(l)))


def link_sum(l, q):
    """The sum of the products of q at both ends, over the bonds behind each site."""
    return sum(q[i] * q[backward(l, i, d)] for i in range(volume(l)) for d in range(3))


def lines_text(plan, states, samples, e):
    """That of the states of the first samples at an epoch, `states` giving that of a sample by its number."""
    l, text = plan.size, f"lines 1 size={plan.size} slots={len(plan.rows)} samples={samples} epoch={e}\n"
    for b in range(samples):
        for t, slot in enumerate(states(b).slots):
            q = local_overlaps(slot.first.spins, slot.second.spins)
            text += f"link,{b},{t},{link_sum(l, q)}\n"
            text += "".join(f"line,{b},{t},{d},{r},{line_sum(l, q, d, r)}\n" for d in range(3) for r in range(1, l // 2 + 1))
    return text + "end\n"


def spins_after(plan, b, t, copy, n):
    return sweeps(dynamics_of(plan, b, t), n, Configuration(copy.spins, copy.wheels)).spins


def age_text(plan, start, samples, wait, times):
    """The sums over the sites of the spin after the wait times the spin a time later, from the opening on."""
    text = f"age 1 size={plan.size} slots={len(plan.rows)} samples={samples} rule={plan.rule} tw={wait}\n"
    for t in range(len(plan.rows)):
        for c in range(2):
            for time in times:
                for b in range(samples):
                    copy = opening(plan, start, 0, b).slots[t][c]
                    was, now = (spins_after(plan, b, t, copy, n) for n in (wait, wait + time))
                    text += f"age,{t},{c},{time},{b},{sum(local_overlaps(was, now))}\n"
    return text + "end\n"
