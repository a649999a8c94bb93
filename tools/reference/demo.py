"""Thresholds of the plan that is made from a number: run_plan/specs/DemoPlan.antt."""

FULL = 2 ** 32


def demo_rows(slots):
    rows = []
    for t in range(slots):
        x = FULL * (t + 2) // (t + 10)
        y = x * x // FULL
        rows.append((x, y, y * x // FULL))
    swaps = []
    for k in range(slots - 1):
        w = FULL * (k + 2) * (k + 11) // ((k + 10) * (k + 3))
        entries = [w]
        while len(entries) < 64:
            entries.append(entries[-1] * w // FULL)
        swaps.append(tuple(entries))
    return rows, swaps
