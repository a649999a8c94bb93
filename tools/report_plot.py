"""The picture of a report, as text of an SVG file: energies by temperature, and walks in temperature."""
import math
from xml.sax.saxutils import escape

WIDTH, HEIGHT = 460, 340
LEFT, RIGHT, TOP, BOTTOM = 64, 16, 34, 46
# Epochs of a walk that are drawn; of a longer one, that many at equal distances.
DRAWN_EPOCHS = 120
COLOURS = ("#1b6ca8", "#c0392b", "#2e8b57", "#8e44ad", "#d68910", "#16808a", "#7f5539", "#555555")


class Panel:
    """Axes with their scales; x and y are the least and greatest values that are drawn."""

    def __init__(self, offset, title, x, y, labels):
        self.offset, self.x, self.y = offset, widened(x), widened(y)
        self.parts = [text(offset + WIDTH / 2, 20, title, "middle"),
                      text(offset + LEFT + (WIDTH - LEFT - RIGHT) / 2, HEIGHT - 8, labels[0], "middle"),
                      text(offset + 14, HEIGHT / 2, labels[1], "middle", turned=True),
                      f'<rect x="{offset + LEFT}" y="{TOP}" width="{WIDTH - LEFT - RIGHT}" '
                      f'height="{HEIGHT - TOP - BOTTOM}" fill="none" stroke="#444444"/>']
        for value in round_values(*x):
            self.parts.append(text(self.across(value), HEIGHT - BOTTOM + 16, f"{value:.10g}", "middle"))
        for value in round_values(*y):
            self.parts.append(text(offset + LEFT - 6, self.up(value) + 4, f"{value:.10g}", "end"))

    def across(self, value):
        return self.offset + LEFT + (WIDTH - LEFT - RIGHT) * (value - self.x[0]) / (self.x[1] - self.x[0])

    def up(self, value):
        return HEIGHT - BOTTOM - (HEIGHT - TOP - BOTTOM) * (value - self.y[0]) / (self.y[1] - self.y[0])

    def point(self, x, y):
        return f"{self.across(x):.2f},{self.up(y):.2f}"

    def line(self, points, colour):
        self.parts.append(f'<polyline fill="none" stroke="{colour}" points="{" ".join(self.point(*p) for p in points)}"/>')

    def mark(self, x, y, colour, filled):
        self.parts.append(f'<circle cx="{self.across(x):.2f}" cy="{self.up(y):.2f}" r="3.5" stroke="{colour}" '
                          f'fill="{colour if filled else "none"}"/>')


def widened(ends):
    low, high = ends
    margin = (high - low) * 0.05 or 0.5
    return low - margin, high + margin


def round_values(low, high):
    """Up to nine multiples of 1, 2 or 5 times a power of ten, from low to high; whole ones of whole ends."""
    power = 10.0 ** math.floor(math.log10((high - low) / 8)) if high > low else 1.0
    step = next(power * n for n in (1, 2, 5, 10) if (high - low) <= 8 * power * n)
    step = max(step, 1) if isinstance(low, int) else step
    return [step * n for n in range(math.ceil(low / step - 1e-9), math.floor(high / step + 1e-9) + 1)]


def text(x, y, content, anchor, turned=False):
    turn = f' transform="rotate(-90 {x:.2f} {y:.2f})"' if turned else ""
    return f'<text x="{x:.2f}" y="{y:.2f}" text-anchor="{anchor}"{turn}>{escape(content)}</text>'


def energy_panel(means, temperatures, exact):
    xs = temperatures or list(range(len(means)))
    low = [m.energies[r] - (m.deviations[r] or 0) for m in means for r in range(2)] + (exact or [])
    high = [m.energies[r] + (m.deviations[r] or 0) for m in means for r in range(2)] + (exact or [])
    panel = Panel(0, "energy per site" + (", exact values as rings" if exact else ""), (min(xs), max(xs)),
                  (min(low), max(high)), ("temperature" if temperatures else "temperature slot", "energy per site"))
    for replica in range(2):
        colour = COLOURS[replica]
        panel.line([(x, m.energies[replica]) for x, m in zip(xs, means)], colour)
        for x, m in zip(xs, means):
            panel.mark(x, m.energies[replica], colour, True)
            if m.deviations[replica]:
                panel.line([(x, m.energies[replica] + sign * m.deviations[replica]) for sign in (-1, 1)], colour)
    for x, value in zip(xs, exact or []):
        panel.mark(x, value, "#000000", False)
    return panel


def walk_panel(report):
    """The slot of each configuration of sample 0, replica 0, by epoch."""
    walk = list(report.walk_steps(DRAWN_EPOCHS))
    slots = report.header.slots
    panel = Panel(WIDTH, "walks in temperature: sample 0, replica 0", (walk[0][0], walk[-1][0]), (0, slots - 1),
                  ("epoch", "temperature slot"))
    for label in range(slots):
        panel.line([(epoch, labels.index(label)) for epoch, labels in walk], COLOURS[label % len(COLOURS)])
    return panel


def plot_text(report, means, temperatures, exact):
    parts = energy_panel(means, temperatures, exact).parts + walk_panel(report).parts
    return (f'<svg xmlns="http://www.w3.org/2000/svg" width="{2 * WIDTH}" height="{HEIGHT}" '
            f'viewBox="0 0 {2 * WIDTH} {HEIGHT}" font-family="sans-serif" font-size="12">\n'
            f'<rect width="{2 * WIDTH}" height="{HEIGHT}" fill="#ffffff"/>\n' + "\n".join(parts) + "\n</svg>\n")
