"""A program of its own for the same rules, which shares no function with the definitions: spins as +1 and -1 on a
three-dimensional grid, generators that are turned draw by draw, energies as sums over bonds."""
import hashlib

from reference.opening import PlainCopy, PlainPair, PlainSlot, Sample


class Register:
    """A shift register that is turned one number at a time; `taken` numbers were given so far."""

    def __init__(self, words):
        self.all = list(words)
        self.taken = 0

    def number(self):
        k = len(self.all)
        self.all.append((self.all[k - 24] + self.all[k - 55]) & 0xFFFFFFFF)
        n = self.taken
        self.taken += 1
        return self.all[61 + n] ^ self.all[n]

    def window(self):
        return tuple(self.all[self.taken:self.taken + 61])


def labelled(seed, kind, a, b, c):
    stream = b"".join(
        hashlib.sha256(seed.to_bytes(8, "big") + b"".join(v.to_bytes(4, "big") for v in (kind, a, b, c, j))).digest()
        for j in range(8))
    return Register([int.from_bytes(stream[4 * i:4 * i + 4], "big") for i in range(61)])


class Replica:
    def __init__(self, grid, registers, label):
        self.grid, self.registers, self.label = grid, registers, label


class Tempering:
    """One disorder sample at all temperatures, from its opening."""

    def __init__(self, l, rule, rows, swaps, sweeps_, seed, coupling, start, b, bank=0):
        self.l, self.rule, self.rows, self.swaps, self.sweeps = l, rule, rows, swaps, sweeps_
        self.seed, self.b, self.epoch = seed, b, 0
        if callable(coupling):
            self.j = [[-1 if coupling(3 * i + d) else 1 for d in range(3)] for i in range(l ** 3)]
        else:
            reg = labelled(seed, 3, coupling, 0, 0)
            self.j = [[-1 if reg.number() >= 2 ** 31 else 1 for _ in range(3)] for _ in range(l ** 3)]
        self.slots = [[self.begin(t, c, start, bank) for c in range(2)] for t in range(len(rows))]
        self.pairs = [[labelled(seed, 2, k, c, bank) for c in range(2)] for k in range(len(rows) - 1)]

    def begin(self, t, c, start, bank):
        l = self.l
        grid = {}
        reg = labelled(self.seed, 4, t, c, bank)
        for z in range(l):
            for y in range(l):
                for x in range(l):
                    low, high = reg.number(), reg.number()
                    both = low + (high << 32)
                    grid[x, y, z] = 1 if start == "up" or both >> self.b & 1 else -1
        registers = {(col, z): labelled(self.seed, 1, t, 2 * c + col, z) for col in range(2) for z in range(l)}
        return Replica(grid, registers, t)

    def around(self, grid, x, y, z):
        """J s' of the six neighbours."""
        l, j = self.l, self.j
        for d, (dx, dy, dz) in enumerate(((1, 0, 0), (0, 1, 0), (0, 0, 1))):
            i = x + l * y + l * l * z
            yield j[i][d] * grid[(x + dx) % l, (y + dy) % l, (z + dz) % l]
            bx, by, bz = (x - dx) % l, (y - dy) % l, (z - dz) % l
            yield j[bx + l * by + l * l * bz][d] * grid[bx, by, bz]

    def sweep(self, t, replica):
        l, row, grid = self.l, self.rows[t], replica.grid
        for col in range(2):
            for z in range(l):
                reg = replica.registers[col, z]
                for y in range(l):
                    for x in range(l):
                        if (x + y + z) % 2 != col:
                            continue
                        u = reg.number()
                        local = sum(self.around(grid, x, y, z))
                        if self.rule == "heat":
                            grid[x, y, z] = 1 if u < row[(local + 6) // 2] else -1
                        else:
                            k = (local * grid[x, y, z] + 6) // 2
                            if k < 4 or u < row[k - 4]:
                                grid[x, y, z] = -grid[x, y, z]

    def work(self, t):
        for replica in self.slots[t]:
            for _ in range(self.sweeps):
                self.sweep(t, replica)

    def energy(self, grid):
        l, total = self.l, 0
        for (x, y, z), s in grid.items():
            a, b, c = self.j[x + l * y + l * l * z]
            total += s * (a * grid[(x + 1) % l, y, z] + b * grid[x, (y + 1) % l, z] + c * grid[x, y, (z + 1) % l])
        return -total

    def record(self, t):
        a, b = self.slots[t]
        q = sum(s * b.grid[p] for p, s in a.grid.items())
        return self.energy(a.grid), self.energy(b.grid), q, a.label, b.label

    def exchange(self, k):
        for c in range(2):
            numbers = [self.pairs[k][c].number() for _ in range(64)]
            cold, hot = self.slots[k][c], self.slots[k + 1][c]
            gap = (self.energy(hot.grid) - self.energy(cold.grid)) // 2
            if gap > 0:
                entry = (gap - 1) // 2
                limit = self.swaps[k][entry] if entry < len(self.swaps[k]) else 0
                if not numbers[self.b] < limit:
                    continue
            cold.grid, hot.grid = hot.grid, cold.grid
            cold.label, hot.label = hot.label, cold.label

    def step(self):
        for t in range(len(self.slots)):
            self.work(t)
        records = [self.record(t) for t in range(len(self.slots))]
        for k in range(len(self.pairs)):
            if k % 2 == self.epoch % 2:
                self.exchange(k)
        self.epoch += 1
        return records

    def copy_state(self, replica):
        l = self.l
        spins = tuple(replica.grid[i % l, i // l % l, i // l // l] > 0 for i in range(l ** 3))
        words = tuple(replica.registers[col, z].window() for col in range(2) for z in range(l))
        return PlainCopy(spins, words, replica.label)

    def slot_state(self, t):
        return PlainSlot(*[self.copy_state(r) for r in self.slots[t]])

    def pair_state(self, k):
        return PlainPair(*[r.window() for r in self.pairs[k]])

    def state(self):
        return Sample(self.b, self.epoch, tuple(self.slot_state(t) for t in range(len(self.slots))),
                      tuple(self.pair_state(k) for k in range(len(self.pairs))))


def hex_of(replica, l):
    bits = "".join("1" if replica.grid[x, y, z] > 0 else "0" for z in range(l) for y in range(l) for x in range(l))
    return f"{int(bits, 2):0{l ** 3 // 4}x}"
