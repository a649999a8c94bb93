#!/usr/bin/env python3
"""A model of the exchange schedule: how many times as fast as one worker several are, and how many slots come over
from another worker in an epoch, by the order in which pairs are taken.

Time is counted in the time of a pair, of which a slot without a partner takes half; a turn of the lock and a slot that
another worker had before take what is said, and a pair's time scatters. Nobody waits for the lock. A slot whose partner
isn't at rest beside it waits for it.

Orders: share (one of least epoch with a slot of the worker's share, else of all: as the board hands out), epoch (of all
one of least epoch, the one with the fewest slots outside the share where several are), outside (one with the fewest slots
outside the share), last (one with the fewest slots that another worker had last)."""
import argparse
import heapq
import random


def read_words():
    """What the command line says."""
    parser = argparse.ArgumentParser(description=__doc__, formatter_class=argparse.RawDescriptionHelpFormatter)
    parser.add_argument("--order", choices=["share", "epoch", "outside", "last"], default="share")
    parser.add_argument("--shares", type=int, nargs="+", default=[4, 4, 4, 4], help="slots of each worker, one after the other")
    parser.add_argument("--move", type=float, default=0.3, help="time for a slot that comes over, 0.3 if left out")
    parser.add_argument("--lock", type=float, default=0.05, help="time of a turn of the lock, 0.05 if left out")
    parser.add_argument("--scatter", type=float, default=0.05, help="standard deviation of a time's logarithm, 0.05")
    parser.add_argument("--epochs", type=int, default=2000)
    return parser.parse_args()


class Schedule:
    """The slots at their epochs: who has each in work, and who had it last."""

    def __init__(self, words):
        self.words = words
        self.owner = [worker for worker, count in enumerate(words.shares) for _ in range(count)]
        self.slots = len(self.owner)
        self.epoch = [0] * self.slots
        self.is_out = [False] * self.slots
        self.last = list(self.owner)
        self.moves = 0
        self.chance = random.Random(1)

    def partner(self, slot):
        other = slot + 1 if (slot + self.epoch[slot]) % 2 == 0 else slot - 1
        return other if 0 <= other < self.slots else None

    def ready(self):
        """The tasks that may be taken: two partners at rest at one epoch, or a slot without a partner."""
        for slot in range(self.slots):
            other = self.partner(slot)
            if self.is_out[slot] or self.epoch[slot] >= self.words.epochs or (other is not None and other < slot):
                continue
            if other is None:
                yield (slot,)
            elif not self.is_out[other] and self.epoch[other] == self.epoch[slot]:
                yield (slot, other)

    def rank(self, task, worker):
        """What is least of the task that a worker takes."""
        epoch = self.epoch[task[0]]
        outside = sum(self.owner[slot] != worker for slot in task) / len(task)
        others = sum(self.last[slot] != worker for slot in task) / len(task)
        return {
            "share": (outside == 1, epoch),
            "epoch": (epoch, outside),
            "outside": (outside, epoch),
            "last": (others, epoch),
        }[self.words.order]

    def take(self, worker):
        """Takes a task for a worker. Returns it and its time; None where none is ready."""
        task = min(self.ready(), key=lambda one: self.rank(one, worker), default=None)
        if task is None:
            return None
        moved = sum(self.last[slot] != worker for slot in task)
        self.moves += moved
        for slot in task:
            self.is_out[slot], self.last[slot] = True, worker
        work = (len(task) / 2 + self.words.move * moved) * self.chance.lognormvariate(0, self.words.scatter)
        return task, work + self.words.lock

    def give_back(self, task):
        for slot in task:
            self.is_out[slot] = False
            self.epoch[slot] += 1


def run(words):
    """The time that all epochs take, and the slots that came over."""
    schedule, time = Schedule(words), 0.0
    events, idle = [], list(range(len(words.shares)))
    while True:
        for worker in list(idle):
            taken = schedule.take(worker)
            if taken:
                idle.remove(worker)
                heapq.heappush(events, (time + taken[1], worker, taken[0]))
        if not events:
            return time, schedule.moves
        time, worker, task = heapq.heappop(events)
        schedule.give_back(task)
        idle.append(worker)


def main():
    words = read_words()
    time, moves = run(words)
    alone = words.epochs * (sum(words.shares) / 2 + words.lock * (sum(words.shares) / 2 + 0.5))
    print(f"{words.order} {'-'.join(map(str, words.shares))}: {alone / time:.2f} times, {moves / words.epochs:.1f} slots an epoch")


if __name__ == "__main__":
    main()
