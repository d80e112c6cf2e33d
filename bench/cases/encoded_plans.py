"""What a picture may take, written from the rules alone: plans by weights and plans by the source, and the quantiser of
a macroblock. It shares nothing with the program; bench/cases/encoded.py makes streams with it.

By weights a picture gets a fixed part of what its group may take, and its quantiser follows from what the last picture
of its type took. By the source each picture has an activity, which says how much there is to code; what the last
picture of its type took, in proportion to their activities, says what it needs, and what may be taken goes by that."""

from dataclasses import dataclass

from pictures_decoder import lines_of
from pictures_writer import B, BOTTOM, FRAME, I, P

WEIGHT = {I: 8, P: 4, B: 2}
COARSENESS = {I: 13, P: 16, B: 20}
# what comes before the first picture's end of start code, in bits
FIRST = 272


# ---- activity

def macroblocks_of(source, structure, rows, columns):
    """The luma of each macroblock of a frame or of a field, row by row, its 256 samples in one list."""
    lines = (source if structure == FRAME else lines_of(source, int(structure == BOTTOM)))[0]
    return [[[sample for line in lines[16 * row:16 * row + 16] for sample in line[16 * column:16 * column + 16]]
             for column in range(columns)] for row in range(rows)]


def apart(one, other):
    return sum(abs(a - b) for a, b in zip(one, other))


def activity(luma, others):
    """256, and the least of how far samples are from their mean and how far from the same ones of other pictures."""
    return 256 + min([apart(luma, [sum(luma) // 256] * 256)] + [apart(luma, other) for other in others])


def activities_of(sources, jobs, rows, columns):
    """Of each picture of a group its rows of activities. A P picture is compared with the last anchor of its group, a B
    picture with the last two, and a field with those of its own parity."""
    whole = [macroblocks_of(sources[job.display], job.structure, rows, columns) for job in jobs]
    found = []
    for p, job in enumerate(jobs):
        before = [q for q in range(p) if jobs[q].kind != B and jobs[q].structure == job.structure]
        others = [whole[q] for q in before[max(0, len(before) - {I: 0, P: 1, B: 2}[job.kind]):]]
        found.append([[activity(luma, [other[row][column] for other in others]) for column, luma in enumerate(line)]
                      for row, line in enumerate(whole[p])])
    return found


# ---- plans

@dataclass
class Known:
    kind: int
    bits: int
    stuffing: int
    quantiser: int
    activity: int = 0
    work: int = 0


class Plans:
    """What a picture of a group may take, planned from what is known: the pictures of all earlier groups, and of this
    group all but the three pictures before."""

    def __init__(self, s, jobs, activities, account, history):
        self.s, self.jobs, self.activities, self.history = s, jobs, activities, list(history)
        self.accounts, self.known, self.plans = [account], [], []

    def plan(self, p):
        s, jobs, k = self.s, self.jobs, self.s.bits
        self.first = max(0, p - 3)
        low = mean = self.accounts[self.first]
        for j in range(self.first, p):
            cap, target, _ = self.plans[j]
            low = min(low - 1800 * cap + k * jobs[j].time, 1800 * (s.size - 8))
            mean = min(mean - 1800 * min(target, cap) + k * jobs[j].time, 1800 * s.size)
        by = {'weights': self.by_weights, 'even': self.by_source}[s.plan]
        quantiser, target, most = by(p, low // 1800, mean // 1800 - (1800 * FIRST + 8 * k * s.delay) // 1800)
        cap = 8 * (min(low // 1800, max(s.emergency, most)) // 8)
        self.plans.append((cap, target, quantiser))
        return cap, quantiser

    def last(self, kind):
        same = [known for known in self.history + self.known[:self.first] if known.kind == kind]
        return same[-1] if same else None

    def incomes(self, p):
        return [self.s.bits * job.time // 1800 for job in self.jobs[p:]]

    def by_weights(self, p, available, above):
        weights = [WEIGHT[job.kind] for job in self.jobs[p:]]
        target = max(0, sum(self.incomes(p)) + above) * weights[0] // sum(weights)
        last = self.last(self.jobs[p].kind)
        quantiser = max(1, min(31, -(-last.bits * last.quantiser // max(1, target)))) if last else 8
        return quantiser, target, 2 * target

    def complexity(self, j):
        """The work that a picture is likely to take."""
        last, now = self.last(self.jobs[j].kind), self.activities[j]
        if not last:
            return now // 4
        if now > last.activity:
            return last.work + (now - last.activity) // 4
        return last.work * now // last.activity

    def by_source(self, p, available, above):
        coarseness = COARSENESS[self.jobs[p].kind]
        need = [16 * self.complexity(j) // COARSENESS[job.kind] for j, job in enumerate(self.jobs)]
        needs = max(1, sum(need[p:]) + sum(need))
        incomes = sum(self.incomes(p)) + sum(self.incomes(0))
        pool = max(incomes // 4, incomes + above)
        share = [one * pool // needs for one in need]
        quantiser = max(1, min(31, (coarseness * needs + 8 * pool) // (16 * pool)))
        reserve = sum(max(0, 5 * share[j] // 4 - self.incomes(j - 1)[0])
                      for j in range(p + 1, min(p + 4, len(self.jobs))))
        most = min(3 * share[p], max(5 * share[p] // 4, available - reserve))
        return quantiser, self.complexity(p) // quantiser, most

    def learn(self, p, known):
        self.known.append(known)
        self.accounts.append(self.accounts[p] - 1800 * (known.bits + known.stuffing) + self.s.bits * self.jobs[p].time)


# ---- the quantiser of a macroblock

def quantiser_at(quantiser, activities, i, work, left):
    """Of macroblock i of a slice, where those before took so much work and so many bits are left beside those that hold
    it and the ones after it. Without activities it is that of the slice."""
    if not activities or not i:
        return quantiser
    behind, ahead = sum(activities[:i]), sum(activities[i:])
    return min(31, max(quantiser, -(-work * ahead // (behind * max(1, left)))))
