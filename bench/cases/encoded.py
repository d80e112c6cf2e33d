#!/usr/bin/env python3
"""Prints the cases of `encode`: what an encoder writes that was written from the rules alone (a minute).

It shares nothing with the program. The cases stand in bench/cases/encoded_cases.py.

Here stand the settings and their test, groups, headers and the buffer; plans stand in bench/cases/encoded_plans.py, and
how macroblocks are coded in bench/cases/encoded_choice.py. Of frames whose samples are all 128 nothing is chosen, so that these go a way of their
own: in an I picture each block keeps its predictor's level, 128; in a P picture each macroblock goes forward by the
vector 0, in a B picture backward, from the same lines, without a block; and those that are neither first nor last in
their slice are skipped there. Each other choice gives the same samples with more bits. Both ways give the same streams
of small ones."""

from dataclasses import dataclass

from encoded_choice import Coder, Grey
from encoded_plans import FIRST, Known, Plans
from pictures_writer import B, BOTTOM, END, FRAME, I, P, TOP, Picture, group, headers, sequence
from verdicts import FIELD_UNITS, LEVELS

PROFILES = {'main': 72, 'high1440': 70, 'high': 68}
FRAMES_A_SECOND = {1: 24, 2: 24, 3: 25, 4: 30, 5: 30, 6: 50, 7: 60, 8: 60}


@dataclass
class Settings:
    width: int
    height: int
    rate: int
    bits: int
    buffer: int
    delay: int = None
    group: int = 12
    step: int = 3
    closed: bool = False
    scan: str = 'progressive'
    search: int = 15
    aspect: int = 2
    workers: int = 1
    pulldown: bool = False
    level: str = 'main'
    plan: str = 'weights'

    def numbers(self):
        """Interval, rows of a picture, and the most bits of an emergency picture."""
        units = 2 * FIELD_UNITS[self.rate]
        self.field = units // 2
        self.interval = units // 2 if self.scan == 'fields' else units
        self.size = 16384 * self.buffer
        self.columns = (self.width + 15) // 16
        self.rows = {'progressive': (self.height + 15) // 16, 'frames': 2 * ((self.height + 31) // 32),
                     'fields': (self.height + 31) // 32}[self.scan]
        self.slice_bits = 8 * -(-(38 + 31 * self.columns) // 8)
        self.emergency = 416 + self.rows * self.slice_bits
        if self.delay is None and self.bits:
            self.delay = 3 * 1800 * (self.size - FIRST) // (32 * self.bits)

    def conditions(self):
        """The published test: each condition as rule, whether it is a bound from below, from above or a remainder, and
        its two numbers."""
        width, height, codes, luma, most_bits, most_buffer = LEVELS[PROFILES[self.level]]
        progressive = self.scan == 'progressive'
        k = self.bits
        for have, sign, need in (
                (self.width, '>', 2), (self.width, '<', width), (self.width % 2, '=', 0),
                (self.height, '>', 2 if progressive else 4), (self.height, '<', height),
                (self.height % (2 if progressive else 4), '=', 0), (self.rate, '>', 1), (self.rate, '<', codes)):
            yield 1, have, sign, need
        self.numbers()
        yield 1, 720000 * self.width * self.height, '<', luma * 2 * self.field
        for have, sign, need in (
                (k, '>', 1), (k, '<', most_bits), (self.buffer, '>', 1), (self.buffer, '<', most_buffer)):
            yield 1, have, sign, need
        yield 2, k * self.interval, '>', 1800 * self.emergency
        yield 3, 1800 * self.size, '>', (3 * k * self.field if self.pulldown else k * self.interval) + 14400
        yield 3, 1800 * (self.size - 8), '>', 1800 * self.emergency
        yield 4, 1800 * self.size, '<', 8 * k * 65534
        yield 5, 8 * k * self.delay, '>', 1800 * (self.emergency + FIRST)
        yield 5, 8 * k * self.delay + 1800 * FIRST, '<', 1800 * self.size
        for have, sign, need in (
                (self.group, '>', 1), (self.group, '<', 60), (self.step, '>', 1), (self.step, '<', 4),
                (self.group % self.step if self.step else 0, '=', 0), (self.search, '<', 15), (self.aspect, '>', 1),
                (self.aspect, '<', 4), (self.workers, '>', 1), (self.workers, '<', 16)):
            yield 6, have, sign, need
        if self.pulldown:
            scan = ('progressive', 'frames', 'fields').index(self.scan)
            for have, sign, need in ((scan, '>', 1), (scan, '<', 1), (self.rate, '>', 4), (self.rate, '<', 5)):
                yield 6, have, sign, need

    def unfit(self):
        """The first condition that fails."""
        for rule, have, sign, need in self.conditions():
            if not {'>': have >= need, '<': have <= need, '=': have == need}[sign]:
                return 'unfit rule %d have %d need %d' % (rule, have, need)


def groups_of(s, count):
    """Frames in coding order by groups: each its number and its kind."""
    groups, waiting = [], []
    for i in range(count):
        anchor = i % s.step == 0 or i == count - 1 or (s.closed and (i + 1) % s.group == 0)
        if i % s.group == 0:
            groups.append([])
        elif not anchor:
            waiting.append((i, B))
            continue
        groups[-1] += [(i, I if i % s.group == 0 else P), *waiting]
        waiting = []
    return groups


@dataclass
class Job:
    """A picture to code: the frame's number, its place in the group's display order, and the time after it."""
    display: int
    place: int
    kind: int
    structure: int
    time: int


def times_of(s, groups):
    """Units of 1/720,000 s after each picture."""
    before = False
    jobs = []
    for frames in groups:
        order = sorted(display for display, _ in frames)
        jobs.append([])
        for display, kind in frames:
            repeats = s.pulldown and display % 4 in (0, 2)
            shown = repeats if kind == B else before
            for structure in (TOP, BOTTOM) if s.scan == 'fields' else (FRAME,):
                time = s.interval if s.scan == 'fields' else (3 if shown else 2) * s.field
                jobs[-1].append(Job(display, order.index(display), kind, structure, time))
            before = before if kind == B else repeats
    return jobs


def group_header(s, jobs, number):
    first = min(job.display for job in jobs)
    if s.pulldown:
        first = (2 * first + (first + 1) // 2) // 2
    seconds, pictures = divmod(first, FRAMES_A_SECOND[s.rate])
    return group(int(number == 0 or s.closed or s.step == 1), seconds // 3600 % 24, seconds // 60 % 60, seconds % 60,
                 pictures)


def header_of(s, job, delay):
    """What the headers of a picture say."""
    whole = s.scan == 'progressive' or s.pulldown
    top_first = int(s.scan == 'frames' if not s.pulldown else job.display % 4 in (0, 3))
    return Picture(job.kind, job.structure, job.place, (2,) * 4, top_first=top_first, frame_only=int(whole),
                   alternate=int(not whole), progressive=int(whole), delay=delay,
                   repeat=int(s.pulldown and job.display % 4 in (0, 2)))


@dataclass
class Encoded:
    """Where each group ends, the stream, its numbers, and the reconstructed frames where frames were given."""
    ends: list
    data: bytes
    pictures: int
    stuffing: int
    frames: list

    def line(self, count):
        return 'frames %d pictures %d bytes %d stuffing %d' % (count, self.pictures, len(self.data), self.stuffing)


def encoded(s, count, frames=None):
    """Of so many frames whose samples are all 128, or of these, as raw bytes."""
    s.numbers()
    k = s.bits
    coder = Coder(s, frames) if frames else Grey(s)
    head = sequence(s.width, s.height, int(s.scan == 'progressive'), level=PROFILES[s.level], aspect=s.aspect,
                    code=s.rate, rate=k, buffer=s.buffer)
    data, ends, history, time = b'', [], [], 0
    account = 1800 * FIRST + 8 * k * s.delay
    all_jobs = times_of(s, groups_of(s, count))
    for number, jobs in enumerate(all_jobs):
        activities = coder.activities(jobs) if s.plan == 'even' else []
        plans = Plans(s, jobs, [sum(map(sum, rows)) for rows in activities], account, history)
        for p, job in enumerate(jobs):
            start = b'' if p else head + group_header(s, jobs, number)
            at = 8 * len(data + start) + 32
            delay = (8 * k * s.delay + k * time - 1800 * (at - FIRST)) // (8 * k)
            cap, quantiser = plans.plan(p)
            p_header = header_of(s, job, delay)
            slices, work = coder.slices(p_header, job, quantiser, cap, activities[p] if activities else None)
            coded = start + headers(p_header) + slices
            assert 8 * len(coded) <= cap
            over = plans.accounts[p] - 1800 * 8 * len(coded) + k * job.time - 1800 * s.size
            last = number == len(all_jobs) - 1 and p == len(jobs) - 1
            zeros = 0 if last else max(0, -(-over // 14400))
            plans.learn(p, Known(job.kind, 8 * len(coded), 8 * zeros, quantiser,
                                 plans.activities[p] if activities else 0, work))
            data += coded + bytes(zeros)
            time += job.time
        history += plans.known
        account = plans.accounts[-1]
        ends.append(len(data))
    return Encoded(ends, data + END, sum(map(len, all_jobs)), sum(known.stuffing for known in history) // 8,
                   coder.frames_shown())


if __name__ == '__main__':
    import encoded_cases
    print('\n'.join(encoded_cases.table()).rstrip())
