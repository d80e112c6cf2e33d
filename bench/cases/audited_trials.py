"""Trials of bench/cases/audited.py (`audited.py --self-test`): its account of the buffer held against a simulation in time,
in which bits come unit by unit, and its reports on drawn streams against what `check` is to say of them, against the
rule on places as it runs, and against each other, also those by one set of rules and by another. What the rules of the sets
need of a sequence header is put into it, and then keeps them."""

import random
import subprocess
from bisect import bisect_left
from collections import Counter

from audited import report
from audited_account import UNIT, Inflow, filled, rate_of, removals, removed
from audited_records import RULES
from pictures_writer import B, BOTTOM, END, I, P, TOP, group, sequence
from table_lines import read_bytes, read_table
from verdicts import Account, Coded, Group, Parser, Sequence, breaches, verdict
from verdicts_cases import WOVEN, one, with_delay

# ---- a simulation in time

class Clock:
    """A buffer into which bits come unit by unit of time. `come` and `gone` are what came and what was removed, and
    `history` what had come at the end of each unit since the start; before it bits came at the rate too."""

    def __init__(self, flow, first, total):
        self.flow, self.total, self.come, self.gone, self.now = flow, total, first, 0, 0
        self.come = min(first, total) if flow.varies else first
        self.history, self.failed = [self.come], False

    def here(self):
        return min(self.come, self.total) - self.gone

    def tick(self, room):
        """A unit of time, at the end of which no more is held than there is room for."""
        self.come += self.flow.k
        if room is not None:
            self.come = min(self.come, self.gone + room)
        if self.flow.varies:
            self.come = min(self.come, self.total)
        self.now += 1
        self.history.append(self.come)

    def delay(self, code):
        """How many ticks ago an amount of the stream had come, as the history has it. Behind a failure the bits came
        otherwise than they were to, and it is what the amount behind it would take."""
        if self.failed:
            return max(0, self.come - code) // (8 * self.flow.k)
        came = bisect_left(self.history, code)
        before = (self.history[0] - code) // self.flow.k if came == 0 else 0
        return max(0, self.now - came + before) // 8


def simulated(flow, first, pictures):
    """The same as `removals` by bits that come unit by unit of time: time, have, need, over, wait and delay."""
    clock, told = Clock(flow, first, UNIT * sum(bits for bits, _, _ in pictures)), []
    for bits, code_bits, interval in pictures:
        due, have, need, wait = clock.now, clock.here(), UNIT * bits, 0
        over = not flow.varies and have > flow.size
        # how long it is waited for goes by all that came, also by what found no room
        brought = clock.come
        if over:
            clock.come = clock.gone + flow.size
        while brought < clock.gone + need:
            for _ in range(flow.step):
                clock.tick(max(flow.size, need))
                brought += flow.k
            wait += flow.step
        clock.failed = clock.failed or over or have < need
        told.append((due, have, need, over, wait, None if flow.varies else clock.delay(clock.gone + UNIT * code_bits)))
        clock.gone += need
        clock.come = max(clock.come, clock.gone)
        for _ in range(interval):
            clock.tick(flow.size if flow.varies else None)
    return told


# ---- the two held against each other

def drawn(draw):
    """Small numbers of an account."""
    unit, field = draw.choice([60, 300, 1800]), draw.randrange(1, 30)
    flow = Inflow(unit * draw.randrange(1, 40) + draw.randrange(5), UNIT * draw.randrange(10, 400),
                  draw.choice([1, 2 * field]), draw.random() < 0.5)
    usual = max(2, flow.k * 2 * field // UNIT)
    pictures = []
    for _ in range(draw.randrange(1, 12)):
        bits = draw.choice([draw.randrange(1, usual + 2), draw.randrange(1, 3 * usual + 2), draw.randrange(1, 500)])
        pictures.append((bits, draw.randrange(1, bits + 1), field * draw.randrange(1, 7)))
    first = flow.size if flow.varies else UNIT * pictures[0][1] + 8 * flow.k * draw.randrange(
        2 + 2 * flow.size // (8 * flow.k))
    return flow, first, pictures


def settled_by(flow, r, picture):
    """The least number of bits that are left, from which on it changes nothing of a removal how many they are: tried by
    more and by less of them."""
    def told(bits):
        return removed(flow, r.time, r.reach, UNIT * bits, picture)
    low, high = picture[0], 10 ** 9
    endless = told(high)
    while low < high:
        middle = (low + high) // 2
        low, high = (low, middle) if told(middle) == endless else (middle + 1, high)
    return low


def try_accounts(count, seed):
    """Draws accounts, and holds the removals against the simulation. Answers how many failed in which way."""
    draw, seen = random.Random(seed), {'safe': 0, 'under': 0, 'over': 0, 'both': 0}
    for number in range(count):
        flow, first, pictures = drawn(draw)
        told = removals(flow, first, pictures)
        mine = [(r.time, r.have, r.need, r.over, r.wait, None if flow.varies else r.delay) for r in told]
        assert mine == simulated(flow, first, pictures), (seed, number, flow, first, pictures)
        for picture, r in zip(pictures, told):
            # once the picture is whole and as much is known as could be held
            assert settled_by(flow, r, picture) == max(-(-r.reach // UNIT), picture[0]), (seed, number, picture)
        under, over = any(r.under for r in told), any(r.over for r in told)
        seen['both' if under and over else 'under' if under else 'over' if over else 'safe'] += 1
    return seen


# ---- drawn streams

def frame(draw, kind, rows, temporal, progressive, **more):
    """A frame, or two fields of it."""
    if rows == 1 or draw.random() < 0.6:
        look = dict(progressive=1, frame_only=1) if progressive or draw.random() < 0.5 else WOVEN
        repeat = draw.random() < (0.5 if look['progressive'] and rows == 2 else 0.02)
        return one(kind, temporal, rows=rows, repeat=int(repeat), top_first=draw.randrange(2), **look, **more)
    first = draw.choice([TOP, BOTTOM])
    other = draw.choice([P, kind]) if kind == I else kind
    return b''.join(one(k, temporal if draw.random() < 0.98 else temporal + 1, structure=s, **WOVEN, **more)
                    for k, s in ((kind, first), (other, TOP + BOTTOM - first)))


def group_of(draw, rows, low_delay, begins):
    """A group of frames in coding order, most with the temporal references that they should have."""
    kinds = [draw.choice([I] if begins or draw.random() < 0.95 else [P, B])]
    kinds += [draw.choice([P, B, B, I]) for _ in range(draw.randrange(6 if draw.random() < 0.9 else 24))]
    if begins:
        kinds[0] = I
    order = [n for n, k in enumerate(kinds) if k == B or low_delay]
    anchors = [n for n, k in enumerate(kinds) if not (k == B or low_delay)]
    keys = {n: n for n in order} | {n: m - 0.5 for n, m in zip(anchors, anchors[1:] + [99])}
    place = {n: at for at, n in enumerate(sorted(keys, key=keys.get))}
    for number, kind in enumerate(kinds):
        temporal = place[number] if draw.random() < 0.98 else draw.randrange(6)
        precision = 3 if draw.random() < 0.01 else 0
        yield frame(draw, kind, rows, temporal, rows == 1, precision=precision) + bytes(
            draw.choice([0, 0, 0, draw.randrange(400), draw.randrange(2000)]))


def drawn_stream(draw):
    """A stream of a few groups, with delays that are exact, or off, or 65535."""
    rows = draw.choice([1, 2])
    shape = dict(progressive=int(rows == 1), low_delay=int(draw.random() < 0.25), aspect=draw.choice([1, 2, 2, 2, 3, 4]),
                 buffer=draw.randrange(1, 4),
                 rate=draw.choice([60, 100, 150, 400]), code=draw.choice([1, 2, 3, 4, 5]),
                 level=draw.choice([72] * 8 + [70, 68, 73]))
    data = sequence(16, 16 * rows, **shape)
    for number in range(draw.randrange(1, 4)):
        if number and draw.random() < 0.3:
            data += sequence(16, 16 * rows, **{**shape, 'level': draw.choice([72, 72, 72, 73])})
        if number or draw.random() < 0.8:
            data += group(draw.randrange(2), 0, 0, number, draw.randrange(9))
        data += b''.join(group_of(draw, rows, shape['low_delay'], number == 0))
    data += draw.choice([b'', END, bytes(9) + END, sequence(16, 16 * rows, **shape) + group(1) + END])
    kind = draw.random()
    if kind < 0.25:
        return data
    data = with_delay(data, 0, draw.choice([draw.randrange(60000), draw.randrange(30000), 20000]))
    for number, exact in enumerate(Account(Parser(data)).delays):
        other = draw.randrange(65536) if draw.random() < 0.05 else exact
        data = with_delay(data, number, min(65535, max(0, other)))
    return data


# ---- a report as it is read

def records(output):
    """The lines behind those that name the columns, each with its kind and its columns."""
    return [tuple(line.split('\t')) for line in output.decode().splitlines() if not line.startswith(('audit', 'columns'))]


def running_places(stream):
    """What breaks rule 11 in the order in which it is told: frames are shown one after another."""
    told, shown, waits, frame, low_delay = [], 0, None, [], stream.sequences[0].low_delay

    def show(pictures):
        told.extend((number, p.temporal, shown % 1024) for number, p in pictures if p.temporal != shown % 1024)
        return shown + 1
    number = 0
    for _, header in stream.headers:
        if isinstance(header, Group):
            if waits:
                show(waits)
            shown, waits = 0, None
        if not isinstance(header, Coded):
            continue
        frame.append((number, header))
        number += 1
        if header.ends_frame:
            at_once = low_delay or header.kind == B
            shown = show(frame) if at_once else show(waits) if waits else shown
            waits, frame = (waits if at_once else frame), []
    if waits:
        show(waits)
    return told


def hold(condition, what, data):
    if not condition:
        with open('/tmp/audited.m2v', 'wb') as file:
            file.write(data)
        raise SystemExit('%s; the stream is /tmp/audited.m2v' % what)


def rule_of(r):
    """The number of the rule that a record is about, or 0."""
    return int(r[4]) if r[0] in ('breach', 'warning') else int(r[2]) if r[0] == 'count' else 0


def try_rules(data, told):
    """The breaches are those that `check` has, beside stricter ones, and rule 11 is told as frames are shown."""
    stream = Parser(data)
    said = [r for r in told if r[0] == 'breach' and rule_of(r) <= len(RULES)]
    mine = Counter((int(r[2]) if int(r[4]) > 7 else 0, int(r[4]), int(r[6]), int(r[7])) for r in said)
    hold(mine == Counter(breaches(stream)), 'other breaches than check has', data)
    mine = [(int(r[2]), int(r[6]), int(r[7])) for r in said if r[4] == '11']
    hold(mine == running_places(stream), 'places in another order', data)
    hold(all(r[5] == RULES[int(r[4]) - 1] for r in said), 'another name of a rule', data)


def try_account(data, told):
    """Without a failure the figures are those of `check`, and else the first one is."""
    stream = Parser(data)
    if not stream.coded or rate_of(stream.sequences[0], stream.coded) != 'constant':
        return
    if any(p.repeat and p.sequence.progressive for p in stream.coded):
        return
    checked, failures = Account(stream), [r for r in told if r[0] == 'failure']
    failure = checked.failure()
    hold(bool(failure) == bool(failures), 'a failure, and none', data)
    if failure:
        kind = failures[0][4].replace('big', 'under')
        mine = 'buffer %s picture %s have %s need %s' % (kind, failures[0][2], failures[0][6], failures[0][7])
        hold(mine == failure, 'another first failure', data)
    else:
        end = next(r for r in told if r[0] == 'end')
        hold('low %s high %s delays %s' % end[9:12] == checked.figures(stream.coded), 'other figures', data)


def try_sums(data, status, told):
    """The counts of `count`, `end` and `total` are those of the other records."""
    kinds = Counter(r[0] for r in told)
    rules = Counter((r[1], r[4]) for r in told if r[0] in ('breach', 'warning'))
    hold(Counter({r[1:3]: int(r[3]) for r in told if r[0] == 'count'}) == rules, 'other counts', data)
    total = [int(n) for n in told[-1][1:]]
    hold(total[3:] == [kinds['breach'], kinds['failure'], kinds['warning']] and total[0] == kinds['sequence'],
         'another total', data)
    hold(status == (18 if total[3] or total[4] else 0), 'another status', data)
    hold(kinds['picture'] == total[1] and kinds['held'] in (0, total[1]) or total[0] > 1, 'too few records', data)


def moved(r, sequences, byte):
    """A record of a text that stands behind so many sequences and bytes."""
    at = {'skipped': 2, 'sequence': 2, 'group': 3, 'picture': 3, 'breach': 3, 'warning': 3, 'failure': 3}.get(r[0])
    row = [r[0], str(int(r[1]) + sequences), *r[2:]]
    if at:
        row[at] = str(int(row[at]) + (byte if r[0] == 'skipped' else 8 * byte))
    return tuple(row)


def try_two(data, other):
    """The records of two texts are those of the first and those of the second."""
    if not data.endswith(END):
        data += END
    _, _, one_output = report(data, True)
    _, _, other_output = report(other, True)
    first, second = records(one_output), records(other_output)
    both = records(report(data + other, True)[2])
    count = int(first[-1][1])
    hold(both[:-1] == first[:-1] + [moved(r, count, len(data)) for r in second[:-1]], 'two texts are told otherwise',
         data + other)
    sums = tuple(str(int(a) + int(b)) for a, b in zip(first[-1][1:], second[-1][1:]))
    hold(both[-1][1:] == sums, 'another total of two', data + other)


def try_in_time(data, told):
    """What is held, by bits that come unit by unit of time."""
    stream = Parser(data)
    first, pictures = stream.sequences[0], stream.coded
    if rate_of(first, pictures) == 'none':
        return
    sizes, gone = [], 0
    for p in pictures:
        sizes.append((p.bits, p.code_end - gone))
        gone += p.bits
    mine = [(int(r[3]), int(r[4]), int(r[8])) for r in told if r[0] == 'held']
    wanted = [(time, have // UNIT, wait) for time, have, _, _, wait, _ in simulated(*filled(first, pictures, sizes))]
    hold(mine == wanted, 'in time something else is held', data)


# ---- the sets held against main, and against what they need

# the rules of each set, and those of main that it doesn't tell
OWN = {'dvd': (range(60, 72), ()), 'dvb': (range(80, 86), (50,)), 'atsc': (range(90, 96), ())}
# the numbers of a drawn sequence header by the names of its elements
KEYS = {'frame_rate_code': 'code', 'aspect_ratio_information': 'aspect', 'bit_rate': 'rate', 'vbv_buffer_size': 'buffer',
        'profile_and_level_indication': 'level', 'low_delay': 'low_delay', 'progressive_sequence': 'progressive'}


def fields_passed(told):
    """Rule 65 by the records of groups and pictures, in a sequence of one frame rate."""
    bound, shown = (36 if next(r[5] for r in told if r[0] == 'sequence') == '4' else 30), 0
    for r in told:
        shown = 0 if r[0] == 'group' else shown
        if r[0] == 'picture':
            before, shown = shown, shown + int(r[10])
            if before <= bound < shown:
                yield 65, int(r[2]), shown, bound


def b_frames_ended(pictures):
    """Rule 66 by the records of pictures: the types of frames in a row."""
    types, waits = '', False
    for r in pictures:
        waits = r[5] != 'frame' and not waits
        types += '' if waits else r[4]
        in_a_row = len(types) - len(types.rstrip('B'))
        if in_a_row > 2 and not waits:
            yield 66, int(r[2]), in_a_row, 2


def by_dvd(told, letters):
    """The rules of dvd on groups and pictures, by records and by the kinds of the headers, S, G and P."""
    pictures = [r for r in told if r[0] == 'picture']
    yield from fields_passed(told)
    yield from b_frames_ended(pictures)
    for at, letter in enumerate(letters):
        if letter == 'G' and 'S' not in letters[:at].rpartition('P')[2]:
            yield 67, letters[:at].count('P'), 0, 1
    if 'G' not in letters.partition('P')[0]:
        yield 69, 0, 0, 1
    yield from ((69, int(r[2]), 1, 0) for r in pictures if r[11] == '1')


def try_sets(data, told):
    """Each set tells what main does, but for the sums and what it leaves out, and its own rules."""
    letters = ''.join({Sequence: 'S', Group: 'G', Coded: 'P'}[type(header)] for _, header in Parser(data).headers)
    delays = [(95, int(r[2]), int(r[9]), 45000) for r in told if r[0] == 'picture' and 45000 < int(r[9]) < 65535]
    wanted = {'dvd': list(by_dvd(told, letters)), 'dvb': [], 'atsc': delays}
    for rules, (own, silent) in OWN.items():
        status, _, output = report(data, True, rules)
        mine = records(output)
        try_sums(data, status, mine)
        of_main = [r for r in told if r[0] not in ('end', 'total') and rule_of(r) not in silent]
        hold([r for r in mine if r[0] not in ('end', 'total') and rule_of(r) not in own] == of_main,
             'by %s something else is told' % rules, data)
        said = [(int(r[4]), int(r[2]), int(r[6]), int(r[7])) for r in mine
                if r[0] in ('breach', 'warning') and rule_of(r) in (65, 66, 67, 69, 95)]
        hold(Counter(said) == Counter(wanted[rules]), 'by %s pictures break other rules' % rules, data)


def drawn_header(draw):
    """The numbers of a sequence header: many are those of the sets, or next to them."""
    return dict(width=draw.choice([1920, 1280, 720, 704, 640, 544, 480, 352, draw.randrange(1, 1921)]),
                height=draw.choice([1088, 1080, 1079, 720, 576, 480, 288, 240, draw.randrange(1, 1153)]),
                progressive=draw.randrange(2), low_delay=int(draw.random() < 0.2), aspect=draw.randrange(6),
                code=draw.randrange(10), level=draw.choice([72, 72, 72, 70, 68, 73, 88]),
                buffer=draw.choice([112, 488, 489]), rate=draw.choice([0, 24500, 24501, 37501, 48500, 48501]))


def header_says(header, rules, rule, name):
    """What a header says of a rule by a name: have and need."""
    told = records(report(sequence(**header) + END, False, rules)[2])
    return [(int(r[6]), int(r[7])) for r in told if rule_of(r) == rule and r[0] != 'count' and r[5] == name]


def try_header(header, rules):
    """What each rule of a set needs keeps it in place of what is there, and no code that is nearer does."""
    told = records(report(sequence(**header) + END, False, rules)[2])
    own = [r for r in told if r[0] in ('breach', 'warning') and rule_of(r) in OWN[rules][0]]
    for rule, name, have, need in ((rule_of(r), r[5], int(r[6]), int(r[7])) for r in own):
        if name == 'size':
            other = dict(zip(('width', 'height'), divmod(need, 10000)))
            assert have == 10000 * header['width'] + header['height'], (header, rules, rule)
        else:
            other = {KEYS[name]: need}
            assert have == header[KEYS[name]], (header, rules, rule)
        assert not header_says({**header, **other}, rules, rule, name), (header, rules, rule)
        if rule in (61, 62, 82, 91, 92) and name != 'progressive_sequence':
            for nearer in range(have - abs(have - need) + 1, have + abs(have - need)):
                near = {**header, KEYS[name]: max(0, nearer)}
                assert header_says(near, rules, rule, name), (header, rules, rule, nearer)
    return Counter(rule_of(r) for r in own)


def try_like(header, other):
    """By dvd each of these is told of another sequence where it isn't that of the first one, and none of a like one."""
    told = records(report(sequence(**header) + END + sequence(**other) + END + sequence(**header) + END, False, 'dvd')[2])
    mine = [(r[1], r[5], int(r[6]), int(r[7])) for r in told if r[0] == 'warning' and rule_of(r) == 70]
    names = {'size': lambda s: 10000 * s['width'] + s['height'], 'frame_rate_code': lambda s: s['code'],
             'aspect_ratio_information': lambda s: s['aspect']}
    assert mine == [('1', name, of(other), of(header)) for name, of in names.items() if of(other) != of(header)], (
        header, other)


def try_headers(count, seed):
    """Draws sequence headers. Answers how often each rule of the sets was broken."""
    draw, seen = random.Random(seed), Counter()
    for _ in range(count):
        header = drawn_header(draw)
        try_like(header, {**drawn_header(draw), **{key: header[key] for key in ('width', 'height', 'code', 'aspect')
                                                   if draw.random() < 0.5}})
        for rules in OWN:
            seen.update(try_header(header, rules))
    return {'rule %d' % rule: often for rule, often in seen.items()}


def try_streams(count, seed):
    """Draws streams. Answers how many were answered how."""
    draw, seen, before = random.Random(seed), Counter(), None
    for number in range(count):
        data = drawn_stream(draw)
        status, _, output = report(data, True)
        told, checked = records(output), verdict(data)[0]
        seen['audit %d, check %d' % (status, checked)] += 1
        try_sums(data, status, told)
        try_rules(data, told)
        try_account(data, told)
        try_sets(data, told)
        short = [r for r in told if r[0] not in ('group', 'picture', 'held')]
        hold(records(report(data)[2]) == short, 'without --pictures something else is told', data)
        if number % 5 == 1:
            try_two(before, data)
        if number % 40 == 0:
            try_in_time(data, told)
        before = data
    return seen


# ---- a program held against the reports

def table_streams():
    """The inputs of all cases on streams, each once."""
    streams, cases = read_table()
    inputs = {}
    for lines in cases.values():
        if dict(lines).get('words', '').split()[:1] in (['decode'], ['check'], ['audit']):
            inputs.setdefault(b''.join(read_bytes(streams, rest) for key, rest in lines if key == 'input'))
    return list(inputs)


def damaged_streams(draw, whole, count):
    """Streams with a few bits turned, and one behind the other."""
    for _ in range(count):
        data = bytearray(draw.choice(whole) + draw.choice([b'', b'', draw.choice(whole)]))
        for _ in range(draw.choice([0, 1, 1, 2, 5]) if data else 0):
            data[draw.randrange(len(data))] ^= 1 << draw.randrange(8)
        yield bytes(data)


def first_other(output, wanted):
    """The first line of each that differs."""
    lines = zip(output.splitlines() + [b'nothing'], wanted.splitlines() + [b'nothing'])
    return next((a.decode('ascii', 'replace'), b.decode()) for a, b in lines if a != b)


def words_in_turn(number):
    """The sets, and the words, by which the stream of this number is told."""
    other = list(OWN)[number % len(OWN)]
    for rules, words in (('main', []), (other, ['--for', other])):
        yield from ((rules, words), (rules, ['--pictures', *words]))


def hold_program(program, count=2000, seed=1):
    """Gives the streams of the table, drawn ones, headers and damaged ones to a program that writes the report of its
    input, told by words, by main and by one of the other sets in turn; answers how many reports were the same, and the
    least stream with another one."""
    draw, wrong, same = random.Random(seed), [], 0
    whole = table_streams()
    drawn = [drawn_stream(draw) for _ in range(count)]
    drawn += [sequence(**drawn_header(draw)) + END for _ in range(count)]
    small = [data for data in whole + drawn if len(data) < 5000]
    for number, data in enumerate([*whole, *drawn, *damaged_streams(draw, small, count)]):
        for rules, words in words_in_turn(number):
            output = subprocess.run([*program.split(), *words], input=data, capture_output=True, check=False).stdout
            wanted = report(data, '--pictures' in words, rules)[2]
            same += output == wanted
            if output != wanted:
                wrong.append((len(data), words, data, output, wanted))
    print('%d reports are the same, %d are not' % (same, len(wrong)))
    if wrong:
        _, words, data, output, wanted = min(wrong)
        hold(False, 'of %d bytes, by the words %s: %s, and %s is wanted' % (len(data), words, *first_other(output, wanted)),
             data)


def main(count=4000, seed=1):
    for what, seen in (('accounts', try_accounts(count, seed)), ('headers', try_headers(count // 4, seed)),
                       ('streams', try_streams(count // 4, seed))):
        print('%s: %s' % (what, ', '.join('%s %d' % pair for pair in sorted(seen.items()))))
