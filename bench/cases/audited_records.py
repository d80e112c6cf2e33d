"""The records of the report of `audit`, for bench/cases/audited.py: a line each, whose columns are parted by tabs."""

# the columns of each kind, in the order of the lines that name them
COLUMNS = {
    'skipped': 'sequence byte bytes',
    'sequence': 'sequence bit width height frame_rate_code aspect profile_and_level progressive low_delay bit_rate'
                ' vbv_buffer_size rate',
    'group': 'sequence group bit picture drop hours minutes seconds pictures closed broken',
    'picture': 'sequence picture bit type structure temporal_reference bits zeros vbv_delay fields dropped',
    'held': 'sequence picture time before taken after delay wait',
    'breach': 'sequence picture bit rule name have need',
    'warning': 'sequence picture bit rule name have need',
    'failure': 'sequence picture bit kind time have need wait',
    'fault': 'sequence bit kind',
    'limit': 'sequence kind',
    'count': 'sequence rule how_often picture',
    'end': 'sequence pictures frames groups bytes breaches failures warnings low high delays time',
    'total': 'sequences pictures bytes breaches failures warnings',
}
# the names of the rules from 1 on
RULES = ('level width height frame_rate luma_rate bit_rate vbv_buffer_size f_code_horizontal f_code_vertical group_begins'
         ' temporal_reference large_macroblocks repeat_first_field progressive intra_dc_precision').split()

# the numbers of the warnings
WARNINGS = {*range(50, 60), *range(66, 72), *range(83, 86), 95}


def line(kind, *columns):
    return '\t'.join([kind, *map(str, columns)]) + '\n'


def is_warning(rule):
    return rule in WARNINGS


def head(rules):
    """The lines before those of the first sequence."""
    names = (line('columns', kind, *columns.split()) for kind, columns in COLUMNS.items())
    return line('audit', 1, rules) + ''.join(names)


class Records:
    """The records of a sequence, and what is counted of them; `each` tells whether its groups, its pictures and what is
    held have records."""

    def __init__(self, number, each):
        self.number, self.each, self.lines = number, each, []
        self.counts, self.failures, self.delays, self.time = {}, 0, 0, 0
        self.lows, self.highs = [], []

    def put(self, kind, *columns):
        assert len(columns) + 1 == len(COLUMNS[kind].split()), kind
        self.lines.append(line(kind, self.number, *columns))

    def put_each(self, kind, *columns):
        if self.each:
            self.put(kind, *columns)

    def breach(self, picture, bit, rule, have, need):
        self.remark(picture, bit, rule, RULES[rule - 1], have, need)

    def remark(self, picture, bit, rule, name, have, need):
        """A breach by its own name, or a warning."""
        self.put('warning' if is_warning(rule) else 'breach', picture, bit, rule, name, have, need)
        often, first = self.counts.get(rule, (0, picture))
        self.counts[rule] = often + 1, first

    def failure(self, picture, bit, kind, time, *amounts):
        self.put('failure', picture, bit, kind, time, *amounts)
        self.failures += 1

    def removal(self, picture, bit, p, r, first, constant):
        """What is held, under before over, and then warning 54, of a picture behind this first sequence header."""
        delay = r.delay if constant else 65535
        self.put_each('held', picture, r.time, r.before, r.need // 1800, r.after, delay, r.wait)
        if r.under:
            self.failure(picture, bit, 'big' if first.low_delay else 'under', r.time, r.have, r.need, r.wait)
        if r.over:
            self.failure(picture, bit, 'over', r.time, r.have, 1800 * 16384 * first.buffer, 0)
        if constant and picture > 0 and p.delay != 65535 and abs(p.delay - r.delay) > 1:
            self.remark(picture, bit, 54, 'vbv_delay', p.delay, r.delay)
        self.lows.append(r.after)
        self.highs.append(r.before)
        self.delays += constant and picture > 0 and p.delay != r.delay
        self.time = r.time

    def breaches(self):
        return sum(often for rule, (often, _) in self.counts.items() if not is_warning(rule))

    def warnings(self):
        return sum(often for rule, (often, _) in self.counts.items() if is_warning(rule))

    def end(self, pictures, frames, groups, size):
        for rule, (often, first) in sorted(self.counts.items()):
            self.put('count', rule, often, first)
        self.put('end', pictures, frames, groups, size, self.breaches(), self.failures, self.warnings(),
                 min(self.lows, default=0), max(self.highs, default=0), self.delays, self.time)
