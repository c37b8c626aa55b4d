"""Draws a followed run as one SVG picture: a lane a subsystem, a box a tick, marks above the boxes, bars and counts under them."""
from . import layout, shapes
from .facts import Mark, Wait
from .shapes import text

TOP, GAP, LEVEL, BOX, BAR, COUNT = 84, 20, 15, 26, 17, 27
SHUT = 38  # what the word at the end of a shut bar takes
AGAIN, ROOM = 1300, 300  # a wide picture has the lanes' names again every so often, so that they are in sight wherever one looks


class Lane:
    """A subsystem's part of the picture, or with row None that of the events that name no task of the plan."""

    def __init__(self, run, row):
        self.run, self.row = run, row
        more = lambda rest: Mark(rest[0].at, row, 'more', f'and {len(rest)} more', f'+{len(rest)}', rest[0].event, rest[0].text)
        self.groups = layout.groups_of([mark for mark in run.marks if mark.lane == row], more)
        self.bars = []

    def name(self):
        if self.row is None:
            return 'no task of the plan'
        return f'subsystem {self.row}, {self.run.plan.budgets[self.row]} of every {self.run.plan.periods[self.row]}'

    def place(self, top, left, width):
        """Fixes where everything of the lane stands and gives back where it ends."""
        self.top, self.left, self.width = top, left, width
        self.marks, stacked = layout.levels(self.groups, width)
        self.boxes = top + 6 + LEVEL * stacked
        if self.row is None:
            self.bottom = self.boxes + 2
            return self.bottom
        self.bars, count = self.bars_of()
        self.counts = self.boxes + BOX + 4 + BAR * count
        self.bottom = self.counts + COUNT
        return self.bottom

    def x(self, at):
        return self.left + at * self.width

    def bars_of(self):
        """Holds and waits with their rows, and how many rows."""
        owners = self.run.plan.owners
        found = [item for item in self.run.holds + self.run.waits if owners[item.task] == self.row]
        found.sort(key=lambda item: item.start)
        spans = [(self.x(item.start), self.bar_end(item) + (SHUT if item.how == 'shut' else 0)) for item in found]
        chosen, count = layout.rows(spans)
        return list(zip(found, chosen)), count

    def reach(self):
        """How far to the right the texts of the lane may go."""
        ends = [self.x(mark.at) + layout.label_width(label) for mark, _, label in self.marks]
        if self.row is not None:
            ends += [self.x(period.first) + layout.text_width(counted(period, self.width)) for period in self.run.periods(self.row)[-1:]]
            ends += [self.bar_end(item) + SHUT for item, _ in self.bars if item.how == 'shut']
        return max(ends, default=0) + 16

    def bar_end(self, item):
        end = len(self.run.ticks) if item.end is None else item.end
        return max(self.x(end), self.x(item.start) + 5)


def counted(period, width):
    """What was charged of the budget, written closer in a period of one tick."""
    if not period.complete:
        return f'{period.charged} / {period.budget} so far'
    room = (period.end - period.first) * width
    return layout.fitting([f'{period.charged} / {period.budget}'], room) or f'{period.charged}/{period.budget}'


def picture(run, plan_name, events_name):
    """The whole picture as text."""
    lanes = [Lane(run, row) for row in range(len(run.plan.periods))]
    if any(mark.lane is None for mark in run.marks):
        lanes.insert(0, Lane(run, None))
    width = layout.tick_width([lane.groups for lane in lanes])
    left = 24 + int(max(layout.text_width(lane.name(), 12.5) for lane in lanes))
    bottom = TOP + (14 if left + len(run.ticks) * width > AGAIN + ROOM else 0)
    for lane in lanes:
        bottom = lane.place(bottom, left, width) + GAP
    title = f'{plan_name} with {events_name}: {plural(len(run.ticks), "tick")}, {plural(run.event, "event")}'
    right = int(max([910, 32 + layout.text_width(title, 16), left + len(run.ticks) * width + 16] + [lane.reach() for lane in lanes]))
    key, height = shapes.legend(16, bottom + 12, right - 16)
    parts = [shapes.head(right, height, title, summary(run)), *axis(run, lanes, left, width, bottom - GAP)]
    for lane in lanes:
        parts += draw_lane(lane, left + len(run.ticks) * width)
    return '\n'.join(parts + key + ['</svg>', ''])


def plural(count, noun):
    return f'{count} {noun}' + ('' if count == 1 else 's')


def summary(run):
    """What to look for, in a line."""
    shuts = sum(mark.kind == 'shut' for mark in run.marks)
    refusals = sum(mark.kind == 'refused' for mark in run.marks)
    complete = [period for row in range(len(run.plan.periods)) for period in run.periods(row) if period.complete]
    exact = sum(period.charged == period.budget for period in complete)
    return (f'{plural(len(run.waits), "lock")} waited, {plural(shuts, "section")} shut, {plural(refusals, "refusal")}; '
            f'complete periods charged exactly their budget: {exact} of {len(complete)}')


def axis(run, lanes, left, width, bottom):
    """Numbers of the ticks, and a pale column over all lanes for each tick that nobody is charged."""
    parts = [text(left - 8, TOP - 8, 'tick', 'note', 'end')]
    for tick in run.ticks:
        x = left + (tick.number - 1) * width
        if tick.state == 'none':
            tip = f'<title>tick {tick.number}: {tick.text}</title>'
            parts.append(f'<rect class="nobody" x="{x}" y="{lanes[0].top}" width="{width}" height="{bottom - lanes[0].top}">{tip}</rect>')
        parts.append(text(x + width / 2, TOP - 8, tick.number, 'tick5' if tick.number % 5 == 0 else 'tick', 'middle'))
    return parts


def draw_lane(lane, right):
    parts = [f'<line class="rule" x1="16" y1="{lane.top - 4:.9g}" x2="{right:.9g}" y2="{lane.top - 4:.9g}"/>']
    middle = lane.boxes - 3 if lane.row is None else lane.boxes + BOX / 2 + 4
    parts.append(text(lane.left - 12, middle, lane.name(), 'name', 'end'))
    parts += [text(x, lane.top - 9, lane.name(), 'again') for x in range(AGAIN, right - ROOM, AGAIN)]
    if lane.row is not None:
        parts += draw_counts(lane) + draw_boxes(lane) + draw_bars(lane)
    return parts + draw_marks(lane)


def draw_counts(lane):
    """The grid of the periods, the refills, and under each period what was charged of the budget."""
    base = lane.counts
    parts = [text(lane.left - 12, base + 16, 'charged / budget', 'note', 'end')]
    for period in lane.run.periods(lane.row):
        x, end = lane.x(period.first), lane.x(period.end)
        parts.append(f'<line class="{"span" if period.complete else "open"}" x1="{x + 5:.9g}" y1="{base + 5:.9g}" x2="{end - 5:.9g}" y2="{base + 5:.9g}"/>')
        off = period.charged > period.budget or period.complete and period.charged < period.budget
        place = ((x + end) / 2, 'middle') if period.complete else (x + 5, '')
        parts.append(text(place[0], base + 17, counted(period, lane.width), 'off' if off else '', place[1]))
    for at in lane.run.refills(lane.row):
        x = lane.x(at)
        parts.append(f'<line class="grid" x1="{x:.9g}" y1="{lane.top - 4:.9g}" x2="{x:.9g}" y2="{base + 4:.9g}"/>')
        parts.append(shapes.refill(x, base + 5))
    return parts


def draw_boxes(lane):
    parts = [f'<line class="rule" x1="{lane.left:.9g}" y1="{lane.boxes + BOX:.9g}" x2="{lane.x(len(lane.run.ticks)):.9g}" y2="{lane.boxes + BOX:.9g}"/>']
    for tick in lane.run.ticks:
        if tick.sub == lane.row:
            label = 'idle' if tick.task is None else f'T{tick.task}'
            parts.append(shapes.box(lane.x(tick.number - 1), lane.boxes, lane.width, BOX, tick.state, label, f'tick {tick.number}: {tick.text}'))
    return parts


def bar_texts(run, item):
    """The kind of a bar, and its texts from the longest."""
    task, resource = f'T{item.task}', f'R{item.resource}'
    if isinstance(item, Wait):
        why = f'{item.needed} needed, {item.left} left'
        return 'wait', [f'{task} waits for {resource}: {why}', f'{task} {resource}: {why}', f'{task} {resource} waits', f'{task} {resource}', resource]
    if run.plan.kinds[item.resource] == 'L':
        return 'local', [f'{task} holds {resource}', f'{task} {resource}', resource]
    used = f'{item.used}/{run.plan.lengths[item.task, item.resource]}'
    return 'global', [f'{task} holds {resource} {used}', f'{task} {resource} {used}', f'{resource} {used}', resource]


def draw_bars(lane):
    parts = []
    for item, row in lane.bars:
        x, end, y = lane.x(item.start), lane.bar_end(item), lane.boxes + BOX + 4 + BAR * row
        parts.append(shapes.bar(x, y, end - x, *bar_texts(lane.run, item)))
        if item.how == 'shut':
            parts.append(shapes.shut_end(end, y))
    return parts


def draw_marks(lane):
    parts, lines = [], {}
    for mark, level, label in lane.marks:
        x, y = lane.x(mark.at), lane.boxes - 8 - LEVEL * level
        low, kind = (lane.boxes + BOX + 2, 'shutline') if mark.kind == 'shut' else (lane.boxes, 'lead')
        lines.setdefault((x, kind), [y, low])[0] = y
        parts.append(shapes.mark(x, y, mark.kind, label, f'event {mark.event}, {mark.label}: {mark.text}'))
    drawn = [f'<line class="{kind}" x1="{x:.9g}" y1="{y:.9g}" x2="{x:.9g}" y2="{low:.9g}"/>' for (x, kind), (y, low) in lines.items()]
    return drawn + parts
