"""Reads a plan, its events and the printed lines of its run. What cannot belong together by its form alone is refused here."""
import re
from collections import namedtuple

Plan = namedtuple('Plan', 'periods budgets owners kinds lengths')  # lengths: (task, resource) to the declared length
Event = namedtuple('Event', 'kind task resource')  # a line that is no event has kind None
Line = namedtuple('Line', 'answer sub task ended text')  # None for '-', ended a list

NUMBER = '(0|[1-9][0-9]{0,4})'
PLAN_LINE = {
    'S': re.compile(rf'S\t{NUMBER}\t{NUMBER}\n'),
    'T': re.compile(rf'T\t{NUMBER}\n'),
    'R': re.compile(r'R\t([LG])\n'),
    'U': re.compile(rf'U\t{NUMBER}\t{NUMBER}\t{NUMBER}\n'),
}
EVENT_LINE = re.compile(rf'(?:(release|end)\t{NUMBER}|(lock|unlock)\t{NUMBER}\t{NUMBER}|(tick))\n')
PRINTED_LINE = re.compile(r'([0-9]{1,7}) ([0-9]{1,2}) (-|[0-9]) (-|[0-9]{1,2}) (-|[0-9]{1,2}(?:,[0-9]{1,2})*)\n')
REFUSED_PLAN = re.compile(r'plan ([0-9]+) ([0-9]+)\n?')

# The answers that an event of each kind can get.
ANSWERS = {
    'release': (0, 2, 3),
    'lock': (0, 1, 2, 4, 5, 6, 9),
    'unlock': (0, 2, 4, 7),
    'end': (0, 2, 4, 8),
    'tick': (0, 10),
    None: (11,),
}


class Unfit(Exception):
    """Input that does not fit together, with the message for the reader."""


def need(holds, message):
    if not holds:
        raise Unfit(message)


def lines_of(path):
    """The lines of a file with their line feeds. Latin-1 takes any byte, and only a line feed ends a line."""
    try:
        with open(path, 'rb') as file:
            return re.findall(r'[^\n]*\n|[^\n]+', file.read().decode('latin-1'))
    except OSError as what:
        raise Unfit(f'cannot read {path}: {what.strerror}') from None


def read(plan_path, events_path, printed_path):
    """Plan, events and printed lines, as many lines as events."""
    printed = lines_of(printed_path)
    refused = REFUSED_PLAN.fullmatch(printed[0]) if printed else None
    if refused:
        raise Unfit(f'the plan was refused: the printed line is "plan {refused[1]} {refused[2]}"')
    plan = read_plan(lines_of(plan_path))
    events = [read_event(line) for line in lines_of(events_path)]
    need(len(events) == len(printed), f'{len(events)} events, but {len(printed)} printed lines')
    return plan, events, [read_printed(plan, n, *pair) for n, pair in enumerate(zip(events, printed), 1)]


def read_plan(lines):
    """The rows of a plan. Whether it is admitted is for the run program to say; here only what the picture stands on is asked."""
    plan = Plan([], [], [], [], {})
    for number, line in enumerate(lines, 1):
        form = PLAN_LINE.get(line[0])
        match = form and form.fullmatch(line)
        need(match and add_row(plan, line[0], match.groups()), f'line {number} of the plan does not belong in an accepted plan')
    need(plan.periods, 'the plan has no S line')
    return plan


def add_row(plan, kind, fields):
    """Adds a row to the plan and says whether it could."""
    if kind == 'R':
        plan.kinds.append(fields[0])
        return True
    fields = [int(field) for field in fields]
    if kind == 'S':
        plan.periods.append(fields[0])
        plan.budgets.append(fields[1])
        return 1 <= fields[1] <= fields[0] <= 10000 and len(plan.periods) <= 8
    if kind == 'T':
        plan.owners.append(fields[0])
        return fields[0] < len(plan.periods)
    task, resource, length = fields
    plan.lengths[task, resource] = length
    return task < len(plan.owners) and resource < len(plan.kinds)


def read_event(line):
    match = EVENT_LINE.fullmatch(line)
    if not match:
        return Event(None, None, None)
    single, only, double, task, resource, tick = match.groups()
    if tick:
        return Event(tick, None, None)
    if single:
        return Event(single, int(only), None)
    return Event(double, int(task), int(resource))


def read_printed(plan, number, event, text):
    """A printed line, which must have the number of its event, an answer that the event can get and rows that the plan has."""
    match = PRINTED_LINE.fullmatch(text)
    need(match, f'printed line {number} is not a line of a run')
    need(match[1] == str(number), f'printed line {number} has the event number {match[1]}')
    answer = int(match[2])
    name = event.kind or 'line that is no event'
    need(answer in ANSWERS[event.kind], f'event {number} is a {name}, which cannot get the answer {answer}')
    sub, task = (None if field == '-' else int(field) for field in match.group(3, 4))
    need(sub is None or sub < len(plan.periods), f'printed line {number} names subsystem {sub}, which the plan lacks')
    ended = [] if match[5] == '-' else [int(row) for row in match[5].split(',')]
    for row in ended + ([] if task is None else [task]):
        need(row < len(plan.owners), f'printed line {number} names task {row}, which the plan lacks')
    need(task is None or plan.owners[task] == sub, f'printed line {number} has task {task} in a subsystem that is not its own')
    need(ended == sorted(set(ended)), f'printed line {number} has ended tasks that do not rise')
    need(bool(ended) == (answer == 10), f'printed line {number}: tasks are ended with the answer 10 and only then')
    return Line(answer, sub, task, ended, text.rstrip('\n'))
