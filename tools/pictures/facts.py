"""What the three files tell about a run, without the rules of the choice: who was charged and who ran is printed; what a task holds or waits for
follows from the answers to its locks, unlocks and ends, from the sets of tasks ended, and from the ticks in which it runs."""
from collections import namedtuple

from .files import need

Tick = namedtuple('Tick', 'number event sub task state text')  # state: ran, section, waits (task is then the waiting one), idle, none
Mark = namedtuple('Mark', 'at lane kind label short event text')  # at: ticks before it; lane None for an event of no task of the plan
Period = namedtuple('Period', 'first end charged budget complete')  # ticks before its first and before its end


class Hold:
    """A resource held from one place between ticks to another. The end is None, and how too, while the run shows none."""

    def __init__(self, task, resource, start):
        self.task, self.resource, self.start = task, resource, start
        self.end, self.how, self.used = None, None, 0


class Wait:
    """A lock that waits. Needed is the declared length; left is what the lines leave of the period's budget at the lock."""

    def __init__(self, task, resource, start, needed, left):
        self.task, self.resource, self.start, self.needed, self.left = task, resource, start, needed, left
        self.end, self.how, self.paid = None, None, 0


class Run:
    def __init__(self, plan):
        self.plan = plan
        self.ticks, self.marks, self.holds, self.waits = [], [], [], []
        self.awake = set()  # released and not ended
        self.held = [[] for _ in plan.owners]  # each task's holds in the order taken
        self.holder = {}  # resource to the task that holds it
        self.waiting = {}  # task to its wait
        self.event = 0
        self.text = ''

    def need(self, holds, message):
        need(holds, f'event {self.event}, printed "{self.text}": {message}')

    def mark(self, kind, label, short, task):
        known = task is not None and task < len(self.plan.owners)
        lane = self.plan.owners[task] if known else None
        self.marks.append(Mark(len(self.ticks), lane, kind, label, short, self.event, self.text))

    def section(self, task):
        """The hold on a global resource, which can only be the one taken last."""
        last = self.held[task][-1:]
        return last[0] if last and self.plan.kinds[last[0].resource] == 'G' else None

    def left(self, sub):
        """Budget less what was charged in the period under way."""
        first = len(self.ticks) - len(self.ticks) % self.plan.periods[sub]
        return self.plan.budgets[sub] - sum(tick.sub == sub for tick in self.ticks[first:])

    def periods(self, sub):
        """Every period of a subsystem that has at least one tick. All begin together, and each is as long as the plan says."""
        length, count = self.plan.periods[sub], len(self.ticks)
        found = []
        for first in range(0, count, length):
            end = min(first + length, count)
            charged = sum(tick.sub == sub for tick in self.ticks[first:end])
            found.append(Period(first, end, charged, self.plan.budgets[sub], first + length <= count))
        return found

    def refills(self, sub):
        """Places, in ticks before them, at which the subsystem's budget is set full: after the last tick of each complete period."""
        return [period.end for period in self.periods(sub) if period.complete]


def follow(plan, events, lines):
    """Goes through the events with their lines, and refuses a line that contradicts the ones before it."""
    run = Run(plan)
    for number, (event, line) in enumerate(zip(events, lines), 1):
        run.event, run.text = number, line.text
        if event.kind == 'tick':
            tick(run, line)
        elif line.answer in (0, 1):
            {'release': release, 'lock': lock, 'unlock': unlock, 'end': end}[event.kind](run, event, line)
        else:
            refused(run, event, line.answer)
    return run


def name(event):
    if event.kind is None:
        return 'no event'
    resource = '' if event.resource is None else f' R{event.resource}'
    return f'{event.kind} T{event.task}{resource}'


def known(run, event):
    """An event that was done has rows of the plan, and a task that does not wait: a waiting task does not run."""
    run.need(event.task < len(run.plan.owners), f'the plan has no task {event.task}')
    run.need(event.resource is None or event.resource < len(run.plan.kinds), f'the plan has no resource {event.resource}')
    run.need(event.task not in run.waiting, f'task {event.task} waits and cannot do this')


def refused(run, event, answer):
    missing = event.kind is not None and (
        event.task >= len(run.plan.owners) or event.resource is not None and event.resource >= len(run.plan.kinds))
    run.need(event.kind is None or missing == (answer == 2), 'the answer is 2 exactly when a row is missing')
    run.need(answer != 3 or event.task in run.awake, f'task {event.task} is idle and can be released')
    run.need(answer != 5 or (event.task, event.resource) not in run.plan.lengths, 'the resource is declared')
    run.need(answer != 8 or run.held[event.task], f'task {event.task} holds nothing')
    run.mark('refused', f'{answer}: {name(event)}', str(answer), event.task)


def release(run, event, _line):
    known(run, event)
    run.need(event.task not in run.awake, f'task {event.task} was released before and has not ended')
    run.awake.add(event.task)
    run.mark('release', name(event), f'T{event.task}', event.task)


def lock(run, event, line):
    """The task that asks is the running one. It goes on if it takes the resource, and nothing runs if it waits, which the line shows too."""
    known(run, event)
    task, resource, taken = event.task, event.resource, line.answer == 0
    run.need(task in run.awake, f'task {task} is idle')
    run.need((task, resource) in run.plan.lengths, f'task {task} does not declare resource {resource}')
    run.need(run.section(task) is None, f'task {task} holds a global resource')
    run.need(line.sub == run.plan.owners[task], f'after the lock the subsystem of task {task} is the chosen one')
    run.need(line.task == (task if taken else None), f'after the lock {"task %d" % task if taken else "nothing"} runs')
    if taken:
        take(run, task, resource)
        run.mark('lock', name(event), f'R{resource}', task)
        return
    run.need(run.plan.kinds[resource] == 'G', f'resource {resource} is local, for which no lock waits')
    wait = Wait(task, resource, len(run.ticks), run.plan.lengths[task, resource], run.left(run.plan.owners[task]))
    run.waiting[task] = wait
    run.waits.append(wait)
    run.mark('wait', name(event) + ': waits', f'R{resource}', task)


def take(run, task, resource):
    run.need(resource not in run.holder, f'resource {resource} is held by task {run.holder.get(resource)}')
    run.holder[resource] = task
    hold = Hold(task, resource, len(run.ticks))
    run.held[task].append(hold)
    run.holds.append(hold)


def give(run, hold, how):
    hold.end, hold.how = len(run.ticks), how
    run.held[hold.task].remove(hold)
    del run.holder[hold.resource]


def unlock(run, event, _line):
    known(run, event)
    last = run.held[event.task][-1:]
    run.need(last and last[0].resource == event.resource, f'resource {event.resource} is not the one that task {event.task} took last')
    give(run, last[0], 'unlock')
    run.mark('unlock', name(event), f'R{event.resource}', event.task)


def end(run, event, _line):
    known(run, event)
    run.need(event.task in run.awake, f'task {event.task} is idle')
    run.need(not run.held[event.task], f'task {event.task} holds a resource')
    run.awake.remove(event.task)
    run.mark('end', name(event), f'T{event.task}', event.task)


def tick(run, line):
    """Sections are shut first, (a), then a waiting task may take its resource, (b), then the tick is charged, (c)."""
    for task in line.ended:
        shut(run, task)
    run.need(line.task is None or line.task in run.awake, f'task {line.task} runs, but it is idle')
    state, task = spent_on(run, line)
    run.ticks.append(Tick(len(run.ticks) + 1, run.event, line.sub, task, state, line.text))


def shut(run, task):
    """Only the holder of a global resource is ended by a tick; everything else that it holds is freed with it."""
    section = run.section(task)
    run.need(section, f'task {task} is ended, but it holds no global resource')
    run.mark('shut', f'R{section.resource} shut, T{task} ended', f'R{section.resource}', task)
    for hold in list(run.held[task]):
        give(run, hold, 'shut')
    run.awake.remove(task)


def spent_on(run, line):
    """What the charged tick was spent on, and the task. The lines do not say when a waiting task takes its resource: it cannot run without it and takes
    it at (b) of a tick, so that is the first tick after the lock that prints the task. A tick that charges the subsystem of a waiting task and prints no
    task is spent on the wait, since no other task is taken there meanwhile."""
    if line.sub is None:
        return 'none', None
    waiting = [task for task in run.waiting if run.plan.owners[task] == line.sub]
    run.need(len(waiting) < 2, f'two tasks of subsystem {line.sub} wait')
    if line.task is None:
        for task in waiting:
            run.waiting[task].paid += 1
            return 'waits', task
        ready = [task for task in sorted(run.awake) if run.plan.owners[task] == line.sub]
        run.need(not ready, f'nothing runs, although task {ready and ready[0]} could')
        return 'idle', None
    run.need(waiting in ([], [line.task]), f'task {line.task} runs while another task of its subsystem waits')
    if waiting:
        wait = run.waiting.pop(line.task)
        wait.end = len(run.ticks)
        take(run, line.task, wait.resource)
        run.mark('lock', f'T{line.task} gets R{wait.resource}', f'R{wait.resource}', line.task)
    section = run.section(line.task)
    if section:
        section.used += 1
    return 'section' if section else 'ran', line.task
