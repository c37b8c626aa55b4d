"""Where things go: how wide a tick is, on which level a label stands, in which row a bar lies. All in the picture's units."""
from collections import defaultdict

NARROW, WIDE = 24, 34  # of a tick's box
CROWD = 7  # labels above each other at one place, and those that a long label may go over


def text_width(text, size=11):
    """An upper estimate, since the viewer picks the font."""
    return len(text) * size * 0.6


def label_width(label):
    """From the mark's middle, which is where the label's own line is."""
    return 8 + text_width(label)


def groups_of(marks, more):
    """Marks by their place. Of a crowd the first ones stay, and 'more' makes the mark that counts the others."""
    groups = defaultdict(list)
    for mark in marks:
        groups[mark.at].append(mark)
    for at, group in groups.items():
        if len(group) > CROWD:
            groups[at] = group[:CROWD - 1] + [more(group[CROWD - 1:])]
    return groups


def levels(groups, width):
    """Each mark with its level over the boxes, 0 lowest, and its label; and how many levels there are. The marks of one place stand on one line down to
    the boxes, in order from the top, each with its label to the right. From right to left, each label goes over the lines that it reaches, so that no
    line crosses a label. One that would come too high that way is cut to its short form, which reaches no other line when boxes are wide."""
    top, placed = {}, []
    for at in sorted(groups, reverse=True):
        level = -1
        for mark in reversed(groups[at]):
            for label in (mark.label, mark.short):
                reach = range(at + 1, at + 1 + int((label_width(label) + 5) // width))
                over = max([level] + [top[right] for right in reach if right in top]) + 1
                if over < CROWD:
                    break
            level = over
            placed.append((mark, level, label))
        top[at] = level
    return placed, max(top.values(), default=-1) + 1


def tick_width(lanes):
    """Narrow boxes, unless a label would have to be cut with them."""
    for groups in lanes:
        if any(label != mark.label for mark, _, label in levels(groups, NARROW)[0]):
            return WIDE
    return NARROW


def rows(spans):
    """The row of each span (start, end), packed so that none overlap in a row, and how many rows there are. Spans come by rising start."""
    ends, chosen = [], []
    for start, end in spans:
        row = next((row for row, taken in enumerate(ends) if taken <= start), len(ends))
        ends[row:row + 1] = [end]
        chosen.append(row)
    return chosen, len(ends)


def fitting(texts, room, size=11):
    """The first of the texts that fits in the room, or none."""
    return next((text for text in texts if text_width(text, size) <= room), '')
