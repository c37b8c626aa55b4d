"""The shapes of the picture and its legend. Shapes, hatching and lightness tell things apart, so that nothing hangs on colour alone."""
from xml.sax.saxutils import escape

from . import layout

INK, ALARM = '#22303c', '#b3400a'
COLUMN = 218  # of the legend

STYLE = f'''
text {{ font-family: sans-serif; font-size: 11px; fill: {INK}; }}
.title {{ font-size: 16px; font-weight: bold; }} .summary {{ font-size: 13px; }}
.name {{ font-size: 12px; font-weight: bold; }} .note {{ font-size: 10.5px; fill: #66727d; }} .again {{ font-size: 10.5px; font-weight: bold; fill: #66727d; }}
.tick {{ font-size: 10px; fill: #66727d; }} .tick5 {{ font-size: 10px; font-weight: bold; }}
.light {{ fill: #ffffff; font-weight: bold; }} .onbar {{ fill: #ffffff; }} .dim {{ font-size: 9px; fill: #66727d; }}
.halo {{ stroke: #ffffff; stroke-width: 3px; stroke-linejoin: round; paint-order: stroke; }}
.ran {{ fill: #cfe1f0; stroke: #54758f; }} .section {{ fill: #2b5f8c; stroke: #1d4265; }}
.waits {{ fill: url(#hatch); stroke: #8a6414; }} .plate {{ fill: #fdf6e3; }} .idle {{ fill: #ffffff; stroke: #9aa5ae; stroke-dasharray: 3 2; }}
.global {{ fill: #2b5f8c; stroke: #1d4265; }} .local {{ fill: #ffffff; stroke: #54758f; stroke-width: 1.5; }}
.wait {{ fill: url(#hatch); stroke: #8a6414; stroke-dasharray: 4 2; }}
.nobody {{ fill: #eef0f2; shape-rendering: crispEdges; }} .rule {{ stroke: #d5dadf; }} .grid {{ stroke: #8d99a4; stroke-dasharray: 2 3; }}
.span {{ fill: none; stroke: #66727d; }} .open {{ fill: none; stroke: #66727d; stroke-dasharray: 3 2; }}
.off {{ font-weight: bold; fill: {ALARM}; }}
.lead {{ stroke: #66727d; }} .shutline {{ stroke: {ALARM}; stroke-width: 2; }}
.solid {{ fill: {INK}; stroke: none; }} .hollow {{ fill: #ffffff; stroke: {INK}; stroke-width: 1.5; }}
.cross {{ fill: none; stroke: {ALARM}; stroke-width: 2; }} .alarm {{ fill: {ALARM}; stroke: #ffffff; }} .alarmtext {{ fill: {ALARM}; font-weight: bold; }}
.white {{ fill: none; stroke: #ffffff; stroke-width: 1.5; }}
'''

HATCH = ('<defs><pattern id="hatch" width="6" height="6" patternUnits="userSpaceOnUse" patternTransform="rotate(45)">'
         '<rect width="6" height="6" fill="#fbeecb"/><rect width="2" height="6" fill="#e0b24a"/></pattern></defs>')


def text(x, y, content, style='', anchor=''):
    style = f' class="{style}"' if style else ''
    anchor = f' text-anchor="{anchor}"' if anchor else ''
    return f'<text x="{x:.9g}" y="{y:.9g}"{style}{anchor}>{escape(str(content))}</text>'


def head(width, height, title, summary):
    clean = ''.join(c if c.isprintable() else '?' for c in title)
    return '\n'.join([
        f'<svg xmlns="http://www.w3.org/2000/svg" width="{width:.9g}" height="{height:.9g}" viewBox="0 0 {width:.9g} {height:.9g}" role="img">',
        f'<title>{escape(clean)}</title>', f'<desc>{escape(summary)}</desc>', f'<style>{STYLE}</style>', HATCH,
        f'<rect width="{width:.9g}" height="{height:.9g}" fill="#ffffff"/>',
        text(16, 26, clean, 'title'), text(16, 46, summary, 'summary')])


def plate(x, y, width):
    """A plain ground for text over hatching."""
    return f'<rect class="plate" x="{x:.9g}" y="{y - 9.5:.9g}" width="{width:.9g}" height="11.5" rx="2"/>'


def box(x, y, width, height, state, label, tip):
    """A tick that was charged."""
    style = {'section': 'light', 'idle': 'dim'}.get(state, '')
    ground = plate(x + width / 2 - 8, y + height / 2 + 4, 16) if state == 'waits' else ''
    return (f'<g><title>{escape(tip)}</title>'
            f'<rect class="{state}" x="{x + 1:.9g}" y="{y + 1:.9g}" width="{width - 2:.9g}" height="{height - 2:.9g}" rx="3"/>'
            f'{ground}{text(x + width / 2, y + height / 2 + 4, label, style, "middle")}</g>')


def bar(x, y, width, kind, texts):
    """A resource held or waited for, with the first of the texts that fits in it."""
    label = layout.fitting(texts, width - 8)
    shape = f'<rect class="{kind}" x="{x + 1:.9g}" y="{y + 0.5:.9g}" width="{width - 2:.9g}" height="14" rx="2"/>'
    if not label:
        return shape
    ground = plate(x + 4, y + 11.5, layout.text_width(label)) if kind == 'wait' else ''
    return shape + ground + text(x + 6, y + 11.5, label, 'onbar' if kind == 'global' else '')


def shut_end(x, y):
    """The end of a hold that was shut."""
    return (f'<path class="cross" d="M{x - 4:.9g} {y + 3:.9g}l9 9m0 -9l-9 9"/>' + text(x + 9, y + 11.5, 'shut', 'alarmtext halo'))


def refill(x, y):
    return f'<path class="solid" d="M{x:.9g} {y - 4:.9g}l4 7h-8z"/>'


def glyph(x, y, kind):
    """The mark of an event, about nine units across."""
    if kind == 'release':
        return f'<path class="solid" d="M{x - 3:.9g} {y - 5:.9g}l8 5l-8 5z"/>'
    if kind == 'end':
        return f'<rect class="solid" x="{x - 4:.9g}" y="{y - 4:.9g}" width="8" height="8"/>'
    if kind == 'lock':
        return f'<circle class="solid" cx="{x:.9g}" cy="{y:.9g}" r="4.5"/>'
    if kind == 'unlock':
        return f'<circle class="hollow" cx="{x:.9g}" cy="{y:.9g}" r="4"/>'
    if kind == 'wait':
        return f'<path class="hollow" d="M{x - 4.5:.9g} {y - 4.5:.9g}h9l-9 9h9z"/>'
    if kind == 'refused':
        return f'<path class="cross" d="M{x - 4:.9g} {y - 4:.9g}l8 8m0 -8l-8 8"/>'
    if kind == 'shut':
        return (f'<rect class="alarm" x="{x - 6:.9g}" y="{y - 6:.9g}" width="12" height="12" rx="2"/>'
                f'<path class="white" d="M{x - 3:.9g} {y - 3:.9g}l6 6m0 -6l-6 6"/>')
    return f'<circle class="solid" cx="{x:.9g}" cy="{y:.9g}" r="2"/>'


def mark(x, y, kind, label, tip):
    style = 'alarmtext halo' if kind == 'shut' else 'halo'
    return f'<g><title>{escape(tip)}</title>{glyph(x, y, kind)}{text(x + 8, y + 4, label, style)}</g>'


def legend_items():
    """Shapes around the origin with the width they take, and words."""
    boxes = (('ran', 'T1', 'task 1 ran'), ('section', 'T1', 'ran in a global section'), ('waits', 'T1', 'spent while task 1 waits'),
             ('idle', 'idle', 'spent with nothing to run'))
    bars = (('global', 'R0 2/3', 'global held, 2 of 3 used'), ('local', 'R1', 'local held'), ('wait', 'R0', 'waits for budget'))
    marks = (('release', 'release'), ('lock', 'lock, taken'), ('wait', 'lock, waits'), ('unlock', 'unlock'), ('end', 'end'),
             ('refused', 'refused, with its number'), ('shut', 'section shut, task ended'))
    items = [(box(0, -14, 24, 20, state, label, words), 24, words) for state, label, words in boxes]
    items.append(('<rect class="nobody" x="1" y="-12" width="22" height="16"/>', 24, 'no subsystem charged'))
    items += [(bar(0, -12, 50, kind, [label]), 50, words) for kind, label, words in bars]
    items += [(glyph(8, -4, kind), 16, words) for kind, words in marks]
    return items + [(refill(8, -3), 16, 'refill, end of a period')]


def legend(left, top, right):
    """The legend in columns, as many as the width has room for, and where it ends."""
    items = legend_items()
    columns = min(max(int((right - left) // COLUMN), 1), 8)
    deep = -(-len(items) // columns)
    parts = []
    for place, (shape, width, words) in enumerate(items):
        x, y = left + COLUMN * (place // deep), top + 12 + 22 * (place % deep)
        parts.append(f'<g transform="translate({x:.9g} {y:.9g})">{shape}{text(width + 6, 0, words)}</g>')
    return parts, top + 22 * deep + 8
