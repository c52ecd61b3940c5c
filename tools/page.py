"""A page that shows a trace around the record of an answer: one lane for each thread, tasks as bars along an order of the
records, waits below them, dependences as arrows. It needs no network, and a script only to scroll."""
from html import escape

from chosen import Chosen
from explanations import few, lines_of, lines_of_order
from sheet import ROW, Sheet, element, labels_of, title

# The answers after which there are records that can be drawn.
DRAWN = ('yes', 'no', 'malformed')
# A sheet that is wider has a small picture of the whole above it.
WIDE, SMALL_LANE, SMALLEST = 1400, 16, 40

STYLE = '''
body { font: 14px sans-serif; margin: 16px; color: #222; }
h1 { font-size: 20px; }
pre { white-space: pre-wrap; background: #f6f6f6; padding: 8px; }
.sheet { overflow: auto; max-height: 85vh; border: 1px solid #ccc; display: flex; }
.sheet svg { flex: none; }
.names { position: sticky; left: 0; z-index: 1; flex: none; width: 86px; background: #fff; border-right: 1px solid #ccc; }
.names div { height: 56px; line-height: 56px; margin-bottom: 8px; padding-left: 8px; }
.lane { fill: #fafafa; stroke: #ddd; }
.bar { fill: #9db8d9; stroke: #5b7da8; }
.bar.root { fill: #e4e4e4; stroke: #bbb; }
.region { fill: none; stroke: #7a4fa3; stroke-dasharray: 5 2; }
.bar.lit { fill: #f2a33c; stroke: #a85f00; stroke-width: 2; }
.wait { stroke: #5a9a5a; stroke-width: 3; }
.wait.lit { stroke: #c62828; }
.record { fill: #555; }
.record.shown { fill: #a85f00; }
.record.named { fill: #c62828; stroke: #fff; stroke-width: 2; }
.at { stroke: #c62828; stroke-dasharray: 4 3; }
.leader { stroke: #a85f00; stroke-dasharray: 1 3; }
.label { fill: #a85f00; paint-order: stroke; stroke: #fff; stroke-width: 3px; }
.label.named { fill: #c62828; font-weight: bold; }
.gap { fill: #f0ead8; stroke: #c9b98a; stroke-dasharray: 6 4; }
.left-out { text-anchor: middle; font-weight: bold; fill: #6b5a1e; }
.dependence { fill: none; stroke: #888; marker-end: url(#head); }
.waited { fill: none; stroke: #5a9a5a; stroke-width: 0.7; marker-end: url(#head-waited); }
.dependence.late, .waited.late { stroke: #c62828; marker-end: url(#head-lit); }
.dependence.lit, .waited.lit { stroke: #c62828; stroke-width: 2; marker-end: url(#head-lit); }
.others { display: none; }
#all:checked ~ .sheet .others { display: inline; }
text { font: 11px sans-serif; }
.texts { position: relative; font: 11px sans-serif; color: #a85f00; }
.texts span { position: absolute; white-space: nowrap; }
.texts .named { color: #c62828; font-weight: bold; }
.small { position: relative; border: 1px solid #ccc; margin-bottom: 6px; }
.small svg { display: block; width: 100%; max-height: 200px; }
.small .at, .small .leader { stroke-width: 2; stroke-dasharray: none; vector-effect: non-scaling-stroke; }
.small .bar { stroke: none; }
.small .view { position: absolute; top: -3px; bottom: -3px; border: 2px solid #444; border-radius: 3px; }
.key span { display: inline-block; margin-right: 18px; }
.key i { display: inline-block; width: 22px; height: 10px; margin-right: 5px; }
'''
SCRIPT = '''const at = document.getElementById("named"), sheet = document.querySelector(".sheet");
if (at) at.scrollIntoView({inline: "center", block: "nearest"});
const small = document.querySelector(".small"), view = document.querySelector(".view");
function show() {
  view.style.left = 100 * sheet.scrollLeft / sheet.scrollWidth + "%";
  view.style.width = 100 * sheet.clientWidth / sheet.scrollWidth + "%";
}
if (small) {
  small.onclick = it => {
    const part = (it.clientX - small.getBoundingClientRect().left) / small.clientWidth;
    sheet.scrollLeft = part * sheet.scrollWidth - sheet.clientWidth / 2;
  };
  sheet.onscroll = show;
  show();
}'''
# What the marks of a sheet mean, each with whether the sheet has some, and its style.
KEY = (('an initial or implicit task runs', lambda sheet: True, 'background:#e4e4e4'),
       ('an explicit task runs', lambda sheet: True, 'background:#9db8d9'),
       ('the unfinished task runs', lambda sheet: sheet.found.task is not None, 'background:#f2a33c'),
       ('a wait', lambda sheet: True, 'background:#5a9a5a;height:3px'),
       ('the named record', lambda sheet: sheet.found.line, 'background:#c62828'),
       ('a region inside another', lambda sheet: sheet.has_frames, 'border:1px dashed #7a4fa3'))
KEY_OF_ARROWS = (('a dependence', lambda sheet: True, '#888'), ('a wait for a child', lambda sheet: True, '#5a9a5a'),
                 ('the task is finished only after the named record', lambda sheet: sheet.found.line, '#c62828'))
ALL = '<input type="checkbox" id="all"><label for="all">show %s</label>\n'


def as_they_stand(lines):
    return '<pre>' + escape('\n'.join(lines)) + '</pre>\n' if lines else ''


def key_of(sheet):
    """What the marks and arrows of the sheet mean."""
    marks = [f'<span><i style="{style}"></i>{text}</span>' for text, is_there, style in KEY if is_there(sheet)]
    arrows = [f'<span><b style="color:{colour}">&rarr;</b> {text}</span>' for text, is_there, colour in KEY_OF_ARROWS
              if is_there(sheet)]
    return '<p class="key">' + '\n'.join(marks + arrows) + '</p>'


def what_is_drawn(chosen, sheet):
    """What is drawn of the file, and what is left out."""
    drawn = 'All records are drawn'
    if chosen.left_out():
        drawn = f'{len(chosen.records):,} of {chosen.count:,} records are drawn'
    event = f', in which {chosen.found.event}' if chosen.found.event else ''
    order = 'by the ledger lengths that they name' if chosen.is_malformed else f'in an order that they allow{event}'
    told = [f'{drawn}, from left to right {order}.']
    others = sorted(chosen.trace.contents.threads.keys() - {*chosen.threads})
    if others:
        told.append(f'No record of these threads is near enough to be drawn: {few(others, ", ")}.')
    if sheet.arrows_left_out:
        told.append(f'{sheet.arrows_left_out:,} longer arrows to the named record are left out.')
    return f'<p>{escape(" ".join(told))}</p>\n'


def small_texts(sheet):
    """The labels of the small picture, in rows above it."""
    labels = labels_of(sheet.found, {line: it * WIDE / sheet.width for line, it in sheet.left.items()}, WIDE)
    texts = [element('span', escape(it.text), class_='named' * it.is_named,
                     style=f'left:{100 * it.left / WIDE:.2f}%;top:{ROW * it.row}px') for it in labels]
    rows = max((it.row + 1 for it in labels), default=0)
    return element('div', ''.join(texts), class_='texts', style=f'height:{ROW * rows}px') + '\n'


def small_picture(sheet):
    """The whole sheet in the width of the window, where it is wider."""
    if sheet.width <= WIDE:
        return ''
    height = sheet.height - sheet.top
    parts = [element('rect', class_='gap', x=left, y=0, width=width, height=height) for left, width in sheet.bands()]
    parts += [element('rect', class_=kind, x=left, y=top - sheet.top, width=width, height=24)
              for kind, left, top, width in sheet.bars]
    parts += [element('line', title(it.text), class_='at' if it.is_named else 'leader', x1=x, y1=0, x2=x, y2=height)
              for it in sheet.labels for x in [sheet.left[it.record.number]]]
    drawing = element('svg', '\n'.join(parts), xmlns='http://www.w3.org/2000/svg', viewBox=f'0 0 {sheet.width} {height}',
                      preserveAspectRatio='none', style=f'height:{max(SMALL_LANE * len(sheet.tops), SMALLEST)}px')
    return small_texts(sheet) + element('div', drawing + '<div class="view"></div>', class_='small') + '\n'


def sheet_of(chosen, place_of):
    """The sheet with the names of its lanes, and what belongs to it."""
    sheet = Sheet(chosen, place_of)
    drawn = sheet.drawn()
    names = ''.join(f'<div>thread {it}</div>' for it in sheet.tops)
    arrows = 'the arrows of all records, not of the named one alone' if chosen.found.line else 'arrows'
    return (what_is_drawn(chosen, sheet) + key_of(sheet) + small_picture(sheet) + ALL % arrows
            + f'<div class="sheet"><div class="names" style="padding-top:{sheet.top}px">{names}</div>{drawn}</div>\n')


def page(answer, places):
    """The page of an answer, as text."""
    found, sheet, order = answer.found, '', ''
    if answer.kind in DRAWN:
        chosen = Chosen(answer.trace, found)
        answer.trace.progress.say('drawing ..')
        places.look_up(it.value.get('codeptr') for it in chosen.records)
        sheet = sheet_of(chosen, places.of)
    if found.order:
        order = f'<p>{escape(found.order.sentence)}</p>\n' + as_they_stand(lines_of_order(found.order, places.of))
    head, *others = answer.lines_of_others() or ['']
    others = f'<p>{escape(head)}</p>\n{as_they_stand(others)}' if others else ''
    told = ''.join(f'<p>{escape(it)}</p>\n' for it in found.sentences)
    return (f'<!DOCTYPE html>\n<html lang="en"><head><meta charset="utf-8"><title>{escape(found.answer)}</title>'
            f'<style>{STYLE}</style></head><body>\n<h1>{escape(found.answer)}</h1>\n{told}{sheet}'
            f'{as_they_stand(lines_of(found.shown, places.of))}{order}{others}<script>{SCRIPT}</script>\n</body></html>\n')
