"""The text of the page that says what a judge takes for right (`judged_page.py`): one HTML file, of which only the style is another's.

So a page has no scripts and leads nowhere. Text of captures is escaped, and stands in `<bdi>`."""

import html
import re
from collections import Counter
from itertools import groupby
from pathlib import Path

from tests.captures.wire import PTR, SECOND, SRV
from tests.judges.axis import day
from tests.judges.causes import LOST
from tests.judges.lanes import bases_of, counts_of, height_of, ticks_of
from tests.judges.lines import addresses_of, sets_of, wire_of
from tests.judges.listeners import untold_of, warnings_of
from tests.judges.meanings import table_of
from tests.judges.pretty import date_of, duration, is_apart, millis, shown_label, words_below, words_of
from tests.judges.shown import shown, shown_name
from tests.judges.words import name_text
from tests.running.runs import difference

# The groups whose rows aren't of instances, and what these are.
HOSTS, APART = "Addresses of hosts", "Names that aren't one label and the type"
KINDS = {HOSTS: ("address", "addresses"), APART: ("name", "names")}

# Of each row the last lives are in words.
IN_WORDS = 3

DAY = 86_400
STEPS = (1, 2, 5, 10, 15, 30, 60, 120, 300, 600, 900, 1800, 3600, 7200, 10_800, 21_600, 43_200)

# How many steps the axis has at most, whole ones.
MOST_STEPS = 7

# Labels nearer to an end of the axis are left out.
LABELED = range(30, 971)

NOTE = ["Times are UTC, cut off at seconds.", "A bar begins when the record was first heard; it may have stood before.",
        "A goodbye ends it one second later, unless it is announced again before.", "Heard 3×: in three different seconds."]
TITLES_NOTE = "Point at a bar for milliseconds."
LANES_NOTE = "The lanes of ticks are the captures, ① on top."
LARGE_NOTE = ("With more than 1,000 instances, the ticks of hearings, the addresses of hosts and names that are not one label "
              "and the type are left out.")
KEY = [("live", ["b M0 9H26"]), ("ended by goodbye", ["b M0 9H20", "m1 M20 2V14", "h1 M20 2h.01"]),
       ("expired: not heard again", ["b M0 9H20", "m2 M20 2V14"]),
       ("flushed by other data", ["b M0 9H20", "m3 M20 2V14", "h3 M20 2h.01"]), ("its server (SRV) live", ["s M0 9H26"])]
LANES_KEY = [("heard, while recording", ["n M0 11H26", "t M4 6v5M9 6v5M20 6v5"]),
             ("goodbye heard", ["n M0 11H26", "z M13 6v5"])]

# How instances ended, in this order.
ENDS = {"goodbye": "by goodbye", "flushed": "by flush", "expired": "expired"}

GOING_ON = {"goodbye": "still live, said goodbye", "flushed": "still live, flushed", "expired": "still live"}

# The classes of pins and of their heads, and what they say.
PINS = (("m1", "goodbye", "h1"), ("m2", "expired", None), ("m3", "flushed", "h3"))

# All before the lead, with names in braces in the places of what differs.
HEAD = Path(__file__).with_name("page_head.html").read_text("utf-8")
STYLE = re.compile(r"<style>\n(.*\n)li>svg\{height:\d+px\}\n</style>", re.S)
AXIS = '<svg class="x" aria-hidden="true"><use href="#x"/></svg>'
DRAWN = 'preserveAspectRatio="none" aria-hidden="true"'


def differences(text, judge):
    """The lines in which a page isn't what a judge takes for right, each of which begins with an element."""
    return difference("  the page", *(one.replace("><", ">\n<") for one in (page_text(judge, style_of(text)), text)))


def style_of(text):
    """The style of a page; nothing of what has none, or of one that may lead elsewhere."""
    found = STYLE.search(text)
    return found[1] if found and not re.search(r"url|import|[<&]", found[1]) else ""


def own(text):
    """Text of the page itself, in ASCII."""
    return text.encode("ascii", "xmlcharrefreplace").decode()


def bdi(text):
    """Text of a capture, apart from the direction of what is around it."""
    return f"<bdi>{html.escape(text).replace('&#x27;', '&#39;')}</bdi>"


def name_bdi(text):
    """The name of a file, or a word that is asked about."""
    return bdi(shown(text.encode()))


def counted(count, one, many=None):
    return f"{count:,} {one if count == 1 else many or f'{one}s'}"


def path(of_class, form, places, title=None):
    """A path that draws a form at places, each one number or two; nothing without places."""
    drawn = "".join(form.format(*(place if isinstance(place, tuple) else (place,))) for place in places)
    return path_of(of_class, drawn, title) if drawn else ""


def path_of(of_class, drawn, title=None):
    return f'<path class="{of_class}" d="{drawn}"' + ("/>" if title is None else f"><title>{title}</title></path>")


def group_text(is_open, head, items):
    return f"<details{' open' * is_open}><summary>{head}</summary><ul>\n{''.join(items)}</ul></details>\n"


def page_text(judge, style):
    """The text of a page of some style."""
    return "".join((
        head_text(judge, style), lead_text(judge),
        '<nav><a href="#captures">Captures</a><a href="#timeline">Timeline</a><a href="#live">What was live</a>'
        '<a href="#nothing">Skipped packets</a></nav>\n'
        '<h2 id="captures">Captures</h2>\n<div class="g">\n',
        group_text(True, f"<bdi>{counted(len(judge.listeners), 'capture')}</bdi>{AXIS}<small>recorded, and how the file ends</small>",
                   (capture_text(judge, one) for one in judge.listeners)),
        '</div>\n<h2 id="timeline">Timeline</h2>\n', *timeline_text(judge),
        '</div>\n<h2 id="live">What was live' + (f" at <time>{millis(judge.now)}</time>" if judge.now else "") + '</h2>\n<div class="g l">\n',
        *live_text(judge),
        '</div>\n<h2 id="nothing">Skipped and refused packets</h2>\n', table_of(judge.causes),
        "</main></body></html>\n"))


def head_text(judge, style):
    """All before the lead: what the pictures share, too."""
    span = (judge.end - judge.start) // SECOND
    step = next((step for step in STEPS if span // step < MOST_STEPS), DAY * (span // (MOST_STEPS * DAY) + 1))
    first = -(-judge.start // (step * SECOND)) * step
    ticks = {judge.place(second * SECOND): label_of(second * SECOND, step, judge.form)
             for second in range(first, judge.end // SECOND + 1, step)}
    # Every other label with a year is hidden in narrow windows.
    classes = {place: ' class="y"' if len(label) == len("2026-11-22") else "" for place, label in ticks.items()}
    labels = "".join(f'<text{classes[place]} x="{place // 10}.{place % 10}%" y="12">{label}</text>'
                     for place, label in ticks.items() if place in LABELED)
    height, bases = height_of(judge.lanes), bases_of(judge, judge.lanes)
    low, high = (path_of("v", "".join(f"M{place} 0V{bottom}" for place in ticks)) for bottom in (24, height))
    lines = path_of("n", "".join(f"M{start} {base}H{end}" for base, start, end in bases)) if judge.lanes else ""
    title = "Multicast DNS" + (f", {' to '.join(dict.fromkeys(map(day, (judge.start, judge.end))))}" if judge.end else "")
    return HEAD.format(title=title, style=style, height=height, labels=labels, low=low, high=high, lines=lines)


def label_of(moment, step, form):
    """The label of a tick: the day at midnight, with its year if moments have theirs; else the time of day, with seconds if the
    step is less than a minute."""
    if moment // SECOND % DAY == 0:
        return day(moment) if "%Y" in form else day(moment)[5:]
    return date_of(moment).strftime("%H:%M:%S" if step < 60 else "%H:%M")


def lead_text(judge):
    """The sentence on what was live, what the page is about, and the warnings."""
    lasts = [judge.lives[key][-1] for key in judge.known]
    ended = Counter(life.reason for life in lasts if life.until <= judge.now)
    goodbyes = sum(life.until > judge.now and life.reason == "goodbye" for life in lasts)
    said = f" ({goodbyes:,} said goodbye)" if goodbyes else ""
    others = counted(sum(ended.values()), "other")
    before = ", ".join(f"{ended[reason]:,} {how}" for reason, how in ENDS.items() if ended[reason])
    lost = sum(judge.causes[cause] for cause in LOST)
    bounds = "".join(f" {word} <time>{millis(moment)}</time>" for word, moment in (
        ("since", judge.asked.since), ("until", judge.asked.until)) if moment is not None)
    return "".join((
        '<p class="lead">Nothing was heard: mdnswhy files FILE... says why.</p>\n' if judge.is_silent else
        f'<p class="lead">{counted(len(lasts) - sum(ended.values()), "service instance was", "service instances were")} live at '
        f"<time>{millis(judge.now)}</time>{said}." + (f" {others} had ended before: {before}." if before else "") + "</p>\n",
        f'<p class="note">Only lives{bounds} are drawn; counts and words are of all that was heard.</p>\n' if bounds else "",
        f'<p class="note">Only what is about {", ".join(map(name_bdi, judge.about))}.</p>\n' if judge.about else "",
        *(f'<p class="warn">{name_bdi(name)}: {ending}. What came later is missing, goodbyes too.</p>\n' for name, ending in judge.cut),
        *(f'<p class="warn">{name_bdi(one)} beside {name_bdi(other)}: {words}</p>\n' for one, other, words in warnings_of(judge.pairs)),
        *(f'<p class="warn">{words}</p>\n' for words in untold_of(judge.pairs)),
        f'<p class="warn">{counted(lost, "packet")} could not be used: <a href="#nothing">why</a>.</p>\n' if lost else ""))


def capture_text(judge, one):
    """The row of a listener: what it recorded, from when until when, how its files end, and what it heard beside others."""
    counts, ending, compared, beside = judge.counts(one), judge.ending(one), judge.compared(one), judge.beside(one)
    span = f"{judge.short(one.span.first)} – {judge.short(one.span.last)}" if one.span else "no packets"
    # One that recorded before the axis or after it has words alone.
    bar = path("r", "M{} 19H{}", [judge.bar(*one.span)], f"recorded {millis(one.span.first)} to {millis(one.span.last)}") \
        if one.span and judge.draws(one.span) else ""
    return "".join((
        f"<li><div>{own(judge.sign(one))}&#160;{name_bdi(one.name)}"
        f"<small>{counted(counts['packets'], 'packet')}, {counted(counts['hearings'], 'hearing')}</small></div>"
        f'<svg class="c" viewBox="0 0 1000 24" {DRAWN}><use href="#v"/>{bar}</svg>'
        f"<div><p>{own(span)} " + (ending if ending == "whole" else f'<b class="warn">{ending}</b>') + "</p>"
        f"<small>{counts['messages']:,} heard, {counts['skipped']:,} skipped, {counts['refused']:,} refused</small>",
        f"<small>{counted(compared[0], 'message')} alone, {compared[1]:,} missed</small>" if compared else "",
        f"<small>clock beside {own(judge.sign(beside[0]))}&#160;{name_bdi(beside[0].name)}: {beside[1]}</small>" if beside else "",
        "</div></li>\n"))


def by_type(judge, keys):
    """The name of each type, and those of some records that it has."""
    for _, some in groupby(keys, key=lambda key: key[0]):
        some = list(some)
        yield judge.owner(some[0]), some


def timeline_text(judge):
    """The sentences above the timeline, its key, and its groups."""
    note = [*NOTE, *[TITLES_NOTE] * judge.has_titles, *[LANES_NOTE] * (judge.lanes > 1), *[LARGE_NOTE] * judge.is_large]
    yield f'<p class="note">{own(" ".join(note))}</p>\n<p class="key">'
    yield " ".join(f'<span><svg class="k" viewBox="0 0 26 16" {DRAWN}>{"".join(path_of(*stroke.split(" ", 1)) for stroke in strokes)}'
                   f"</svg>{words}</span>" for words, strokes in (KEY + LANES_KEY if judge.lanes else KEY))
    yield '</p>\n<div class="g">\n'
    for name, keys in (*by_type(judge, judge.drawn), (HOSTS, judge.hosts), (APART, judge.apart)):
        if keys:
            count = counted(len(keys), *KINDS.get(name, ("instance", "instances")))
            head = f"{bdi(name)}{AXIS}<small>{count}, {sum(map(judge.is_live, keys)):,} live</small>"
            yield group_text(judge.is_open, head, (row_text(judge, key) for key in keys))


def row_text(judge, key):
    """A row: its name, an address of a host, in how many seconds captures heard it, its picture, and its last lives in words."""
    line, lives, seconds = judge.line(key), judge.lives[key], [seconds.get(key, []) for seconds in judge.seconds]
    name, address = judge.owner(key), f" <code>{words_of(line)[0]}</code>"
    if key[1] == PTR:
        name, address = (shown_name if is_apart(line) else shown_label)(name_text(judge.accounts[key].hearings[-1].data)), ""
    drawn = list(filter(judge.window.meets, lives))
    pins = [path(of_class, form, sorted({judge.bar(life.start, life.until)[1] for life in drawn
                                         if life.until <= min(judge.now, judge.end) and life.reason == cause}))
            for pin, cause, head in PINS for of_class, form in ((pin, "M{} 4V17"), (head, "M{} 4h.01")) if of_class]
    ticks = [path(kind, f"M{{}} {top}v5", places) for kind, top, places in ticks_of(seconds, judge.lanes, judge.window, judge.place)]
    earlier = f"<small>{len(lives) - IN_WORDS:,} earlier</small>" if len(lives) > IN_WORDS else ""
    return "".join((
        f"<li><div>{bdi(name)}{address}<small>heard {own(heard_text(counts_of(seconds)))}</small></div>"
        f'<svg viewBox="0 0 1000 {height_of(judge.lanes)}" {DRAWN}><use href="#g"/>',
        bars_text(judge, "b", "M{} 12H{}", drawn),
        *(bars_text(judge, "s", "M{} 19H{}", filter(judge.window.meets, some), "server ") for some in judge.servers_of(key)),
        *pins, *ticks, f"</svg><div>{earlier}", *(life_text(judge, life) for life in lives[-IN_WORDS:]), "</div></li>\n"))


def bars_text(judge, of_class, form, lives, word=""):
    """The bars of lives: each a path with a title, or all one path."""
    if not judge.has_titles:
        return path(of_class, form, sorted({judge.bar(life.start, life.until) for life in lives}))
    return "".join(path(of_class, form, [judge.bar(life.start, life.until)],
                        f"{word}{millis(life.start)} to {millis(life.until)}, {duration(life.until - life.start)}: {how(judge, life)}")
                   for life in lives)


def how(judge, life):
    back = "" if life.taken_back is None else f", goodbye at {millis(life.taken_back)[11:]} taken back"
    return (GOING_ON[life.reason] if life.until > judge.now else life.reason) + back


def life_text(judge, life):
    """A life in words. The end on the day of its start is a time of day."""
    if life.until > judge.now:
        return f"<p>{judge.short(life.start)} &#8211; <b>{how(judge, life)}</b></p>"
    until = date_of(life.until).strftime("%H:%M:%S") if day(life.start) == day(life.until) else judge.short(life.until)
    return f"<p>{judge.short(life.start)} &#8211; {until} {how(judge, life)}</p>"


def heard_text(heard):
    """In how many seconds captures heard a record, and in how many of these its goodbye: in each, or in all of many together."""
    def times(count, goodbyes):
        ended = counted(goodbyes, "goodbye").replace(" ", "\xa0")
        return f"{count:,}×" + (f" ({ended})" if goodbyes else "")

    if not isinstance(heard[-1], tuple):
        together, count, of_all = heard
        return f"{times(*together)} in {count:,} of {of_all:,} captures"
    return ", ".join(f"{chr(0x2460 + place)} {times(*some) if some[0] else '<b>never</b>'}" for place, some in enumerate(heard))


def live_text(judge):
    """What was live at the end: the groups of the instances of the timeline that were."""
    sets = sets_of(judge.line(key) for key in judge.accounts if judge.is_live(key))
    for name, keys in by_type(judge, filter(judge.is_live, judge.known)):
        yield group_text(judge.is_open, bdi(name) + "<small>server, addresses</small><small>text</small>",
                         (live_row_text(judge, key, sets) for key in keys))


def live_row_text(judge, key, sets):
    line, life = judge.line(key), judge.lives[key][-1]
    left = "said goodbye" if line.ttl == 0 else f"{duration(life.until - judge.now)} left"
    servers = []
    for server in sets.get((wire_of(line.target), SRV), ()):
        *_, target = server.words
        words, addresses = "  ".join(words_of(server)), [words_of(address)[0] for address in addresses_of(server, sets)]
        servers.append(f"<p>{bdi(shown_name(target))}{words.removeprefix(shown_name(target))}</p>"
                       + " ".join(f"<code>{address}</code>" for address in addresses))
    texts = "".join(f"<p>{bdi(chr(10).join(strings))}</p>" for strings in words_below(line, sets)[max(len(servers), 1):])
    return (f"<li><div>{bdi(shown_label(line.words[0]))}<small>since {judge.short(life.start)}, {left}</small></div>"
            f"<div>{''.join(servers) or '<p>unresolved</p>'}</div><div>{texts}</div></li>\n")
