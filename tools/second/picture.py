"""A picture of a history, which tools/draw writes."""

from xml.sax.saxutils import escape

from history import Replay
from objects import Log, TooLarge, Waits

LETTER, LINE, EDGE = 7.3, 17, 8
LEFT, ABOVE, GAP, LANE_GAP = 46, 74, 22, 70
LONGEST = 44
COLOURS = ["#1f6fb4", "#b4491f", "#2f8a3c", "#8a2f86", "#8a7a1f", "#1f8a86", "#b41f4e", "#5a4bc0"]
STYLE = """
text { font: 12px ui-monospace, 'DejaVu Sans Mono', monospace; fill: #222 }
.name { font-weight: bold } .put { fill: #444 } .place { fill: #999 }
.box { fill: #fff; stroke: #555 } .end { fill: #f2f2f2; stroke: #aaa } .cancel { fill: #fff3e0; stroke: #d08000 }
.cancelled { fill: #fff3e0; stroke: #d08000; stroke-dasharray: 5 3 } .stranded { fill: #fdecec; stroke: #c03030; stroke-dasharray: 5 3 }
.lane { stroke: #ddd } .waits { stroke: #d08000; stroke-width: 2; stroke-dasharray: 2 4 } .arrow { fill: none; stroke-width: 1.3 }
"""


def cut(text):
    return text if len(text) <= LONGEST else text[: LONGEST - 1] + "…"


class Box:
    """A commit: its lines of text, and where it stands."""

    def __init__(self, script, commit, values, names):
        self.commit, self.thread = commit, commit.thread
        if commit.number is None:
            command, self.kind = "", "end"
        else:
            command = str(script.threads[commit.thread][commit.number])
            self.kind = {"cancelled": "cancelled", "stranded": "stranded"}.get(commit.reply, "cancel" if command.startswith("cancel ") else "box")
        head = f"{commit.place()} {command}".strip()
        reply = [] if commit.number is None else [f"→ {commit.reply}"]
        self.objects = list(dict.fromkeys(names[at] for at in commit.puts if at))
        puts = [" ".join([f"{name}:", *(script.objects[name].shown(values) or ["empty"])]) for name in self.objects]
        self.lines = [cut(line) for line in [head, *reply, *puts]]
        self.width = max(map(len, self.lines)) * LETTER + 2 * EDGE
        self.height = len(self.lines) * LINE + EDGE
        self.waited = []


def would_wait(script, command, values, thread):
    log = Log(values, script.limit)
    try:
        command.run(script, log, thread)
        return False
    except TooLarge:
        return False
    except Waits:
        return not values[0] & 1 << (16 + thread)


def boxes_of(script, commits):
    """A box for each commit, with the places behind which its command would have waited."""
    names, replay, boxes = script.names(), Replay(script), []
    stores = [list(replay.values)]
    behind = [0] * len(script.threads)
    for place, commit in enumerate(commits):
        replay.commit(commit.thread)
        box = Box(script, commit, replay.values, names)
        if commit.number is not None:
            command = script.threads[commit.thread][commit.number]
            box.waited = [at for at in range(behind[commit.thread], place) if would_wait(script, command, stores[at], commit.thread)]
        stores.append(list(replay.values))
        behind[commit.thread] = place + 1
        boxes.append(box)
    return boxes


def arrows_of(script, commits):
    """From which commit to which a read went, and over which object; location 0 only from a cancel to whom it ended a wait."""
    names, makers, found = script.names(), {}, {}
    for place, commit in enumerate(commits):
        for at in commit.reads:
            if at and at in makers:
                found[makers[at], place, names[at]] = None
        if commit.reply == "cancelled":
            flag = 1 << (16 + commit.thread)
            maker = next((it for it in range(place - 1, -1, -1) if commits[it].puts.get(0, 0) & flag and not before(commits, it) & flag), None)
            if maker is not None:
                found[maker, place, "cancel"] = None
        makers.update(dict.fromkeys(commit.puts, place))
    return list(found)


def before(commits, place):
    """What location 0 held before a commit, as far as commits put it."""
    return next((commits[it].puts[0] for it in range(place - 1, -1, -1) if 0 in commits[it].puts), 0)


class Picture:
    def __init__(self, script, commits):
        self.script, self.boxes = script, boxes_of(script, commits)
        self.arrows = arrows_of(script, commits)
        self.colours = {name: COLOURS[i % len(COLOURS)] for i, name in enumerate(script.objects)} | {"cancel": "#d08000"}
        self.out = []
        self.lay()

    def lay(self):
        widths = [max([90] + [box.width for box in self.boxes if box.thread == t]) for t in range(len(self.script.threads))]
        self.lanes, x = [], LEFT
        for width in widths:
            self.lanes.append(x + width / 2)
            x += width + LANE_GAP
        y = ABOVE
        for box in self.boxes:
            box.x, box.y = self.lanes[box.thread], y
            y += box.height + GAP
        self.width, self.height = x - LANE_GAP + LEFT, y + 10

    def add(self, text):
        self.out.append(text)

    def text(self, x, y, text, kind="", anchor="start"):
        self.add(f'<text x="{x:.1f}" y="{y:.1f}" class="{kind}" text-anchor="{anchor}">{escape(text)}</text>')

    def draw_lanes(self):
        legend = LEFT
        for name, colour in self.colours.items():
            if any(arrow[2] == name for arrow in self.arrows):
                self.add(f'<line x1="{legend}" y1="16" x2="{legend + 22}" y2="16" stroke="{colour}" stroke-width="2"/>')
                self.text(legend + 27, 20, name)
                legend += 27 + len(name) * LETTER + 20
        for thread, x in enumerate(self.lanes):
            self.text(x, ABOVE - 26, f"thread {thread + 1}", "name", "middle")
            self.add(f'<line x1="{x:.1f}" y1="{ABOVE - 18}" x2="{x:.1f}" y2="{self.height - 8:.1f}" class="lane"/>')

    def draw_waits(self, box):
        if box.waited:
            first, last = self.boxes[box.waited[0]], self.boxes[box.waited[-1]]
            top, bottom = first.y - GAP / 2, last.y + last.height
            self.add(f'<line x1="{box.x:.1f}" y1="{top:.1f}" x2="{box.x:.1f}" y2="{bottom:.1f}" class="waits"/>')
            self.text(box.x + 6, (top + bottom) / 2, "waits", "put")

    def draw_box(self, number, box):
        left = box.x - box.width / 2
        self.add(f'<rect x="{left:.1f}" y="{box.y}" width="{box.width:.1f}" height="{box.height}" rx="4" class="{box.kind}"/>')
        self.text(10, box.y + LINE - 2, str(number + 1), "place")
        for at, line in enumerate(box.lines):
            self.text(left + EDGE, box.y + (at + 1) * LINE - 2, line, "name" if at == 0 else "put")

    def draw_arrow(self, number, arrow):
        source, target, name = self.boxes[arrow[0]], self.boxes[arrow[1]], arrow[2]
        shift = (number % 5 - 2) * 7
        x, y = source.x + shift, source.y + source.height
        if source.thread == target.thread:
            # Round the boxes that stand between.
            side = source.x + max(source.width, target.width) / 2
            out = side + 14 + number % 4 * 6
            path = f"M {source.x + source.width / 2:.1f} {y - 8} C {out:.1f} {y}, {out:.1f} {target.y}, {target.x + target.width / 2:.1f} {target.y + 8}"
            if arrow[1] == arrow[0] + 1:
                path = f"M {x:.1f} {y} L {target.x + shift:.1f} {target.y}"
        else:
            path = f"M {x:.1f} {y} C {x:.1f} {y + 34}, {target.x + shift:.1f} {target.y - 34}, {target.x + shift:.1f} {target.y}"
        at = list(self.colours).index(name)
        self.add(f'<path d="{path}" class="arrow" stroke="{self.colours[name]}" marker-end="url(#head{at})"/>')

    def svg(self):
        self.draw_lanes()
        for box in self.boxes:
            self.draw_waits(box)
        for number, arrow in enumerate(self.arrows):
            self.draw_arrow(number, arrow)
        for number, box in enumerate(self.boxes):
            self.draw_box(number, box)
        heads = "".join(
            f'<marker id="head{at}" markerWidth="8" markerHeight="8" refX="7" refY="4" orient="auto"><path d="M0,0 L8,4 L0,8 z" fill="{colour}"/></marker>'
            for at, colour in enumerate(self.colours.values())
        )
        return (
            f'<svg xmlns="http://www.w3.org/2000/svg" width="{self.width:.0f}" height="{self.height:.0f}" viewBox="0 0 {self.width:.0f} {self.height:.0f}">\n'
            f'<style>{STYLE}</style><defs>{heads}</defs><rect width="100%" height="100%" fill="#fff"/>\n' + "\n".join(self.out) + "\n</svg>\n"
        )
