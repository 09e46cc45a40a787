"""A run as a picture (SVG): time to the right, an event a column.

Each core and each power domain has a band, below the domain that it is part of; its shade is its
depth as the power controller has it, the darker the deeper, and a core that runs is green. What a
core does stands in its band. Below, each message goes from the line of the firmware to that of the
power controller, and its acknowledgement back: one that is lost ends open, a stale or old one is
red. A viewer whose scheme is dark shows it in the dark colors.
"""
from html import escape

LEFT, COLUMN, GAP, TOP = 150, 116, 6, 58
# how wide a picture may be, in pixels: viewers and browsers refuse wider ones
WIDEST = 32767
# how high the band of a core is, and that of a power domain
CORE, DOMAIN = 56, 24
FILLS = ("#f6f8fa", "#e3e3e3", "#c4c4c4", "#4d4d4d")
CORES = {"running": "#b7e3b0", "started": "#d6ecfa", "pending": "#fdf3c4", "going off": "#f7d9a8"}
STATES = {"running": "runs", "started": "started", "pending": "is to start",
          "going off": "goes off", "off": "off", "standby": "standby", "retention": "retention",
          "power-down": "power-down"}
RED, BLUE, GREEN, GRAY = "#a31515", "#1f4e9c", "#2e7d32", "#888888"
PAPER, INK, FAINT, LIGHT = "#fefefe", "#222222", "#333333", "#ffffff"
LEGEND = ("The darker, the deeper a domain sleeps; green: the core runs. "
          "Dashed: has not come. Red: stale, old or refused.")


# each of these colors where the viewer's scheme is dark; here, too, the darker is the deeper
DARK = {
    PAPER: "#0d1117", INK: "#e6edf3", FAINT: "#d1d7e0", GRAY: "#8b949e", LIGHT: "#ffffff",
    RED: "#ff9e9b", BLUE: "#79c0ff", GREEN: "#56d364",
    **dict(zip(FILLS, ("#3d444d", "#2a3038", "#1c2128", "#000000"))),
    CORES["running"]: "#1f4d2b", CORES["started"]: "#123a5c", CORES["pending"]: "#4d4210",
    CORES["going off"]: "#5a3a12",
}


def style(dark=None):
    """The style of a picture, with its colors where the scheme is dark."""
    lines = ['text { font-family: "DejaVu Sans", Verdana, sans-serif; font-size: 10px }',
             ".name { font-size: 12px } .title { font-size: 14px }",
             "@media (prefers-color-scheme: dark) {"]
    lines += [f'{kind}="{light}"] {{ {kind[1:]}: {color} }}' for light, color in (dark or DARK).items()
              for kind in ("[fill", "[stroke")]
    return "\n".join([*lines, "}"])


class Picture:
    def __init__(self):
        self.parts = []

    def text(self, x, y, said, kind="", fill=INK, anchor="start"):
        more = (f' class="{kind}"' if kind else "") + f' fill="{fill}"'
        shown = escape(said).encode("ascii", "xmlcharrefreplace").decode()
        self.parts.append(f'<text x="{x}" y="{y}" text-anchor="{anchor}"{more}>{shown}</text>')

    def line(self, x1, y1, x2, y2, color=GRAY, more=""):
        self.parts.append(f'<line x1="{x1}" y1="{y1}" x2="{x2}" y2="{y2}" stroke="{color}"{more}/>')

    def box(self, x, y, width, height, fill, more=' stroke="none"'):
        self.parts.append(f'<rect x="{x}" y="{y}" width="{width}" height="{height}" fill="{fill}"'
                          f'{more}/>')

    def arrow(self, x1, y1, x2, y2, color, is_lost=False):
        """An arrow, or where it never comes a dashed line with an open end."""
        if is_lost:
            self.line(x1, y1, x2, y2, color, ' stroke-width="1.5" stroke-dasharray="4 3"')
            self.parts.append(f'<circle cx="{x2}" cy="{y2}" r="4" fill="{PAPER}" stroke="{color}"/>')
            return
        self.line(x1, y1, x2, y2, color, ' stroke-width="1.5"')
        up = 1 if y2 > y1 else -1
        self.parts.append(f'<path d="M {x2} {y2} l -4 {-8 * up} l 8 0 z" fill="{color}"/>')

    def written(self, width, height):
        head = (f'<svg xmlns="http://www.w3.org/2000/svg" width="{width}" height="{height}" '
                f'viewBox="0 0 {width} {height}">')
        return "\n".join([head, f"<style>{style()}</style>",
                          f'<rect width="{width}" height="{height}" fill="{PAPER}"/>',
                          *self.parts, "</svg>\n"])


class Drawing:
    """The picture of the rows of a window."""

    def __init__(self, window, rows):
        self.window, self.board, self.events = window, window.board, rows
        self.picture, self.places = Picture(), {row.number: at for at, row in enumerate(rows)}
        self.rows = [it for it in self.board.tree() if it[:2] in window.nodes]
        # how many parts each message has
        self.parts = {row.sent["index"]: len(row.sent["parts"]) for row in rows if row.sent}
        self.y, y = {}, TOP
        for level, index, _ in self.rows:
            self.y[level, index] = y
            y += self.band(level) + GAP
        self.firmware, self.controller = y + 34, y + 144
        self.width = width_of(len(rows))

    @staticmethod
    def band(level):
        """How high the band of a level is."""
        return DOMAIN if level else CORE

    def x(self, number):
        """Where the event of this number happens."""
        return LEFT + self.places[number] * COLUMN + 12

    def drawn(self, title):
        picture = self.picture
        picture.text(12, 22, title, "title")
        for event in self.events:
            picture.text(self.x(event.number), TOP - 12, str(event.number), anchor="middle")
        self.tree()
        self.bands()
        self.marks()
        self.messages()
        picture.text(12, self.controller + 56, LEGEND)
        return picture.written(self.width, self.controller + 70)

    def tree(self):
        picture, parents = self.picture, {}
        for level, index, indent in self.rows:
            y, x = self.y[level, index] + self.band(level) // 2, 14 + indent * 18
            picture.text(x + 4, y + 4, self.board.name((level, index)), "name")
            if indent:
                above = parents[indent - 1]
                picture.line(above[0], above[1] + 9, above[0], y)
                picture.line(above[0], y, x, y)
            parents[indent] = x + 2, y

    def bands(self):
        """Each band, in one box for as long as nothing changes."""
        for level, index, _ in self.rows:
            looks = [self.look(event, level, index) for event in self.events]
            begin = 0
            for at, look in enumerate(looks):
                if at + 1 < len(looks) and looks[at + 1][:2] == look[:2]:
                    continue
                fill, said, ink = look
                x, end = self.x(self.events[begin].number), self.x(self.events[at].number) + COLUMN
                y, high = self.y[level, index], self.band(level)
                self.picture.box(x, y, end - x, high, fill, f' stroke="{GRAY}"')
                self.picture.text(x + 4, y + high - 6, said, fill=ink)
                begin = at + 1

    def look(self, event, level, index):
        """The fill of a band after an event, what is said in it, and in which color."""
        depth = event.depths[level][index]
        fill, said = FILLS[depth], ("on", "standby", "retention", "power-down")[depth]
        if level == 0:
            state = event.cores[index]
            said = STATES[state]
            if depth == 0:
                fill = CORES.get(state, fill)
            if depth == 0 and state in ("standby", "retention", "power-down"):
                said = f"asks {said}"
        return fill, said, LIGHT if fill == FILLS[3] else FAINT

    def marks(self):
        """What a core calls or enters, and the answer, where it happens."""
        for event in self.events:
            kind, core = event.event["kind"], event.event["number"]
            if kind in ("deliver", "take") or (0, core) not in self.y:
                continue
            x, y = self.x(event.number), self.y[0, core]
            dark = self.look(event, 0, core)[0] == FILLS[3]
            self.picture.line(x, y - 3, x, y + CORE + 3, BLUE, ' stroke-width="2"')
            for at, (said, color) in enumerate(self.mark(event)):
                self.picture.text(x + 4, y + 12 + 12 * at, said, fill=LIGHT if dark else color)

    @staticmethod
    def mark(event):
        """The lines of a mark: what is done, how far up or to whom, and what is returned."""
        kind, words = event.event["kind"], event.asked.split(" ")
        if kind != "call":
            name = {"enter": "enters", "wake": "wake-up", "reset": "reset"}[kind]
            return [(name, BLUE)] + [(event.said.split(":")[0], RED)] * (
                event.answer in ("ignored", "absent"))
        if "unknown function" in event.asked:
            lines = [("unknown word", BLUE), (words[-1], BLUE)]
        else:
            lines = [(words[2].removeprefix("PSCI_"), BLUE)]
            more = " ".join(words[3:]).split(", entry")[0]
            more = "up to " + more.split(" ")[-1] if more.startswith("to ") else more
            lines += [(more, BLUE)] * bool(more)
        said = event.said.split(";")[0].split(":")[0]
        if said != "stops":
            # what AFFINITY_INFO says is a status, also where a refusal has its name
            refused = said in REFUSALS and words[2] != "AFFINITY_INFO"
            lines.append((f"\u2192 {said}", RED if refused else BLUE))
        return lines

    def messages(self):
        picture, last = self.picture, self.x(self.events[-1].number) + COLUMN - 10
        for y, name in ((self.firmware, "firmware"), (self.controller, "power controller")):
            picture.line(LEFT, y, last, y, INK, ' stroke-width="2"')
            picture.text(14, y + 4, name, "name")
        delivered, taken = self.comings()
        for event in self.events:
            x, sent, ack = self.x(event.number), event.sent, event.acknowledged
            if sent:
                self.sent(x, sent, delivered.get(sent["index"], []))
            if ack:
                self.acknowledged(x, ack, taken.get(ack["index"], []))

    def comings(self):
        """Where each message comes, and each acknowledgement."""
        delivered, taken = {}, {}
        for event in self.events:
            kind, number = event.event["kind"], event.event["number"]
            if kind == "deliver" and event.answer != "absent":
                delivered.setdefault(number, []).append(event)
            elif kind == "take" and event.answer != "absent":
                taken.setdefault(number, []).append(event)
        return delivered, taken

    def sent(self, x, sent, comings):
        picture, name = self.picture, f"{sent['kind'].capitalize()} #{sent['index']}"
        name += "" if sent["kind"] in ("off", "reset") else f" of core {sent['core']}"
        picture.text(x - 4, self.firmware - 8, name)
        for event in comings:
            stale = event.answer == "ignored" or event.answer.endswith("stale")
            picture.arrow(x, self.firmware, self.x(event.number) - 6, self.controller,
                          RED if stale else BLUE)
        if not comings:
            picture.arrow(x, self.firmware, x + 36, self.firmware + 60, GRAY, True)
            picture.text(x + 44, self.firmware + 64, "comes later, or never" if self.window.goes_on else "never comes")

    def acknowledged(self, x, ack, comings):
        picture, parts = self.picture, self.parts.get(ack["message"])
        applied = f"{ack['applied']} of {parts} parts" if parts else \
            "applied" if ack["applied"] else "not applied"
        picture.text(x - 4, self.controller + 16, f"acknowledged {ack['index']}:")
        picture.text(x - 4, self.controller + 29, applied + ", stale" * ack["stale"],
                     fill=RED if ack["stale"] else INK)
        for event in comings:
            color, at = RED if event.answer == "old" else GREEN, self.x(event.number)
            picture.arrow(x + 6, self.controller, at, self.firmware, color)
            picture.text(at + 4, self.firmware - 8, event.answer, fill=color)
        if not comings:
            picture.arrow(x + 6, self.controller, x + 36, self.controller - 50, GRAY, True)


REFUSALS = ("NOT_SUPPORTED", "INVALID_PARAMETERS", "DENIED", "ALREADY_ON", "ON_PENDING",
            "INTERNAL_FAILURE", "INVALID_ADDRESS")


def width_of(events):
    """How wide the picture of so many events is."""
    return LEFT + events * COLUMN + 30


def most_events():
    """How many events the widest picture has."""
    return (WIDEST - width_of(0)) // COLUMN
