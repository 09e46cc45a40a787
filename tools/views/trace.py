"""A run as a JSON trace, in the format that Perfetto and the viewer of Chromium open.

Three processes: the cores, with a track each, the power domains above them, and the link. Each
event of the run stands once, in order, as a slice with `args.event`: on the track of its core, or of
the power controller or the firmware for what the link brings. A core's states and a domain's depths
are slices around them, and flows lead from a message to its delivery, and on to where its
acknowledgement is taken.
"""
import json


CORES, DOMAINS, LINK = 1, 2, 3
# the tracks of the link
CONTROLLER, FIRMWARE = 1, 2
# writes a slice: `json.dumps` would make an encoder for each
encoded = json.JSONEncoder(separators=(",", ":")).encode
DEPTHS = ("on", "standby", "retention", "power-down")
# the names of colors that viewers have for states
COLORS = {"running": "good", "started": "thread_state_runnable", "pending": "yellow",
          "going off": "bad", "standby": "olive", "retention": "grey",
          "power-down": "thread_state_sleeping", "off": "thread_state_unknown"}


class Trace:
    """A trace on its way out."""

    def __init__(self, window, out, clock):
        self.window, self.board, self.out, self.clock = window, window.board, out, clock
        self.between, self.open, self.last = "\n", {}, None

    def put(self, **members):
        self.out.write(self.between + encoded(members))
        self.between = ",\n"

    def time(self, number):
        """When an event happens, in microseconds."""
        return self.clock.at(number) / 1000

    def name_tracks(self):
        """What the tracks are called, and in which order they stand."""
        for process, name in ((CORES, "cores"), (LINK, "link"), (DOMAINS, "power domains")):
            self.put(ph="M", name="process_name", pid=process, args={"name": name})
            self.put(ph="M", name="process_sort_index", pid=process, args={"sort_index": process})
        for track, name in ((CONTROLLER, "power controller"), (FIRMWARE, "firmware")):
            self.name_track(LINK, track, name)
        for node in self.window.nodes:
            self.name_track(*self.track(node), self.board.name(node))

    def name_track(self, process, track, name):
        self.put(ph="M", name="thread_name", pid=process, tid=track, args={"name": name})

    def track(self, node):
        """The process and the track of a core or power domain: those below come last."""
        level, index = node
        if level == 0:
            return CORES, index + 1
        return DOMAINS, 1000 * (len(self.board.domains) - level) + index + 1

    def states(self, row):
        """The slices of what changed end, and others begin: of a slice the state and both depths hold for its whole
        length."""
        for node in self.window.changed(row, self.last):
            state, depth, granted = row.look(node)
            looks = state or DEPTHS[depth], depth, granted
            if node not in self.open or self.open[node][0] != looks:
                self.close(node, self.time(row.number))
                self.open[node] = looks, self.time(row.number)

    def close(self, node, end):
        if node not in self.open:
            return
        (name, depth, granted), begin = self.open.pop(node)
        process, track = self.track(node)
        color = {"cname": COLORS[name]} if node[0] == 0 else {}
        self.put(ph="X", cat="state", name=name, pid=process, tid=track, ts=begin,
                 dur=end - begin, args={"depth": depth, "granted": granted}, **color)

    def event(self, row, length):
        """The event itself, and the flows of its messages."""
        process, track = self.place(row)
        self.put(ph="X", cat="event", name=row.asked, pid=process, tid=track,
                 ts=self.time(row.number), dur=length,
                 args={"event": row.number, "said": row.said, "line": row.line,
                       "answer": row.answer})
        here = {"pid": process, "tid": track, "ts": self.time(row.number)}
        if row.sent:
            self.flow("s", "message", row.sent["index"], here)
        elif row.event["kind"] == "deliver" and row.answer != "absent":
            self.flow("f", "message", row.event["number"], here)
            if row.acknowledged:
                self.flow("s", "acknowledgement", row.acknowledged["index"], here)
        elif row.taken:
            self.flow("f", "acknowledgement", row.taken["index"], here)

    def flow(self, phase, name, index, here):
        """One end of a flow; `bp` ties its end to the slice around it."""
        ends = {"bp": "e"} if phase == "f" else {}
        self.put(ph=phase, cat=name, name=name, id=f"{name} {index}", **here, **ends)

    def place(self, row):
        """The track on which an event happens; of a core that is not there, the firmware's."""
        kind, number = row.event["kind"], row.event["number"]
        if kind == "deliver":
            return LINK, CONTROLLER
        if kind == "take" or number >= self.board.cores:
            return LINK, FIRMWARE
        return CORES, number + 1


def write(window, run, out, clock):
    """Writes the trace of a window."""
    trace = Trace(window, out, clock)
    out.write('{"displayTimeUnit":"ns","otherData":')
    out.write(json.dumps({"board": window.board.text}))
    out.write(',"traceEvents":[')
    trace.name_tracks()
    waiting = None
    for row, _ in window.rows(run):
        if waiting:
            trace.event(waiting, length(trace, waiting, row))
        trace.states(row)
        trace.last = waiting = row
    if waiting:
        trace.event(waiting, trace.clock.step / 2000)
        for node in list(trace.open):
            trace.close(node, trace.time(waiting.number) + trace.clock.step / 1000)
    out.write("\n]}\n")


def length(trace, row, following):
    """How long the slice of an event is: half the time to the next one, a microsecond at most."""
    return min((trace.time(following.number) - trace.time(row.number)) / 2, 1)
