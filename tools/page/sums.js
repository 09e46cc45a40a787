// Sums of a run, or of the events that are selected: how often each answer came, and how long cores
// and power domains were in each depth.

/** A number of events in words. */
function eventsText(count) {
  return `${count} event${count === 1 ? "" : "s"}`;
}

/** What an event asks and what it is answered, without what differs from one to the next. */
function answerOf(run, event) {
  const { asked, said } = run.texts(event), kind = run.kinds[event];
  if (kind === 4) return `delivery → ${said.replace(/^acknowledgement \d+: /, "")}`;
  const names = [asked.split(" ")[2], "entry", "wake-up", "reset", "", "taking"];
  return `${names[kind]} → ${said.split(/[;:,]| at | with /)[0]}`;
}

/** How often each answer came from one event to another, the most frequent first. */
function answersOf(run, first, last) {
  const counts = new Map();
  for (let event = first; event <= last; event++) {
    const answer = answerOf(run, event);
    counts.set(answer, (counts.get(answer) ?? 0) + 1);
  }
  return [...counts].sort((a, b) => b[1] - a[1] || (a[0] < b[0] ? -1 : 1));
}

/** How long each of these nodes was in each depth, by the places of events, together. */
function depthsOf(run, nodes, places, first, last) {
  const sums = DEPTHS.map(() => 0);
  for (const node of nodes) {
    const history = run.cells[run.cores.length + node.at];
    for (let at = 0; at < history.length && history.events[at] <= last; at++) {
      const from = Math.max(history.events[at], first);
      const to = Math.min(history.events[at + 1] ?? run.count, last + 1);
      if (to > from) sums[history.values[at]] += places[to] - places[from];
    }
  }
  return sums;
}

class Sums {
  constructor(view) {
    this.view = view;
    this.places = Object.fromEntries(["sums", "summed", "depths", "answers"].map(
        (id) => [id, document.getElementById(id)]));
    this.places.sums.addEventListener("toggle", () => this.show());
  }

  /** Shows the sums, if they are open. */
  show() {
    const { run, range } = this.view, [first, last] = range ?? [0, run.count - 1];
    const { sums, summed, depths, answers } = this.places;
    summed.textContent = range ?
        `events ${run.numbers[first]} to ${run.numbers[last]}, ${eventsText(last - first + 1)}` :
        `the whole, ${eventsText(run.count)}`;
    if (!sums.open) return;
    depths.replaceChildren(this.heads(), ...this.levels().map((it) => this.row(it, first, last)));
    answers.replaceChildren(...answersOf(run, first, last).map((row) => {
      const made = element("tr");
      made.append(element("td", "", `${row[1]}`), element("td", "", row[0]));
      return made;
    }));
  }

  heads() {
    const made = element("tr");
    made.append(element("th", "", "% in depth"), ...DEPTHS.map(({ name }) => element("th", "", name)));
    return made;
  }

  /** What has a row: the picked core, and the nodes of each level. */
  levels() {
    const { run, pickedCore } = this.view, highest = run.nodes[run.nodes.length - 1].level;
    const found = run.cores.filter((node) => node.index === pickedCore).map((node) => [node]);
    for (let level = 0; level <= highest; level++)
      found.push(run.nodes.filter((node) => node.level === level));
    return found;
  }

  row(nodes, first, last) {
    const { run, scale } = this.view, sums = depthsOf(run, nodes, scale.places, first, last);
    const all = sums.reduce((a, b) => a + b, 0) || 1, made = element("tr");
    made.append(element("th", "", rangeName(nodes)),
        ...sums.map((it) => element("td", "", it ? (100 * it / all).toFixed(1) : "–")));
    return made;
  }
}
