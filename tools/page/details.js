// The picked event in words: what was asked and answered, where its messages went, and what every
// core and power domain is then.

// a board of more cores has a letter for each, and only some of them in whole words
const LARGE_BOARD = 16;
// how many events are listed before and after the picked one
const LISTED = 12;

/** An element with a class and a text. */
function element(name, kind, text = "") {
  const made = document.createElement(name);
  if (kind) made.className = kind;
  made.textContent = text;
  return made;
}

/** What `show` says of a core or domain, by its name; nothing of what is off as granted. */
function entryOf(run, node, event) {
  const look = run.look(node, event), isGranted = look.depth === look.granted;
  if (look.state < 0) return look.depth === 3 && isGranted ? null : `${node.name}: ${marked(look)}`;
  if (look.state === OFF) return isGranted ? null : `${node.name}: ${marked(look)}`;
  return `${node.name}: ${STATES[look.state].letter}${isGranted ? "" : ` ${marked(look)}`}`;
}

/** The same in whole words. */
function meaningOf(run, node, event) {
  const look = run.look(node, event), words = [];
  if (look.state >= 0) words.push(STATES[look.state].meaning);
  words.push(`depth ${look.depth} (${DEPTHS[look.depth].name})`);
  if (look.depth !== look.granted)
    words.push(`granted ${look.granted} (${DEPTHS[look.granted].name})`);
  return words.join(", ");
}

/** What the letters and colors of states mean. */
function legendRows(palette) {
  return STATES.map(({ letter, meaning }, code) => {
    const row = element("tr"), sign = element("th", "letter", letter);
    sign.style.borderBottomColor = palette.states[code];
    row.append(sign, element("td", "", `the core ${meaning}`));
    return row;
  });
}

/** The colors of states and depths, each with its name, beside what they color. */
function colorNames(palette) {
  const swatch = (color, letter, name) => {
    const made = element("span"), sign = element("i", "", letter);
    sign.style[letter ? "borderBottom" : "background"] = letter ? `3px solid ${color}` : color;
    made.append(sign, name);
    return made;
  };
  return [
    ...STATES.map(({ letter, name }, code) => swatch(palette.states[code], letter, name)),
    ...DEPTHS.map(({ name }, depth) => swatch(palette.depths[depth], "", `${depth} ${name}`)),
    swatch(palette.amber, "", "another depth is granted"),
  ];
}

class Details {
  constructor(view) {
    this.view = view;
    this.places = Object.fromEntries([
      "number", "when", "asked", "said", "answer", "line", "way", "changed", "letters", "values",
      "entries", "events"
    ].map((id) => [id, document.getElementById(id)]));
  }

  show() {
    const { run, event } = this.view, texts = run.texts(event), { places } = this;
    document.getElementById("colors").replaceChildren(...colorNames(this.view.palette));
    if (document.activeElement !== places.number) places.number.value = run.numbers[event];
    places.when.textContent = this.when();
    places.asked.textContent = texts.asked;
    places.said.textContent = texts.said;
    places.said.className = run.outcomes[event] === FINE ? "" : "wrong";
    places.answer.textContent = `${run.numbers[event]} ${texts.answer}`;
    places.line.textContent = texts.line;
    this.showWay();
    this.showLetters();
    this.showValues();
    this.showEvents();
  }

  /** The time of the event, if there is a clock, and its life. */
  when() {
    const { run, event } = this.view, words = [];
    if (run.times) words.push(timeText(run.times[event], 1));
    words.push(run.lives[event] ? `life ${run.lives[event]}` : "no life");
    if (!run.live[event]) words.push("the firmware is not in it, or halting");
    return words.join(", ");
  }

  /** Where the message of the event, and its acknowledgement, came from and went. */
  showWay() {
    const { run, event } = this.view;
    const { message, ack } = messagesOf(run, event);
    const { way } = this.places;
    way.replaceChildren();
    if (message) {
      way.append(`${messageName(message)}: `, this.link("sent", message.event));
      for (const at of message.comings) way.append(", ", this.link("delivered", at));
      if (!message.comings.length) way.append(", never delivered");
    }
    const made = (message?.comings ?? []).map((at) => run.acked[at]).filter(Boolean);
    const acks = ack ? [ack] : made;
    for (const it of acks) {
      way.append(element("br"), `acknowledgement ${it.index}: `, this.link("made", it.event));
      for (const at of it.comings) way.append(", ", this.link("taken", at));
      if (!it.comings.length) way.append(", never taken");
    }
  }

  /** A link to an event. */
  link(word, event) {
    if (event < 0) return `${word} before this window`;
    const made = element("a", "", `${word} at ${this.view.run.numbers[event]}`);
    made.href = `#e=${this.view.run.numbers[event]}`;
    return made;
  }

  showValues() {
    const { run, event } = this.view, { changed, values, entries } = this.places;
    const isChanged = (node) => run.changes(node, event);
    const nodes = run.nodes.filter((node) => isChanged(node) || this.isTold(node));
    changed.textContent = event === 0 ?
        "it is the first event here" :
        run.nodes.filter(isChanged).map((node) => node.name).join(", ") || "nothing";
    values.replaceChildren(...nodes.map((node) => {
      const row = element("tr", isChanged(node) ? "changed" : "");
      row.append(element("th", "", node.name), this.letter(node),
          element("td", "", meaningOf(run, node, event)));
      row.addEventListener("click", () => this.view.pickCore(node));
      return row;
    }));
    entries.textContent =
        run.nodes.map((node) => entryOf(run, node, event)).filter(Boolean).join("; ") || "all off";
  }

  /** Whether a node that did not change is told in whole words. */
  isTold(node) {
    const { run, event, pickedCore } = this.view;
    if (!entryOf(run, node, event)) return false;
    if (run.cores.length <= LARGE_BOARD || node.level === run.nodes[run.nodes.length - 1].level)
      return true;
    return node.level === 0 && (node.index === pickedCore || node.index === run.coreOf(event));
  }

  /** A letter for each core, cluster by cluster. */
  showLetters() {
    const { run, event, palette } = this.view, { letters } = this.places;
    letters.hidden = run.cores.length <= LARGE_BOARD;
    if (letters.hidden) return;
    letters.replaceChildren(...run.nodes.filter((node) => node.level === 1).map((cluster) => {
      const made = element("span", "cluster");
      for (const node of run.cores.filter((it) => cluster.cores.includes(it.index))) {
        const look = run.look(node, event);
        const letter =
            element("i", look.depth === look.granted ? "" : "changing", STATES[look.state].letter);
        letter.style.borderBottomColor = palette.states[look.state];
        letter.title = `${node.name}: ${meaningOf(run, node, event)}`;
        letter.addEventListener("click", () => this.view.pickCore(node));
        made.append(letter);
      }
      return made;
    }));
  }

  /** The letter of a core on its color, or the depth of a domain. */
  letter(node) {
    const { run, event, palette } = this.view;
    const look = run.look(node, event);
    const made = element("td", "letter");
    if (look.state >= 0) {
      made.textContent = STATES[look.state].letter + (look.depth === look.granted ? "" : "!");
      made.style.borderBottomColor = palette.states[look.state];
    } else {
      made.textContent = marked(look);
      made.style.borderBottomColor = palette.depths[look.depth];
    }
    return made;
  }

  /** The events around, to be clicked. */
  showEvents() {
    const { view } = this, { run, event } = view;
    const first = Math.max(Math.min(event - LISTED, run.count - 2 * LISTED - 1), 0), rows = [];
    for (let at = first; at < Math.min(first + 2 * LISTED + 1, run.count); at++) {
      const { asked, said } = run.texts(at), row = element("li", at === event ? "picked" : "");
      row.append(element("b", "", `${run.numbers[at]}`), ` ${asked} → `,
          element("span", run.outcomes[at] === FINE ? "" : "wrong", said));
      row.addEventListener("click", () => view.pick(at));
      rows.push(row);
    }
    this.places.events.replaceChildren(...rows);
  }
}
