// What is written over the bands: the axis, names, letters of states, calls and their answers.

const FONT = "system-ui, 'DejaVu Sans', sans-serif";

/** A text that is cut where it has no room. */
function fitted(context, text, width) {
  if (context.measureText(text).width <= width) return text;
  let [low, high] = [0, text.length];
  while (low < high) {
    const middle = (low + high + 1) >> 1;
    if (context.measureText(`${text.slice(0, middle)}…`).width <= width)
      low = middle;
    else
      high = middle - 1;
  }
  return low > 1 ? `${text.slice(0, low)}…` : "";
}

/** What a call asks, in few words, and what it is answered. */
function callWords(run, event) {
  const { asked, said } = run.texts(event);
  const words = asked.replace(/^core \d+ /, "").replace(/^PSCI_/, "").split(", entry")[0];
  return [words, `→ ${said.split(";")[0].split(":")[0]}`];
}

class Labels {
  constructor(view, context) {
    Object.assign(this, {
      view,
      context,
      run: view.run,
      scale: view.scale,
      rows: view.rows,
      palette: view.palette
    });
    this.gutter = view.gutter;
    this.first = this.scale.eventAt(0);
    this.last = this.scale.eventAt(this.scale.width);
  }

  font(size, weight = "") {
    this.context.font = `${weight} ${size}px ${FONT}`;
  }

  text(text, x, y, color, width = Infinity) {
    this.context.fillStyle = color;
    this.context.fillText(width === Infinity ? text : fitted(this.context, text, width), x, y);
  }

  y(row) {
    return row.y - this.rows.top;
  }

  /** Numbers of events, or times, above the bands. */
  axis(height) {
    const { context, scale, palette, run } = this;
    this.font(11);
    context.strokeStyle = palette.line;
    const step = scale.tick(90);
    for (let place = Math.ceil(scale.left / step) * step;
         place <= scale.left + scale.width * scale.perPixel; place += step) {
      if (!scale.byClock && place >= run.count) break;
      const x = (place - scale.left) / scale.perPixel;
      context.beginPath();
      context.moveTo(x, height - 5);
      context.lineTo(x, height);
      context.stroke();
      const label = scale.byClock ? timeText(place, step) : `${run.numbers[place]}`;
      // the last one is whole, too
      const most = scale.width - context.measureText(label).width - 2;
      this.text(label, Math.min(x + 3, most), height - 8, palette.faint);
    }
    this.found(height);
  }

  /** A mark for each event that the search found. */
  found(height) {
    const { found } = this.view.search;
    this.context.fillStyle = this.palette.found;
    let before = -9;
    for (let at = lastAtMost(found, this.first - 1, 0, found.length) + 1;
         at < found.length && found[at] <= this.last; at++) {
      const x = Math.round(this.scale.x(found[at]));
      if (x > before + 1) this.context.fillRect(x - 1, height - 6, 3, 6);
      before = x;
    }
  }

  /** The names of rows, which stay while time goes by. */
  names() {
    const { context, palette } = this;
    for (const row of this.rows.visible()) {
      const y = this.y(row), middle = y + row.height / 2 + 4;
      const isPicked = this.view.pickedCore !== null && row.type === "core" &&
          row.node.index === this.view.pickedCore;
      this.font(row.type === "idle" ? 10 : Math.min(12, Math.max(row.height - 1, 8)),
          row.type === "title" || isPicked ? "600" : "");
      if (row.type === "title")
        this.text(row.text, 8, middle, palette.ink);
      else if (row.type === "group")
        this.text(
            `${row.isOpen ? "▾" : "▸"} ${row.text}`, 8, middle, palette.ink, this.gutter - 14);
      else if (row.type === "idle")
        this.text(`▸ ${row.text}`, 8, middle - 1, palette.faint, this.gutter - 14);
      else if (row.type === "link")
        this.linkNames(y);
      else
        this.text(row.node.name, row.type === "core" ? 24 : 8, middle,
            isPicked ? palette.pick : palette.ink, this.gutter - 30);
    }
    context.fillStyle = palette.line;
    context.fillRect(this.gutter - 1, 0, 1, this.rows.height);
  }

  linkNames(y) {
    this.font(12);
    this.text("firmware", 8, y + LINK_TOP + 4, this.palette.ink);
    this.text("power controller", 8, y + LINK_BOTTOM + 4, this.palette.ink, this.gutter - 12);
  }

  /** The word or letter of each state, where it has room. */
  states() {
    if (this.last - this.first > 600) return;
    for (const row of this.rows.visible()) {
      if (row.type === "core" && row.height >= 12)
        this.stateWords(row);
      else if (row.type === "domain" && row.height >= 11)
        this.depthWords(row);
    }
  }

  eachSpan(history, least, tell) {
    for (let at = Math.max(lastAtMost(history.events, this.first, 0, history.length), 0);
         at < history.length; at++) {
      if (history.events[at] > this.last) break;
      const end = at + 1 < history.length ? history.events[at + 1] : this.run.count;
      const x = Math.max(this.scale.x(history.events[at]), 0);
      const width = Math.min(this.scale.x(end), this.scale.width) - x;
      if (width >= least) tell(history.values[at], x, width);
    }
  }

  stateWords(row) {
    const { palette } = this;
    const bottom = this.y(row) + row.height - (row.height >= STRIP_FROM + 2 ? 8 : 4);
    this.font(row.height > 20 ? 11 : 9);
    this.eachSpan(this.run.cells[this.run.coreAt.get(row.node.index)], 9, (code, x, width) => {
      const state = STATES[code], high = (row.height - 7) * state.height >= 10;
      const ink = high ? (code === RUNNING || code === 3 ? "#ffffff" : "#14181c") : palette.ink;
      const y = high ? bottom : bottom - row.height * state.height;
      this.text(width > 76 ? state.name : state.letter, x + 4, y,
          palette.theme === "dark" && high ? "#14181c" : ink, width - 5);
    });
  }

  depthWords(row) {
    const { palette } = this;
    this.font(Math.min(10, row.height - 2));
    this.eachSpan(this.run.looks[row.node.at], 12, (value, x, width) => {
      const depth = value & 3, word = width > 76 ? DEPTHS[depth].name : `${depth}`;
      const ink = depth === 0 || depth === 1 ? palette.ink : palette.ground;
      this.text(
          word + (value > 3 ? "!" : ""), x + 4, this.y(row) + row.height / 2 + 3, ink, width - 5);
    });
  }

  /** What each core calls or enters, where it happens. */
  marks() {
    const { run, palette, context, scale } = this;
    if (scale.step < 3) return;
    const rows = new Map(this.rows.visible()
                             .filter((row) => row.type === "core")
                             .map((row) => [row.node.index, row]));
    // from the last one back, since words have room up to the next mark in their row
    const ends = new Map();
    for (let event = this.last; event >= this.first; event--) {
      const row = run.kinds[event] < 4 && rows.get(run.objects[event]);
      if (!row) continue;
      const x = scale.x(event);
      const y = this.y(row);
      const isWrong = run.outcomes[event] === REFUSED || run.outcomes[event] === IGNORED;
      context.fillStyle = isWrong ? palette.wrong : palette.message;
      context.fillRect(Math.round(x), y, scale.step > 20 ? 2 : 1, row.height - 1);
      const room = (ends.get(row) ?? scale.width) - x - 6;
      ends.set(row, x);
      if (room > 44 && row.height >= 34) this.markWords(event, row, x, room, isWrong);
    }
  }

  markWords(event, row, x, room, isWrong) {
    const [asked, said] = callWords(this.run, event), y = this.y(row);
    const code = this.run.cells[this.run.coreAt.get(row.node.index)].at(event);
    const isLow = STATES[code].height < 0.7;
    const ink = isLow                                     ? this.palette.ink :
        this.palette.theme === "dark" || code !== RUNNING ? "#14181c" :
                                                            "#ffffff";
    this.font(10);
    this.text(asked, x + 5, y + 9, ink, room);
    if (row.height >= 38)
      this.text(said, x + 5, y + 19, isWrong && isLow ? this.palette.wrong : ink, room);
  }

  /** What is selected: between two lines. */
  selected(top, height) {
    if (!this.view.range) return;
    const [first, last] = this.view.range, { context, palette } = this;
    const from = this.scale.x(first), to = this.scale.x(last + 1);
    context.fillStyle = palette.shadow;
    context.fillRect(from, top, to - from, height);
    context.fillStyle = palette.message;
    for (const x of [from, to]) context.fillRect(Math.round(x) - 1, top, 2, height);
  }

  /** The picked event: a line through all rows. */
  picked(top, height) {
    const x = this.scale.x(this.view.event);
    if (x < 0 || x > this.scale.width) return;
    const width = Math.max(Math.min(this.scale.x(this.view.event + 1) - x, 300), 1);
    this.context.fillStyle = this.palette.shadow;
    this.context.fillRect(x, top, width, height);
    this.context.fillStyle = this.palette.pick;
    this.context.fillRect(Math.round(x) - 1, top, 2, height);
  }
}
