// The page as a whole: what is seen of a run, which event is picked, and when it is drawn anew.

const AXIS_HEIGHT = 26;
// how wide an event is, in pixels, where a link leads to it
const NAMED_STEP = 24;

class View {
  constructor(run) {
    this.canvas = document.getElementById("time");
    this.tip = document.getElementById("tip");
    this.isWaiting = false;
    this.setTheme(matchMedia("(prefers-color-scheme: dark)").matches ? "dark" : "light");
    this.search = new Search(this);
    this.details = new Details(this);
    this.sums = new Sums(this);
    this.minimap = new Minimap(document.getElementById("minimap"), this);
    this.show(run);
    new Controls(this);
    new ResizeObserver(() => this.resize()).observe(this.canvas.parentElement);
    addEventListener("hashchange", () => this.follow());
    addEventListener("beforeprint", () => this.print(true));
    addEventListener("afterprint", () => this.print(false));
  }

  /** Shows this run in place of another, from its first event. */
  show(run) {
    this.run = run;
    this.event = 0;
    this.pickedCore = null;
    this.range = null;
    this.scale = new Scale(run);
    this.rows = new Rows(run);
    this.minimap.key = null;
    document.getElementById("board").textContent = run.head.board;
    document.getElementById("clock").hidden = !run.times;
    this.canvas.setAttribute("aria-label",
        `the run, ${eventsText(run.count)}: cores, messages and power domains over time`);
    this.sums.show();
    this.resize();
    this.search.look();
  }

  // ---- its size and theme

  resize() {
    const { clientWidth, clientHeight } = this.canvas.parentElement;
    this.ratio = devicePixelRatio || 1;
    this.gutter = clientWidth < 640 ? 112 : 168;
    this.canvas.width = Math.round(clientWidth * this.ratio);
    this.canvas.height = Math.round(clientHeight * this.ratio);
    this.scale.resize(clientWidth - this.gutter);
    this.rows.resize(clientHeight - AXIS_HEIGHT);
    this.draw();
  }

  /** As it is on paper, light and on one page; or as it was before. */
  print(isPrinted) {
    const before = this.palette.theme, root = document.documentElement;
    root.toggleAttribute("data-print", isPrinted);
    this.setTheme(isPrinted ? "light" : this.themeBefore ?? before);
    this.themeBefore = before;
    this.details.show();
    this.resize();
  }

  setTheme(theme) {
    document.documentElement.dataset.theme = theme;
    this.palette = paletteOf(theme);
  }

  toggleTheme() {
    this.setTheme(this.palette.theme === "dark" ? "light" : "dark");
    this.details.show();
    this.redraw();
  }

  /** By the clock, or an event after the other. */
  toggleClock() {
    if (!this.run.times) return;
    this.scale.byClock = !this.scale.byClock;
    document.getElementById("clock").setAttribute("aria-pressed", this.scale.byClock);
    this.scale.place();
    this.sums.show();
    this.redraw();
  }

  // ---- which event is picked

  /** Picks an event: it is shown in words, and the address names it. */
  pick(event, isRevealed = true) {
    this.event = Math.min(Math.max(event, 0), this.run.count - 1);
    if (isRevealed) {
      this.scale.reveal(this.event);
      if (this.run.kinds[this.event] < 4) this.rows.reveal(this.run.objects[this.event]);
    }
    this.details.show();
    this.search.tell();
    history.replaceState(null, "", `#e=${this.run.numbers[this.event]}`);
    this.picked(this.run.numbers[this.event]);
    this.redraw();
  }

  /** Selects the events from one to another, in any order; or all, without any. */
  select(first, last = first) {
    this.range = first === undefined ? null : [Math.min(first, last), Math.max(first, last)];
    this.sums.show();
    this.redraw();
  }

  /** Hears which event was picked; the editor of scripts does. */
  picked() {}

  /** The next event or the one before; of the same core, if that is asked. */
  step(way, isOfCore = false) {
    const { run } = this, core = this.pickedCore ?? run.coreOf(this.event);
    let event = this.event + way;
    while (isOfCore && event >= 0 && event < run.count && run.coreOf(event) !== core) event += way;
    if (event >= 0 && event < run.count) this.pick(event);
  }

  /** Picks a core, whose name is marked, and whose events shift and the arrows step through. */
  pickCore(node) {
    if (!node) return;
    this.pickedCore = node.level === 0 && this.pickedCore !== node.index ? node.index : null;
    if (this.pickedCore !== null) this.rows.reveal(node.index);
    this.sums.show();
    this.redraw();
  }

  /** The event that a click means: one of this row that is near, else what happened last. */
  nearest(x, row) {
    const { run, scale } = this, at = scale.eventAt(x);
    if (row?.type !== "core" || scale.step > 12) return at;
    let best = at, least = 7;
    for (let event = scale.eventAt(x - 6); event <= scale.eventAt(x + 6); event++) {
      const away = Math.abs(scale.x(event) - x);
      if (run.coreOf(event) === row.node.index && away < least) [best, least] = [event, away];
    }
    return best;
  }

  /** The event that the address names, or the first. */
  follow() {
    const named = /^#e=(\d+)$/.exec(location.hash);
    if (!named)
      this.pick(0);
    else
      this.lookAt(this.run.eventOf(Number(named[1])));
  }

  /** Picks an event, and shows some events around it if there are more than can be told apart. */
  lookAt(event) {
    if (this.scale.step < NAMED_STEP && !this.scale.byClock) {
      const half = this.scale.width / NAMED_STEP / 2;
      this.scale.show(event - half, event + half);
    }
    this.pick(event);
  }

  /** Words beside the pointer. */
  hover(place) {
    this.tip.hidden = !place || place.x < 0 || place.y < 0;
    if (this.tip.hidden) return;
    const row = this.rows.rowAt(place.y);
    const event = this.nearest(place.x, row);
    const { asked, said } = this.run.texts(event);
    const state = row?.node && row.type !== "group" ?
        `\n${row.node.name}: ${meaningOf(this.run, row.node, event)}` :
        "";
    this.tip.textContent = `${this.run.numbers[event]}  ${asked} → ${said}${state}`;
    const left =
        Math.min(place.x + this.gutter + 14, this.canvas.clientWidth - this.tip.offsetWidth - 4);
    this.tip.style.left = `${Math.max(left, 4)}px`;
    this.tip.style.top = `${
        Math.min(
            place.y + AXIS_HEIGHT + 18, this.canvas.clientHeight - this.tip.offsetHeight - 4)}px`;
  }

  // ---- drawing

  redraw() {
    if (this.isWaiting) return;
    this.isWaiting = true;
    requestAnimationFrame(() => {
      this.isWaiting = false;
      this.draw();
    });
  }

  draw() {
    const begun = performance.now();
    const { canvas, ratio, gutter } = this;
    const context = canvas.getContext("2d");
    const width = canvas.width / ratio, height = canvas.height / ratio;
    context.setTransform(1, 0, 0, 1, 0, 0);
    context.fillStyle = this.palette.ground;
    context.fillRect(0, 0, canvas.width, canvas.height);
    context.putImageData(new Painter(this).painted(context), Math.round(gutter * ratio),
        Math.round(AXIS_HEIGHT * ratio));
    context.setTransform(ratio, 0, 0, ratio, 0, 0);
    this.drawOver(context, width, height);
    this.minimap.draw();
    this.frame = performance.now() - begun;
  }

  /** What stands over the bands: first what moves with time, then the names. */
  drawOver(context, width, height) {
    const labels = new Labels(this, context), { gutter, rows } = this;
    context.save();
    context.beginPath();
    context.rect(gutter, 0, width - gutter, height);
    context.clip();
    context.translate(gutter, 0);
    labels.axis(AXIS_HEIGHT);
    labels.selected(0, height);
    labels.picked(0, height);
    context.beginPath();
    context.rect(0, AXIS_HEIGHT, width - gutter, height - AXIS_HEIGHT);
    context.clip();
    context.translate(0, AXIS_HEIGHT);
    labels.states();
    labels.marks();
    const link = rows.visible().find((row) => row.type === "link");
    if (link) new Link(this, context, link.y - rows.top).drawn();
    context.restore();
    context.save();
    context.beginPath();
    context.rect(0, AXIS_HEIGHT, gutter, height - AXIS_HEIGHT);
    context.clip();
    context.translate(0, AXIS_HEIGHT);
    labels.names();
    context.restore();
  }
}

/** Opens the run that the page carries, at the event that its address names. */
async function opened(packed) {
  nameStates(packed.head.states);
  const view = new View(await unpacked(packed));
  view.follow();
  window.psci = { view };
  document.documentElement.dataset.ready = "yes";
}
