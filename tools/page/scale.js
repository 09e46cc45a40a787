// Where events stand from left to right: by their count, or by the clock.

class Scale {
  constructor(run) {
    this.run = run;
    this.byClock = false;
    this.width = 1;
    this.place();
  }

  /** Places the events; the last place is where the last event ends. */
  place() {
    const { count, times } = this.run;
    this.places = new Float64Array(count + 1);
    for (let event = 0; event <= count; event++) {
      this.places[event] = this.byClock ? times[Math.min(event, count - 1)] - times[0] : event;
    }
    if (this.byClock)
      this.places[count] += Math.max(this.places[count] / Math.max(count - 1, 1), 1);
    this.end = this.places[count];
    this.whole();
  }

  /** Shows the whole run, or as much of it as has room. */
  whole() {
    this.left = 0;
    this.perPixel = this.end / this.width;
    this.clamp();
  }

  resize(width) {
    const isWhole =
        this.left === 0 && Math.abs(this.perPixel * this.width - this.end) < 1e-6 * this.end;
    this.width = Math.max(width, 1);
    if (isWhole) this.whole();
    this.clamp();
  }

  x(event) {
    return (this.places[event] - this.left) / this.perPixel;
  }

  /** The event that holds at this column. */
  eventAt(x) {
    const at = lastAtMost(this.places, this.left + x * this.perPixel, 0, this.run.count);
    return Math.min(Math.max(at, 0), this.run.count - 1);
  }

  /** How wide an event is, on average over what is seen. */
  get step() {
    const seen = Math.max(this.eventAt(this.width) - this.eventAt(0), 1);
    return this.width / seen;
  }

  zoom(factor, x = this.width / 2) {
    const place = this.left + x * this.perPixel;
    this.perPixel *= factor;
    this.limit();
    this.left = place - x * this.perPixel;
    this.clamp();
  }

  pan(pixels) {
    this.left += pixels * this.perPixel;
    this.clamp();
  }

  /** Brings an event into sight, if it is not, with some room around it. */
  reveal(event) {
    const x = this.x(event), margin = Math.min(80, this.width / 5);
    if (x < margin || x > this.width - 2 * margin) {
      this.left = this.places[event] - this.perPixel * this.width / 2;
      this.clamp();
    }
  }

  /** Shows the part between two places. */
  show(from, to) {
    this.perPixel = (to - from) / this.width;
    this.limit();
    this.left = from;
    this.clamp();
  }

  limit() {
    const least = this.byClock ? 0.01 : 1 / 280;
    this.perPixel =
        Math.min(Math.max(this.perPixel, least), Math.max(this.end / this.width, least));
  }

  clamp() {
    this.limit();
    const most = Math.max(this.end - this.perPixel * this.width, 0);
    this.left = Math.min(Math.max(this.left, 0), most);
  }

  /** Round distances between marks that are at least this many pixels apart. */
  tick(pixels) {
    const least = Math.max(pixels * this.perPixel, this.byClock ? 0 : 1);
    const unit = 10 ** Math.floor(Math.log10(least));
    return [1, 2, 5, 10].map((it) => it * unit).find((it) => it >= least);
  }
}

/** A time in nanoseconds, in the unit that suits it. */
function timeText(time, step = 1) {
  const units = [[1e9, "s"], [1e6, "ms"], [1e3, "µs"], [1, "ns"]];
  const [unit, name] = units.find(([it]) => time >= it) ?? units[3];
  const digits = Math.max(0, Math.min(6, Math.ceil(-Math.log10(step / unit))));
  return `${(time / unit).toFixed(digits)} ${name}`;
}
