// Bands of states and depths, painted pixel by pixel: a run of any size takes the same time.

// how high the strip of a core's depth is, and from which height of its row there is one
const STRIP_HEIGHT = 3, STRIP_FROM = 15;
// how much of a domain's band a depth takes
const DEPTH_PARTS = [0.14, 0.42, 0.7, 1];

/** The pixels of a canvas, which are painted by boxes. */
class Pixels {
  constructor(context, width, height) {
    this.image = context.createImageData(width, height);
    this.colors = new Uint32Array(this.image.data.buffer);
    this.width = width;
    this.height = height;
  }

  box(x0, y0, x1, y1, color) {
    x0 = Math.max(x0, 0);
    x1 = Math.min(x1, this.width);
    y1 = Math.min(y1, this.height);
    for (let y = Math.max(y0, 0); y < y1; y++) {
      const row = y * this.width;
      if (x1 - x0 > 4)
        this.colors.fill(color, row + x0, row + x1);
      else
        for (let x = x0; x < x1; x++) this.colors[row + x] = color;
    }
  }
}

/** Tells of each stretch of columns which values a history has in it, a bit for each. */
function eachStretch(history, scale, ratio, tell) {
  const { events, values, length } = history, { places, left } = scale;
  const factor = ratio / scale.perPixel;
  const column = (event) => Math.floor((places[event] - left) * factor);
  const end = Math.min(Math.ceil(scale.width * ratio), column(scale.run.count));
  let at = Math.max(lastAtMost(events, scale.eventAt(0), 0, length), 0);
  let begin = Math.max(column(events[at]), 0), mask = 1 << values[at];
  for (at++; begin < end; at++) {
    while (at % BLOCK === 0 && at + BLOCK <= length && column(events[at + BLOCK - 1]) === begin) {
      mask |= history.block(at);
      at += BLOCK;
    }
    const next = at < length ? Math.min(column(events[at]), end) : end;
    if (next > begin) {
      tell(begin, begin + 1, mask);
      if (next > begin + 1) tell(begin + 1, next, 1 << values[at - 1]);
      begin = next;
      mask = 0;
    }
    if (at < length) mask |= 1 << values[at];
  }
}

class Painter {
  constructor(view) {
    Object.assign(this, {
      run: view.run,
      scale: view.scale,
      rows: view.rows,
      palette: view.palette,
      ratio: view.ratio
    });
  }

  /** All bands in sight. */
  painted(context) {
    const { scale, rows, ratio } = this;
    const pixels =
        new Pixels(context, Math.ceil(scale.width * ratio), Math.ceil(rows.height * ratio));
    pixels.colors.fill(this.palette.pixels.ground);
    for (const row of rows.visible()) {
      const y = Math.round((row.y - rows.top) * ratio);
      const end = Math.round((row.y + row.height - rows.top) * ratio);
      if (row.type === "core")
        this.paintCore(pixels, row.node, y + ratio, end - ratio);
      else if (row.type === "domain")
        this.paintDomain(pixels, row.node, y + ratio, end - ratio);
      else if (row.type === "group")
        this.paintAwake(pixels, row, y + 2 * ratio, end - ratio);
    }
    return pixels.image;
  }

  paintCore(pixels, node, y, end) {
    const { states, band } = this.palette.pixels;
    const hasStrip = end - y >= STRIP_FROM * this.ratio;
    const bottom = Math.round(hasStrip ? end - (STRIP_HEIGHT + 1) * this.ratio : end);
    pixels.box(0, Math.round(y), pixels.width, bottom, band);
    const tops = STATES.map((state) => bottom -
            Math.max(Math.round((bottom - y) * state.height), Math.round(this.ratio)));
    eachStretch(
        this.run.cells[this.run.coreAt.get(node.index)], this.scale, this.ratio, (x0, x1, mask) => {
          for (const code of BY_HEIGHT)
            if (mask >> code & 1) pixels.box(x0, tops[code], x1, bottom, states[code]);
        });
    if (hasStrip) this.paintStrip(pixels, node, bottom + Math.round(this.ratio), Math.round(end));
  }

  /** The depth of a core, and where another one is granted. */
  paintStrip(pixels, node, y, end) {
    const { depths, amber } = this.palette.pixels;
    eachStretch(this.run.looks[node.at], this.scale, this.ratio, (x0, x1, mask) => {
      const deepest = 31 - Math.clz32((mask | mask >> 4) & 15);
      pixels.box(x0, y, x1, end, mask >> 4 ? amber : depths[deepest]);
    });
  }

  /** The depths of a domain, which hang down the deeper it is; an amber line: about to change. */
  paintDomain(pixels, node, y, end) {
    const { depths, band, amber } = this.palette.pixels;
    const top = Math.round(y);
    const bottom = Math.round(end);
    const line = Math.max(Math.round(2 * this.ratio), 1);
    pixels.box(0, top, pixels.width, bottom, band);
    eachStretch(this.run.looks[node.at], this.scale, this.ratio, (x0, x1, mask) => {
      const found = mask | mask >> 4;
      for (let depth = 3; depth >= 0; depth--) {
        if (found >> depth & 1)
          pixels.box(
              x0, top, x1, top + Math.round((bottom - top) * DEPTH_PARTS[depth]), depths[depth]);
      }
      if (mask >> 4) pixels.box(x0, bottom - line, x1, bottom, amber);
    });
  }

  /** How many cores of a cluster run. */
  paintAwake(pixels, row, y, end) {
    const { states, line } = this.palette.pixels;
    const bottom = Math.round(end), step = (bottom - y) / row.cores.length;
    pixels.box(0, bottom - 1, pixels.width, bottom, line);
    const counts = new Uint16Array(pixels.width);
    for (const node of row.cores) {
      eachStretch(this.run.cells[this.run.coreAt.get(node.index)], this.scale, this.ratio,
          (x0, x1, mask) => {
            if (mask >> RUNNING & 1)
              for (let x = x0; x < x1; x++) counts[x]++;
          });
    }
    for (let x = 0; x < counts.length; x++) {
      if (counts[x])
        pixels.box(x, Math.round(bottom - counts[x] * step), x + 1, bottom, states[RUNNING]);
    }
  }
}
