// The whole run in little: how many cores run, what was refused or came too late, what was found;
// and which part of it is seen, to be moved and cut out by the mouse.

class Minimap {
  constructor(canvas, view) {
    this.canvas = canvas;
    this.view = view;
    this.image = null;
    this.drag = null;
    canvas.addEventListener("pointerdown", (it) => this.press(it));
    canvas.addEventListener("pointermove", (it) => this.move(it));
    canvas.addEventListener("pointerup", () => {
      this.drag = null;
    });
  }

  /** The place in the run that is under the pointer. */
  place(event) {
    const x = event.clientX - this.canvas.getBoundingClientRect().left - this.view.gutter;
    return x / Math.max(this.view.scale.width, 1) * this.view.scale.end;
  }

  press(event) {
    this.canvas.setPointerCapture(event.pointerId);
    const { scale } = this.view, seen = scale.perPixel * scale.width, place = this.place(event);
    // inside the seen part it is moved, and else it comes here first
    const isInside = place >= scale.left && place <= scale.left + seen;
    this.drag = isInside ? place - scale.left : seen / 2;
    this.move(event);
  }

  move(event) {
    if (this.drag === null) return;
    const { scale } = this.view;
    scale.left = this.place(event) - this.drag;
    scale.clamp();
    this.view.redraw();
  }

  /** What the run is like, which is painted once for each size and theme. */
  paint(width, height, ratio) {
    const { run, scale, palette } = this.view, end = scale.end;
    this.image = new OffscreenCanvas(width * ratio, height * ratio);
    const context = this.image.getContext("2d");
    context.scale(ratio, ratio);
    const most = run.awake.reduce((a, b) => Math.max(a, b), 1);
    const columns = Math.max(Math.floor(width), 1);
    const highs = new Uint16Array(columns);
    const lows = new Uint16Array(columns).fill(65535);
    const wrong = new Uint16Array(columns);
    for (let event = 0; event < run.count; event++) {
      const from = Math.floor(scale.places[event] / end * columns);
      const to = Math.floor(scale.places[event + 1] / end * columns);
      for (let x = from; x <= Math.min(Math.max(to - 1, from), columns - 1); x++) {
        highs[x] = Math.max(highs[x], run.awake[event]);
        lows[x] = Math.min(lows[x], run.awake[event]);
        if (run.outcomes[event] !== FINE) wrong[x]++;
      }
    }
    const worst = wrong.reduce((a, b) => Math.max(a, b), 1);
    const base = height - 2, room = height - 9;
    for (let x = 0; x < columns; x++) {
      context.globalAlpha = 0.45;
      context.fillStyle = palette.states[RUNNING];
      context.fillRect(x, base - room * highs[x] / most, 1, room * highs[x] / most);
      context.globalAlpha = 1;
      if (lows[x] < 65535)
        context.fillRect(x, base - room * lows[x] / most, 1, room * lows[x] / most);
      context.fillStyle = palette.wrong;
      if (wrong[x]) context.fillRect(x, 0, 1, 1 + 5 * wrong[x] / worst);
    }
  }

  draw() {
    const { view, canvas } = this, { scale, palette, gutter, ratio } = view;
    const height = canvas.clientHeight, width = canvas.clientWidth;
    const key = [scale.width, height, ratio, palette.theme, scale.byClock].join();
    if (key !== this.key) this.paint(Math.max(scale.width, 1), height, ratio);
    this.key = key;
    if (canvas.width !== Math.round(width * ratio)) canvas.width = Math.round(width * ratio);
    if (canvas.height !== Math.round(height * ratio)) canvas.height = Math.round(height * ratio);
    const context = canvas.getContext("2d");
    context.setTransform(1, 0, 0, 1, 0, 0);
    context.clearRect(0, 0, canvas.width, canvas.height);
    context.drawImage(this.image, gutter * ratio, 0);
    context.setTransform(ratio, 0, 0, ratio, 0, 0);
    context.font = `11px ${FONT}`;
    context.fillStyle = palette.faint;
    context.fillText("all", 8, 14);
    context.fillText(eventsText(view.run.count), 8, 28);
    this.drawSeen(context, height);
  }

  /** The part that is seen, what was found, and the picked event. */
  drawSeen(context, height) {
    const { view } = this, { scale, palette, gutter, search } = view;
    const x = (place) => gutter + place / scale.end * scale.width;
    context.fillStyle = palette.found;
    let before = -1;
    for (const event of search.found) {
      const at = Math.round(x(scale.places[event]));
      if (at !== before) context.fillRect(at, height - 6, 1, 6);
      before = at;
    }
    const [first, last] = view.range ?? [0, -1];
    context.fillStyle = palette.message;
    const from = x(scale.places[first]);
    context.fillRect(from, 0, x(scale.places[last + 1]) - from, 3);
    const left = x(scale.left);
    const wide = Math.max(x(scale.left + scale.perPixel * scale.width) - left, 3);
    context.fillStyle = palette.shadow;
    context.fillRect(left, 0, wide, height);
    context.strokeStyle = palette.message;
    context.strokeRect(left + 0.5, 0.5, Math.max(wide - 1, 2), height - 1);
    context.fillStyle = palette.pick;
    context.fillRect(x(scale.places[view.event]) - 1, 0, 2, height);
  }
}
