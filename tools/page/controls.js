// The mouse, fingers, keys and buttons.

class Controls {
  constructor(view) {
    this.view = view;
    this.pointers = new Map();
    const { canvas } = view;
    canvas.addEventListener("wheel", (it) => this.wheel(it), { passive: false });
    canvas.addEventListener("pointerdown", (it) => this.press(it));
    canvas.addEventListener("pointermove", (it) => this.move(it));
    canvas.addEventListener("pointerup", (it) => this.release(it));
    canvas.addEventListener("pointercancel", (it) => this.pointers.delete(it.pointerId));
    canvas.addEventListener("pointerleave", () => view.hover(null));
    document.addEventListener("keydown", (it) => this.key(it));
    for (const [id, act] of Object.entries(this.buttons()))
      document.getElementById(id).addEventListener("click", act);
    const number = document.getElementById("number");
    number.addEventListener("change", () => view.pick(view.run.eventOf(Number(number.value))));
  }

  buttons() {
    const { view } = this;
    return {
      before: () => view.step(-1),
      after: () => view.step(1),
      closer: () => this.zoom(0.5),
      wider: () => this.zoom(2),
      whole: () => this.whole(),
      fold: () => this.fold(),
      clock: () => view.toggleClock(),
      theme: () => view.toggleTheme(),
      help: () => this.help(),
      closehelp: () => this.help(),
    };
  }

  // ---- what they do

  zoom(factor, x) {
    const { view } = this, at = view.scale.x(view.event);
    // around the pointer, else around the picked event where it is seen
    view.scale.zoom(factor, x ?? (at >= 0 && at <= view.scale.width ? at : undefined));
    view.redraw();
  }

  pan(pixels) {
    this.view.scale.pan(pixels);
    this.view.redraw();
  }

  scroll(pixels) {
    this.view.rows.scroll(pixels);
    this.view.redraw();
  }

  whole() {
    this.view.scale.whole();
    this.view.redraw();
  }

  fold() {
    this.view.rows.toggleIdle();
    this.view.redraw();
  }

  help() {
    const page = document.getElementById("helping");
    document.getElementById("legend").replaceChildren(...legendRows(this.view.palette));
    if (page.open) {
      page.close();
    } else {
      page.showModal();
      page.scrollTop = 0;
    }
  }

  /** Follows a message: from where it is sent to its delivery, and to where its answer is taken. */
  follow() {
    const { run, event } = this.view, { message, ack } = messagesOf(run, event);
    const ways =
        [...(message ? [message.event, ...message.comings] : []), ...(ack ? ack.comings : [])];
    if (message)
      for (const at of message.comings) ways.push(...(run.acked[at]?.comings ?? []));
    const ordered = [...new Set(ways)].filter((at) => at >= 0).sort((a, b) => a - b);
    if (ordered.length) this.view.pick(ordered.find((at) => at > event) ?? ordered[0]);
  }

  // ---- the mouse and fingers

  place(event) {
    const box = this.view.canvas.getBoundingClientRect();
    return {
      x: event.clientX - box.left - this.view.gutter,
      y: event.clientY - box.top - AXIS_HEIGHT
    };
  }

  wheel(event) {
    event.preventDefault();
    const { view } = this, { x } = this.place(event), unit = event.deltaMode ? 24 : 1;
    const [across, down] = [event.deltaX * unit, event.deltaY * unit];
    if (event.shiftKey || Math.abs(across) > Math.abs(down))
      this.pan(across || down);
    else if (!event.ctrlKey && !event.metaKey && (x < 0 || event.altKey))
      this.scroll(down);
    else
      this.zoom(Math.exp(Math.max(Math.min(down, 240), -240) / 300),
          Math.min(Math.max(x, 0), view.scale.width));
  }

  press(event) {
    this.view.canvas.setPointerCapture(event.pointerId);
    this.view.canvas.focus();
    const place = this.place(event);
    const begun = event.shiftKey && place.x >= 0 ? this.view.scale.eventAt(place.x) : null;
    this.pointers.set(event.pointerId, { ...place, begun, moved: 0 });
  }

  move(event) {
    const before = this.pointers.get(event.pointerId), now = this.place(event);
    if (!before) {
      this.view.hover(now);
      return;
    }
    if (before.begun !== null)
      this.view.select(before.begun, this.view.scale.eventAt(now.x));
    else if (this.pointers.size === 2)
      this.pinch(event.pointerId, now);
    else {
      this.pan(before.x - now.x);
      this.scroll(before.y - now.y);
    }
    const moved = before.moved + Math.abs(now.x - before.x) + Math.abs(now.y - before.y);
    this.pointers.set(event.pointerId, { ...now, begun: before.begun, moved });
  }

  /** Two fingers zoom. */
  pinch(id, now) {
    const before = this.pointers.get(id), [, other] = [...this.pointers].find(([it]) => it !== id);
    const [was, is] = [Math.abs(before.x - other.x), Math.abs(now.x - other.x)];
    if (was > 8 && is > 8) this.zoom(was / is, (now.x + other.x) / 2);
  }

  release(event) {
    const pressed = this.pointers.get(event.pointerId);
    this.pointers.delete(event.pointerId);
    if (pressed && pressed.moved < 5) this.click(this.place(event));
  }

  click({ x, y }) {
    const { view } = this, row = view.rows.rowAt(y);
    if (x < 0) {
      if (row && view.rows.toggle(row))
        view.redraw();
      else if (row?.node)
        view.pickCore(row.node);
    } else {
      view.pick(view.nearest(x, row), false);
    }
  }

  // ---- keys

  key(event) {
    if (event.target.matches?.("input, textarea, select") || event.ctrlKey || event.metaKey ||
        event.altKey)
      return;
    // over the help a key closes it, or is the browser's
    const isHelp = document.getElementById("helping").open;
    const act = isHelp ? { Escape: () => this.help(), "?": () => this.help() }[event.key] :
                         this.keys()[event.key];
    if (!act) return;
    event.preventDefault();
    act(event);
  }

  keys() {
    const { view } = this, { search } = view, far = view.scale.width * 0.8;
    return {
      ArrowRight: (it) => view.step(1, it.shiftKey),
      ArrowLeft: (it) => view.step(-1, it.shiftKey),
      ArrowDown: () => this.scroll(40),
      ArrowUp: () => this.scroll(-40),
      PageDown: () => this.pan(far),
      PageUp: () => this.pan(-far),
      Home: () => view.pick(0),
      End: () => view.pick(view.run.count - 1),
      "+": () => this.zoom(0.5),
      "=": () => this.zoom(0.5),
      w: () => this.zoom(0.7),
      "-": () => this.zoom(2),
      s: () => this.zoom(1 / 0.7),
      a: () => this.pan(-far / 5),
      d: () => this.pan(far / 5),
      0: () => this.whole(),
      n: () => search.step(1),
      N: () => search.step(-1),
      "/": () => search.field.focus(),
      m: () => this.follow(),
      c: () => view.pickCore(view.run.cores[view.run.coreAt.get(view.run.coreOf(view.event))]),
      b: () => view.select(view.event, Math.max(view.range?.[1] ?? view.run.count - 1, view.event)),
      e: () => view.select(Math.min(view.range?.[0] ?? 0, view.event), view.event),
      Escape: () => view.select(),
      f: () => this.fold(),
      t: () => view.toggleClock(),
      l: () => view.toggleTheme(),
      "[": () => {
        view.rows.resizeRows(1 / 1.25);
        view.redraw();
      },
      "]": () => {
        view.rows.resizeRows(1.25);
        view.redraw();
      },
      "?": () => this.help(),
    };
  }
}
