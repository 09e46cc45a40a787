// Messages from the firmware to the power controller, and acknowledgements back: arrows, or where
// there are too many of them how many are sent and come.

const LINK_TOP = 22, LINK_BOTTOM = 72, MOST_NAMES = 60;
// how much room an arrow has, and how wide a bar is where they have less, in pixels
const ARROW_ROOM = 12, BAR = 6;
// how wide an event has to be, in pixels, for dashes and heads to be told apart
const LEAST_STEP = 2;

class Link {
  constructor(view, context, y) {
    Object.assign(this, { view, context, run: view.run, scale: view.scale, palette: view.palette });
    this.top = y + LINK_TOP;
    this.bottom = y + LINK_BOTTOM;
    this.first = this.scale.eventAt(0);
    this.last = this.scale.eventAt(this.scale.width);
  }

  drawn() {
    const end = Math.min(this.scale.x(this.run.count), this.scale.width);
    this.context.fillStyle = this.palette.faint;
    this.context.fillRect(0, this.top, end, 1.5);
    this.context.fillRect(0, this.bottom, end, 1.5);
    const { comings } = this.run;
    if ((comings[this.last + 1] - comings[this.first]) * ARROW_ROOM > this.scale.width) {
      this.density();
    } else {
      const { messages, acks } = this.inSight();
      messages.forEach((message) => this.message(message));
      acks.forEach((ack) => this.ack(ack));
      if (messages.size <= MOST_NAMES) this.names([...messages]);
    }
    this.picked();
  }

  isSeen(event) {
    return event >= this.first && event <= this.last;
  }

  /** What is made, or comes, in the part that is seen. */
  inSight() {
    const { run } = this, messages = new Set(), acks = new Set();
    for (let event = this.first; event <= this.last; event++) {
      if (run.sends[event]) messages.add(run.sent[event]);
      if (run.kinds[event] < 4 || run.outcomes[event] === ABSENT) continue;
      if (run.kinds[event] === 4) messages.add(run.messages.get(run.objects[event]));
      if (run.acked[event]) acks.add(run.acked[event]);
      if (run.taken[event]) acks.add(run.taken[event]);
    }
    return { messages, acks };
  }

  message(message, color = null) {
    const { palette } = this;
    this.way(message, this.top, this.bottom, color ?? palette.message, color ?? palette.wrong);
  }

  ack(ack, color = null) {
    const { palette } = this;
    this.way(ack, this.bottom, this.top, color ?? palette.ack, color ?? palette.wrong);
  }

  /** The arrows of a message or an acknowledgement that begin or end in sight. */
  way(it, from, to, color, wrong) {
    const begin = it.event < 0 ? -20 : this.scale.x(it.event);
    for (const event of it.comings) {
      if (!this.isSeen(it.event) && !this.isSeen(event)) continue;
      const isWrong = [STALE, IGNORED, OLD].includes(this.run.outcomes[event]);
      this.arrow(begin, from, this.scale.x(event), to, isWrong ? wrong : color, isWrong);
    }
    if (!it.comings.length) this.lost(begin, from, Math.sign(to - from));
  }

  /** An arrow; dashed where what comes is out of date. */
  arrow(x0, y0, x1, y1, color, isDashed) {
    const { context } = this;
    context.strokeStyle = context.fillStyle = color;
    context.lineWidth = 1.5;
    context.setLineDash(isDashed && this.scale.step >= LEAST_STEP ? [5, 3] : []);
    context.beginPath();
    context.moveTo(...this.cut(x0, y0, x1, y1));
    context.lineTo(...this.cut(x1, y1, x0, y0));
    context.stroke();
    context.setLineDash([]);
    if (this.scale.step < LEAST_STEP) return;
    const angle = Math.atan2(y1 - y0, x1 - x0);
    const size = Math.min(8, Math.max(this.scale.step * 0.6, 3));
    context.beginPath();
    context.moveTo(x1, y1);
    context.lineTo(x1 - size * Math.cos(angle - 0.4), y1 - size * Math.sin(angle - 0.4));
    context.lineTo(x1 - size * Math.cos(angle + 0.4), y1 - size * Math.sin(angle + 0.4));
    context.fill();
  }

  /** The end of a line, or where it leaves the part that is seen. */
  cut(x, y, otherX, otherY) {
    const seen = Math.min(Math.max(x, -40), this.scale.width + 40);
    return [seen, seen === x ? y : otherY + (y - otherY) * (seen - otherX) / (x - otherX)];
  }

  /** What never comes ends open. */
  lost(x, y, way) {
    const { context } = this, room = Math.min(Math.max(this.scale.step * 0.5, 5), 24);
    context.strokeStyle = this.palette.faint;
    context.lineWidth = 1.2;
    context.setLineDash([3, 3]);
    context.beginPath();
    context.moveTo(x, y);
    context.lineTo(x + room, y + way * 22);
    context.stroke();
    context.setLineDash([]);
    context.beginPath();
    context.arc(x + room, y + way * 25, 3, 0, 7);
    context.stroke();
  }

  names(messages) {
    const { context, palette } = this;
    context.font = `11px ${FONT}`;
    let free = -Infinity;
    for (const message of messages.sort((a, b) => a.event - b.event)) {
      if (message.event < this.first) continue;
      const x = Math.max(this.scale.x(message.event), 0), name = messageName(message);
      if (x < free) continue;
      context.fillStyle = palette.message;
      context.fillText(name, x + 3, this.top - 7);
      free = x + context.measureText(name).width + 12;
    }
  }

  /** How many messages are sent, above, and how many are delivered, below, while a bar lasts. */
  density() {
    const { run, scale, palette } = this, width = Math.ceil(scale.width / BAR) + 1;
    const [sent, delivered, wrong] = [0, 0, 0].map(() => new Uint16Array(width));
    for (let event = this.first; event <= this.last; event++) {
      const x = Math.min(Math.max(Math.floor(scale.x(event) / BAR), 0), width - 1);
      sent[x] += run.sends[event];
      if (run.kinds[event] === 4) delivered[x]++;
      if (run.outcomes[event] >= IGNORED && run.kinds[event] >= 4) wrong[x]++;
    }
    const most = Math.max(
        sent.reduce((a, b) => Math.max(a, b), 1), delivered.reduce((a, b) => Math.max(a, b), 1));
    const half = (this.bottom - this.top) / 2 - 3;
    this.bars(sent, palette.message, this.top + 2, half / most);
    this.bars(delivered, palette.ack, this.bottom, -half / most);
    this.bars(wrong, palette.wrong, this.bottom + 3, 9 / most);
  }

  /** The bars, from this line down, or up. */
  bars(counts, color, y, unit) {
    this.context.fillStyle = color;
    counts.forEach(
        (count, x) => count && this.context.fillRect(x * BAR, y, BAR - 2, unit * count));
  }

  /** The messages of the picked event, over all others. */
  picked() {
    const { run, view } = this, { message, ack } = messagesOf(run, view.event);
    if (message) this.message(message, this.palette.pick);
    if (ack) this.ack(ack, this.palette.pick);
  }
}

/** A message by its name. */
function messageName(message) {
  if (message.event < 0) return `message #${message.index}`;
  const name = `${MESSAGE_KINDS[message.kind]} #${message.index}`;
  return message.kind < 2 ? `${name} of core ${message.core}` : name;
}

/** The message that an event sends or delivers, and the acknowledgement that it makes or takes. */
function messagesOf(run, event) {
  const ack = run.acked[event] ?? run.taken[event] ?? null;
  const index = run.kinds[event] === 4 ? run.objects[event] : ack?.message;
  return { message: run.sent[event] ?? run.messages.get(index) ?? null, ack };
}
