// A run in memory: its events, what each changed, and the way of each message.

const KINDS = ["call", "enter", "wake", "reset", "deliver", "take"];
const MESSAGE_KINDS = ["Down", "Start", "Off", "Reset"];
// what came of an event, as the page has it
const FINE = 0, REFUSED = 1, IGNORED = 2, ABSENT = 3, STALE = 4, OLD = 5;
// the granted depth while none is known
const UNKNOWN = 4;

/** The last place in sorted values, of so many, whose value is at most this; -1 if none is. */
function lastAtMost(values, value, begin, end) {
  let low = begin, high = end;
  while (low < high) {
    const middle = (low + high) >> 1;
    if (values[middle] <= value)
      low = middle + 1;
    else
      high = middle;
  }
  return low - 1;
}

// so many values of a history in a row are gathered, to be painted at once
const BLOCK = 64;

/** The values of a cell one after the other: from which event on each holds. */
class History {
  constructor(events, values) {
    this.events = events;
    this.values = values;
  }

  get length() {
    return this.events.length;
  }

  /** The values of a block, a bit for each; it begins at this place, a multiple of its length. */
  block(at) {
    this.blocks ??= this.gathered();
    return this.blocks[at / BLOCK];
  }

  gathered() {
    const blocks = new Uint8Array(Math.floor(this.length / BLOCK));
    for (let at = 0; at < blocks.length * BLOCK; at++) {
      blocks[Math.floor(at / BLOCK)] |= 1 << this.values[at];
    }
    return blocks;
  }

  at(event) {
    const place = lastAtMost(this.events, event, 0, this.events.length);
    return place < 0 ? 0 : this.values[place];
  }
}

class Run {
  constructor(head, events, changes, texts, times) {
    this.head = head;
    this.nodes = head.nodes;
    this.count = head.count;
    this.cores = this.nodes.filter((node) => node.level === 0);
    this.nodes.forEach((node, at) => {
      node.at = at;
    });
    this.coreAt = new Map(this.cores.map((node, at) => [node.index, at]));
    this.lines = texts.split("\n");
    this.readEvents(events);
    this.readChanges(changes);
    this.readTimes(times);
    this.looks = this.nodes.map((node) => this.lookHistory(node.at));
    this.awake = this.countAwake();
  }

  readEvents(reader) {
    const count = this.count;
    this.numbers = new Uint32Array(count);
    this.kinds = new Uint8Array(count);
    this.objects = new Float64Array(count);
    this.outcomes = new Uint8Array(count);
    this.lives = new Uint32Array(count);
    this.live = new Uint8Array(count);
    this.sends = new Uint8Array(count);
    this.sent = new Array(count);
    this.acked = new Array(count);
    this.taken = new Array(count);
    this.messages = new Map();
    this.acks = new Map();
    // how many deliveries and takes there are before each event
    this.comings = new Uint32Array(count + 1);
    let number = 0;
    for (let event = 0; event < count; event++) {
      const flags = reader.byte();
      number += reader.number();
      this.numbers[event] = number;
      this.kinds[event] = flags & 7;
      this.live[event] = flags >> 6 & 1;
      this.objects[event] = reader.number();
      this.comings[event + 1] = this.comings[event] + (this.kinds[event] > 3);
      this.outcomes[event] = reader.byte();
      this.lives[event] = reader.number();
      if (flags & 8) this.readSent(reader, event);
      if (flags & 16) this.readAck(reader, event);
      if (flags & 32) this.readTaken(reader, event);
      if (this.kinds[event] === 4 && this.outcomes[event] !== ABSENT) this.delivered(event);
    }
  }

  message(index) {
    if (!this.messages.has(index)) {
      this.messages.set(index, { index, event: -1, comings: [] });
    }
    return this.messages.get(index);
  }

  ack(index) {
    if (!this.acks.has(index)) this.acks.set(index, { index, event: -1, comings: [] });
    return this.acks.get(index);
  }

  readSent(reader, event) {
    const message = this.message(reader.number());
    const [kind, core] = [reader.byte(), reader.number()];
    this.sends[event] = 1;
    this.sent[event] = Object.assign(message, { event, kind, core });
  }

  readAck(reader, event) {
    const ack = this.ack(reader.number());
    this.acked[event] = Object.assign(ack, { event, message: reader.number() });
  }

  readTaken(reader, event) {
    const ack = this.taken[event] = this.ack(reader.number());
    ack.message = reader.number();
    ack.comings.push(event);
  }

  delivered(event) {
    const message = this.message(this.objects[event]);
    message.comings.push(event);
  }

  /** Values before the first event, and then what each event changed, as they come. */
  readChanges(reader) {
    const cells = this.cores.length + 2 * this.nodes.length;
    const places = new Numbers(Uint16Array, 4 * this.count);
    const values = new Numbers(Uint8Array, 4 * this.count);
    this.changeStart = new Uint32Array(this.count + 1);
    const counts = new Uint32Array(cells + 1);
    for (let event = 0; event < this.count; event++) {
      this.changeStart[event] = places.length;
      for (let left = reader.number(), cell = 0; left > 0; left--) {
        cell += reader.number();
        places.push(cell);
        values.push(reader.byte());
        counts[cell + 1]++;
      }
    }
    this.changeStart[this.count] = places.length;
    this.changeCell = places.values;
    this.sortByCell(counts, values.values);
  }

  sortByCell(counts, values) {
    for (let cell = 1; cell < counts.length; cell++) counts[cell] += counts[cell - 1];
    const events = new Uint32Array(this.changeStart[this.count]);
    const sorted = new Uint8Array(events.length);
    const next = counts.slice();
    for (let event = 0; event < this.count; event++) {
      for (let at = this.changeStart[event]; at < this.changeStart[event + 1]; at++) {
        const place = next[this.changeCell[at]]++;
        events[place] = event;
        sorted[place] = values[at];
      }
    }
    this.cells = [];
    for (let cell = 0; cell + 1 < counts.length; cell++) {
      const [begin, end] = [counts[cell], counts[cell + 1]];
      this.cells.push(new History(events.subarray(begin, end), sorted.subarray(begin, end)));
    }
  }

  readTimes(reader) {
    this.times = null;
    if (reader.isAtEnd) return;
    this.times = new Float64Array(this.count);
    let time = 0;
    for (let event = 0; event < this.count; event++) this.times[event] = time += reader.number();
  }

  /** The depth of a node, and 4 more while another one is granted, one after the other. */
  lookHistory(at) {
    const depth = this.cells[this.cores.length + at];
    const granted = this.cells[this.cores.length + this.nodes.length + at];
    const events = [], values = [];
    for (let d = 0, g = 0; d < depth.length || g < granted.length;) {
      const event = Math.min(d < depth.length ? depth.events[d] : Infinity,
          g < granted.length ? granted.events[g] : Infinity);
      while (d < depth.length && depth.events[d] <= event) d++;
      while (g < granted.length && granted.events[g] <= event) g++;
      const is = d ? depth.values[d - 1] : 0, may = g ? granted.values[g - 1] : 0;
      const value = is + (may === UNKNOWN || may === is ? 0 : 4);
      if (!values.length || values[values.length - 1] !== value) {
        events.push(event);
        values.push(value);
      }
    }
    return new History(Uint32Array.from(events), Uint8Array.from(values));
  }

  /** How many cores run after each event. */
  countAwake() {
    const awake = new Uint16Array(this.count), steps = new Int16Array(this.count);
    for (let core = 0; core < this.cores.length; core++) {
      const history = this.cells[core];
      for (let at = 0; at < history.length; at++) {
        const was = at > 0 && history.values[at - 1] === RUNNING;
        steps[history.events[at]] += (history.values[at] === RUNNING) - was;
      }
    }
    for (let event = 0, now = 0; event < this.count; event++) awake[event] = now += steps[event];
    return awake;
  }

  // ---- what is asked of it

  /** The texts of an event: asked, said, its answer line, and its line of the script. */
  texts(event) {
    const [asked, said, answer, line] = this.lines[event].split("\t");
    return { asked, said, answer, line };
  }

  /** What a core or domain is after an event. */
  look(node, event) {
    const core = node.level === 0 ? this.coreAt.get(node.index) : -1;
    const depth = this.cells[this.cores.length + node.at].at(event);
    const granted = this.cells[this.cores.length + this.nodes.length + node.at].at(event);
    return {
      state: core < 0 ? -1 : this.cells[core].at(event),
      depth,
      granted: granted === UNKNOWN ? depth : granted
    };
  }

  /** Whether an event changed what is shown of a node. */
  changes(node, event) {
    if (event === 0) return false;
    const [was, is] = [this.look(node, event - 1), this.look(node, event)];
    return was.state !== is.state || was.depth !== is.depth || was.granted !== is.granted;
  }

  /** The core whose event this is, or that of its message. */
  coreOf(event) {
    const kind = this.kinds[event], object = this.objects[event];
    if (kind === 4) return this.messages.get(object)?.core ?? -1;
    if (kind === 5) return this.messages.get(this.acks.get(object)?.message)?.core ?? -1;
    return object;
  }

  /** The event of this number, or the last one before it. */
  eventOf(number) {
    return Math.max(lastAtMost(this.numbers, number, 0, this.count), 0);
  }
}
