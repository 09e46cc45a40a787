// What a page carries: deflated streams of numbers and texts, in base 64.

/** Bytes that are read one number after the other. */
class Reader {
  constructor(bytes) {
    this.bytes = bytes;
    this.at = 0;
  }

  byte() {
    return this.bytes[this.at++];
  }

  /** A number of seven bits a byte, the lowest first. */
  number() {
    let value = 0;
    for (let unit = 1;; unit *= 128) {
      const byte = this.bytes[this.at++];
      value += (byte & 127) * unit;
      if (byte < 128) return value;
    }
  }

  get isAtEnd() {
    return this.at >= this.bytes.length;
  }
}

/** The bytes of a stream. */
async function inflated(text) {
  const letters = atob(text);
  const bytes = new Uint8Array(letters.length);
  for (let at = 0; at < letters.length; at++) bytes[at] = letters.charCodeAt(at);
  const stream = new Blob([bytes]).stream().pipeThrough(new DecompressionStream("deflate"));
  return new Uint8Array(await new Response(stream).arrayBuffer());
}

/** A list of numbers that grows. */
class Numbers {
  constructor(Kind, room) {
    this.values = new Kind(room);
    this.length = 0;
  }

  push(value) {
    if (this.length === this.values.length) {
      const grown = new this.values.constructor(2 * this.length + 16);
      grown.set(this.values);
      this.values = grown;
    }
    this.values[this.length++] = value;
  }
}

/** The run that a page or an answer of the server carries. */
async function unpacked(packed) {
  const { head, streams } = packed;
  const names = ["events", "changes", "texts", "times"];
  const [events, changes, texts, times] =
      await Promise.all(names.map((name) => inflated(streams[name])));
  return new Run(head, new Reader(events), new Reader(changes), new TextDecoder().decode(texts),
      new Reader(times));
}
