// Search: a text in what was asked and answered, as a function, an answer or a core. Several texts,
// with commas between them, all have to be there. `core 3` is not found in `core 31`.

const SPECIAL = /[.*+?^${}()|[\]\\]/g;

/** The pattern of a text: it begins with a word where it does, and a number in it is whole. */
function patternOf(text) {
  const begin = text.search(/\w/) === 0 ? "(?<!\\w)" : "";
  const end = text.search(/\d$/) >= 0 ? "(?!\\d)" : "";
  return new RegExp(begin + text.replace(SPECIAL, "\\$&") + end, "i");
}

/** The test that an event's words have to pass. */
function testOf(query) {
  const parts = query.split(",").map((it) => it.trim()).filter(Boolean).map(patternOf);
  return parts.length ? (line) => parts.every((part) => part.test(line)) : null;
}

class Search {
  constructor(view) {
    this.view = view;
    this.found = new Uint32Array(0);
    this.field = document.getElementById("search");
    this.told = document.getElementById("found");
    this.field.addEventListener("input", () => this.look());
    this.field.addEventListener("keydown", (it) => {
      if (it.key === "Enter")
        this.step(it.shiftKey ? -1 : 1);
      else if (it.key === "Escape")
        this.field.blur();
      else
        return;
      it.preventDefault();
    });
  }

  /** Finds all events that have the text. */
  look() {
    const { run } = this.view, test = testOf(this.field.value), found = [];
    if (test)
      for (let event = 0; event < run.count; event++)
        if (test(run.lines[event])) found.push(event);
    this.found = Uint32Array.from(found);
    this.tell();
    this.view.redraw();
  }

  tell() {
    const { found } = this, at = lastAtMost(found, this.view.event, 0, found.length);
    if (!this.field.value.trim())
      this.told.textContent = "";
    else if (!found.length)
      this.told.textContent = "none";
    else
      this.told.textContent = at >= 0 && found[at] === this.view.event ?
          `${at + 1} of ${found.length}` :
          `${found.length} found`;
  }

  /** Goes to the next event that was found, or to the one before, around the ends. */
  step(way) {
    const { found } = this, count = found.length;
    if (!count) return;
    const at = lastAtMost(found, this.view.event, 0, count);
    const isOn = at >= 0 && found[at] === this.view.event;
    const next = way > 0 ? at + 1 : isOn ? at - 1 : at;
    this.view.pick(found[(next + count) % count]);
  }
}
