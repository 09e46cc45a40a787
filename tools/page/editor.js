// A script that is answered as one types: it goes to the server, and its run comes back.

// how long no key is pressed before a script is sent, in milliseconds
const QUIET = 120;

/** The lines of a script, each with the number of the event that it is, if it is one. */
function eventLines(script) {
  let count = 0;
  return script.split("\n").map(
      (line, at) => (at > 0 && line && !line.startsWith("#") ? ++count : 0));
}

class Editor {
  constructor(groups) {
    this.places = Object.fromEntries(["scripts", "story", "script", "numbers", "marks",
      "fault"].map((id) => [id, document.getElementById(id)]));
    this.scripts = groups.flatMap((group) => group.scripts);
    this.fill(groups);
    this.asked = 0;
    this.view = null;
    const { script, scripts } = this.places;
    script.addEventListener("input", () => this.changed());
    script.addEventListener("scroll", () => this.scrolled());
    script.addEventListener("click", () => this.pickLine());
    script.addEventListener("keyup", (it) => it.key.startsWith("Arrow") && this.pickLine());
    scripts.addEventListener("change", () => this.choose(Number(scripts.value)));
    const first = this.scripts.findIndex((it) => it.title === "late acknowledgement");
    this.choose(groups[0].group === "yours" ? 0 : Math.max(first, 0));
  }

  fill(groups) {
    let at = 0;
    for (const { group, scripts } of groups) {
      const made = document.createElement("optgroup");
      made.label = group;
      for (const { title } of scripts) made.append(new Option(title, at++));
      this.places.scripts.append(made);
    }
  }

  choose(at) {
    const { title, text, story } = this.scripts[at];
    this.places.scripts.value = at;
    this.places.script.value = text;
    this.places.story.textContent = story;
    this.places.story.hidden = !story;
    document.title = `psci try: ${title}`;
    this.isNew = true;
    this.changed();
  }

  /** The script changed: it is sent once no key is pressed for a while. */
  changed() {
    this.mark(null);
    clearTimeout(this.timer);
    this.timer = setTimeout(() => this.send(), QUIET);
  }

  async send() {
    const asked = ++this.asked, script = this.places.script.value;
    let answer;
    try {
      const said = await fetch("/run", { method: "POST", body: script });
      answer = said.ok ? await said.json() :
                         { run: null, fault: { line: null, text: await said.text() } };
    } catch {
      answer = {
        run: null,
        fault: { line: null, text: "the server does not answer: was it ended?" }
      };
    }
    // an answer to an older script says nothing any more
    if (asked === this.asked) await this.answered(answer);
  }

  async answered({ run, fault }) {
    this.mark(fault);
    document.getElementById("seen").classList.toggle("stale", !run);
    if (run) {
      nameStates(run.head.states);
      const shown = await unpacked(run), event = this.isNew ? 0 : this.view?.event ?? 0;
      this.isNew = false;
      if (this.view)
        this.view.show(shown);
      else
        this.view = new View(shown);
      this.view.picked = (number) => this.markEvent(number);
      this.view.pick(Math.min(event, shown.count - 1));
      window.psci = { view: this.view };
    }
    document.documentElement.dataset.ready = "yes";
    document.documentElement.dataset.answered = this.asked;
  }

  // ---- what is marked in the script

  /** Underlines the line of a fault, and says what it means. */
  mark(fault) {
    const lines = this.places.script.value.split("\n");
    this.places.numbers.textContent = lines.map((_, at) => at + 1).join("\n");
    this.places.marks.replaceChildren(...lines.flatMap((line, at) => {
      const made = element("span", fault?.line === at + 1 ? "faulty" : "", line || " ");
      return [made, "\n"];
    }));
    this.places.fault.textContent =
        fault ? `${fault.line ? `line ${fault.line}: ` : ""}${fault.text}` : "";
    this.scrolled();
  }

  /** Marks the line of the picked event. */
  markEvent(number) {
    const at = eventLines(this.places.script.value).indexOf(number);
    for (const [place, made] of [...this.places.marks.querySelectorAll("span")].entries())
      made.classList.toggle("event", place === at);
  }

  /** Picks the event of the line that the cursor is in. */
  pickLine() {
    const { script } = this.places;
    const before = script.value.slice(0, script.selectionStart).split("\n").length - 1;
    const number = eventLines(script.value)[before];
    if (number && this.view && number <= this.view.run.numbers[this.view.run.count - 1])
      this.view.pick(this.view.run.eventOf(number));
  }

  scrolled() {
    const { script, marks, numbers } = this.places;
    marks.style.transform = `translate(${- script.scrollLeft}px, ${- script.scrollTop}px)`;
    numbers.style.transform = `translateY(${- script.scrollTop}px)`;
  }
}

/** Begins with these scripts to choose from. */
function edited(groups) {
  return new Editor(groups);
}
