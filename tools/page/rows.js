// The rows from top to bottom: the cores by clusters, the link, the power domains. What is idle all
// along is folded, until a click unfolds it.

const LINK_HEIGHT = 92, TITLE_HEIGHT = 20, GROUP_HEIGHT = 16, IDLE_HEIGHT = 12;
// how high the row of a core is, so that its name is legible and no room is wasted
const LEAST_HEIGHT = 9, MOST_HEIGHT = 110;
// a board of at most this many cores is shown whole
const SMALL_BOARD = 8;

/** The name of what is folded into one row. */
function rangeName(nodes) {
  const kind = nodes[0].name.split(" ")[0], last = nodes[nodes.length - 1];
  return nodes.length === 1 ? nodes[0].name : `${kind}s ${nodes[0].index}–${last.index}`;
}

class Rows {
  constructor(run) {
    this.run = run;
    this.clusters = run.nodes.filter((node) => node.level === 1);
    this.domains = run.nodes.filter((node) => node.level > 0)
                       .sort((a, b) => b.level - a.level || a.index - b.index);
    this.idle = this.findIdle();
    // how much of each cluster is shown: its busy cores, all, or none
    this.shown = new Map(this.clusters.map((node) => [node, "busy"]));
    this.isIdleShown = false;
    this.top = 0;
    this.scaleHeight = 1;
    this.height = 400;
    this.build();
  }

  /** The cores that do nothing all along, and the domains that nothing happens to. */
  findIdle() {
    const { run } = this, idle = new Set(), busy = new Set();
    for (let event = 0; event < run.count; event++)
      if (run.kinds[event] < 4) busy.add(run.objects[event]);
    for (const node of run.nodes) {
      const at = run.coreAt.get(node.index);
      const moves = node.level === 0 && (busy.has(node.index) || run.cells[at].length > 1);
      if (!moves && run.looks[node.at].length <= 1) idle.add(node);
    }
    return run.cores.length <= SMALL_BOARD || idle.size === run.nodes.length ? new Set() : idle;
  }

  build() {
    this.rows = [{ type: "title", text: "Cores", height: TITLE_HEIGHT }];
    let waiting = [];
    for (const cluster of this.clusters) {
      const cores = this.run.cores.filter((node) => cluster.cores.includes(node.index));
      if (!this.isIdleShown && this.shown.get(cluster) === "busy" &&
          cores.every((node) => this.idle.has(node))) {
        waiting.push(cluster);
        continue;
      }
      this.addIdle(waiting);
      waiting = [];
      this.addCluster(cluster, cores);
    }
    this.addIdle(waiting);
    this.rows.push({ type: "title", text: "Link", height: TITLE_HEIGHT },
        { type: "link", height: LINK_HEIGHT });
    this.rows.push({ type: "title", text: "Power domains", height: TITLE_HEIGHT });
    this.addDomains();
    this.place();
  }

  /** A cluster, and below it its cores: those that do something, all, or none. */
  addCluster(cluster, cores) {
    const shown =
        this.isIdleShown && this.shown.get(cluster) === "busy" ? "all" : this.shown.get(cluster);
    const busy = cores.filter((node) => !this.idle.has(node));
    const seen = { busy, all: cores, none: [] }[shown];
    const text = shown === "busy" && busy.length < cores.length ?
        `${cluster.name}, ${cores.length - busy.length} idle` :
        cluster.name;
    this.rows.push({
      type: "group",
      node: cluster,
      cores,
      text,
      isOpen: seen.length > 0,
      isWhole: seen.length === cores.length
    });
    for (const node of seen) this.rows.push({ type: "core", node });
  }

  addIdle(nodes) {
    if (nodes.length) this.rows.push({ type: "idle", nodes, text: `${rangeName(nodes)}: idle` });
  }

  addDomains() {
    let waiting = [];
    for (const node of this.domains) {
      if (!this.isIdleShown && this.idle.has(node)) {
        waiting.push(node);
        continue;
      }
      this.addIdle(waiting);
      waiting = [];
      this.rows.push({ type: "domain", node });
    }
    this.addIdle(waiting);
  }

  /** Gives each row its height, so that all are seen where that leaves them legible. */
  place() {
    const cores = this.rows.filter((row) => row.type === "core").length;
    const domains = this.rows.filter((row) => row.type === "domain").length;
    const fixed = this.rows.reduce((sum, row) => sum + (this.fixedHeight(row) ?? 0), 0);
    const fitting = (this.height - fixed) / Math.max(cores + 0.6 * domains, 1);
    const core =
        Math.round(Math.min(Math.max(fitting, LEAST_HEIGHT), MOST_HEIGHT) * this.scaleHeight);
    let y = 0;
    for (const row of this.rows) {
      row.height = this.fixedHeight(row) ??
          (row.type === "core" ? Math.max(core, 5) :
                                 Math.max(Math.round(core * 0.6), LEAST_HEIGHT));
      row.y = y;
      y += row.height;
    }
    this.total = y;
    this.scroll(0);
  }

  fixedHeight(row) {
    return { title: TITLE_HEIGHT,
      link: LINK_HEIGHT,
      group: GROUP_HEIGHT,
      idle: IDLE_HEIGHT }[row.type];
  }

  resize(height) {
    this.height = height;
    this.place();
  }

  scroll(pixels) {
    this.top = Math.min(Math.max(this.top + pixels, 0), Math.max(this.total - this.height, 0));
  }

  /** The rows in sight. */
  visible() {
    return this.rows.filter(
        (row) => row.y + row.height > this.top && row.y < this.top + this.height);
  }

  rowAt(y) {
    return this.rows.find((row) => y + this.top >= row.y && y + this.top < row.y + row.height);
  }

  coreRow(core) {
    return this.rows.find((row) => row.type === "core" && row.node.index === core);
  }

  /** Brings the row of a core into sight. */
  reveal(core) {
    const row = this.coreRow(core);
    if (!row) return;
    if (row.y < this.top) this.top = row.y;
    if (row.y + row.height > this.top + this.height) this.top = row.y + row.height - this.height;
  }

  /** Folds or unfolds what a click on a name means. */
  toggle(row) {
    if (row.type === "group")
      this.shown.set(row.node, row.isWhole ? "none" : row.isOpen ? "all" : "busy");
    else if (row.type !== "idle")
      return false;
    else if (row.nodes.every((node) => this.shown.has(node)))
      row.nodes.forEach((node) => this.shown.set(node, "all"));
    else
      this.isIdleShown = true;
    this.build();
    return true;
  }

  toggleIdle() {
    this.isIdleShown = !this.isIdleShown;
    for (const cluster of this.clusters) this.shown.set(cluster, "busy");
    this.build();
  }

  resizeRows(factor) {
    this.scaleHeight = Math.min(Math.max(this.scaleHeight * factor, 0.4), 4);
    this.place();
  }
}
