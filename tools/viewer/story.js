// All lines of a trace, the state after each, and what the lanes show of them.

// So many lines lie between two states that are kept; those between are computed when they are looked at.
const KEPT_EACH = 128;
const LINKING = ["G5", "C4", "C9"];

class Story {
  constructor(header, texts) {
    this.header = header;
    this.lines = texts.map(readLine);
    this.kept = [];
    this.errors = new Map();
    this.bars = [];
    this.arrows = [];
    this.open = new Map();
    this.depths = new Map();
    this.tell();
  }

  tell() {
    const state = new State(this.header);
    this.lines.forEach((line, at) => {
      if (at % KEPT_EACH === 0) this.kept.push(state.copy());
      const errors = state.apply(line);
      if (errors.length) this.errors.set(at, errors);
      this.depths.set(line.cpu, Math.max(this.depths.get(line.cpu) || 1, line.context + 1));
      this.draw(state, line, at);
    });
    for (const bar of this.open.values()) this.close(bar, this.lines.length);
    this.cpus = [...this.depths.keys()].sort((one, other) => one - other);
  }

  // The state after the line, with the keys that the line changed. Before the first line: at -1.
  state(at) {
    const state = (this.kept[Math.max(0, Math.floor(at / KEPT_EACH))] || new State(this.header)).copy();
    state.changed = new Set();
    for (let next = Math.max(0, Math.floor(at / KEPT_EACH)) * KEPT_EACH; next <= at; next++) state.apply(this.lines[next]);
    return state;
  }

  // Ends and begins the bars of the contexts that the line concerns.
  draw(state, line, at) {
    const words = (line.event || "").split(" ");
    const concerned = words[0] === "pass" ? [line.cpu, cpuOf(words[2])] : [line.cpu];
    for (const cpu of concerned) this.drawCpu(state, cpu, at);
    if (words[0] === "pass") this.arrow(at, line.who, words[2], "handoff");
    if (words[0] === "kick") this.arrow(at, line.who, state.top(+words[1]).who, "kick");
    if (LINKING.includes(line.row)) this.arrow(at, line.who, state.data.owners[line.name], "link");
  }

  arrow(at, from, to, kind) {
    if (to) this.arrows.push({ at, from, to, kind });
  }

  drawCpu(state, cpu, at) {
    const frames = state.cpu(cpu).frames;
    const isHalted = state.isHalted(cpu);
    frames.forEach((frame, context) => this.drawFrame(frame, phaseOf(frame, isHalted && context === frames.length - 1), at));
    for (const bar of [...this.open.values()]) if (bar.cpu === cpu && bar.context >= frames.length) this.close(bar, at);
  }

  drawFrame(frame, phase, at) {
    const bar = this.open.get(frame.who);
    if (bar && bar.phase === phase) return;
    if (bar) this.close(bar, at);
    if (!phase) return;
    const [cpu, context] = frame.who.split(".").map(Number);
    this.open.set(frame.who, { who: frame.who, cpu, context, phase, from: at, to: at });
  }

  close(bar, at) {
    bar.to = at;
    this.open.delete(bar.who);
    this.bars.push(bar);
  }

  // The line that has this act.
  lineOf(act) {
    let low = 0;
    let high = this.lines.length - 1;
    while (low < high) {
      const middle = (low + high) >> 1;
      if (this.lines[middle].last < act) low = middle + 1;
      else high = middle;
    }
    return low;
  }
}

// What a context does; null once its program is at its end.
function phaseOf(frame, isHalted) {
  if (isHalted) return "halted";
  if (frame.at >= frame.ops.length) return null;
  return frame.waits || (frame.held.length ? "holds" : "runs");
}
