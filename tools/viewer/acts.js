// The list of acts with its lanes. Only the lines that are in sight are drawn.

const ROW = 22;
const HEAD = 26;
const BAR = 8;
const LETTER = 7.4;
const MARGIN = 8;
// What stands beside the bars, and what at the right: the first of these that fits is taken.
const LAYOUTS = [{ hasVerbs: true, hasValues: true }, { hasVerbs: false, hasValues: true }, { hasVerbs: false, hasValues: false }];
// The most of the list that its right column takes.
const MOST_ASIDE = 0.45;

function escaped(text) {
  return String(text).replace(/[&<>"]/g, (letter) => ({ "&": "&amp;", "<": "&lt;", ">": "&gt;", '"': "&quot;" })[letter]);
}

class Acts {
  constructor(story, choose) {
    this.story = story;
    this.rowsTold = story.header.rows;
    this.box = document.getElementById("acts");
    this.space = document.getElementById("space");
    this.rows = document.getElementById("rows");
    this.at = -1;
    this.space.style.height = HEAD + ROW * story.lines.length + "px";
    this.place();
    this.box.addEventListener("scroll", () => this.later());
    new ResizeObserver(() => this.place() || this.later()).observe(this.box);
    this.box.addEventListener("click", (event) => {
      const row = event.target.closest("[data-at]");
      if (row) choose(+row.dataset.at);
    });
  }

  // Takes the layout that the width of the list has room for, or the slimmest.
  place() {
    const room = this.box.clientWidth;
    if (room === this.room) return;
    this.room = room;
    for (this.layout of LAYOUTS) {
      this.measure();
      if (this.width <= room) break;
    }
    if (this.layout === LAYOUTS.at(-1)) this.asideWidth = Math.min(this.asideWidth, room * MOST_ASIDE);
    this.width = Math.max(this.right + this.asideWidth, room);
    this.space.style.width = this.width + "px";
    this.space.style.setProperty("--number", this.numberWidth + "px");
    this.space.style.setProperty("--aside", this.asideWidth + "px");
    this.head();
  }

  // Where each lane begins and ends, as its bars and its longest label ask.
  measure() {
    const longest = new Map();
    let widest = 0;
    for (const line of this.story.lines) {
      longest.set(line.cpu, Math.max(longest.get(line.cpu) || 0, this.label(line).length));
      widest = Math.max(widest, this.aside(line).length);
    }
    this.numberWidth = MARGIN * 2 + LETTER * Math.max(3, numbersOf(this.story.lines.at(-1)).length);
    this.lanes = new Map();
    let x = this.numberWidth;
    for (const cpu of this.story.cpus) {
      const bars = (BAR + 2) * this.story.depths.get(cpu) + 8;
      const end = x + bars + LETTER * Math.max(("cpu " + cpu).length - 1, longest.get(cpu)) + 8;
      this.lanes.set(cpu, { x, bars, end });
      x = end;
    }
    this.right = x;
    this.asideWidth = MARGIN * 2 + LETTER * widest;
    this.width = this.right + this.asideWidth;
  }

  verb(line) {
    const row = this.rowsTold[line.row];
    return row && !line.idle ? row.verb : "";
  }

  // What stands beside the bars. A cross marks a compare-exchange that failed, where its verb stands there.
  label(line) {
    const words = this.layout.hasVerbs ? [this.verb(line), line.fails ? "✗" : "", line.times > 1 ? "x" + line.times : ""] : [];
    return [line.idle ? "idle" : line.row, ...words].filter(Boolean).join(" ");
  }

  // What stands at the right: the event; else why the act is idle, or what the row does in a word, met and left.
  aside(line) {
    if (line.isBroken) return line.text;
    if (line.event) return line.event;
    if (line.idle) return (this.layout.hasValues ? line.row + " is idle: " : "idle: ") + line.idle;
    if (!line.isRow) return line.row;
    const fails = line.fails ? "fails" : "";
    const values = this.layout.hasValues ? `${line.key} ${line.met}${line.stores ? " -> " + line.left : ""}` : "";
    if (this.layout.hasVerbs) return values + (fails && ", fails");
    return [[this.verb(line), fails].filter(Boolean).join(" "), values].filter(Boolean).join(": ");
  }

  head() {
    const cells = this.story.cpus.map((cpu) => `<span style="left:${this.lanes.get(cpu).x + 4}px">cpu ${cpu}</span>`);
    const right = this.layout.hasValues ? "event, or met -> left" : "event";
    document.getElementById("lane-names").innerHTML = `<span class="number">act</span>${cells.join("")}<span class="aside">${right}</span>`;
  }

  later() {
    if (this.isAsked) return;
    this.isAsked = true;
    requestAnimationFrame(() => {
      this.isAsked = false;
      this.draw();
    });
  }

  // Marks a line, and brings it and the lane of its processor into sight.
  show(at) {
    this.at = at;
    const top = at * ROW;
    const room = this.box.clientHeight - HEAD;
    if (top < this.box.scrollTop + ROW) this.box.scrollTop = Math.max(0, top - room / 3);
    else if (top + ROW * 2 > this.box.scrollTop + room) this.box.scrollTop = top - room * 2 / 3;
    if (at >= 0) this.showLane(this.lanes.get(this.story.lines[at].cpu));
    this.draw();
  }

  // Scrolls sideways, so that the lane stands between the numbers and the right column.
  showLane({ x, end }) {
    const { box } = this;
    if (x < box.scrollLeft + this.numberWidth) box.scrollLeft = x - this.numberWidth;
    else if (end > box.scrollLeft + box.clientWidth - this.asideWidth) box.scrollLeft = end - box.clientWidth + this.asideWidth;
  }

  draw() {
    const first = Math.max(0, Math.floor(this.box.scrollTop / ROW) - 8);
    const last = Math.min(this.story.lines.length - 1, Math.ceil((this.box.scrollTop + this.box.clientHeight) / ROW) + 8);
    const parts = [];
    for (let at = first; at <= last; at++) parts.push(this.row(at));
    this.rows.innerHTML = this.picture(first, last) + parts.join("");
    this.box.setAttribute("aria-activedescendant", this.at >= 0 ? "act-" + this.at : "");
  }

  row(at) {
    const line = this.story.lines[at];
    const lane = this.lanes.get(line.cpu);
    const isWrong = this.story.errors.has(at);
    const classes = ["row", at === this.at && "here", isWrong && "wrong", line.event && "event", (line.idle || line.times > 1) && "idle"];
    const aside = escaped(this.aside(line));
    return `<div role="option" id="act-${at}" data-at="${at}" class="${classes.filter(Boolean).join(" ")}" style="top:${HEAD + at * ROW}px"` +
      ` aria-selected="${at === this.at}" aria-setsize="${this.story.lines.length}" aria-posinset="${at + 1}" aria-label="${escaped(this.spoken(line))}">` +
      `<span class="number">${numbersOf(line)}</span><span style="left:${lane.x + lane.bars}px">${marked(escaped(this.label(line)))}</span>` +
      `<span class="aside" title="${aside}">${isWrong ? "! " : ""}${marked(aside)}</span></div>`;
  }

  spoken(line) {
    const deed = line.idle ? "idle: " + line.idle : [line.row, this.verb(line), line.fails ? "fails" : ""].filter(Boolean).join(" ");
    return `act ${numbersOf(line)}, waiter ${line.who}, ${deed}${line.event ? ", " + line.event : ""}`;
  }

  barX(who) {
    const [cpu, context] = who.split(".").map(Number);
    return this.lanes.get(cpu).x + 4 + (BAR + 2) * context;
  }

  picture(first, last) {
    const top = HEAD + first * ROW;
    const seen = this.story.bars.filter((bar) => bar.from <= last && bar.to >= first && this.lanes.has(bar.cpu));
    const bars = seen.map((bar) => {
      const from = Math.max(bar.from, first) - first;
      const to = Math.min(bar.to, last + 1) - first;
      return `<rect class="${bar.phase}" x="${this.barX(bar.who)}" y="${from * ROW + 3}" width="${BAR}" height="${Math.max(2, (to - from) * ROW)}"/>`;
    });
    const lanes = this.story.cpus.map((cpu) => `<path class="lane" d="M${this.lanes.get(cpu).x - 3.5} 0 v${(last - first + 1) * ROW}"/>`);
    const arrows = this.story.arrows.filter((arrow) => arrow.at >= first && arrow.at <= last).map((arrow) => this.arrow(arrow, first));
    return `<svg aria-hidden="true" style="top:${top}px" width="${this.right}" height="${(last - first + 1) * ROW}">${lanes.join("")}${bars.join("")}${arrows.join("")}</svg>`;
  }

  arrow({ at, from, to, kind }, first) {
    if (!this.lanes.has(cpuOf(to))) return "";
    const y = (at - first) * ROW + ROW - 3;
    const x = this.barX(from) + BAR / 2;
    const end = this.barX(to) + BAR / 2;
    const back = end > x ? -5 : 5;
    return `<g class="arrow ${kind}"><circle cx="${x}" cy="${y}" r="2.5"/><path d="M${x} ${y} H${end} m${back} -3.5 L${end} ${y} l${back} 3.5"/></g>`;
  }
}

// A text in which what says that a compare-exchange failed is marked.
function marked(text) {
  return text.replace(/✗|\bfails\b/, '<em class="fails">$&</em>');
}
