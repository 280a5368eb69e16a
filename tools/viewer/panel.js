// The state beside the acts: what happened last, each lock with its queues, processors, counts. What the last line changed is marked.

const FIELDS = { spin: ["tail", "pending", "locked"], rw: ["readers", "waiting", "writer"] };
const BYTES = { 0: "free", 1: "held", 3: "slow" };

class Panel {
  constructor(story) {
    this.story = story;
    this.header = story.header;
    this.rows = story.header.rows;
  }

  show(at) {
    this.state = this.story.state(at);
    this.line = this.story.lines[at];
    fill("happened", this.line ? this.happened(at) : this.beginning());
    fill("locks", this.locks());
    fill("processors", this.processors());
    fill("counts", this.counts());
    document.getElementById("told").textContent = this.line ? sentence(this.line, this.rows) : "Before the first act.";
  }

  mark(...keys) {
    return keys.some((key) => this.state.changed.has(key)) ? " changed" : "";
  }

  beginning() {
    const about = this.header.intro.map((text) => `<p>${escaped(text)}</p>`).join("");
    return `<p class="what">Before the first act: each lock is free, and each program is at its beginning.</p>${about}${document.getElementById("keys").outerHTML.replace(' id="keys"', "")}`;
  }

  // The act: who, which row, what the row is, and the event.
  happened(at) {
    const { line } = this;
    const errors = (this.story.errors.get(at) || []).map((error) => `<p class="error"><strong>This line does not fit the state:</strong> ${escaped(error)}.</p>`);
    const facts = [["Who", `${line.who}: processor ${line.cpu}, ${line.context ? "interrupt " + line.context : "its task"}`]];
    if (line.isRow && !line.isBroken) facts.push(this.metAndLeft(line));
    if (line.times > 1) facts.push(["How often", line.times + " times, as nothing changed"]);
    if (line.event) facts.push(["Event", `<code>${escaped(line.event)}</code>: ${escaped(inWords(line.event))}`]);
    facts.push(...this.rowFacts(line));
    const note = this.noteAt(line.first);
    if (note) facts.push(["In the trace", escaped(note)]);
    const list = facts.map(([name, text]) => `<dt>${name}</dt><dd>${text}</dd>`).join("");
    const end = at === this.story.lines.length - 1 ? this.ending() : "";
    return `<p class="what">Act ${numbersOf(line)}: <b>${escaped(line.who)}</b> ${escaped(deedOf(line, this.rows))}</p>${errors.join("")}<dl>${list}</dl>${end}`;
  }

  // How the trace ends, where not all are done: lines, of which those that begin with spaces belong to the one before them.
  ending() {
    const lines = this.header.ending.map((line) => `<p${/^ /.test(line) ? ' class="inner"' : ""}>${escaped(line.trim())}</p>`);
    return lines.length ? `<div id="ending">${lines.join("")}</div>` : "";
  }

  metAndLeft(line) {
    const met = `<code>${escaped(line.key)}</code> <code>${escaped(line.met)}</code>`;
    if (line.stores) return ["Met and left", `${met} → <code>${escaped(line.left)}</code>`];
    return ["Met", met + (line.fails ? ': the <code>cmpxchg</code> <em class="fails">fails</em>, and stores nothing' : ", and left it")];
  }

  rowFacts(line) {
    const row = this.rows[line.row];
    if (!row) return [];
    const facts = [["Before, after", escaped(row.before)], ["Then", escaped(row.next)]];
    if (row.linux) facts.push(["Linux 6.1", `<code>${escaped(row.linux)}</code>`]);
    if (row.order) facts.push(["Order there", escaped(row.order)]);
    if (row.paper) facts.push(["In the article", escaped(row.paper)]);
    facts.push(["Code", `<code>${escaped(row.code)}</code>`]);
    return facts;
  }

  noteAt(act) {
    let found = null;
    for (const [first, text] of this.header.notes) if (first <= act) found = text;
    return found;
  }

  locks() {
    const names = this.header.kinds.map((_, number) => String(number));
    const shown = names.filter((name) => this.isSeen(name));
    const rest = names.filter((name) => !shown.includes(name));
    const line = rest.length ? `<p class="rest">${rest.length > 1 ? "Locks" : "Lock"} ${rest.join(", ")}: nobody has acted on ${rest.length > 1 ? "them" : "it"} yet.</p>` : "";
    return shown.map((name) => (this.header.kinds[name] === "rw" ? this.readerWriter(name) : this.spin(name))).join("") + line;
  }

  isSeen(name) {
    return [name, name + "w"].some((each) => "lock " + each in this.state.data.values);
  }

  readerWriter(name) {
    const lock = this.state.lock(name);
    const waits = "lock " + name + "w" in this.state.data.values ? this.spin(name + "w") : "";
    return `<article data-lock="${name}"><h3>Lock ${name}, reader-writer</h3>${this.fields(name, FIELDS.rw)}${this.holders(name, lock)}${this.seekers(name, lock)}</article>${waits}`;
  }

  spin(name) {
    const lock = this.state.lock(name);
    const title = name.endsWith("w") ? `Wait lock of lock ${name.slice(0, -1)}` : `Lock ${name}, spinlock`;
    const parts = [this.fields(name, FIELDS.spin), this.holders(name, lock)];
    if (this.header.mode !== "virt") parts.push(this.pender(name), this.queue("Queue", "main", name, lock.main));
    if (this.header.mode === "cna") parts.push(this.second(name, lock));
    if (this.header.mode === "pv") parts.push(this.entry(name));
    parts.push(this.seekers(name, lock));
    return `<article data-lock="${name}"><h3>${title}</h3>${parts.join("")}</article>`;
  }

  // The word, field by field; of a spinlock's word also in which bits each field stands, and the number that they make.
  fields(name, titles) {
    const values = fieldsOf(this.state.value("lock " + name));
    const before = this.line && this.line.key === "lock " + name ? fieldsOf(this.line.met) : values;
    const isSpin = titles === FIELDS.spin;
    const bits = !isSpin ? [] : this.header.format === 2 ? ["bits 9-31", "bit 8", "bits 0-7"] : ["bits 16-31", "bit 8", "bits 0-7"];
    const cells = titles.map((title, at) => {
      const said = isSpin && at === 2 ? ` <small>${BYTES[values[2]] || ""}</small>` : "";
      const changed = values[at] !== before[at] ? " changed" : "";
      return `<div class="field${changed}"><span class="name">${title}${bits[at] ? ` <small>${bits[at]}</small>` : ""}</span><b>${escaped(values[at])}${said}</b></div>`;
    });
    const whole = isSpin ? `<p class="whole">the word: <code>${this.number(values)}</code></p>` : "";
    return `<div class="word" role="group" aria-label="word of lock ${name}">${cells.join("")}</div>${whole}`;
  }

  number([tail, pending, locked]) {
    const [cpu, index] = tail === "0" ? [-1, 0] : tail.split(".").map(Number);
    const [low, high] = this.header.format === 2 ? [2 ** 9, 2 ** 11] : [2 ** 16, 2 ** 18];
    const word = +locked + 256 * +pending + low * index + high * (cpu + 1);
    return "0x" + word.toString(16).padStart(8, "0");
  }

  holders(name, lock) {
    const manners = { spin: "", reader: " as a reader", writer: " as the writer" };
    const shown = lock.holders.map(({ who, manner, since }) => `<span class="holder" data-waiter="${who}" data-manner="${manner}">${who}${manners[manner]}</span> since act ${since}`);
    return `<p class="holders${this.mark("holders " + name)}">Held by: ${shown.join(", ") || "nobody"}</p>`;
  }

  // Who has set the pending bit.
  pender(name) {
    const who = this.state.data.pends[name];
    return `<p class="pends${this.mark("pends " + name)}">Pending: <span data-pends="${who || ""}">${who || "nobody"}</span></p>`;
  }

  // Who wants the lock, and neither holds it, nor pends, nor queues.
  seekers(name, lock) {
    const placed = [...lock.holders.map(({ who }) => who), ...lock.main, ...lock.second, this.state.data.pends[name]];
    const found = this.story.cpus.filter((cpu) => cpu in this.state.data.cpus).flatMap((cpu) => this.state.cpu(cpu).frames).filter((frame) => this.seeks(frame, name) && !placed.includes(frame.who));
    const shown = found.map((frame) => `<span data-seeks="${frame.who}">${frame.who}</span>, last at ${this.rowName(frame.row)}`);
    return found.length ? `<p class="seeks">Seeks it: ${shown.join("; ")}</p>` : "";
  }

  seeks(frame, name) {
    const op = frame.ops[frame.at];
    return op && !frame.isFresh && TAKING.includes(op.verb) && [frame.lock, String(op.lock)].includes(name);
  }

  // A row with its verb.
  rowName(row) {
    return this.rows[row] ? `${row} ${this.rows[row].verb}` : row;
  }

  queue(title, kind, name, waiters) {
    const boxes = waiters.map((who, at) => `<li>${this.box(who, waiters[at + 1])}</li>`).join("");
    const tail = fieldsOf(this.state.value("lock " + name))[0];
    const end = kind === "main" && waiters.length ? `<li class="tail">tail: ${escaped(tail)}</li>` : "";
    const pender = kind === "main" && this.state.data.pends[name];
    const list = waiters.length ? `<ol class="queue" data-queue="${kind}">${boxes}${end}</ol>` : ` <span class="nobody">${pender ? `nobody behind ${pender}, who has the pending bit` : "empty"}</span>`;
    return `<div class="queue-line${this.mark("queue " + name)}"><span class="title">${title}</span>${list}</div>`;
  }

  second(name, lock) {
    const most = Math.max(0, ...lock.passes);
    const passes = lock.second.length ? `<p>Passed by ${most} handoff${most === 1 ? "" : "s"} since the first of them was moved; the threshold is ${this.header.threshold}.</p>` : "";
    return this.queue("Secondary queue", "second", name, lock.second) + passes;
  }

  nodeOf(who) {
    const [cpu, context] = who.split(".").map(Number);
    const frame = this.state.cpu(cpu).frames[context];
    return frame && frame.node;
  }

  // A waiter in a queue, with its node, and the arrow to the one behind it where the link is stored.
  box(who, behind) {
    const node = this.nodeOf(who);
    if (!node) return `<div class="node" data-waiter="${who}"><b>${who}</b></div>`;
    const [flag, next] = fieldsOf(this.state.value("node " + node));
    const flags = { 0: "unset", 1: "go" };
    const facts = [["flag", flags[flag] || "go, with the secondary queue from " + flag], ["next", next === "0" ? "none" : next]];
    if (this.header.mode === "cna") facts.push(["socket", this.header.sockets[cpuOf(who)]], ["runs", this.state.value("runs " + node)], ["second tail", this.tailOf(node)]);
    if (this.header.mode === "pv") facts.push(["state", this.state.value("state " + node)]);
    const phase = phaseOf(this.state.cpu(cpuOf(who)).frames[+who.split(".")[1]], false) || "runs";
    const list = facts.map(([name, value]) => `<span><i>${name}</i> ${escaped(value)}</span>`).join("");
    const linked = behind && next === this.nodeOf(behind);
    const arrow = behind ? `<span class="link${linked ? "" : " open"}" title="${linked ? "linked" : "the link is not stored"}">${linked ? "→" : "⇢"}</span>` : "";
    const changed = this.mark(...NODE_PARTS.map((part) => part + " " + node));
    return `<div class="node ${phase}${changed}" data-waiter="${who}"><b>${who}</b>${node === who ? "" : ` <small>node ${node}</small>`}${list}</div>${arrow}`;
  }

  tailOf(node) {
    const tail = this.state.value("second " + node);
    return tail === "0" ? "none" : tail;
  }

  entry(name) {
    const node = this.state.value("hash " + name);
    return `<p class="entry${this.mark("hash " + name)}">Entry in the hash: ${node === "0" ? "none" : "node " + escaped(node)}</p>`;
  }

  processors() {
    const cpus = this.story.cpus.filter((cpu) => cpu in this.state.data.cpus);
    return cpus.map((cpu) => this.processor(cpu)).join("") || "<p>Nobody has acted yet.</p>";
  }

  processor(number) {
    const cpu = this.state.cpu(number);
    const notes = [];
    if (cpu.isPreempted) notes.push("preempted");
    if (this.state.isHalted(number)) notes.push("halted");
    if (this.state.value("kicked " + number) === "1") notes.push("a kick is remembered");
    const nodes = +this.state.value("nodes " + number);
    if (nodes) notes.push(nodes + (nodes > 1 ? " contexts in the slow path" : " context in the slow path"));
    const keys = ["cpu", "halted", "kicked", "nodes"].map((part) => part + " " + number);
    const frames = cpu.frames.map((frame, context) => this.frame(frame, context)).reverse().join("");
    return `<article class="cpu${this.mark(...keys)}" data-cpu="${number}"><h3>cpu ${number} <small>${notes.join(", ")}</small></h3><ol class="stack">${frames}</ol></article>`;
  }

  frame(frame, context) {
    const op = frame.ops[frame.at];
    const doing = op ? `${op.verb} ${op.lock}, ${frame.isFresh ? "not begun" : "last at " + this.rowName(frame.row)}` : "finished";
    const held = frame.held.length ? `; holds ${frame.held.join(", ")}` : "";
    const phase = phaseOf(frame, false);
    return `<li class="${phase || "done"}">${context ? "interrupt " + context : "task"}: ${escaped(doing)}${held}${phase ? ` <small>${phase}</small>` : ""}</li>`;
  }

  counts() {
    const cells = this.header.counts.map((name) => `<tr class="${this.mark("count " + name).trim()}"><th scope="row">${name}</th><td data-count="${name}">${this.state.data.counts[name] || 0}</td></tr>`);
    return `<table><caption class="aside">The ten counts of a transcript</caption>${cells.join("")}</table>`;
  }
}

function fill(id, html) {
  document.getElementById(id).innerHTML = html;
}
