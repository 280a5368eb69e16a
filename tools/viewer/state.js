// The state of the machine, computed from the lines alone: what each line met and left, and its event. A line that does not fit the
// state before it gives errors. So the page checks the telling; what it says of it is tested (tools/check-view) and not proved.

const FIRST_ROWS = { lock: "F1", try: "T1", read: "R1", write: "Wr1", tryread: "Y1", trywrite: "Y4", runlock: "Z1", wunlock: "Z2" };
const TAKING = ["lock", "try", "read", "tryread", "write", "trywrite"];
// The rows behind which a waiter gives its node back, if they tell this event; null: if they store.
const LEAVING = { G3: "take", N2: "take", H2: "take", G8: "take", G11: "pass", C8: "pass", E13: "leave" };
const QUEUEING = ["arrive", "pass", "flush", "promote", "leave"];
const NODE_PARTS = ["node", "second", "runs", "state"];

class State {
  constructor(header, data) {
    this.header = header;
    this.data = data || { act: 0, values: {}, locks: {}, cpus: {}, owners: {}, pends: {}, counts: {} };
  }

  copy() {
    return new State(this.header, structuredClone(this.data));
  }

  value(key) {
    return key in this.data.values ? this.data.values[key] : AT_REST[key.split(" ")[0]];
  }

  set(key, value) {
    if (this.value(key) !== value) this.changed.add(key);
    this.data.values[key] = value;
  }

  lock(name) {
    return (this.data.locks[name] ||= newLock());
  }

  cpu(number) {
    return (this.data.cpus[number] ||= { isPreempted: false, handler: 0, frames: [this.frame(number, 0, this.header.programs[number] || [])] });
  }

  frame(cpu, context, ops) {
    return { who: cpu + "." + context, ops, at: 0, isFresh: true, row: "", node: null, lock: null, waits: null, held: [], left: 0 };
  }

  top(cpu) {
    return this.cpu(cpu).frames.at(-1);
  }

  isHalted(cpu) {
    return this.value("halted " + cpu) === "1";
  }

  // Makes the acts of one line. Afterwards `changed` has the parts that are not as before, and the answer what does not fit.
  apply(line) {
    this.changed = new Set();
    this.errors = [];
    if (line.isBroken) return ["this is no line of ./qlock steps"];
    if (line.first !== this.data.act + 1) this.errors.push("the acts before it end at " + this.data.act);
    this.data.act = line.last;
    if (line.last - line.first + 1 !== line.times) this.errors.push("it counts " + line.times + " times, and has other acts");
    if (line.idle) this.checkIdle(line);
    else if (line.isRow) this.makeRow(line);
    else this.makeAct(line);
    return this.errors;
  }

  checkIdle(line) {
    const cpu = this.cpu(line.cpu);
    const top = this.top(line.cpu);
    const reasons = {
      preempted: cpu.isPreempted, "not preempted": !cpu.isPreempted, halted: this.isHalted(line.cpu), "not halted": !this.isHalted(line.cpu),
      finished: top.at >= top.ops.length, "six contexts": cpu.frames.length === 6,
      "no handler left": cpu.handler >= (this.header.handlers[line.cpu] || []).length, "about to halt": /^(W5|E11)$/.test(top.row),
    };
    if (!reasons[line.idle]) this.errors.push("processor " + line.cpu + " is not as the line says: " + line.idle);
    this.checkTop(line);
  }

  checkTop(line) {
    const top = this.top(line.cpu);
    if (top.who !== line.who) this.errors.push(line.who + " acts, and " + top.who + " runs on that processor");
  }

  // An act that is no row: a kick ends a halt, an interrupt, a preemption, its end, a nudge.
  makeAct(line) {
    const cpu = this.cpu(line.cpu);
    if (line.row === "int") this.interrupt(line, cpu);
    if (line.row === "pre" || line.row === "res") {
      if (cpu.isPreempted === (line.row === "pre")) this.errors.push("processor " + line.cpu + " is " + (cpu.isPreempted ? "" : "not ") + "preempted already");
      cpu.isPreempted = line.row === "pre";
      this.changed.add("cpu " + line.cpu);
    }
    if (line.row === "step" && this.value("kicked " + line.cpu) !== "1") this.errors.push("a halt ends, and no kick is remembered");
    if (line.row === "step") this.set("kicked " + line.cpu, "0");
    if (line.row === "step" || line.row === "nudge") this.endHalt(line);
    this.checkTop(line);
  }

  endHalt(line) {
    if (!this.isHalted(line.cpu)) this.errors.push("a halt ends, and processor " + line.cpu + " has not halted");
    this.set("halted " + line.cpu, "0");
    this.top(line.cpu).row = line.row;
    line.lock = this.top(line.cpu).lock;
  }

  interrupt(line, cpu) {
    const ops = (this.header.handlers[line.cpu] || [])[cpu.handler];
    if (!ops) this.errors.push("no handler is left for processor " + line.cpu);
    cpu.handler += 1;
    if (this.isHalted(line.cpu)) this.endHalt(line);
    cpu.frames.push(this.frame(line.cpu, cpu.frames.length, ops || []));
    this.changed.add("cpu " + line.cpu);
  }

  makeRow(line) {
    const frame = this.top(line.cpu);
    this.checkTop(line);
    this.checkRuns(line, frame);
    if (this.value(line.key) !== line.met) this.errors.push(line.key + " has " + this.value(line.key) + ", and the line met " + line.met);
    if (line.fails && line.stores) this.errors.push("a compare-exchange failed, and stored");
    if (line.row === "G1") this.takeNode(line, frame);
    this.set(line.key, line.left);
    if (line.kind === "lock" && this.isSpin(line.name)) this.meetWord(line, frame);
    line.lock = line.kind === "lock" ? line.name : frame.lock;
    frame.row = line.row;
    frame.isFresh = false;
    this.count(line, frame);
    this.follow(line, frame);
    if (line.event) this.tell(line, frame);
    this.advance(line, frame);
    if (line.kind === "lock") this.checkWord(line.name);
  }

  // Keeps on which lock the waiter acts, and who has set the pending bit.
  meetWord(line, frame) {
    frame.lock = line.name;
    const [was, is] = [line.met, line.left].map((value) => fieldsOf(value)[1]);
    if (was !== is) this.changed.add("pends " + line.name);
    if (was === "0" && is === "1") this.data.pends[line.name] = line.who;
    if (is === "0") delete this.data.pends[line.name];
  }

  isSpin(name) {
    return name.endsWith("w") || this.header.kinds[+name] === "spin";
  }

  // Whether the processor runs, and the row is the first of the operation that its program has next.
  checkRuns(line, frame) {
    if (this.cpu(line.cpu).isPreempted) this.errors.push("processor " + line.cpu + " is preempted");
    if (this.isHalted(line.cpu)) this.errors.push("processor " + line.cpu + " has halted");
    const op = frame.ops[frame.at];
    if (!op) this.errors.push("the program of " + line.who + " is at its end");
    if (!op || !frame.isFresh) return;
    const first = FIRST_ROWS[op.verb] || (this.header.mode === "pv" ? "U2" : "U1");
    if (line.row !== first || line.name !== String(op.lock)) this.errors.push("the program goes on with " + op.verb + " " + op.lock + ", at row " + first);
  }

  takeNode(line, frame) {
    const index = +line.met;
    if (index >= 4) return;
    frame.node = line.cpu + "." + index;
    this.data.owners[frame.node] = line.who;
    for (const part of NODE_PARTS) this.set(part + " " + frame.node, AT_REST[part]);
  }

  count(line, frame) {
    const mode = this.header.mode;
    if (line.row === "G1") {
      if (mode !== "pv") this.add("lock_slowpath");
      if (+line.met >= 4) this.add("lock_no_node");
      else if (+line.met > 0) this.add("lock_use_node" + (+line.met + 1));
    }
    if (line.row === "W4" && fieldsOf(line.met)[0] === "0") this.add("pv_wait_node");
    const counted = { E1: "lock_slowpath", E10: "pv_wait_head", U5: "pv_kick_unlock" }[line.row];
    if (counted) this.add(counted);
    if (line.event && { P4: 1, H2: 1 }[line.row]) this.add(line.row === "P4" ? "lock_pending" : "pv_lock_stealing");
  }

  add(name) {
    this.data.counts[name] = (this.data.counts[name] || 0) + 1;
    this.changed.add("count " + name);
  }

  // What a waiter does, as docs/STEPS.md names it.
  follow(line, frame) {
    if (line.row === "G4") frame.waits = fieldsOf(line.met)[0] === "0" ? "leads" : "queued";
    else if (line.row === "P1") frame.waits = fieldsOf(line.met)[1] === "0" ? "pending" : "seeks";
    else if (!line.event && ["F1", "P2", "R1", "Wr1"].includes(line.row)) frame.waits = "seeks";
  }

  tell(line, frame) {
    const [verb, ...words] = line.event.split(" ");
    if (verb === "kick" || verb === "halt" || verb === "wake") return;
    const name = words[0];
    this.errors.push(...tellLock(this.lock(name), line, verb, words));
    if (TAKES[verb] || RELEASES[verb]) this.changed.add("holders " + name);
    if (QUEUEING.includes(verb) || words[1] === "sole") this.changed.add("queue " + name);
    if (verb === "pass") this.lead(words[1]);
    if (TAKES[verb]) {
      frame.waits = name.endsWith("w") ? "leads" : null;
      frame.held.push(name);
    }
    if (RELEASES[verb]) frame.held = frame.held.filter((held) => held !== name);
    if (verb === "miss") frame.waits = null;
  }

  lead(who) {
    const [cpu, context] = who.split(".").map(Number);
    const frame = this.cpu(cpu).frames[context];
    if (frame) frame.waits = "leads";
  }

  // Where the row ends an operation, the frame goes on with its next one; a handler at its end goes.
  advance(line, frame) {
    const verb = line.event ? line.event.split(" ")[0] : "";
    const isLeft = LEAVING[line.row] === verb && verb || line.row === "K3" || line.row === "K1" && !line.stores;
    if (isLeft) this.giveNodeBack(line, frame);
    const isGranted = isLeft || verb === "take" && !["G9", "E4", "E7"].includes(line.row);
    const isFreed = line.row === "U5" || line.row === "U1" || line.row === "U2" && verb === "release";
    const isDone = /^(rtake|wtake) \S+ (fast|irq|try)$/.test(line.event || "") || line.row === "Z1" || line.row === "Z2";
    if (verb === "miss") this.skip(frame);
    if (isGranted && !(frame.lock || "").endsWith("w") || isFreed || isDone || verb === "miss") this.finishOperation(line.cpu, frame);
  }

  giveNodeBack(line, frame) {
    const key = "nodes " + line.cpu;
    this.set(key, String(+this.value(key) - 1));
    frame.node = null;
  }

  // A try that failed goes on behind the release that would have ended it.
  skip(frame) {
    const { lock } = frame.ops[frame.at] || {};
    do frame.at += 1; while (frame.at < frame.ops.length && !(frame.ops[frame.at].lock === lock && !TAKING.includes(frame.ops[frame.at].verb)));
  }

  finishOperation(number, frame) {
    frame.at += 1;
    frame.isFresh = true;
    frame.lock = null;
    this.changed.add("cpu " + number);
    const { frames } = this.cpu(number);
    if (frame.at >= frame.ops.length && frames.length > 1 && frames.at(-1) === frame) frames.pop();
  }

  // A spinlock's word says whether it is held, and who is the last of its queue; a reader-writer lock's, whether a writer holds it.
  checkWord(name) {
    const [first, , third] = fieldsOf(this.value("lock " + name));
    const lock = this.lock(name);
    const isHeld = lock.holders.some((holder) => holder.manner !== "reader");
    if ((third !== "0") !== isHeld) this.errors.push("the word of lock " + name + " says " + (third !== "0" ? "held" : "free") + ", and the events do not");
    if (!this.isSpin(name)) {
      if (+first < lock.holders.length - (isHeld ? 1 : 0)) this.errors.push("the word of lock " + name + " has fewer readers than hold it");
      return;
    }
    const last = first === "0" ? undefined : this.data.owners[first];
    if (last !== lock.main.at(-1)) this.errors.push("the tail of lock " + name + " is not the last of its queue");
  }
}
