// Acts and events in words.

const HOWS = {
  fast: "on the fast path", try: "by a try", pending: "by the pending bit", virt: "by the test-and-set loop", retry: "before it queues", nonode: "without a node",
  steal: "past the queue", head: "as the queue head", sole: "as the queue head, and the queue is empty now", irq: "in an interrupt", queued: "behind the wait lock",
};
const EVENTS = {
  take: ([lock, how]) => `acquires lock ${lock} ${HOWS[how] || how}`,
  rtake: ([lock, how]) => `acquires lock ${lock} as a reader, ${HOWS[how] || how}`,
  wtake: ([lock, how]) => `acquires lock ${lock} as the writer, ${HOWS[how] || how}`,
  miss: ([lock]) => `its try of lock ${lock} fails`,
  release: ([lock, , cpu]) => `releases lock ${lock}${cpu === undefined ? "" : `, and owes processor ${cpu} a kick`}`,
  rrelease: ([lock]) => `releases lock ${lock}, which it held as a reader`,
  wrelease: ([lock]) => `releases lock ${lock}, which it held as the writer`,
  arrive: ([lock]) => `joins the queue of lock ${lock}`,
  pass: ([lock, next, , moved]) => `hands off lock ${lock} to ${next}${moved ? `, and moves ${moved} waiter${moved === "1" ? "" : "s"} to the secondary queue` : ""}`,
  flush: ([lock]) => `the secondary queue of lock ${lock} returns, before the rest`,
  promote: ([lock]) => `the secondary queue of lock ${lock} returns as the queue`,
  leave: ([lock]) => `leaves the queue of lock ${lock} empty`,
  halt: ([lock]) => `its processor halts while it waits for lock ${lock}`,
  wake: ([lock]) => `a kick ends the halt, in which it waited for lock ${lock}`,
  kick: ([cpu]) => `kicks processor ${cpu}`,
  int: () => "a handler begins",
  nudge: () => "a nudge ends the halt, which is no kick",
};
const ACTS = { step: "goes on, since a kick ends its halt", int: "is a handler that begins", pre: "is preempted", res: "goes on after a preemption", nudge: "has its halt ended by a nudge" };

// What the values in the lines are, of the parts that a trace of this header has.
function valuesSaid({ kinds, mode }) {
  const said = [["lock L", "(tail,pending,locked)", "the queue's last node or 0, the pending bit, the byte: 0 free, 1 held" + (mode === "pv" ? ", 3 slow" : "")]];
  if (kinds.includes("rw")) said.push(["a reader-writer lock", "(readers,waiting,writer)", "its wait lock, as <code>0w</code>, is a spinlock"]);
  if (mode !== "virt") said.push(["node p.i", "(flag,next)", "a node of processor p: handed off to or not, and the link"]);
  return said.map(([part, fields, meaning]) => `<span><code>${part}</code> <code>${fields}</code>: ${meaning}</span>`).join(" ") + ' <span><em class="fails">fails</em>, <em class="fails">✗</em>: a <code>cmpxchg</code> that met another value and stored nothing</span>';
}

function inWords(event) {
  const [verb, ...words] = event.split(" ");
  return EVENTS[verb] ? EVENTS[verb](words) : event;
}

// What the row does, or the act that is no row; the subject is the waiter.
function deedOf(line, rows) {
  if (line.isBroken) return "does what cannot be read: " + line.text;
  if (line.idle) return `does nothing (${line.row}): ${line.idle}`;
  if (!line.isRow) return ACTS[line.row] || line.row;
  const row = rows[line.row];
  const made = row ? `makes row ${line.row}, ${row.verb}. ${row.meaning}` : `makes row ${line.row}.`;
  return line.fails ? `${made} This fails, since it meets another value.` : made;
}

function sentence(line, rows) {
  const event = line.event ? ` It ${inWords(line.event).replace(/^its /, "learns that its ")}.` : "";
  return `Act ${numbersOf(line)}: ${line.who} ${deedOf(line, rows)}${event}`;
}
