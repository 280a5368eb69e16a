// Reads lines of `./qlock steps` (docs/STEPS.md).

const LINE = /^(\d+)(?:-(\d+))? (\d+)\.(\d+) (.*?)(, fails)?(?:, (\d+) times)?(?:: (.*))?$/;
const VALUE = /^(\w+) (\S+) (\S+)(?: -> (\S+))?$/;

// What a part of the machine has before anything was stored into it.
const AT_REST = { lock: "(0,0,0)", node: "(0,0)", second: "0", runs: "0", state: "running", nodes: "0", hash: "0", halted: "0", kicked: "0" };

// One line: the acts `first` to `last`, the waiter `who`, its row or word, on what it operated, what it met and left, whether a
// compare-exchange failed, the event.
function readLine(text) {
  const found = LINE.exec(text);
  if (!found) return { text, first: 0, last: 0, cpu: 0, context: 0, who: "0.0", row: "?", isBroken: true };
  const [, first, last, cpu, context, deed, fails, times, event] = found;
  const line = { text, first: +first, last: +(last || first), cpu: +cpu, context: +context, who: cpu + "." + context, deed };
  line.event = event || null;
  line.times = +(times || 1);
  line.fails = Boolean(fails);
  [line.row] = deed.split(" ");
  line.isRow = /^[A-Z]/.test(line.row);
  const idle = /^(\w+) idle, (.*)$/.exec(deed);
  line.idle = idle ? idle[2] : null;
  if (line.isRow) readValue(line, deed.slice(line.row.length + 1));
  return line;
}

function readValue(line, text) {
  const found = VALUE.exec(text);
  line.isBroken = !found;
  if (!found) return;
  [, line.kind, line.name, line.met] = found;
  line.left = found[4] === undefined ? line.met : found[4];
  line.stores = found[4] !== undefined;
  line.key = line.kind + " " + line.name;
}

// The fields of a word or of a node.
function fieldsOf(value) {
  return value.slice(1, -1).split(",");
}

// Who acts, before the number of a node and of a context differ: a waiter as "processor.context".
function cpuOf(name) {
  return +name.split(".")[0];
}

// The numbers of a line's acts, as one reads them.
function numbersOf(line) {
  return line.first === line.last ? String(line.first) : line.first + "-" + line.last;
}
