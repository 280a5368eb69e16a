// The cursor: buttons, slider, number, keys, and play. docs/VIEW.md has a table of the keys.

const STEPS = { ArrowRight: 1, ArrowDown: 1, ArrowLeft: -1, ArrowUp: -1, PageDown: 10, PageUp: -10 };
// Keys that seek, and what they seek: the next event, act of the processor, act on the lock.
const SEEKS = { e: "event", p: "cpu", l: "lock" };

class Page {
  constructor(header, texts) {
    this.story = new Story(header, texts);
    this.panel = new Panel(this.story);
    this.acts = new Acts(this.story, (at) => this.go(at));
    this.last = this.story.lines.length - 1;
    this.at = -1;
    this.wire();
    this.summary();
    document.getElementById("values").innerHTML = valuesSaid(header);
    // The lanes have their height before an act is brought into sight.
    this.fit(document.getElementById("controls"));
    const asked = /^#act=(\d+)$/.exec(location.hash);
    this.go(asked ? this.story.lineOf(+asked[1]) : -1);
  }

  wire() {
    const on = (id, deed, event = "click") => document.getElementById(id).addEventListener(event, deed);
    on("first", () => this.go(-1));
    on("back", () => this.go(this.at - 1));
    on("forward", () => this.go(this.at + 1));
    on("last", () => this.go(this.last));
    on("play", () => this.play(!this.timer));
    on("slider", (event) => this.go(+event.target.value), "input");
    on("number", (event) => this.go(this.story.lineOf(+event.target.value)), "change");
    for (const what of Object.values(SEEKS)) on("next-" + what, () => this.seek(what, 1));
    on("speed", () => this.timer && this.play(true), "change");
    document.addEventListener("keydown", (event) => this.key(event));
    const controls = document.getElementById("controls");
    new ResizeObserver(() => this.fit(controls)).observe(document.body);
    document.getElementById("slider").max = this.last;
    document.getElementById("number").max = this.story.lines[this.last].last;
  }

  // Tells the style how high the controls are, and where the lanes begin.
  fit(controls) {
    const { style } = document.documentElement;
    style.setProperty("--controls", controls.offsetHeight + "px");
    style.setProperty("--top", document.querySelector("main").offsetTop + "px");
  }

  // Keys go by the cursor, but where the element in focus has a use for them. The field of the act gives them back after Enter.
  key(event) {
    const { target } = event;
    if (event.altKey || event.ctrlKey || event.metaKey || target.tagName === "SELECT") return;
    if (target.id === "number") return void (/^(Enter|Escape)$/.test(event.key) && this.leaveNumber(event.key === "Enter"));
    if (event.key === " " && target.tagName === "BUTTON" || target.id === "slider" && (event.key in STEPS || /^(Home|End)$/.test(event.key))) return;
    const sought = SEEKS[event.key.toLowerCase()];
    if (sought) this.seek(sought, event.shiftKey ? -1 : 1);
    else if (event.key in STEPS) this.go(this.at + STEPS[event.key]);
    else if (event.key === "Home") this.go(-1);
    else if (event.key === "End") this.go(this.last);
    else if (event.key === " ") this.play(!this.timer);
    else return;
    event.preventDefault();
  }

  leaveNumber(isMeant) {
    if (isMeant) this.go(this.story.lineOf(+document.getElementById("number").value));
    document.getElementById("acts").focus({ preventScroll: true });
  }

  // The next line with an event, of the processor or on the lock of the line at the cursor, in this direction; -1 where there is none.
  // Where that line has no lock, it is the next line that has one.
  found(what, direction) {
    const here = this.story.lines[this.at] || {};
    const isOne = {
      event: (line) => line.event, cpu: (line) => here.cpu === undefined || line.cpu === here.cpu, lock: (line) => line.lock && (!here.lock || line.lock === here.lock),
    }[what];
    let at = this.at + direction;
    while (at >= 0 && at <= this.last && !isOne(this.story.lines[at])) at += direction;
    return at > this.last ? -1 : at;
  }

  seek(what, direction) {
    const at = this.found(what, direction);
    if (at >= 0) this.go(at);
  }

  // What the buttons that seek say, and whether there is what they seek.
  nameSeeks() {
    const line = this.story.lines[this.at];
    const names = { event: "event", cpu: line ? "cpu " + line.cpu : "cpu", lock: line && line.lock ? "lock " + line.lock : "lock" };
    for (const [what, name] of Object.entries(names)) {
      const button = document.getElementById("next-" + what);
      button.textContent = name;
      button.disabled = this.found(what, 1) < 0;
    }
  }

  go(at) {
    this.at = Math.max(-1, Math.min(this.last, at));
    if (this.at === this.last) this.play(false);
    this.panel.show(this.at);
    this.acts.show(this.at);
    const line = this.story.lines[this.at];
    const slider = document.getElementById("slider");
    slider.value = this.at;
    slider.setAttribute("aria-valuetext", line ? "act " + numbersOf(line) : "before the first act");
    document.getElementById("number").value = line ? line.first : 0;
    document.getElementById("of").textContent = "of " + this.story.lines[this.last].last;
    for (const id of ["first", "back"]) document.getElementById(id).disabled = this.at < 0;
    for (const id of ["forward", "last"]) document.getElementById(id).disabled = this.at === this.last;
    this.nameSeeks();
  }

  play(isOn) {
    clearInterval(this.timer);
    const pause = +document.getElementById("speed").value;
    if (isOn && this.at === this.last) this.at = -1;
    this.timer = isOn ? setInterval(() => this.go(this.at + 1), pause) : null;
    const button = document.getElementById("play");
    button.textContent = isOn ? "Pause" : "Play";
    button.setAttribute("aria-pressed", String(Boolean(isOn)));
  }

  // How many lines fit: the page says of itself whether the state follows from the lines.
  summary() {
    const { errors, lines } = this.story;
    const box = document.getElementById("fits");
    box.dataset.errors = errors.size;
    if (!errors.size) {
      box.textContent = `Each of the ${lines.length} lines fits the state that the lines before it leave.`;
      return;
    }
    const first = errors.keys().next().value;
    box.classList.add("error");
    box.innerHTML = `<strong>${errors.size} of ${lines.length} lines do not fit</strong> the state before them. <button type="button">Show the first, act ${numbersOf(lines[first])}</button>`;
    box.querySelector("button").addEventListener("click", () => this.go(first));
  }
}

const data = JSON.parse(document.getElementById("trace").textContent);
const page = new Page(data.header, data.lines);
