// An execution as a page: its steps, and behind each what every processor could see of every place.
#include <algorithm>
#include "tell.h"

static std::string quoted(const std::string &text) {
    std::string made = "\"";
    for (char c : text) {
        if (c == '"' || c == '\\') made += '\\';
        if (c == '<') made += "\\u003c";
        else made += c;
    }
    return made + "\"";
}

// The messages of a place in coherence order, and for each processor the oldest that it may read.
static void tell_place(std::ostream &out, const Lock &lock, const State &s, int place, bool is_here) {
    out << "{\"name\":" << quoted(lock.place_name(place)) << ",\"here\":" << is_here << ",\"values\":[";
    for (int i = 0; i < s.count(place); i++) {
        const Message &message = s.message(place, i);
        out << (i ? "," : "") << quoted(value_of(lock, place, message.value));
    }
    out << "],\"from\":[";
    for (int t = 0; t < s.threads; t++) {
        bool is_over = s.thread[t].row == done;
        out << (t ? "," : "") << (is_over ? -1 : lock.memory.oldest(s, t, place, Order()));
    }
    out << "]}";
}

static void tell_state(std::ostream &out, const Lock &lock, const Step &step) {
    const State &s = step.state;
    bool is_first = true;
    for (int place = 0; place < s.places; place++) {
        if (lock.place_name(place) == "data" || lock.place_name(place).rfind("mark", 0) == 0) continue;
        bool is_part = lock.setup.split && step.deed.place == word_place && place < 3;
        out << (is_first ? "" : ",");
        tell_place(out, lock, s, place, place == step.deed.place || is_part);
        is_first = false;
    }
}

// The row that each processor makes next.
static void tell_rows(std::ostream &out, const Lock &lock, const State &s) {
    for (int t = 0; t < s.threads; t++) {
        int row = s.thread[t].row;
        std::string name = row == done ? "done" : row == (int)lock.table.rows.size() ? "critical section" : lock.table[row].label;
        out << (t ? "," : "") << quoted(name);
    }
}

static const char *const head = R"(<!doctype html>
<html lang="en"><meta charset="utf-8"><meta name="viewport" content="width=device-width">
<style>
body { font: 15px/1.5 system-ui, sans-serif; margin: 1em auto; max-width: 76em; padding: 0 1em; }
h1 { font-size: 1.5em; line-height: 1.2; }
main { display: grid; grid-template-columns: minmax(24em, 2fr) 3fr; gap: 1.5em; } main > * { min-width: 0; }
ol { position: relative; height: 70vh; overflow: auto; margin: 0; padding-left: 2.5em; border: 1px solid #ddd; }
li { cursor: pointer; padding: 0 .3em; } li.now { background: #fd6; } li.late { color: #a00; }
button { font: inherit; padding: .1em 1em; } #scroll { overflow-x: auto; } #now { min-height: 3em; margin: .6em 0; }
table { border-collapse: collapse; } td, th { border: 1px solid #bbb; padding: .2em .5em; text-align: left; font-weight: normal; white-space: nowrap; }
td.last { background: #e8f4e8; } tr.here th { background: #fd6; } small { color: #555; display: block; }
@media (max-width: 50em) { main { display: block; } ol { height: 30vh; margin-bottom: .6em; } }
</style>
)";

static const char *const script = R"(
const list = document.querySelector("ol"), now = document.querySelector("#now"), state = document.querySelector("#state");
let at = 0;
steps.forEach((step, i) => {
  const item = document.createElement("li");
  item.textContent = step.text;
  if (step.late) item.className = "late";
  item.onclick = () => show(i);
  list.append(item);
});
function cell(place, value, k) {
  const who = place.from.map((from, t) => from >= 0 && from <= k ? t : -1).filter(t => t >= 0);
  const last = k === place.values.length - 1 ? " class=last" : "";
  return `<td${last}>${value}<small>${who.length ? who.join(", ") + " may read it" : ""}</small></td>`;
}
function show(i) {
  at = Math.max(0, Math.min(steps.length - 1, i));
  [...list.children].forEach((item, j) => item.classList.toggle("now", j === at));
  const nexts = steps[at].rows.map((row, t) => `${t}: ${row}`).join(", ");
  now.textContent = `After step ${at + 1} of ${steps.length}: ${steps[at].text}. Next come ${nexts}.`;
  const rows = steps[at].places.map(place => {
    const cells = place.values.map((value, k) => cell(place, value, k));
    return `<tr${place.here ? " class=here" : ""}><th>${place.name}</th>${cells.join("")}</tr>`;
  });
  state.innerHTML = rows.join("");
  const item = list.children[at];
  list.scrollTop = item.offsetTop + item.offsetHeight / 2 - list.clientHeight / 2;
}
document.querySelector("#back").onclick = () => show(at - 1);
document.querySelector("#on").onclick = () => show(at + 1);
document.onkeydown = event => {
  if (event.key === "ArrowRight" || event.key === "j") show(at + 1);
  else if (event.key === "ArrowLeft" || event.key === "k") show(at - 1);
};
window.onresize = () => show(at);
show(steps.length - 1);
</script></html>
)";

void tell_page(std::ostream &out, const Lock &lock, const std::vector<Step> &steps, const std::string &title) {
    out << head << "<title>" << title << "</title>\n<h1>" << title << "</h1>\n";
    out << "<p>Found by exploring a model of the memory, and not proved. Each row of the table is a place of the memory, with its values in "
           "coherence order: the last, green, is the newest. Under each value stand the processors that may still read it. The yellow place is "
           "that of the step. A red step read an old value, or placed its store before one that was there. The arrow keys go through the steps "
           "too.</p>\n<main><ol></ol><div><button id=back>Back</button> <button id=on>Forward</button><p id=now></p><div id=scroll>"
           "<table id=state></table></div></div></main>\n<script>const steps = [";
    State before = lock.start();
    for (size_t i = 0; i < steps.size(); i++) {
        std::string text = step_text(lock, before, steps[i]);
        bool is_late = text.find(", late") != std::string::npos || text.find(", before ") != std::string::npos;
        out << (i ? ",\n" : "\n") << "{\"text\":" << quoted(text) << ",\"late\":" << (is_late ? "true" : "false") << ",\"rows\":[";
        tell_rows(out, lock, steps[i].state);
        out << "],\"places\":[";
        tell_state(out, lock, steps[i]);
        out << "]}";
        before = steps[i].state;
    }
    out << "];" << script;
}
