"""How a page behaves, in a wide and in a narrow window: its keys, what is in sight, its legends, and what it says of those that wait.
Each check answers what is not so, as sentences."""
import json
import re

import ending
from viewer import expected

WIDE, NARROW = (1400, 1000), (390, 844)
# A context that takes again what its task holds.
DEADLOCK = "qtrace 1\nmode native\ncpus 1\nlock 0 spin\nprog 0 lock 0 unlock 0\nirq 0 lock 0 unlock 0\ngo\nstep 0 1\nint 0\nstep 0 9\nend\n"
AT = "+(document.querySelector('[aria-selected=true]') || { dataset: { at: -1 } }).dataset.at"
# Where things stand in the window.
PLACES = """(() => {
  const box = (selector) => { const { left, top, right, bottom } = document.querySelector(selector).getBoundingClientRect(); return { left, top, right, bottom }; };
  return { acts: box("#acts"), happened: box("#happened"), width: document.documentElement.scrollWidth };
})()"""
# The text of an element, and whether it stands in the window.
TEXT = """((id) => {
  const found = document.getElementById(id);
  const { top, bottom } = found ? found.getBoundingClientRect() : {};
  return [found ? found.innerText : "", Boolean(found) && top >= 0 && bottom > top && bottom <= innerHeight];
})"""
# Goes through all lines by a key, and answers those whose label does not then stand in sight, between the numbers and the events.
OUT_OF_SIGHT = """((key) => {
  const box = document.getElementById("acts").getBoundingClientRect();
  const isSeen = (row) => {
    const [number, label, aside] = [...row.children].map((each) => each.getBoundingClientRect());
    return label.left >= number.right - 1 && label.right <= aside.left + 1 && aside.right <= box.right + 1 && label.top >= box.top && label.bottom <= box.bottom;
  };
  const unseen = [];
  for (let turn = +document.getElementById("slider").max; turn > 0; turn--) {
    document.dispatchEvent(new KeyboardEvent("keydown", { key }));
    const row = document.querySelector("[aria-selected=true]");
    if (!isSeen(row)) unseen.push(+row.dataset.at);
  }
  return unseen;
})"""


def sixteen():
    """Sixteen processors and two locks: fourteen queue while two hold, and are served in turn."""
    head = ["qtrace 1", "mode native", "cpus 16", "lock 0 spin", "lock 1 spin", *(f"prog {cpu} lock {cpu % 2} unlock {cpu % 2}" for cpu in range(16)), "go"]
    others = range(2, 16)
    turns = ["step 0 1", "step 1 1", *(f"step {cpu} 5" for cpu in others), "step 0 1", "step 1 1"]
    return "\n".join([*head, *turns, *(f"step {cpu} 5" for _ in range(3) for cpu in others), "end", ""])


def locks_of(lines):
    """For each line the lock on which its waiter acts, or None: that of its last row on a word, or on an entry of the hash."""
    now = {}
    for line in lines:
        _, _, who, deed, _ = expected.LINE.match(line).groups()
        found = expected.VALUE.match(deed)
        if found and found[2] in ("lock", "hash"):
            now[who] = found[3]
        elif deed == "int":
            now[who] = None
        yield now.get(who) if found or deed in ("step", "nudge") else None


def seeking(checker, lines):
    """Each key that seeks goes through just the lines that it says, forward and with Shift back."""
    events = [bool(expected.LINE.match(line)[5]) for line in lines]
    cpus = [expected.LINE.match(line)[3].split(".")[0] for line in lines]
    for key, kinds in (("e", events), ("p", cpus), ("l", list(locks_of(lines)))):
        wanted = [at for at, kind in enumerate(kinds) if kind == (True if key == "e" else kinds[-1])]
        checker.browser.press("End")
        back = [checker.pressed(key.upper()) for _ in wanted[:-1]]
        ahead = [checker.pressed(key) for _ in wanted[:-1]]
        if back != wanted[-2::-1] or ahead != wanted[1:]:
            yield f"the key {key} with Shift goes to the lines {back}, and then alone to {ahead}; they are {wanted}"


def keys(checker):
    """The keys that seek; and the field of the act, which gives the keys back after Enter."""
    name = "pv_wait_lock"
    lines = checker.opened(name, WIDE)
    yield from seeking(checker, lines)
    checker.browser.evaluate("document.getElementById('number').focus(), document.getElementById('number').select()")
    checker.browser.type("15")
    at, ahead = checker.pressed("Enter"), checker.pressed("ArrowRight")
    if (at, ahead) != (14, 15):
        yield f"15 and Enter in the field of the act lead to line {at}, and then the arrow key to {ahead}"
    checker.browser.press("Home")
    said, is_seen = checker.browser.evaluate(f"{TEXT}('keys')")
    if not is_seen or not re.search(r"\be event.*\bp act of this processor.*\bl act on\s+this lock", said, re.S):
        yield f"the line that tells the keys {'is' if is_seen else 'is not'} in sight, and says {said!r}"


def sideways(checker):
    """With sixteen processors the label of each act comes into sight beside the column of events, going forward and back."""
    trace = sixteen()
    lines = checker.lines(trace)
    for size in (WIDE, NARROW):
        checker.show(checker.page("sixteen", trace, lines), size)
        checker.browser.press("ArrowRight")
        for key in ("ArrowRight", "ArrowLeft"):
            unseen = checker.browser.evaluate(f"{OUT_OF_SIGHT}({json.dumps(key)})")
            if unseen:
                yield f"of {len(lines)} acts of sixteen processors those of the lines {unseen[:5]} are out of sight at {size[0]} points ({len(unseen)} by {key})"


def order(checker):
    """In a wide window the acts are left of the state; in a narrow one they are above it and in the first screen. Nothing is cut off."""
    for size in (WIDE, NARROW):
        checker.opened("cna_move_and_flush", size)
        places = checker.browser.evaluate(PLACES)
        acts, happened = places["acts"], places["happened"]
        is_first = acts["right"] <= happened["left"] if size == WIDE else acts["bottom"] <= happened["top"]
        if not is_first or acts["bottom"] > size[1] or places["width"] > size[0]:
            yield f"at {size[0]} points the acts are at {acts}, the state at {happened}, and the page is {places['width']} wide"


def legends(checker):
    """The page says what the values in its lines are, and which mark is a compare-exchange that failed."""
    for name, told in (("transient_pending", "lock L (tail,pending,locked)"), ("rw_writer_waits", "(readers,waiting,writer)"), ("cna_promotion", "node p.i (flag,next)")):
        checker.opened(name, WIDE)
        said, is_seen = checker.browser.evaluate(f"{TEXT}('values')")
        if not is_seen or told not in said or "cmpxchg" not in said:
            yield f"{name}: the legend of values {'is' if is_seen else 'is not'} in sight, and says {said!r}"


def failing(checker):
    """Where a compare-exchange failed, its act is marked in the list and in the words beside it; another is not."""
    for size, act, marks in ((WIDE, 15, ["✗", "fails"]), (NARROW, 15, ["fails"]), (WIDE, 27, [])):
        checker.opened("transient_pending", size, act)
        found = checker.browser.evaluate("[...document.querySelectorAll('[aria-selected=true] em.fails')].map((each) => each.textContent)")
        told = checker.browser.evaluate("document.querySelector('#happened dl').innerText.includes('fails')")
        if found != marks or told != bool(marks):
            yield f"act {act} at {size[0]} points is marked by {found}, and the words beside it {'say' if told else 'do not say'} that it fails"


def waiting(checker):
    """A lock's card says since when it is held, who pends, and who seeks it; and the code of a row is named with its crate."""
    checker.show(checker.page("deadlock", DEADLOCK, checker.lines(DEADLOCK)), WIDE, 99)
    card = checker.browser.evaluate("document.querySelector('article[data-lock]').innerText")
    for told in ("Held by: 0.0 since act 1", "Pending: 0.1", "nobody behind 0.1"):
        if told not in card:
            yield f"the card of a lock that its holder's interrupt wants does not say {told!r}: {card!r}"
    for name, act, told in (("test_and_set", 5, r"Seeks it: 1\.0, last at V1 poll; 2\.0, last at V1 poll"), ("rw_writer_waits", 7, r"Seeks it: 2\.0, last at Wr5 poll")):
        checker.opened(name, WIDE, act)
        card = checker.browser.evaluate("document.querySelector('article[data-lock]').innerText")
        if not re.search(told, card):
            yield f"{name}: the card of the lock does not say {told!r}: {card!r}"
    checker.opened("cna_move_and_flush", WIDE, 34)
    said = checker.browser.evaluate("document.getElementById('happened').innerText")
    if "lk_cna::hand::hand_on" not in said:
        yield f"the code of C8 is not named with its crate: {json.dumps(said)}"
    checker.opened("transient_pending", WIDE, 9)
    said = checker.browser.evaluate("document.getElementById('happened').innerText")
    if not re.search(r"Order there\s+release", said):
        yield f"the order that Linux has at U1 is not told: {json.dumps(said)}"


def ends(checker):
    """Of a trace that ends with somebody unfinished the last act says who holds and who waits, and no other act does."""
    lines = checker.lines(DEADLOCK)
    page = checker.page("deadlock", DEADLOCK, lines, ending.told(DEADLOCK, checker.lines))
    for act, is_last in ((3, False), (99, True)):
        checker.show(page, WIDE, act)
        said = checker.browser.evaluate("document.getElementById('happened').innerText")
        for told in ("lock 0 is held by 0.0 since act 1", "0.1 waits for lock 0"):
            if (told in said) != is_last:
                yield f"at act {act} of a trace that ends in a deadlock the page {'does not say' if is_last else 'says'} {told!r}: {said!r}"


def alone(checker):
    """A page loads nothing."""
    checker.opened("pending", WIDE)
    loaded = checker.browser.evaluate("performance.getEntriesByType('resource').map((each) => each.name)")
    if loaded:
        yield f"the page loads {loaded}"


CHECKS = (keys, sideways, order, legends, failing, waiting, ends, alone)
