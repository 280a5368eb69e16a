"""What a page shows of its acts: each line of the list with its bar and its arrows, what stands beside an act, and what the mouse does.
Each check answers what is not so, as sentences."""
import re

import labels
from viewer import expected
from viewer.behaviour import AT, NARROW, TEXT, WIDE

NAME = "transient_pending"
ROWS = """[...document.querySelectorAll('.row')].map((row) => [...row.children].map((each) => each.textContent))"""
# The phases of the bars that are drawn, and of each kind how many arrows.
DRAWN = """(() => {
  const count = (kind) => document.querySelectorAll(".arrow." + kind).length;
  return [[...new Set([...document.querySelectorAll("#rows rect")].map((each) => each.getAttribute("class")))].sort(), ["link", "handoff", "kick"].map(count)];
})()"""
# Whether the act at the cursor stands in the list whole.
IS_WHOLE = """(() => {
  const [row, box] = ["[aria-selected=true]", "#acts"].map((each) => document.querySelector(each).getBoundingClientRect());
  return row.top >= box.top && row.bottom <= box.bottom + 1;
})()"""
SLIDE = "(() => { const slider = document.getElementById('slider'); slider.value = 11; slider.dispatchEvent(new Event('input')); })()"
# What stands beside some acts.
BESIDE = {
    14: (r"P1, pend\. Sets the pending bit", r"Met and left\s+lock 0 \(2\.0,0,0\) → \(2\.0,1,0\)", r"Linux 6\.1\s+qspinlock\.c:\d+ queued_fetch_set_pending_acquire"),
    15: (r"Before, after\s+n,0,0 -> 0,0,1", r"In the trace\s+act 15: the claim of 2 fails"),
    16: (r"Event\s+take 0 head: acquires lock 0 as the queue head", r"Then\s+native G10"),
}


def row_of(line, is_wide):
    """What the list has of a line: its number, its row, and its event, or else what it met and left."""
    first, last, _, deed, event = expected.LINE.match(line).groups()
    row, kind, name, met, left = expected.VALUE.match(deed).groups()
    told = labels.told()[row]
    fails = "cmpxchg" in told["Before and after"] and left is None
    values = f"{kind} {name} {met}{f' -> {left}' if left else ''}"
    label = f"{row} {told['Verb']}{' ✗' if fails else ''}" if is_wide else row
    aside = values + (", fails" if fails else "") if is_wide else told["Verb"] + (" fails" if fails else "")
    return [first if last is None else f"{first}-{last}", label, event or aside]


def lists(checker):
    """Each line of the list has what it has to, and there are bars of each phase and an arrow for each link and handoff."""
    for size in (WIDE, NARROW):
        lines = checker.opened(NAME, size)
        shown = checker.browser.evaluate(ROWS)
        wanted = [row_of(line, size == WIDE) for line in lines]
        if not shown or any(row not in wanted for row in shown) or size == WIDE and shown != wanted:
            yield f"at {size[0]} points the list has {[row for row in shown if row not in wanted] or len(shown)}"
    checker.opened(NAME, WIDE)
    phases, arrows = checker.browser.evaluate(DRAWN)
    if phases != ["holds", "leads", "pending", "queued", "seeks"] or arrows != [1, 1, 0]:
        yield f"the lanes have bars of the phases {phases} and the arrows {arrows} (links, handoffs, kicks)"
    checker.opened("pv_handed_and_kicked", WIDE, 44)
    phases, arrows = checker.browser.evaluate(DRAWN)
    if "halted" not in phases or not arrows[2]:
        yield f"the lanes of a kick have bars of the phases {phases} and the arrows {arrows} (links, handoffs, kicks)"
    said, is_seen = checker.browser.evaluate(f"{TEXT}('legend')")
    if not is_seen or said.split() != "runs seeks pending queued leads holds halted link handoff kick".split():
        yield f"the legend of colours {'is' if is_seen else 'is not'} in sight, and says {said!r}"


def beside(checker):
    for act, patterns in BESIDE.items():
        checker.opened(NAME, WIDE, act)
        said = checker.browser.evaluate("document.getElementById('happened').innerText")
        yield from (f"beside act {act} there is no {pattern!r}: {said!r}" for pattern in patterns if not re.search(pattern, said))


def asked(checker):
    """The act that the address names is in sight when the page opens."""
    for size in (WIDE, NARROW):
        checker.opened("lost_successor", size, 3036)
        if not checker.browser.evaluate(IS_WHOLE):
            yield f"the last act, for which the address asks, is cut off at {size[0]} points"


def mouse(checker):
    """What is clicked, slid and typed leads to its line."""
    checker.opened(NAME, WIDE)
    deeds = (
        ("a click on a line", "document.querySelector('[data-at=\"4\"] span').click()", 4),
        ("the slider", SLIDE, 11),
        ("the button that goes on", "document.getElementById('forward').click()", 12),
        ("the button of the next event", "document.getElementById('next-event').click()", 15),
        ("a number that is typed", "(() => { const field = document.getElementById('number'); field.value = 20; field.dispatchEvent(new Event('change')); })()", 19),
    )
    for what, deed, wanted in deeds:
        checker.browser.evaluate(deed)
        at = checker.browser.evaluate(AT)
        if at != wanted:
            yield f"{what} leads to line {at}, and not to {wanted}"
    checker.browser.evaluate("document.getElementById('acts').focus()")
    checker.browser.press(" ")
    if checker.browser.evaluate("document.getElementById('play').textContent") != "Pause":
        yield "the space bar does not play"


CHECKS = (lists, beside, asked, mouse)
