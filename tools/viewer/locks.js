// Who holds each lock and who waits for it, as the events tell it. Each function answers what does not fit, as sentences.

const RELEASES = { release: "spin", rrelease: "reader", wrelease: "writer" };
const TAKES = { take: "spin", rtake: "reader", wtake: "writer" };

function newLock() {
  return { holders: [], main: [], second: [], passes: [] };
}

function isHeldBy(lock, who, manner) {
  return lock.holders.some((holder) => holder.who === who && (!manner || holder.manner === manner));
}

function takes(lock, { who, first }, manner, how) {
  const errors = [];
  const blocked = lock.holders.filter((holder) => manner !== "reader" || holder.manner !== "reader");
  for (const holder of blocked) errors.push(who + " takes the lock beside " + holder.who + ", who holds it");
  lock.holders.push({ who, manner, since: first });
  if (how !== "head" && how !== "sole") return errors;
  if (lock.main[0] !== who) errors.push(who + " takes the lock as the queue head, and is not the head");
  if (how === "sole") lock.main.shift();
  return errors;
}

function releases(lock, who, manner) {
  const at = lock.holders.findIndex((holder) => holder.who === who && holder.manner === manner);
  if (at < 0) return [who + " releases a lock that it does not hold"];
  lock.holders.splice(at, 1);
  return [];
}

function arrives(lock, who) {
  const errors = lock.main.includes(who) || lock.second.includes(who) ? [who + " joins a queue in which it stands"] : [];
  lock.main.push(who);
  return errors;
}

// The head hands off to `next`, and the `moved` waiters between them go to the secondary queue.
function passes(lock, who, next, moved) {
  const errors = lock.main[0] === who ? [] : [who + " hands off, and is not the queue head"];
  if (lock.main[1 + moved] !== next) errors.push(who + " hands off to " + next + ", and the next is " + (lock.main[1 + moved] || "nobody"));
  lock.second.push(...lock.main.slice(1, 1 + moved));
  lock.passes = lock.second.map((_, at) => (lock.passes[at] || 0) + 1);
  lock.main.splice(0, 1 + moved);
  return errors;
}

function rejoins(lock, who) {
  const errors = lock.second.length ? [] : [who + " lets the secondary queue return, and nobody is in it"];
  lock.main.splice(1, 0, ...lock.second);
  lock.second = [];
  lock.passes = [];
  return errors;
}

function leaves(lock, who) {
  const errors = lock.main.length === 1 && lock.main[0] === who ? [] : [who + " leaves the queue empty, and is not alone in it"];
  lock.main.shift();
  return errors;
}

// Tells a lock an event about it, of this line.
function tellLock(lock, line, verb, words) {
  const { who } = line;
  if (TAKES[verb]) return takes(lock, line, TAKES[verb], words[1]);
  if (RELEASES[verb]) return releases(lock, who, RELEASES[verb]);
  if (verb === "arrive") return arrives(lock, who);
  if (verb === "pass") return passes(lock, who, words[1], +(words[3] || 0));
  if (verb === "flush" || verb === "promote") return rejoins(lock, who);
  if (verb === "leave") return leaves(lock, who);
  return [];
}
