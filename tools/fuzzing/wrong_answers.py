"""Answers made wrong on purpose, to see that each check notices: a name, the words whose answer it is, and what is made of it."""
import re


def without_first(pattern):
    return lambda text: re.sub(pattern, b"", text, count=1, flags=re.M)


def with_first(pattern, new):
    return lambda text: re.sub(pattern, new, text, count=1, flags=re.M)


def one_more(pattern):
    """The last number of the first line that fits, one higher."""
    return lambda text: re.sub(pattern, lambda found: found[1] + str(int(found[2]) + 1).encode(), text, count=1, flags=re.M)


def of_text(change):
    return lambda text, answer: answer._replace(text=change(answer.text))


def of_note(change):
    return lambda text, answer: answer._replace(note=change(answer.note))


def of_status(old, new):
    return lambda text, answer: answer._replace(status=new) if answer.status == old else answer


def where_preempted(change):
    return lambda text, answer: answer._replace(text=change(answer.text)) if re.search(rb"^pre ", text, re.M) else answer


WRONG = (
    ("a take is left out", "replay", of_text(without_first(rb"^\d+ \S+ take .*\n"))),
    ("a release is left out", "replay", of_text(without_first(rb"^\d+ \S+ \w?release .*\n"))),
    ("an arrival is left out", "replay", of_text(without_first(rb"^\d+ \S+ arrive .*\n"))),
    ("an event is of another act", "replay", of_text(lambda text: re.sub(rb"^(\d+)(?= \S+ release)", lambda act: str(int(act[1]) + 1).encode(), text, flags=re.M))),
    ("an event is of another context", "replay", of_text(with_first(rb"^(\d+ \d+)\.0 ", rb"\1.1 "))),
    ("a waiter more is moved", "replay", of_text(with_first(rb"( pass \S+ \S+)$", rb"\1 moved 1"))),
    ("a kick is left out", "replay", of_text(without_first(rb"^\d+ \S+ kick .*\n"))),
    ("a count is one higher", "replay", of_text(one_more(rb"^(lock_pending )(\d+)$"))),
    ("there is an act more", "replay", of_text(one_more(rb"^(end )(\d+)$"))),
    ("a preempted processor loses an event", "replay", where_preempted(without_first(rb"^\d+ \S+ miss .*\n"))),
    ("what was written before a refusal is lost", "replay", lambda text, answer: answer._replace(text=b"") if answer.status == 3 else answer),
    ("a refusal is of the next line", "replay", of_note(lambda note: re.sub(rb"\d+(?=:)", lambda line: str(int(line[0]) + 1).encode(), note))),
    ("a refusal has another name", "replay", of_note(lambda note: note.replace(b"OutOfRange", b"BadNumber"))),
    ("a limit has another status", "replay", of_status(7, 3)),
    ("every history is lawful", "audit", lambda text, answer: answer._replace(status=0, note=b"", text=b"lawful 1\n") if answer.status == 8 else answer),
    ("a breach has another name", "audit", of_text(lambda text: text.replace(b"Beside", b"NotHolder"))),
    ("a breach is of the next line", "audit", of_text(one_more(rb"^(breach )(\d+)"))),
    ("a lawful history is a breach", "audit", of_text(with_first(rb"^lawful \d+", b"breach 9 Beside"))),
    ("a handover tells nobody", "osq", of_text(with_first(rb" release to \d+$", b" release"))),
    ("giving up is left out", "osq", of_text(without_first(rb"^\d+ \d+ quit\n"))),
    ("a refusal of a run has another name", "osq", of_note(lambda note: note.replace(b"UnknownWord", b"Misplaced"))),
    ("a reply is another one", "ledger", of_text(with_first(rb"^(entry .*) ok$", rb"\1 short"))),
    ("a balance is one higher", "ledger", of_text(one_more(rb"^(balance \d+ )(\d+)$"))),
    ("a read has another answer", "ledger", of_text(one_more(rb"^(read .* sum )(\d+)$"))),
    ("an entry is left out", "ledger", of_text(without_first(rb"^entry .*\n"))),
    ("a job file has a refusal of the next line", "ledger", of_note(lambda note: re.sub(rb"\d+(?=:)", lambda line: str(int(line[0]) + 1).encode(), note))),
    ("the generated trace has a line less", "gen", of_text(without_first(rb"^step .*\n"))),
    ("a count of `load` is one higher", "load", of_text(one_more(rb"^(lock_slowpath )(\d+)$"))),
    ("words that ask for nothing are done", "", of_status(2, 0)),
)


def spoiler(word, change):
    """What makes the answers to these words wrong; without a word the answers to all."""
    return lambda words, text, answer: change(text, answer) if not word or words[:1] == (word,) else answer
