"""Right answers of the program with one thing turned. They have to be refused, so a check that can't fail is seen."""
import re

import grammar
from running import Answer

# What no drawn script stores.
STRANGE = 4000000001
# The whole report of a script that does nothing.
PLAIN = ("word 0 0\nverdict race-free\ntraffic 2 0 0\n"
         "event 0 0 arrive\nevent 1 0 depart\nevent 2 0 load 0 0\n")


def replaced(pattern, new):
    """Turns the first place of the output that has the pattern."""
    def turn(answer):
        output, count = re.subn(pattern, new, answer.output, count=1, flags=re.MULTILINE)
        return answer._replace(output=output) if count else None
    return turn


def one_more(pattern):
    """Turns the number behind the first place of the output that has the pattern."""
    return replaced(f"({pattern})([0-9]+)", lambda it: it[1] + str(int(it[2]) + 1))


def other_verdict(answer):
    others = {"verdict racy": "verdict race-free", "verdict race-free": "verdict racy"}
    return replaced("^verdict .*$", lambda it: others[it[0]])(answer)


def numbered(lines, cut):
    """The lines with their events' places counted anew."""
    place, text = cut, []
    for line in lines:
        if line.startswith("event "):
            line = re.sub("^event [0-9]+", f"event {place}", line)
            place += 1
        text.append(line + "\n")
    return "".join(text)


def without(pattern):
    """Leaves the first event of the pattern out."""
    def turn(answer):
        lines = answer.output.splitlines()
        place = next((place for place, line in enumerate(lines) if re.match(pattern, line)), None)
        cut = re.search("^cut ([0-9]+)$", answer.output, flags=re.MULTILINE)
        if place is None:
            return None
        return answer._replace(output=numbered(lines[:place] + lines[place + 1:], int(cut[1]) if cut else 0))
    return turn


def more_cut_off(answer):
    """Says that one event more was cut off."""
    cut = re.search("^cut ([0-9]+)$", answer.output, flags=re.MULTILINE)
    if cut is None:
        return None
    lines = answer.output.replace(cut[0], f"cut {int(cut[1]) + 1}").splitlines()
    return answer._replace(output=numbered(lines, int(cut[1]) + 1))


def instead(status, output="", errors=""):
    """Another answer, where the status is another one."""
    return lambda answer: Answer(status, output, errors) if answer.status != status else None


def later_line(answer):
    errors, count = re.subn("line ([0-9]+)", lambda it: f"line {int(it[1]) + 1}", answer.errors)
    return answer._replace(errors=errors) if count else None


def other_fault(answer):
    """The next fault of the list."""
    first, _, hint = answer.errors.partition("\n")
    head, _, fault = first.rpartition(": ")
    if answer.status != 2:
        return None
    after = grammar.FAULTS[(grammar.FAULTS.index(fault) + 1) % len(grammar.FAULTS)]
    return answer._replace(errors=f"{head}: {after}\n{hint}")


REFUSED = instead(2, "", "lrc: line 1: line not understood\n")
STUCK = instead(3, "", "lrc: processor 0: no progress\n")
# Of each kind of answer its turns, with their names.
TEXTS = (("a later line", later_line), ("another fault", other_fault), ("a text read", instead(0, PLAIN)),
         ("a text refused", REFUSED), ("another address", replaced("^word ", "word 9")))
REPORTS = (
    ("a reply", replaced("(load [0-9]+) [0-9]+$", rf"\1 {STRANGE}")),
    ("a stored value", replaced("(store [0-9]+) [0-9]+$", rf"\1 {STRANGE}")),
    ("a shown word", one_more("^word [0-9]+ ")), ("the verdict", other_verdict),
    ("the messages", one_more("^traffic ")), ("the records", one_more("^traffic [0-9]+ ")),
    ("the words", one_more("^traffic [0-9]+ [0-9]+ ")),
    ("a fetch's page", one_more(" fetch ")), ("a fetch's writers", one_more(" fetch [0-9]+ ")),
    ("a fetch's records", one_more(" fetch [0-9]+ [0-9]+ ")),
    ("a fetch's words", one_more(" fetch [0-9]+ [0-9]+ [0-9]+ ")), ("a fetch left out", without(".* fetch ")),
    ("an event left out", without("event .* (load|store|ask|release|arrive|set)")),
    ("an event's processor", one_more("^event [0-9]+ ")), ("an event's place", one_more("^event ")),
    ("the events cut off", more_cut_off), ("no progress", STUCK),
)
STATES = (("a timestamp", one_more("timestamp ")), ("an interval", one_more("interval p[0-9]+:")),
          ("a record's word", replaced(r"(records: page [0-9]+ \([0-9]+=)[0-9]+", rf"\g<1>{STRANGE}")),
          ("the records", replaced(r", records: page [0-9]+ \([^)]*\)", ", no records")),
          ("a notice left out", replaced(r"(notices: page [0-9]+ \(p[0-9]+:[0-9]+), p[0-9]+:[0-9]+", r"\1")),
          ("what is applied", one_more("applies p[0-9]+:")),
          ("a stale copy", replaced("copies: all valid", "copies: page 0 stale")),
          ("an event's line left out", replaced("^ *[0-9]+  .*\n", "")))
NOTES = (("a store", one_more("(?<=  )event ")), ("who stored", one_more("event [0-9]+: p")),
         ("a store that is as late", replaced("; event [0-9]+'s store by p[0-9]+ is as late[^;\\n]*", "")),
         ("by which fetch", one_more(": the fetch at ")), ("a release", one_more("'s release, event ")),
         ("a set", one_more("'s set, event ")), ("a set left out", replaced("p[0-9]+'s set, event [0-9]+, and ", "")),
         ("arrivals", one_more("after the arrivals of p")), ("a way", one_more(", by [a-z]+ at ")),
         ("records that stale copies lack", one_more("goes stale: ")), ("whose records a fetch brings", one_more(", of p")),
         ("who holds a lock", replaced("waits: p[0-9]+ holds", "waits: p99 holds")))
LOCKSETS = (("the word", one_more("^unprotected ")), ("a bare access", one_more("^unprotected [0-9]+: event ")),
            ("a guarded access", one_more("; events ")), ("the lock", one_more(" hold lock ")),
            ("no word told", replaced("^unprotected .*\\n", "")))
HANDED = (("a word handed over", one_more("^handed over ")), ("an access of such a word", one_more("^handed over [0-9]+: event ")),
          ("a word handed over that somebody forgot", replaced("^handed over (.*)$", r"unprotected \1; events 0 and 1 hold lock 0")),
          ("a word forgotten that is handed over", replaced("^unprotected (.*);.*$", r"handed over \1")),
          ("no word handed over told", replaced("^handed over .*\\n", "")))
TRACES = (("the verdict", other_verdict), ("the place", one_more("^unfaithful ")),
          ("the reason", replaced("^because .*$", "because nobody has stored it")),
          ("a due count", one_more("has to count ")), ("the messages", one_more("^traffic ")),
          ("a later line", later_line), ("what was heard", replaced(" heard nothing of ", " heard all of ")),
          ("what was missed", one_more("had stored ")), ("a lock that was held", replaced(" held none[.]$", " held 9.")),
          ("a faithful trace", instead(0, "events 1\nfaithful\nverdict race-free\ntraffic 0 0 0\n")),
          ("a trace refused", instead(6, "events 1\nunfaithful 0\nevent 0 0 release 0\n"
                                         "because its processor does not hold the lock\n")))
