"""What was seen, told in lines; and what has to be seen, so that a sweep that sees nothing is seen."""
import drawing
import grammar
import turns
import verdicts
import ways
from of_schedules import name_of
from of_states import SAID
from of_traces import AS_IT_IS, FLAT

SORTS = [(name, has_cuts) for name in drawing.DRAWINGS for has_cuts in (False, True)]
VERDICTS = ("faithful", "no trace", "ill formed", "unexplained", "miscounted")
OF_MODELS = ("faithful", "ill formed", "unexplained", "racy")
# Of each way to make a trace the verdicts that have to come.
WANTED = {
    AS_IT_IS: ("faithful",),
    "a reply changed": ("faithful", "unexplained"),
    "two neighbours swapped": ("faithful", "ill formed", "unexplained", "miscounted"),
    "a fetch dropped": ("faithful", "miscounted"),
    "an ask dropped": ("ill formed",),
    "a grant too early": ("ill formed",),
    "a count changed": ("miscounted",),
    "an event given to another processor": VERDICTS,
    "an event doubled": ("faithful", "ill formed", "miscounted"),
    "a store's value changed": ("faithful", "unexplained"),
    "a lock's number changed": ("no trace", "ill formed"),
    FLAT: ("unexplained",),
}
TURNS = {"texts": turns.TEXTS, "reports": turns.REPORTS, "cut reports": turns.REPORTS, "states": turns.STATES,
         "notes": turns.NOTES, "traces": turns.TRACES, "locksets": (*turns.LOCKSETS, *turns.HANDED)}
STATES = ("runs", "events", "in parts", "records", "notices", "stale", "dirty")
# Of JSON what has to be told.
JSON = (("result", ("race-free", "racy")), ("search", ("race-free", "racy", "undecided")),
        ("trace", ("race", "form", "answer", "count")))
TOLD = ("faithful", "no trace", "a lie")
# Of traces with as many addresses as there may be.
WIDE = ("faithful", "ill formed", "unexplained", "miscounted", "racy")
# Of traces of more than 16 processors, under these models.
MANY = {verdicts.HAPPENS_BEFORE: ("faithful", "ill formed", "unexplained"),
        verdicts.LAZY_RELEASE: ("faithful", "ill formed", "unexplained", "miscounted")}
# Of --locksets, of a journal and of one of which a section forgets its lock; and with as many locks as there may be.
LOCKSETS = [("journals", "nothing told"), ("journals", "no race-free trace"), *(
    (sort, what) for sort in ("a lock forgotten", "and ordered by accident", "and ordered by accident, of many")
    for what in ("told", "nothing told", "no race-free trace")),
    ("a lock never taken", "nothing told"), ("a lock never taken, all words", "handed over"),
    ("a lock never taken, of many, all words", "handed over")]
COUNTED = ("reports", "racy", "cut", "events", "fetches")


def counts(seen, *sort, of):
    """Each number of a sort, with what it counts."""
    return ", ".join(f"{seen[(*sort, what)]} {what}" for what in of)


def lines_of_texts(seen):
    yield "texts: " + counts(seen, "texts", of=("scripts", "edited", "read", "stuck"))
    for fault in grammar.FAULTS:
        yield f"texts: {seen['texts', fault]} refused: {fault}"


def line_of_way(seen, way):
    traces = sum(seen["traces", way, verdict] for verdict in VERDICTS)
    return (f"traces, {way}: {traces}, {counts(seen, 'traces', way, of=VERDICTS)}; "
            f"{seen['traces', way, 'at the change']} found at the change itself; "
            f"lax {seen['lax traces', way, 'faithful']} faithful")


def lines_of_turns(seen):
    for kind, all_turns in TURNS.items():
        numbers = ", ".join(f"{name} {seen['turned', kind, name]}" for name, _ in all_turns)
        yield f"turned {kind}, to be refused: {numbers}"


def lines(seen):
    """What was seen."""
    yield from lines_of_texts(seen)
    for sort in SORTS:
        yield f"{name_of(sort)}: {counts(seen, sort, of=('scripts', *COUNTED, 'on threads'))}"
    yield f"states: {counts(seen, 'states', of=('scripts', *STATES))}"
    yield f"notes: {counts(seen, 'notes', of=SAID)}"
    yield f"traces: {counts(seen, 'traces', of=('scripts', *COUNTED, 'on threads'))}"
    for way in WANTED:
        yield line_of_way(seen, way)
    for model in verdicts.MODELS:
        yield f"traces under {model}: {counts(seen, 'model', model, of=OF_MODELS)}"
    yield f"traces told: {counts(seen, 'told', of=TOLD)}"
    yield f"traces of 2^20 addresses: {counts(seen, 'wide', of=WIDE)}"
    for model, kinds in MANY.items():
        yield f"traces of many processors under {model}: {counts(seen, 'many', model, of=kinds)}"
    yield "locksets: " + "; ".join(f"{sort}: {seen['locksets', sort, what]} {what}" for sort, what in LOCKSETS)
    yield f"JSON: {seen['json', 'scripts']} scripts; " + "; ".join(
        f"{what}: {counts(seen, 'json', what, of=kinds)}" for what, kinds in JSON)
    yield from lines_of_turns(seen)


def wanted_of_sort(sort):
    name, has_cuts = sort
    kinds = ["reports", "fetches", "on threads", *["racy"] * (name != "guarded"), *["cut"] * has_cuts]
    return [(sort, kind) for kind in kinds]


def wanted():
    """What has to be seen. Of reports without cuts no more events can be cut off."""
    yield from (("texts", what) for what in ("scripts", "edited", "read", "stuck", *grammar.FAULTS))
    for sort in SORTS:
        yield from wanted_of_sort(sort)
    yield from (("states", what) for what in STATES)
    yield from (("notes", what) for what in SAID)
    for way in (AS_IT_IS, *(name for name, _, _ in ways.WAYS), FLAT):
        yield from (("traces", way, verdict) for verdict in WANTED[way])
    yield from (("model", model, kind) for model in verdicts.MODELS for kind in OF_MODELS
                if model != verdicts.LAZY_RELEASE or kind == "racy")
    yield from (("told", what) for what in TOLD)
    yield from (("wide", what) for what in WIDE)
    yield from (("many", model, what) for model, kinds in MANY.items() for what in kinds)
    yield from (("locksets", *it) for it in LOCKSETS)
    yield from (("json", what, kind) for what, kinds in JSON for kind in kinds)
    for kind, all_turns in TURNS.items():
        yield from (("turned", kind, name) for name, turn in all_turns
                    if kind != "reports" or turn is not turns.more_cut_off)


def missing(seen):
    """What has to be seen and wasn't."""
    return [what for what in wanted() if not seen[what]]
