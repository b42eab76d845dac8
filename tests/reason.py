"""Why the prover refused a crate, read from what it said: for a fact that does not hold, or because the proof files no
longer fit the code (a goal, a field or a name that is missing, a parse error, another number or kind of arguments),
which shows nothing of the promise. And which functions and declarations it refused for a fact of their own. Used by
tests/edits, tests/idle and tests/mutants."""
import re

# What only follows from an earlier error.
FOLLOWS = re.compile(r"was not admitted|which was rejected")
# Errors of form. An invariant or a measure (`invariant-loop`, `decreases-loop`) that is refused is one for other locals:
# it is a definition, and states no fact.
SHAPE = re.compile(
    r"has no `[^`]*` that can be named"
    r"|has no field `"
    r"|not in scope"
    r"|is not a constructor of"
    r"|does not define it"
    r"|this tuple has"
    r"|is applied to an argument but has type"
    r"|: error: (?!`)"
    r"|: error\["
    r"|: error: `(?:invariant|decreases)-[^`]*`:"
)
FACT = re.compile(r": error: `|^note: .*(it is not proved that|is out of bounds of)|^fn \S+: no proof: .* did not prove ")
OWN = re.compile(r"(?:^|/)(?:proofs/(?:\w+/)*(\w+)/(?:Answers|Invariants|Proof)|\w+)\.antt:\d+:\d+: error: `([^`]*)`")


def reason(log):
    """("fact" or "shape" or "nothing", the line that says so)."""
    said = [line for line in log.splitlines() if (": error" in line or line.startswith(("note: ", "fn ")))
        and not FOLLOWS.search(line)]
    for kind, sign in (("shape", SHAPE), ("fact", FACT)):
        for line in said:
            if sign.search(line):
                return kind, line
    return "nothing", "no error in its log"


def refused(log):
    """The names of the functions and declarations that were refused for a fact: of a function whose answers are
    written out in proofs/F/ an answer, of any other a goal that the search did not prove."""
    found = set()
    for line in log.splitlines():
        if FOLLOWS.search(line) or SHAPE.search(line):
            continue
        place = OWN.search(line)
        if place:
            found |= {place[1] or place[2]}
        place = re.match(r"fn (?:\w+::)*(\w+): no proof: .* did not prove ", line)
        if place:
            found |= {place[1]}
    return found
