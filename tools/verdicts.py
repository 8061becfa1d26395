"""What the prover's messages say of an edit that makes a body or a definition wrong.

An edit is refused by a goal of a function that it changes: the goal is false at values which the prover found, or its
search came to an end without a proof. Where the search gave up at a limit, or where a proof written by hand no longer fits, the
goal may hold all the same: then the edit is open. Where no goal is left open but a name is gone, it shows nothing.
"""

import re
from dataclasses import dataclass, field
from enum import Enum

FUNCTION = re.compile(r"^fn (\S+): (.*)")
DECLARED = re.compile(r"^(?:fn|struct|enum|impl|trait) ")
GOAL = re.compile(r"^note: (\S+\.rt:\d+:\d+: .*\(`\S+`\)(?:;.*)?)$")
PROOF = re.compile(r"^(?:note: )?(?:\./)?((?:proofs|specs)/\S+?\.antt):\d+:\d+: error: (.*)")
UNREAD = re.compile(r"^\S+:\d+:\d+: error\[.*")
ANSWER = re.compile(r"^(?:abbrev )?pub (\S+) :", re.MULTILINE)
# an answer that is no proof
UNFINISHED = "\n\nunfinished : Type 0\nunfinished = not_there\n"
# what is said of a goal that no proof closes, since it fails at values which the prover found and checked
IS_FALSE = "allow values at which this goal is false"
# what is said where the prover stopped without an answer
LIMITS = re.compile(r"gave up|could not tell|did not finish|its own limit|resource limit|ran out of|may hold")
# what is said of a proof that names something which the edit took away
NAMES = re.compile(r"has no `|has no field|is not in scope|no longer has")
# what is said of a proof that cites another which failed
FOLLOWS = re.compile(r"depends? on `[^`]*`, which was (?:not admitted|rejected)")


class Outcome(Enum):
    """What became of an edit, the first of these that is true of it."""

    REFUSED = "refused"
    OPEN = "open"
    EMPTY = "shows nothing"
    ACCEPTED = "ACCEPTED"


@dataclass
class Verdict:
    outcome: Outcome
    why: str
    # the written answers without which it should be tried again: they no longer fit
    unfit: set = field(default_factory=set)


@dataclass
class Function:
    """A function that isn't proved: why, its open goals, and the errors in its proof files, each with its file."""

    path: str
    why: str
    goals: list
    errors: list

    def names(self):
        """Its name, or those of the function in which a closure is, as in `a_crate::fn::A_TYPE::a_function::map`."""
        names = self.path.split("::")
        return names[names.index("fn") + 1 : -1] if "fn" in names else names[-1:]


def messages(said):
    """The messages of a check, each on one line: the lines that follow its first are indented."""
    joined = []
    for line in said.split("\n"):
        if line[:1].isspace() and joined:
            joined[-1] += " " + line.strip()
        else:
            joined.append(line)
    return joined


def unread(said):
    """The first message that says why the code isn't proved at all, since it can't be read or compiled."""
    return next((it for it in messages(said) if UNREAD.match(it)), None)


def errors_in_proofs(said):
    """The file and the text of each error in a file of proofs or definitions, but for the unfinished answers."""
    return [it.groups() for it in map(PROOF.match, messages(said)) if it and "`unfinished`" not in it[2]]


def folders_of(path):
    """Where the proof files of a function may be: if it calls itself, its folder begins with a plus sign."""
    *above, name = path.split("::")[1:]
    return tuple("/".join(["proofs", *above, it, ""]) for it in (name, f"+{name}"))


def functions_open(said):
    """The functions of a check that aren't proved."""
    errors, goals = errors_in_proofs(said), []
    for message in messages(said):
        goal, function = GOAL.match(message), FUNCTION.match(message)
        if goal:
            goals.append(goal[1])
        elif function and not function[2].startswith("proved"):
            folders = folders_of(function[1])
            yield Function(*function.groups(), goals, [it for it in errors if it[0].startswith(folders)])
        if DECLARED.match(message):
            goals = []


def verdict(said, names, answered=frozenset()):
    """What a check says of an edit in the bodies of the functions of these names, or, without names, of any other.

    The goals answered are those whose answers were left out: that the search finds no proof of such a goal says nothing.
    """
    found = [it for it in functions_open(said) if not names or names.intersection(it.names())]
    verdicts = [it for one in found for it in verdicts_of_function(one, answered)]
    if not names:
        verdicts += verdicts_of_lemmas(said)
    order = list(Outcome)
    best = min(verdicts, key=lambda it: order.index(it.outcome), default=None)
    if not best:
        return Verdict(Outcome.ACCEPTED, "it is still proved")
    return Verdict(best.outcome, best.why, {file for it in verdicts for file in it.unfit})


def verdicts_of_function(function, answered):
    """What each goal and each error of a function says."""
    files = {file for file, _ in function.errors}
    fits = not function.errors
    # without its invariants, a loop's goals may be false for that reason alone
    has_invariants = not any(it.endswith("/Invariants.antt") for it in files)
    for goal in function.goals:
        is_own = fits and not is_kin(goal_named(goal), answered)
        if IS_FALSE in goal and has_invariants or is_own and not LIMITS.search(goal):
            yield Verdict(Outcome.REFUSED, goal)
        else:
            yield Verdict(Outcome.OPEN, goal)
    for file, error in function.errors:
        unfit = {file} if file.endswith("/Answers.antt") and not FOLLOWS.search(error) else set()
        yield Verdict(outcome_of_error(error), f"{file}: {error}", unfit)
    if fits and not function.goals and not re.search(r"it calls|it passes|^not proved$", function.why):
        yield Verdict(Outcome.OPEN if LIMITS.search(function.why) else Outcome.EMPTY, f"{function.path}: {function.why}")


def verdicts_of_lemmas(said):
    """What the errors in lemmas and definitions say, which belong to no function."""
    for file, error in errors_in_proofs(said):
        if not file.endswith(("/Answers.antt", "/Invariants.antt")):
            yield Verdict(outcome_of_error(error), f"{file}: {error}")


def outcome_of_error(error):
    """What an error in a written proof says: at most that the proof no longer fits."""
    return Outcome.EMPTY if NAMES.search(error) or FOLLOWS.search(error) else Outcome.OPEN


def goal_named(text):
    return (re.findall(r"\(`(\S+?)`\)", text) or [""])[0]


def is_kin(goal, answered):
    """Whether a goal is like one that had an answer: of the same place in the code or call, and of the same clause."""
    kind, clause = kind_and_clause(goal)
    kin = (kind_and_clause(it) for it in answered)
    return any(kind == other and (clause == its or not clause or not its) for other, its in kin)


def kind_and_clause(goal):
    return goal.split("-")[0], goal.partition("-clause-")[2]


def goals_answered(texts):
    """The names of the goals that have answers in these files."""
    return frozenset(goal for text in texts for goal in ANSWER.findall(text))
