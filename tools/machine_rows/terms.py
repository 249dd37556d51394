"""A script as the term that its definition is about."""
from __future__ import annotations

from forms import ABSOLUTE_WAITS, OPERAND
from script import (
    Action, AddRegister, Call, CleanupKind, CondKind, Fifo, Guard, HandlerKind, Loop, MutexKind, Named, QueueKind, Rr,
    Run, Script, SemKind, SetRegister, Sporadic, Strict, TakeValue, Test, ThreadKind, TimerKind)

SPECS = "Rattle.rules_machine.specs"
TIMED = frozenset(wait.split()[0] for wait in ABSOLUTE_WAITS)
VARIANTS = {
    "res": "words_numbers.specs.declared.res.Res",
    "call": "words_script.specs.declared.call.Call",
    "operand": "words_script.specs.declared.call.Operand",
    "moment": "words_script.specs.declared.call.Moment",
    "policy": "words_script.specs.declared.policy.Policy",
    "protocol": "words_script.specs.declared.policy.Protocol",
    "decl": "words_script.specs.declared.decl.Decl",
    "kind": "words_script.specs.declared.decl.Kind",
}
HEADER = "".join([
    "use Rattle.std.specs.Prelude.{ℕ, List, [], ◌∷◌, ◌≡◌, Some, None, true, false, codes, refl}\n",
    "use Rattle.std.specs.Fmt.{digits}\n",
    *(f"use Rattle.{path}.TheVariants as {alias}\n" for alias, path in VARIANTS.items()),
    "use Rattle.words_script.specs.Block.{Nothing, Running, Making, Setting, Adding, Taking, Testing, Looping, Guarding}\n",
    "use Rattle.words_script.specs.declared.decl.Script.{Script}\n",
    f"use {SPECS}.Priorities.{{exec_in}}\n",
    f"use {SPECS}.Machine.{{trace}}\n",
])


def listed(terms) -> str:
    return " ∷ ".join([*terms, "[]"])


def codes(text: str) -> str:
    return f'codes "{text}"'


def truth(value: bool) -> str:
    return "true" if value else "false"


def option(term: str | None) -> str:
    return "None" if term is None else f"(Some {term})"


def number_or_none(value: int | None) -> str:
    return option(None if value is None else str(value))


def camel(word: str) -> str:
    return "".join(part.capitalize() for part in word.split("_"))


def policy(value) -> str:
    match value:
        case Fifo(priority):
            return f"(policy.Fifo {priority})"
        case Rr(priority):
            return f"(policy.Rr {priority})"
        case Sporadic(high, low, period, budget, limit):
            fields = f"high = {high}; low = {low}; period = {period}; budget = {budget}; max = {limit}"
            name = "Strict" if isinstance(value, Strict) else "Sporadic"
            return f"(policy.{name} (record {{ {fields} }}))"
    raise AssertionError(value)


def protocol(kind: MutexKind) -> str:
    if kind.inherit:
        return "protocol.Inherit"
    return "protocol.Plain" if kind.ceiling is None else f"(protocol.Protect {kind.ceiling})"


def operand(place: str, value) -> str:
    if place != OPERAND:
        return str(value)
    return "operand.Reg" if value.number is None else f"(operand.Num {value.number})"


def moment(value: Call, time: str) -> str:
    """An absolute time with the clock of its call."""
    return f"(moment.{'Realtime' if value.is_real else 'Monotonic'} {time})"


def scheduling(words: tuple[str, ...], operands: list) -> str:
    """The policy that a call's line names from a keyword on."""
    kinds = {"fifo": Fifo, "rr": Rr, "sporadic": Sporadic, "strict": Strict}
    return policy(kinds[next(word for word in words if word in kinds)](*operands))


def call(value: Call) -> str:
    words, places = value.form.words, value.form.places
    terms = [operand(place, given) for place, given in zip(places, value.operands)]
    if value.word == "setcancel":
        return f"(call.Setcancel {truth(value.choice == 'enable')})"
    if value.word == "setsched":
        given = value.operands[1:]
        wanted = policy(given[0]) if isinstance(given[0], (Fifo, Rr, Sporadic)) else scheduling(words, list(given))
        return f"(call.Setsched {value.operands[0]} {wanted})"
    if value.word in TIMED:
        terms[-1] = moment(value, terms[-1])
    name = camel(value.word)
    if value.word in ("sigmask", "timer_settime"):
        name += camel(value.choice)
    return f"(call.{name} {' '.join(terms)})" if terms else f"call.{name}"


def block(steps: list) -> str:
    if not steps:
        return "Nothing"
    first, rest = steps[0], block(steps[1:])
    match first:
        case Run(ticks):
            return f"(Running {ticks} {rest})"
        case SetRegister(number):
            return f"(Setting {number} {rest})"
        case AddRegister(number):
            return f"(Adding {number} {rest})"
        case TakeValue():
            return f"(Taking {rest})"
        case Call():
            return f"(Making {call(first)} {rest})"
        case Test(res, equal, body):
            return f"(Testing res.{res.name.capitalize()} {truth(equal)} {block(body)} {rest})"
        case Loop(times, body):
            return f"(Looping {number_or_none(times)} {block(body)} {rest})"
        case Guard(cleanup, _, body, pop):
            return f"(Guarding {cleanup} {truth(pop.form.words[1] == '1')} {block(body)} {rest})"
    raise AssertionError(first)


def kind(value) -> str:
    match value:
        case ThreadKind(scheduled, start, body):
            return f"kind.Thread {policy(scheduled)} {number_or_none(start)} {block(body)}"
        case HandlerKind(body):
            return f"kind.Handler {block(body)}"
        case CleanupKind(body):
            return f"kind.Cleanup {block(body)}"
        case MutexKind():
            return f"kind.Mutex {protocol(value)} {truth(value.recursive)}"
        case CondKind():
            return "kind.Cond"
        case SemKind(count):
            return f"kind.Sem {count}"
        case QueueKind(depth, greatest, nonblock):
            return f"kind.Queue {depth} {greatest} {truth(nonblock)}"
        case TimerKind(signal, number, real):
            return f"kind.Timer {signal} {number} {truth(real)}"
    raise AssertionError(value)


def declaration(value: Named | Action) -> str:
    if isinstance(value, Action):
        return f"decl.Action {value.signal} {number_or_none(value.handler)}"
    return f"decl.Named ({codes(value.name)}) ({kind(value.kind)})"


def script(value: Script, indent: str = "  ") -> str:
    """The record of a script, a line for each declaration."""
    decls = f"\n{indent}{indent}∷ ".join([*map(declaration, value.declarations), "[]"])
    return f"record {{\n{indent}version = {value.version};\n{indent}quantum = {value.quantum};\n{indent}decls =\n{indent}{indent}{decls};\n}}"


def lemma(name: str, value: Script, horizon: int, trace: str) -> str:
    """The script and the claim that its run has that trace, which holds by computing."""
    lines = "\n      ∷ ".join([*map(codes, trace.splitlines()), "[]"])
    return f"""
abbrev {name}_script : Script
{name}_script = {script(value)}

pub {name} : trace {name}_script {horizon} ≡ text_of ({lines})
unfolding digits exec_in
{name} = refl
"""
