"""What the reading answers to a text, as `crell fmt a.ll` does."""
from .bodies import BodyJudge
from .faults import FirstFault, LimitPassed, as_answer, first_of
from .flow import Flow
from .grammar import ModuleReader
from .printing import module_text

LONGEST = 2 ** 24


def limit_answer(limit):
    return 9, b"", b"a.ll: limit %s\n" % limit.encode()


def answer(text):
    """The status, what is printed, what is told, and what is wrong with shape in words. Status 4 isn't told: there the words aren't empty."""
    if len(text) > LONGEST:
        return (*limit_answer("text"), [])
    try:
        items = ModuleReader(text).module()
    except LimitPassed as passed:
        return (*limit_answer(passed.limit), [])
    except FirstFault as fault:
        return (*as_answer(text, fault.kind, fault.start, fault.end), [])
    judge = BodyJudge(items)
    if judge.faults:
        fault = first_of(judge.faults)
        told = limit_answer("block") if fault.kind == "limit block" else as_answer(text, fault.kind, fault.start, fault.end, fault.due)
        return (*told, [])
    shape = judge.shape + [what for function in judge.named.values() for what in Flow(function).wrong()]
    return 0, b"" if shape else module_text(judge).encode(), b"", shape
