"""The next unit of a frame: steps that take no time are carried out on the way to it."""
from __future__ import annotations

from script import AddRegister, Block, Call, Guard, Loop, Run, SetRegister, Step, TakeValue, Test
from state import GREATEST_REGISTER, Frame, FrameKind, Level, Plain, Unit


def new_frame(kind: FrameKind, body: Block, value: int = 0) -> Frame:
    """A frame at the first place of a body, its register and value set to `value`."""
    value = min(value, GREATEST_REGISTER)
    return Frame(kind, [Level(body)], register=value, value=value)


def take_next_unit(frame: Frame) -> None:
    """Sets the frame's next unit and its ticks."""
    frame.unit = next_unit(frame)
    frame.left = frame.unit.ticks if isinstance(frame.unit, Run) else 1


def next_unit(frame: Frame) -> Unit:
    """The next unit; the frame's place is then the one after it."""
    while True:
        level = frame.levels[-1]
        if level.index < len(level.block):
            level.index += 1
            unit = pass_step(frame, level.block[level.index - 1])
        elif len(frame.levels) == 1:
            return Plain.FINISH
        else:
            unit = pass_end(frame, level)
        if unit is not None:
            return unit


def pass_step(frame: Frame, step: Step) -> Unit | None:
    """Goes past one step: its unit, or None where it takes no time."""
    match step:
        case Run() | Call():
            return step
        case SetRegister(number):
            frame.register = min(number, GREATEST_REGISTER)
        case AddRegister(number):
            frame.register = min(frame.register + number, GREATEST_REGISTER)
        case TakeValue():
            frame.register = min(frame.value, GREATEST_REGISTER)
        case Test(res, equal, body):
            if (frame.result is res) == equal:
                frame.levels.append(Level(body, step))
        case Loop(times, body):
            frame.levels.append(Level(body, step, passes=times))
        case Guard(_, push, body, _):
            frame.levels.append(Level(body, step))
            return push
    return None


def pass_end(frame: Frame, level: Level) -> Unit | None:
    """Goes past the end of a block: a jump back where another pass is due."""
    if isinstance(level.opener, Loop):
        if level.passes is None or level.passes > 1:
            level.passes = None if level.passes is None else level.passes - 1
            level.index = 0
            return Plain.JUMP
    frame.levels.pop()
    return level.opener.pop if isinstance(level.opener, Guard) else None
