"""Accepted scripts at random, each the same for the same seed and stage: scenes in which threads meet, and steps."""
from __future__ import annotations

from random import Random

from clock_scenes import CLOCK_SCENES
from forms import ABSOLUTE_WAITS, REAL, RESULTS, Stage
from scenes import CAST, PEER, SCENES, SELF, Part

_GREATEST = 10**18
_SHARES: dict[Stage, float] = {
    Stage.THREADS: 0.5, Stage.SERVERS: 0.4, Stage.MUTEXES: 0.7, Stage.SEMAPHORES: 0.6, Stage.WAITING: 0.6,
    Stage.SIGNALS: 0.6, Stage.TIMERS: 0.5, Stage.QUEUES: 0.6, Stage.LIVES: 0.6}
"""How often a topic occurs in the steps of a script."""
_SETS_CLOCK = 0.3
"""How many of the scripts of the whole language are about the clock that can be set: the others have none of its words."""
_ON_A_CLOCK = frozenset(("timer", *(wait.split()[0] for wait in ABSOLUTE_WAITS)))


class ScriptWriter:
    """Writes one small script in which threads meet each other often."""

    def __init__(self, seed: int, stage: Stage) -> None:
        self.draw = Random(f"accepted {seed} {stage.name}")
        self.stage = stage
        self.lines: list[str] = []
        draw = self.draw
        self.version = 1 + (stage is Stage.VERSION2)
        self.sets_clock = stage is Stage.CLOCK or stage > Stage.CLOCK and draw.random() < _SETS_CLOCK
        counts = (3, 4, 4, 4, 5) if self.sets_clock else (1, 2, 2, 3, 3, 3, 4, 4, 5)
        self.threads = [f"t{k}" for k in range(draw.choice(counts))]
        self.mutexes = self.some_names("m", 3, Stage.MUTEXES)
        self.conds = self.some_names("c", 2, Stage.WAITING)
        self.sems = self.some_names("s", 2, Stage.SEMAPHORES)
        self.timers = self.some_names("k", 2, Stage.TIMERS)
        self.queues = self.some_names("q", 2, Stage.QUEUES)
        self.handlers = self.some_names("h", 2, Stage.LANGUAGE)
        self.cleanups = self.some_names("u", 2, Stage.LANGUAGE)
        self.signals = sorted(draw.sample(range(32), draw.randint(2, 4)))
        self.topics = {topic for topic, share in _SHARES.items() if topic <= stage and draw.random() < share}
        self.topics |= {stage} & set(_SHARES) | ({Stage.CLOCK} if self.sets_clock else set())
        self.handled = draw.choice(self.signals)
        self.steps_left = draw.choice((12, 25, 40, 60))
        self.least_horizon = 40 if self.sets_clock else 0
        self.parts = self.played()

    def some_names(self, letter: str, most: int, since: Stage) -> list[str]:
        """Names of one kind of object, none before the stage that builds it."""
        return [f"{letter}{k}" for k in range(self.draw.randint(1, most))] if self.stage >= since else []

    def played(self) -> dict[str, list[Part]]:
        """The parts of some scenes, given out to the threads."""
        draw = self.draw
        scenes = [scene for stage, some in SCENES.items() if stage <= self.stage for scene in some]
        newest = SCENES.get(self.stage, ())
        if self.sets_clock:
            chosen = [draw.choice(CLOCK_SCENES) for _ in range(draw.choice((1, 1, 1, 2)))] + draw.sample(scenes, draw.choice((0, 0, 1)))
        else:
            chosen = draw.sample(scenes, min(len(scenes), draw.choice((0, 1, 1, 2, 2, 3))))
            if newest and draw.random() < 0.5:
                chosen.append(draw.choice(newest))
        found: dict[str, list[Part]] = {name: [] for name in self.threads}
        for scene in chosen:
            players = draw.sample(self.threads, len(self.threads))
            for k, part in enumerate(scene(self)):
                found[players[k % len(players)]].append([named(line, players) for line in part])
        return found

    def script(self) -> str:
        draw = self.draw
        parts = [self.thread(name) for name in reversed(self.threads)] + [self.object(name) for name in self.mutexes]
        parts += [[f"cond {name}"] for name in self.conds]
        parts += [[f"sem {name} {draw.choice((0, 0, 1, 2, 32_767))}"] for name in self.sems]
        parts += [self.queue(name) for name in self.queues]
        parts += [[f"timer {name} {self.signal()} {draw.choice((0, 7, 40, _GREATEST))}"] for name in self.timers]
        parts += [[f"handler {name}", *self.setting_of_a_handler(), *self.block("handler", 1, draw.randint(0, 3)), "end"]
                  for name in self.handlers]
        parts += [[f"cleanup {name}", *self.block("cleanup", 1, draw.randint(0, 3)), "end"] for name in self.cleanups]
        parts += self.actions()
        if self.stage >= Stage.LANGUAGE and draw.random() < 0.6:
            parts.append([f"quantum {draw.randint(1, 5)}"])
        draw.shuffle(parts)
        if self.sets_clock:
            parts = [[self.on_a_clock(line) for line in part] for part in parts]
        if self.version == 2:
            parts = [["version 2"], *parts, *self.crowd()]
        return "".join(self.spelled(line) for part in parts for line in part)

    def crowd(self) -> list[list[str]]:
        """At times more threads than version 1 has, each with a little to do, and objects beside them."""
        draw = self.draw
        if draw.random() < 0.96:
            return []
        some = [[f"thread x{k} {self.policy()} at {draw.randint(0, 5)}", *self.register(), "run 1", "end"]
                for k in range(draw.choice((60, 61, 80, 120)))]
        return some + [[f"sem v{k} 1"] for k in range(draw.choice((0, 64, 70)))]

    def served_by(self) -> str:
        """The word of a policy with a server; version 2 has two."""
        return self.draw.choice(("sporadic", "strict", "strict")) if self.version == 2 else "sporadic"

    def on_a_clock(self, line: str) -> str:
        """A line with an absolute time or a timer, at times put on the clock that can be set; other lines stay."""
        has_choice = line.split()[0] in _ON_A_CLOCK and not line.endswith(REAL)
        return f"{line} {REAL}" if has_choice and self.draw.random() < 0.5 else line

    def spelled(self, line: str) -> str:
        """The line in one of its spellings: mostly as it is."""
        if self.draw.random() < 0.97:
            return line + "\n"
        wide = line.replace(" ", self.draw.choice((" ", "  ", "\t", " \t ")))
        return self.draw.choice(("", " ", "\t", "# note\n")) + wide + self.draw.choice(("\n", " \n", "# x\n", "\n\n"))

    # Declarations

    def thread(self, name: str) -> list[str]:
        draw = self.draw
        share = 0.1 if self.sets_clock else 0.25
        dormant = self.stage >= Stage.LANGUAGE and self.threads[0] != name and draw.random() < share
        begin = "dormant" if dormant else f"at {draw.choice((0, 0, 0, 1, 2, 3, 5, 8))}"
        parts = [[line.replace(SELF, name) for line in part] for part in self.parts[name]]
        casts = [line[len(CAST):] for part in parts for line in part if line.startswith(CAST)]
        policy = casts[0] if casts else self.policy()
        parts = [[line for line in part if not line.startswith(CAST)] for part in parts]
        prompt = parts and self.sets_clock and draw.random() < 0.8
        body = self.block("thread", 1, 0 if prompt else draw.randint(0, 2) if parts else draw.randint(1, 7))
        for part in parts:
            body += [*part, *self.block("thread", 1, draw.choice((0, 0, 1, 2)))]
        if dormant and self.stage >= Stage.THREADS and draw.random() < 0.7:
            self.parts[self.threads[0]].insert(0, [f"create {name}"])
        return [f"thread {name} {policy} {begin}", *body, "end"]

    def priority(self) -> int:
        return self.draw.choice((2, 3, 3, 4, 5, 5, 5, 6, 7, 8, 9, 255))

    def policy(self) -> str:
        draw = self.draw
        kinds = ["fifo"] + ["rr"] * (self.stage >= Stage.THREADS) + ["sporadic"] * 2 * (self.stage >= Stage.SERVERS)
        match draw.choice(kinds):
            case "sporadic":
                low, high = sorted(draw.sample((1, 2, 3, 4, 5, 6, 8, 9), 2))
                budget = draw.randint(1, 5)
                return f"{self.served_by()} {high} {low} {budget + draw.randint(0, 12)} {budget} {draw.choice((1, 1, 2, 3, 16))}"
            case kind:
                return f"{kind} {self.priority()}"

    def object(self, name: str) -> list[str]:
        protocol = self.draw.choice(("none", "inherit", "inherit", "inherit", *[f"protect {self.priority()}"] * 2))
        return [f"mutex {name} {protocol}{self.draw.choice(('', '', ' recursive'))}"]

    def queue(self, name: str) -> list[str]:
        return [f"queue {name} {self.draw.choice((1, 1, 2, 3))} 8{self.draw.choice(('', '', '', ' nonblock'))}"]

    def actions(self) -> list[list[str]]:
        if self.stage < Stage.SIGNALS:
            return []
        kills = 0.1 if self.sets_clock else 0.4
        ways = [f"run {name}" for name in self.handlers] * 3 + ["ignore"] + ["kill"] * (self.draw.random() < kills)
        found = [(signal, self.draw.choice(ways)) for signal in self.signals if signal != self.handled]
        found.append((self.handled, f"run {self.draw.choice(self.handlers)}"))
        return [[f"action rt{signal} {way}"] for signal, way in found if way != "kill"]

    # Steps

    def block(self, body: str, depth: int, count: int) -> list[str]:
        return [line for _ in range(count) for line in self.step(body, depth)]

    def step(self, body: str, depth: int) -> list[str]:
        """Some lines that stand for about one step of a body of that kind."""
        draw = self.draw
        self.steps_left -= 1
        if self.steps_left < 0:
            return []
        if depth < 5 and self.stage >= Stage.LANGUAGE and draw.random() < 0.2:
            return self.nested(body, depth)
        choices = [lambda: [f"run {draw.choice((1, 1, 1, 2, 3, 5))}"]]
        if self.stage >= Stage.LANGUAGE:
            choices += [lambda: ["yield"], self.register]
        choices += [step for topic in sorted(self.topics) for step in self.steps_of(topic, body)]
        return draw.choice(choices)()

    def steps_of(self, topic: Stage, body: str) -> list:
        """The makers of steps about one topic; those of a thread's body may block."""
        plain = {
            Stage.THREADS: [self.scheduling, self.scheduling],
            Stage.MUTEXES: [self.trylock], Stage.SEMAPHORES: [self.sem_plain], Stage.WAITING: [self.waking],
            Stage.SIGNALS: [self.sending, self.sending], Stage.TIMERS: [self.timing, self.timing],
            Stage.QUEUES: [self.notifying], Stage.LIVES: [self.cancelling], Stage.CLOCK: [self.setting, self.reading]}
        blocking = {
            Stage.SERVERS: [self.napping],
            Stage.MUTEXES: [self.locking, self.locking, self.locking],
            Stage.SEMAPHORES: [self.sleeping, self.sem_wait], Stage.WAITING: [self.waiting, self.waiting],
            Stage.SIGNALS: [self.accepting], Stage.TIMERS: [self.accepting],
            Stage.QUEUES: [self.messages, self.messages, self.messages], Stage.LIVES: [self.ending, self.guarded]}
        found = plain.get(topic, [])
        return found + blocking.get(topic, []) if body == "thread" else found

    def nested(self, body: str, depth: int) -> list[str]:
        draw = self.draw
        inner = self.block(body, depth + 1, draw.randint(0, 4))
        opener = draw.choice((
            f"loop {draw.choice((1, 2, 2, 3, 4))}", f"loop {draw.randint(1, 3)}", "forever",
            f"if {draw.choice(RESULTS[:1] * 6 + RESULTS)}", f"unless {draw.choice(RESULTS[:1] * 4 + RESULTS)}"))
        if opener == "forever" and draw.random() < 0.5:
            opener = "loop 5"
        return [opener, *inner, "end"]

    def register(self) -> list[str]:
        return self.draw.choice((["take"], [f"set {self.draw.randint(0, 40)}"], [f"add {self.draw.randint(0, 9)}"],
                                 ["set 4", "add 20"], [f"set {_GREATEST}", f"add {_GREATEST}", "add 1"]))

    def operand(self) -> str:
        """A value, mostly a time near the run."""
        return self.draw.choice(("reg", str(self.draw.randint(0, 45)), str(self.draw.randint(0, 12))))

    def signal(self) -> str:
        return f"rt{self.draw.choice(self.signals)}"

    def signal_set(self) -> str:
        some = self.draw.sample(self.signals, self.draw.randint(1, len(self.signals)))
        return self.draw.choice(("all", "none", *[",".join(f"rt{signal}" for signal in some)] * 3))

    def scheduling(self) -> list[str]:
        draw, thread = self.draw, self.draw.choice(self.threads)
        return draw.choice(([f"create {thread}"], [f"setprio {thread} {self.priority()}"],
                            [f"setsched {thread} {self.policy()}"], [f"create {thread}"]))

    def mutex(self) -> str:
        return self.draw.choice(self.mutexes)

    def trylock(self) -> list[str]:
        return self.draw.choice(([f"trylock {self.mutex()}"], [f"unlock {self.mutex()}"]))

    def locking(self) -> list[str]:
        """A critical section, at times one in another, or one that is left open."""
        draw, mutex = self.draw, self.mutex()
        lock = f"lock {mutex}"
        if self.stage >= Stage.SEMAPHORES and draw.random() < 0.3:
            lock = f"timedlock {mutex} {self.operand()}"
        inner = self.block("thread", 9, draw.randint(0, 3))
        return [lock, *inner] + [f"unlock {mutex}"] * (draw.random() < 0.8)

    def waiting(self) -> list[str]:
        draw, mutex = self.draw, self.mutex()
        wait = draw.choice((f"wait {draw.choice(self.conds)} {mutex}",
                            f"timedwait {draw.choice(self.conds)} {mutex} {self.operand()}"))
        whole = [f"lock {mutex}", wait, f"unlock {mutex}"]
        if self.cleanups and self.stage >= Stage.LIVES and draw.random() < 0.3:
            whole[1:2] = [f"push {draw.choice(self.cleanups)}", wait, f"pop {draw.randint(0, 1)}"]
        return whole if draw.random() < 0.85 else [wait]

    def waking(self) -> list[str]:
        return [f"{self.draw.choice(('signal', 'broadcast', 'broadcast'))} {self.draw.choice(self.conds)}"]

    def sem_plain(self) -> list[str]:
        word = self.draw.choice(("sem_post", "sem_post", "sem_trywait", "sem_getvalue"))
        return self.draw.choice(([f"{word} {self.draw.choice(self.sems)}"], ["gettime"], ["gettime", "take", "add 3"]))

    def sem_wait(self) -> list[str]:
        sem = self.draw.choice(self.sems)
        return [self.draw.choice((f"sem_wait {sem}", f"sem_timedwait {sem} {self.operand()}"))]

    def nap(self) -> str:
        return f"nanosleep {self.draw.choice((0, 1, 2, 3, 5, 9))}"

    def napping(self) -> list[str]:
        return [self.draw.choice((self.nap(), self.nap(), "gettime"))]

    def sleeping(self) -> list[str]:
        return [self.draw.choice((self.nap(), f"clock_nanosleep {self.operand()}"))]

    def sending(self) -> list[str]:
        draw = self.draw
        return [draw.choice((f"kill {self.signal()}", f"tkill {draw.choice(self.threads)} {self.signal()}",
                             f"sigqueue {self.signal()} {self.operand()}"))]

    def accepting(self) -> list[str]:
        draw = self.draw
        mask = f"sigmask {draw.choice(('block', 'set', 'unblock'))} {self.signal_set()}"
        accept = draw.choice((
            f"sigwaitinfo {self.signal_set()}", f"sigtimedwait {self.signal_set()} {draw.randint(0, 9)}"))
        return draw.choice(([accept], [mask], [mask, accept], [mask, *self.sending(), accept]))

    def timing(self) -> list[str]:
        draw, timer = self.draw, self.draw.choice(self.timers)
        interval = draw.choice((0, 0, 1, 2, 3, 7))
        return [draw.choice((
            f"timer_settime {timer} rel {draw.choice((0, 1, 2, 3, 6))} {interval}",
            f"timer_settime {timer} abs {self.operand()} {interval}",
            f"timer_gettime {timer}", f"timer_getoverrun {timer}"))]

    def messages(self) -> list[str]:
        draw, queue = self.draw, self.draw.choice(self.queues)
        send = f"{queue} {draw.choice((0, 1, 8, 8, 9))} {draw.choice((0, 1, 1, 31))} {self.operand()}"
        return draw.choice(([f"mq_send {send}"], [f"mq_timedsend {send} {self.operand()}"], [f"mq_receive {queue}"],
                            [f"mq_timedreceive {queue} {self.operand()}"], [f"mq_receive {queue}", "take"]))

    def notifying(self) -> list[str]:
        return [f"mq_notify {self.draw.choice(self.queues)} {self.signal()} {self.operand()}"]

    def cancelling(self) -> list[str]:
        thread = self.draw.choice(self.threads)
        return [self.draw.choice((f"cancel {thread}", f"cancel {thread}", "setcancel disable", "setcancel enable"))]

    def ending(self) -> list[str]:
        thread = self.draw.choice(self.threads)
        ways = ("testcancel", f"join {thread}", f"join {thread}", f"exit {self.operand()}")
        return [self.draw.choice(ways)]

    def setting(self) -> list[str]:
        """The clock is set: near the run, to the tick number, a little forward or back, to its limit or past it."""
        draw = self.draw
        by_register = draw.choice((["gettime", "take", "add 1"], *[["real_gettime", "take", f"add {draw.randint(0, 12)}"]] * 3, [],
                                   [f"set {_GREATEST}", f"add {draw.choice((0, 0, 1, 1, _GREATEST))}"]))
        near = [f"clock_settime {draw.choice((0, draw.randint(0, 12), draw.randint(0, 45), draw.randint(20, 60)))}"]
        far = [f"clock_settime {_GREATEST}"]
        return draw.choice((near, near, near, *[[*by_register, "clock_settime reg"]] * 2, draw.choice((far, near))))

    def setting_of_a_handler(self) -> list[str]:
        return self.setting() if self.sets_clock and self.draw.random() < 0.5 else []

    def reading(self) -> list[str]:
        return self.draw.choice((["real_gettime"], ["real_gettime"], ["real_gettime", "take", f"add {self.draw.randint(0, 20)}"]))

    def guarded(self) -> list[str]:
        draw = self.draw
        inner = self.block("thread", 9, draw.randint(0, 3))
        return [f"push {draw.choice(self.cleanups)}", *inner, f"pop {draw.randint(0, 1)}"]


def named(line: str, players: list[str]) -> str:
    """The line with the names of the threads that play the parts."""
    for part in range(4):
        line = line.replace(f"{PEER}{part}", players[part % len(players)])
    return line


def accepted(seed: int, stage: Stage = Stage.WHOLE) -> tuple[bytes, int]:
    """A script of the stage, and a horizon between 10 and 60 ticks, or more where a scene or the stage asks for it."""
    writer = ScriptWriter(seed, stage)
    return writer.script().encode(), writer.least_horizon + writer.draw.randint(10, 60)
