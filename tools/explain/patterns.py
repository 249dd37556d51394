"""Patterns as the pages write them, and the words that come near a word of the language."""
from __future__ import annotations

import re
from difflib import get_close_matches

from forms import DECLARED, FORMS, OPERAND, RANGES, SIGNAL, SIGNAL_SET, Form, is_place
from reader import is_number

Forms = dict[str, tuple[Form, ...]]  # of a version, by their first word

LETTERS = {DECLARED: "NAME", SIGNAL: "SIG", SIGNAL_SET: "SET", OPERAND: "V", "<priority>": "P", "<thread>": "T", "<mutex>": "M",
           "<cond>": "C", "<sem>": "S", "<queue>": "Q", "<timer>": "K", "<handler>": "H", "<cleanup>": "U"}
SERVER = ("the high priority", "the low priority", "the period", "the budget", "the greatest number of pending replenishments")
FIRST_WORDS = sorted({form.head for form in FORMS})
KEYWORDS = {word for form in FORMS for word in form.words if not is_place(word)} - set(FIRST_WORDS)
"""The words of the language that begin no line."""

# What people write who know POSIX, or another language, and what stands for it here.
MEANT = {
    "sleep": "nanosleep", "delay": "nanosleep", "usleep": "nanosleep", "task": "thread", "fork": "create", "start": "create",
    "spawn": "create", "pthread_create": "create", "pthread_join": "join", "pthread_exit": "exit", "return": "exit", "stop": "exit",
    "pthread_cancel": "cancel", "pthread_testcancel": "testcancel", "pthread_setcancelstate": "setcancel", "sched_yield": "yield",
    "pthread_yield": "yield", "pthread_setschedprio": "setprio", "pthread_setschedparam": "setsched", "pthread_mutex_lock": "lock",
    "mutex_lock": "lock", "acquire": "lock", "pthread_mutex_timedlock": "timedlock", "pthread_mutex_trylock": "trylock",
    "pthread_mutex_unlock": "unlock", "mutex_unlock": "unlock", "release": "unlock", "pthread_cond_wait": "wait",
    "cond_wait": "wait", "pthread_cond_timedwait": "timedwait", "pthread_cond_signal": "signal", "notify": "signal",
    "pthread_cond_broadcast": "broadcast", "semaphore": "sem", "post": "sem_post", "sem_init": "sem", "mq_open": "queue",
    "mq": "queue", "condition": "cond", "clock_gettime": "gettime", "now": "gettime", "timer_create": "timer",
    "settime": "clock_settime", "settimeofday": "clock_settime", "gettimeofday": "real_gettime", "sem_clockwait": "sem_timedwait",
    "pthread_mutex_clocklock": "timedlock", "pthread_cond_clockwait": "timedwait",
    "pthread_kill": "tkill", "raise": "tkill", "pthread_sigmask": "sigmask", "sigprocmask": "sigmask", "sigaction": "action",
    "sigwait": "sigwaitinfo", "pthread_cleanup_push": "push", "pthread_cleanup_pop": "pop", "compute": "run", "work": "run",
    "exec": "run", "execute": "run", "busy": "run", "for": "loop", "repeat": "loop", "while": "forever", "do": "forever",
    "slice": "quantum", "timeslice": "quantum", "done": "end", "}": "end", "fi": "end", "let": "set", "recv": "mq_receive",
    "receive": "mq_receive", "send": "mq_send", "sleep_for": "nanosleep", "sleep_until": "clock_nanosleep",
    "delay_until": "clock_nanosleep", "sem_take": "sem_wait", "sem_give": "sem_post", "sem_signal": "sem_post", "sem_open": "sem",
    "pthread_mutex_init": "mutex", "pthread_cond_init": "cond", "thread_create": "create", "thread_exit": "exit",
    "increment": "add", "increase": "add", "setitimer": "timer_settime"}


def pattern_of(form: Form) -> str:
    """The pattern of a form, as docs/SCRIPT.md writes it."""
    return " ".join(LETTERS.get(word, "N") if is_place(word) else word for word in form.words)


def nearest(word: str, words: list[str]) -> str | None:
    """The word that was meant, if one is near; also where it has the standard's prefix, as SCHED_FIFO."""
    small = {known.lower(): known for known in words}
    plain = re.sub("^(sched|pthread_prio|pthread_mutex)_", "", word.lower())
    found = [plain] if plain in small else get_close_matches(word.lower(), small, 1, 0.6)
    return small[found[0]] if found else None


def meant_by(word: str) -> str | None:
    """The first word of a line that was meant by one that begins none and is no other word of the language."""
    return None if word in KEYWORDS else MEANT.get(word.lower()) or nearest(word, FIRST_WORDS)


def best_form(words: list[str], forms: Forms) -> Form | None:
    """The form that a line comes nearest to: the most of its keywords stand in the line in their order; then in numbers, then in words."""
    numbers = sum(map(is_number, words))
    return max(forms.get(words[0], ()), default=None, key=lambda form: (
        _agreement(form, words), -abs(_numbers(form) - numbers), -abs(len(form.words) - len(words))))


def _numbers(form: Form) -> int:
    """How many numbers a line of a form has."""
    return sum(want in RANGES for want in form.words)


def _agreement(form: Form, words: list[str]) -> int:
    """How many keywords of a form stand in a line, in their order."""
    count, rest = 0, words
    for want in form.words:
        if not is_place(want) and want in rest:
            count, rest = count + 1, rest[rest.index(want) + 1:]
    return count
