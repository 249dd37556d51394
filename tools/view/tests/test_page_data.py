"""What the page is told of a run, worked out by hand: all that happens stands at the number of its instant."""
from __future__ import annotations

import json
import re
import unittest

from view.colours import colours_of
from view.html import PAGE, SCRIPTS, TOLD, data_of, draw
from view.kinds import CLEANUP, COLOURS, HANDLER
from view.lines import Trace, read_trace
from view.seen import timeline_of
from view.timeline import Capacity, Mark, MarkKind, Planned, Span, State, ThreadLine, Timeline
from view.window import window

from .details import detail_of
from .worked import timeline_of_text

# b locks m in its first tick; a begins at 4, waits for m from 5 on and is given it at 9, gives it back at 12, and ends at 13; b ends at 19.
MUTEX = b"mutex m none\nthread a fifo 9 at 4\nlock m\nrun 2\nunlock m\nend\nthread b fifo 5 at 0\nlock m\nrun 6\nunlock m\nrun 5\nend\n"
TICKS = [0, 1, 4, 5, 9, 12, 13, 19, 25]
# A stretch: from, to, 0 runs, 1 is ready, 2 waits, 3 not told; its priority, then what only servers, waits and handlers have.
PLAIN = [-1, "", "", "", "", "", 0]


def mutex() -> Timeline:
    return timeline_of(read_trace(detail_of(MUTEX, 25).splitlines(keepends=True)))


class OfADetail(unittest.TestCase):
    def test_instants_and_threads(self) -> None:
        told = data_of(mutex())
        self.assertEqual((told["ticks"], told["places"], told["cuts"], told["detail"]), (list(map(str, TICKS)), TICKS, [], True))
        a, b = told["threads"]
        self.assertEqual(a["spans"], [[2, 3, 0, 9, *PLAIN], [3, 4, 2, 9, -1, "lock", "mutex", "m", "", "", 0], [4, 6, 0, 9, *PLAIN]])
        self.assertEqual(b["spans"], [[0, 2, 0, 5, *PLAIN], [2, 3, 1, 5, *PLAIN], [3, 4, 0, 5, *PLAIN], [4, 6, 1, 5, *PLAIN], [6, 7, 0, 5, *PLAIN]])
        self.assertEqual([(thread["name"], thread["server"], thread["ended"], thread["capacity"], thread["plans"]) for thread in (a, b)],
                         [("a", False, 6, [], []), ("b", False, 7, [], [])])
        self.assertEqual((a["marks"], b["marks"]), ([[2, "start", ""], [6, "exit", ""]], [[0, "start", ""], [7, "exit", ""]]))

    def test_objects_and_facts(self) -> None:
        told = data_of(mutex())
        self.assertEqual(told["mutexes"], [{"name": "m", "bars": [[1, 3, "b", 0], [3, 4, "b", 1], [4, 5, "a", 0]]}])
        self.assertEqual(told["wakes"], [[4, 1, 0, "unlock"]])
        self.assertEqual(told["facts"], {"list 5": [[0, "b"], [7, ""]], "list 9": [[2, "a"], [3, ""], [4, "a"], [6, ""]],
                                         "mutex m": [[1, "b 1"], [4, "a 1"], [5, ""]], "waiters m": [[3, "a"], [4, ""]]})

    def test_events_and_colours(self) -> None:
        told = data_of(mutex())
        lines = [line for line in detail_of(MUTEX, 25).decode().splitlines() if re.match(r"\d+ (start|dispatch|return|exit|idle|end)", line)]
        self.assertEqual((told["lines"], told["at"]), (lines, [TICKS.index(int(line.split()[0])) for line in lines]))
        self.assertEqual(told["shown"], {"9": colours_of([9, 5])[9][0], "5": colours_of([9, 5])[5][0]})
        self.assertEqual((told["colours"], told["kinds"], told["frames"], told["killed"]),
                         ({str(priority): pair for priority, pair in colours_of([9, 5]).items()}, COLOURS, [HANDLER, CLEANUP], ""))

    def test_a_part(self) -> None:
        """From 6 to 13: what was told before stands at its beginning, and colours are those of the whole run."""
        told = data_of(window(mutex(), 6, 13, None))
        self.assertEqual(told["ticks"], ["6", "9", "12", "13"])
        self.assertEqual(told["facts"], {"list 5": [[0, "b"]], "list 9": [[0, ""], [1, "a"]], "mutex m": [[0, "b 1"], [1, "a 1"], [2, ""]],
                                         "waiters m": [[0, "a"], [1, ""]]})
        self.assertEqual([line.split()[0] for line in told["lines"]], ["9", "9", "9", "12", "13", "13"])
        only = data_of(window(mutex(), 13, 25, ["b"]))
        self.assertEqual((list(only["shown"]), only["shown"]["5"], list(only["colours"])), (["5"], colours_of([9, 5])[5][0], ["5", "9"]))
        self.assertEqual([thread["ended"] for thread in data_of(window(mutex(), 20, 25, None))["threads"]], [0, 0])


    def test_each_fact_of_the_page_is_sent(self) -> None:
        """The page asks for lists, and for what stands in its FACTS."""
        asked = re.search(r"const FACTS = (\[.*?\]\]);", (PAGE / "model.js").read_text(), re.S)[1]
        self.assertEqual(TOLD, {"list", *(word for word, _ in json.loads(asked))})


class OfATrace(unittest.TestCase):
    def test_all_of_a_stretch(self) -> None:
        spans = [Span(0, 1, State.RUNNING, 7, high=True), Span(1, 2, State.RUNNING, 2, high=False, frame="h"), Span(2, 3, State.READY, 7, frame="u", cleanup=True),
                 Span(3, 4, State.WAITING, call="nanosleep", kind="sleep", until=10**17), Span(4, 5, State.OFF)]
        thread = ThreadLine("s", spans, marks=[Mark(2, MarkKind.RETURN, "lock", 0), Mark(3, MarkKind.ERROR, "EAGAIN", 0)], plans=[
            Planned(1, 3, 4, 5), Planned(2, 1, 99), Planned(3, 1, 4, 98), Planned(4, 1, 99, 2), Planned(-2, 1, 4)], capacity=[Capacity(0, 2, 10**18, True), Capacity(2, 5, 3, False)])
        thread.marks += [Mark(time, MarkKind.RELEASE, "", 0, "job") for time in range(6)]
        told = data_of(Timeline([thread], 5, [], None, True, Trace([], [])))
        self.assertFalse(told["detail"])
        (said,) = told["threads"]
        self.assertEqual(said["spans"], [[0, 1, 0, 7, 1, "", "", "", "", "", 0], [1, 2, 0, 2, 0, "", "", "", "", "h", 0], [2, 3, 1, 7, -1, "", "", "", "", "u", 1],
                                         [3, 4, 2, 0, -1, "nanosleep", "sleep", "", str(10**17), "", 0], [4, 5, 3, 0, *PLAIN]])
        self.assertEqual(said["marks"][0], [3, "error", "EAGAIN"])
        self.assertEqual(said["plans"], [[1, "3", "4", 4, 5], [2, "1", "99", -1, -1], [3, "1", "4", 4, -1], [4, "1", "99", -1, 2]])
        self.assertEqual((said["server"], said["ended"], said["capacity"]), (True, None, [[0, 2, str(10**18), True], [2, 5, "3", False]]))

    def test_what_is_cut(self) -> None:
        """Up to 10 and from 10,000 on something happens in each tick, and a tick is left at each side: 22 ticks are kept, and the cut has 34 of 1400."""
        lines = "0 start a\n0 dispatch a 5\n" + "".join(f"{time} return a yield 0 0\n" for time in (*range(1, 11), *range(10_000, 10_011))) + "10010 end\n"
        told = data_of(timeline_of_text(lines))
        self.assertEqual([told["ticks"][point] for point in told["cuts"]], ["11"])
        at = told["ticks"].index("11")
        self.assertEqual(told["ticks"][at + 1], "9999")
        self.assertAlmostEqual(told["places"][at + 1] - told["places"][at], 22 * 34 / 1400)
        self.assertEqual((told["places"][at], round(told["places"][-1] - told["places"][at + 1], 6)), (11, 11))

    def test_when_it_is_cut(self) -> None:
        """Gaps of one, and one of 100 in the end: of 1400 a tick is 6 wide where there are 233, and with one more it is less."""
        for end, cuts in ((233, 0), (234, 1)):
            lines = "0 start a\n0 dispatch a 5\n" + "".join(f"{time} return a yield 0 0\n" for time in range(1, end - 99)) + f"{end} end\n"
            self.assertEqual(len(data_of(timeline_of_text(lines))["cuts"]), cuts)

    def test_where_only_a_fact_changes(self) -> None:
        """Nothing is cut there. Gaps of 3, 497, 500, 3, 997, 1, 2 and 7: the middle one is 3, the two longest are cut but for 3 at each side."""
        lines = "0 start a\n0 dispatch a 5\n3 idle\n500 sem s 4\n1000 return a nanosleep 0 0\n1000 dispatch a 5\n1003 idle\n" \
            "2000 return a nanosleep 0 0\n2000 dispatch a 5\n2001 sem s 5\n2003 exit a\n2003 idle\n2010 end\nthread a ticks 9\n"
        told = data_of(timeline_of_text(lines))
        self.assertEqual(told["ticks"], list(map(str, (0, 3, 500, 503, 997, 1000, 1003, 1006, 1997, 2000, 2001, 2003, 2010))))
        self.assertEqual((told["cuts"], told["facts"]), ([3, 7], {"sem s": [[2, "4"], [10, "5"]]}))

    def test_a_timer_whose_signal_nobody_takes(self) -> None:
        """It expires at 102 and each 100 ticks from there on, which no event tells."""
        script = b"timer beat rt1 0\nthread a fifo 5 at 0\nsigmask block rt1\ntimer_settime beat rel 100 100\nrun 5000\nend\n"
        told = data_of(timeline_of(read_trace(detail_of(script, 1000).splitlines(keepends=True))))
        changes = [(told["ticks"][point], said.split()[0]) for point, said in told["facts"]["timer beat"]]
        self.assertEqual(changes, [(str(time), str(time + 100)) for time in range(2, 1000, 100)])

    def test_what_killed_it(self) -> None:
        text = "0 start a\n0 dispatch a 5\n5 return a kill 0 0\n5 killed rt1\n5 end\nthread a ticks 5\n"
        told = data_of(timeline_of_text(text))
        self.assertEqual((told["killed"], told["lines"]), ("rt1", text.splitlines()[:5]))


class Written(unittest.TestCase):
    def test_each_script_is_in_the_page(self) -> None:
        self.assertEqual(sorted(SCRIPTS), sorted(path.name for path in PAGE.glob("*.js")))
        page = draw(mutex())
        self.assertEqual([page.count((PAGE / name).read_text(encoding="utf-8")) for name in SCRIPTS], [1] * len(SCRIPTS))

    def test_titles_and_data_are_no_marks(self) -> None:
        """What a title has cannot end the data or begin an element, and what looks like a place of the page is none."""
        seen = mutex()
        seen.title = "</script><b>@DATA@ & @SCRIPT@"
        page = draw(seen)
        self.assertEqual(re.findall("<title>(.*?):", page), ["&lt;/script&gt;&lt;b&gt;@DATA@ &amp; @SCRIPT@"])
        self.assertEqual(json.loads(re.search(r'id="data">(.*?)</script>', page, re.S)[1]), json.loads(json.dumps(data_of(seen))))
        self.assertEqual(page.count("</script>"), 2)


if __name__ == "__main__":
    unittest.main()
