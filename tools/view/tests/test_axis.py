"""Where instants stand on an axis, worked out by hand."""
from __future__ import annotations

import unittest

from view.axis import Axis, nice_step, parts_of

# Something happens in each tick up to 10 and from 1000 on.
APART = [*range(11), *range(1000, 1011)]


class AxisByHand(unittest.TestCase):
    def test_nice_steps(self) -> None:
        self.assertEqual([nice_step(least) for least in (0, 1, 2, 3, 5, 6, 10, 11, 20, 21, 50, 51, 99, 100, 101, 5001)],
                         [1, 1, 2, 5, 5, 10, 10, 20, 20, 50, 50, 100, 100, 100, 200, 10000])

    def test_an_axis_that_is_whole(self) -> None:
        axis = Axis([0, 4, 10], 50, 200, 20, 6)
        self.assertEqual([axis.at(time) for time in (0, 1, 4, 10, 11)], [50, 70, 130, 250, 262])
        self.assertEqual((axis.scale, axis.left, axis.right, axis.cuts), (20, 50, 250, []))
        self.assertEqual(Axis([30, 40], 0, 100, 20, 6).at(33), 30)

    def test_an_axis_that_is_cut(self) -> None:
        """The gap of 990 ticks is cut but for a tick at each side: 22 ticks have 180 of 200, 11 of them 90 on each side of the cut."""
        self.assertEqual(parts_of(APART, 200, 20, 6), [(0, 11, False), (11, 999, True), (999, 1010, False)])
        axis = Axis(APART, 50, 200, 20, 6)
        for time, place in ((0, 50), (11, 140), (505, 150), (999, 160), (1010, 250)):
            self.assertAlmostEqual(axis.at(time), place)
        self.assertAlmostEqual(axis.at(5) - axis.at(4), 180 / 22)
        self.assertEqual([(cut.start, cut.end, cut.ticks) for cut in axis.cuts], [(11, 999, 988)])

    def test_what_is_not_cut(self) -> None:
        """Where ticks are wide enough, where a gap is narrower than three cuts, and where it has fewer than 8 ticks."""
        self.assertEqual(len(parts_of(APART, 200, 20, 0.1)), 1)
        self.assertEqual((len(parts_of(APART, 200, 65, 6)), len(parts_of(APART, 200, 66, 6))), (3, 1))
        for gap, parts in ((7, 1), (8, 3)):
            self.assertEqual(len(parts_of([0, 1, 2, 3, 3 + gap, 4 + gap, 5 + gap, 6 + gap], 40, 1, 6)), parts, gap)

    def test_just_wide_enough(self) -> None:
        """Of 100 ticks from 50 on, ten with gaps of one and then a gap of 90: one is 6 wide of 600, and of 500 the gap three times 150."""
        instants = [*range(50, 61), 150]
        for width, cut, parts in ((600, 20, 1), (599, 20, 3), (500, 150, 3), (500, 151, 1)):
            self.assertEqual(len(parts_of(instants, width, cut, 6)), parts, (width, cut))

    def test_what_is_left_of_a_gap(self) -> None:
        """As much as the middle one of all gaps has, at each side, but at most a quarter: 5 of 40, and 3 of 12."""
        for gap, first, last in ((40, 25, 55), (12, 23, 29)):
            self.assertEqual(parts_of([0, 5, 10, 15, 20, 20 + gap], 38, 4, 6), [(0, first, False), (first, last, True), (last, 20 + gap, False)])

    def test_the_longest_gaps_first(self) -> None:
        """Gaps of 50 and 100 among thirty of one, 180 ticks. Behind the cut of the longer one 82 are left, which are 6 wide of 492 and 20."""
        instants = [*range(11), *range(60, 71), *range(170, 181)]
        self.assertEqual(parts_of(instants, 512, 20, 6), [(0, 71, False), (71, 169, True), (169, 180, False)])
        self.assertEqual(parts_of(instants, 511, 20, 6), [(0, 11, False), (11, 59, True), (59, 71, False), (71, 169, True), (169, 180, False)])

    def test_at_most_24_cuts(self) -> None:
        instants = [tick for number in range(27) for tick in (1001 * number, 1001 * number + 1)]
        self.assertEqual(sum(cut for _, _, cut in parts_of(instants, 1000, 1, 6)), 24)

    def test_one_instant_and_one_tick(self) -> None:
        self.assertEqual(parts_of([5], 200, 20, 6), [(5, 6, False)])
        self.assertEqual([Axis([5], 50, 200, 20, 6).at(time) for time in (5, 6)], [50, 250])
        self.assertEqual([Axis([5, 6], 50, 200, 20, 6).at(time) for time in (5, 6)], [50, 250])


if __name__ == "__main__":
    unittest.main()
