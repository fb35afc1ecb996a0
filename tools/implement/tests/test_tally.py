"""Tests of the text of tallies."""

import unittest

from ..names import joined
from ..tally import chained, joined_by_and, joining


class ChainsTest(unittest.TestCase):
    def test_a_field_that_is_surely_counted_has_no_result(self) -> None:
        self.assertEqual(chained(joined(["a", "", "b"], joined_by_and)), "a.and(b)")
        self.assertEqual(joined(["", ""], joined_by_and), "")

    def test_steps_of_several_arms_have_the_names_that_the_checker_gives_them(self) -> None:
        first = [joining("and", at, "-in-A") for at in (1, 2, 3)]
        later = [joining("and-in-B", at, "-in-B") for at in (1, 2)]
        self.assertEqual(first + later, ["and", "and-in-A", "and-in-A-2", "and-in-B", "and-in-B-2"])
        self.assertEqual([joining("and", at, "") for at in (1, 2)], ["and", "and-2"])


if __name__ == "__main__":
    unittest.main()
