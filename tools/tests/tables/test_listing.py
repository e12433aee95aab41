import unittest

from rules.tables.listing import ListingError, Plan, Refusal, read_listing
from tests.tables.listings import listing


class Listings(unittest.TestCase):
    def test_example_of_document_01(self) -> None:
        plan = read_listing(listing("0 0 0 3, 5 3 2 0 0, 1 1 0 0 1, 3 2 0 0 2"), 3)
        self.assertIsInstance(plan, Plan)
        self.assertEqual([entry.depth for entry in plan.entries], [0, 1, 1])
        self.assertEqual([entry.position for entry in plan.entries], [0, 1, 2])

    def test_wide_counts(self) -> None:
        self.assertEqual(read_listing(listing("6 0 123456 0"), 3), Refusal(6, 0, (123456, 0)))

    def test_broken_listings(self) -> None:
        broken = [
            b"",
            b"\n",
            b"     0     0     0     0",
            b"0     0     0     0     \n",
            listing("0 0 0"),
            listing("0 0 0 1"),
            listing("0 0 0 0, 1 1 0 0 0"),
            listing("0 0 0 0 0"),
            listing("0 0 0 1, 1 1 0 0"),
            listing("0 0 0 1, 1 1 0 0 1"),
            listing("0 0 0 2, 5 3 1 0 0, 1 1 0 0 0"),
            listing("0 0 0 1, 8 1 0 0 0"),
            listing("0 0 0 1, 1 4 0 0 0"),
            listing("0 0 0 1, 1 0 0 0 0"),
            listing("0 0 0 1, 1 1 0 4 0"),
            listing("0 0 0 1, 5 3 1 0 0"),
            listing("11 4 0 0"),
            listing("11 1 0 0, 1 1 0 0 0"),
        ]
        for text in broken:
            with self.subTest(text=text), self.assertRaises(ListingError):
                read_listing(text, 3)


if __name__ == "__main__":
    unittest.main()
