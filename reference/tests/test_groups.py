"""The groups of calls, and the tables that show them."""
import unittest

from reference.groups import MANY, OTHERS, group_of, table


class Groups(unittest.TestCase):
    def test_the_name_of_a_call_decides_its_group(self):
        for name, title in (
            ("true_count", "Count and sum"), ("xor_count_by", "Count and sum"),
            ("try_select_many", "Search"), ("is_subset", "Search"), ("set_slices", "Walk"),
            ("into_bitand_not", "Combine"), ("filtered", "Filter and deposit"),
            ("take_bits", "Gather"), ("take", "Share and convert"), ("try_compared", "Compare"),
            ("set_to", "Edit"), ("append_bools", "Edit"), ("from_indices", "Build"),
            ("len", OTHERS),
        ):
            self.assertEqual(group_of(name), title, name)

    def test_a_long_table_has_its_rows_by_group_and_a_short_one_has_none(self):
        names = ["len", *(f"select{n}" for n in range(MANY - 2)), "true_count"]
        found = table([(it, f"<tr><td>{it}</td></tr>") for it in names])
        titles = ["Count and sum", "Search", OTHERS]
        places = [found.index(f">{it}</th>") for it in titles]
        self.assertEqual((places, found.count("rowgroup")), (sorted(places), 3))
        self.assertLess(found.index("select0"), found.index("select1"))
        self.assertNotIn("rowgroup", table([(it, "<tr></tr>") for it in names[1:]]))


if __name__ == "__main__":
    unittest.main()
