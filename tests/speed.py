"""What `make bench` writes into docs/SPEED.md, from lines as the benches print them."""

import importlib.util
import sys

from tests.support import ROOT, Checking

sys.dont_write_bytecode = True
SPEC = importlib.util.spec_from_file_location("speed", ROOT / "bench/speed.py")
speed = importlib.util.module_from_spec(SPEC)
SPEC.loader.exec_module(speed)

NAMES = [*speed.TABLES, *speed.PRINTED, "missed"]
PLACES = "".join(f"<!-- {name}: written by make bench -->\nold\n<!-- end of {name} -->\n" for name in NAMES)
PRINTED = "<!-- {0}: written by make bench -->\nput/get|{0}\n---|---\ncurl|1.2/1.3\n<!-- end of {0} -->"


def told(ratio):
    """Lines of all benches, whose rows all have this ratio, and the tables that they print whole."""
    rows = [row.line for table in speed.TABLES.values() for rows in table.values() for row in rows]
    lines = [f"{line}: chaosd 12.0 ns, plain Rust 10.0 ns, ratio {ratio:.2f} (wish: 1.1)" for line in rows]
    lines += [PRINTED.format(name) for name in speed.PRINTED]
    return "\n".join([*lines, "codec: the whole run: 148 million instructions, plain Rust 100 million, ratio 1.48"])


class Speed(Checking):
    def test_each_row_stands_in_its_table(self):
        text = speed.written(PLACES, speed.figures_of(told(1.05)))
        self.assertNotIn("old", text)
        self.assertIn("written into a lent buffer|12.0/10.0 ns|1.05|1.1||`codec`\n", text)
        self.assertIn("<!-- lines: written by make bench -->\nput/get|lines\n---|---\ncurl|1.2/1.3\n<!-- end of lines -->\n", text)
        self.assertIn("kept|12.0/10.0 ns|1.05|1.1|1.48|`codec`\n", text)

    def test_a_row_that_misses_its_aim_is_named(self):
        self.assertEqual(speed.missed(speed.figures_of(told(1.05))), "No row misses its aim.")
        lines = speed.missed(speed.figures_of(told(1.6))).splitlines()
        self.assertIn("- `links`, a round trip of 508 bytes over two UDP links: 1.60, aim 1.2.", lines)

    def test_what_misses_its_aim_in_a_printed_table_is_named(self):
        lines = "missed: `copies`, a put of 1 MiB beside curl: 1.20, aim 1.0.\n" + told(1.05)
        self.assertEqual(speed.missed(speed.figures_of(lines)), "- `copies`, a put of 1 MiB beside curl: 1.20, aim 1.0.")

    def test_a_table_that_is_not_printed_is_a_fault(self):
        self.assertEqual(speed.faults_of(speed.figures_of(told(1.05).replace("<!-- end of calls -->", ""))), ["calls"])

    def test_a_row_without_a_line_is_a_fault(self):
        short = "\n".join(line for line in told(1.05).splitlines() if not line.startswith("links"))
        self.assertEqual(speed.faults_of(speed.figures_of(short)), ["links: round trip of 508 bytes", "links: round trip of 508 bytes in CHUDP"])

    def test_a_document_without_its_places_is_refused(self):
        with self.assertRaises(ValueError):
            speed.written("nothing", speed.figures_of(told(1.05)))
        with self.assertRaises(ValueError):
            speed.written(PLACES + PLACES, speed.figures_of(told(1.05)))

    def test_both_times_stand_in_one_short_unit(self):
        self.assertEqual(speed.both("1868.0 ns", "1890.0 ns"), "1.87/1.89 us")
        self.assertEqual(speed.both("5.2 ms", "4.0 ms"), "5.2/4.0 ms")
        self.assertEqual(speed.both("1.2 s", "800.0 ms"), "1.2/0.8 s")

    def test_the_document_has_its_places(self):
        speed.written(speed.DOCUMENT.read_text(), speed.figures_of(told(1.05)))


if __name__ == "__main__":
    import unittest

    unittest.main()
