#!/usr/bin/env python3
"""Tests csv_to_script.py without the program. Usage: tools/test_csv_to_script.py"""
import io
import unittest

from csv_to_script import MOST_PARAMS, Useless, convert


def script_of(text, table="people", **options):
    """Returns the script of a CSV text, what was said of rows that were left out, and how many they were."""
    out, errors = io.StringIO(), io.StringIO()
    left_out = convert(io.StringIO(text, newline=""), out, errors, table, **options)
    return out.getvalue(), errors.getvalue(), left_out


class Tests(unittest.TestCase):
    def test_types_behind_the_names(self):
        script, said, left_out = script_of("id INT,name NVARCHAR(20),badge VARBINARY(2)\n7,it's Ada,00FF\n")
        self.assertEqual(
            script,
            "DECLARE @p1 INT = 7\nDECLARE @p2 NVARCHAR(20) = N'it''s Ada'\nDECLARE @p3 VARBINARY(2) = 0x00ff\n"
            "INSERT INTO people (id, name, badge) VALUES (@p1, @p2, @p3)\nGO\n",
        )
        self.assertEqual((said, left_out), ("", 0))

    def test_types_as_an_option_and_rows_that_share_a_batch(self):
        script, _, _ = script_of("a,b\n1,\n-2,x\n", types="BIGINT,NVARCHAR(1)")
        self.assertEqual(script.count("GO"), 1)
        self.assertIn("DECLARE @p2 NVARCHAR(1) = NULL\n", script)
        self.assertIn("VALUES (@p1, @p2), (@p3, @p4)\n", script)

    def test_another_null(self):
        script, _, _ = script_of("a NVARCHAR(4)\n\\N\n\"\"\n", null="\\N")
        self.assertIn("@p1 NVARCHAR(4) = NULL", script)
        self.assertIn("@p2 NVARCHAR(4) = N''", script)

    def test_names_in_brackets(self):
        script, _, _ = script_of("order,a]b\n1,2\n", table="my table", types="INT,INT")
        self.assertIn("INSERT INTO [my table] ([order], [a]]b]) VALUES", script)

    def test_rows_that_do_not_fit_are_named(self):
        rows = "2147483648,a\n1,abc\n2,\U0001f600\nx,a\n3\n4,ok\n5,\"a\nb\"\n"
        script, said, left_out = script_of("n INT,t NVARCHAR(2)\n" + rows)
        self.assertEqual(left_out, 5)
        self.assertEqual(
            [line.split(": ", 1)[1] for line in said.splitlines()],
            [
                "line 2: column n: not within the 32 bits of INT",
                "line 3: column t: 3 UTF-16 units, and at most 2 fit",
                "line 5: column n: not a number",
                "line 6: 1 fields for 2 columns",
                "line 9: column t: 3 UTF-16 units, and at most 2 fit",
            ],
        )
        self.assertIn("= N'\U0001f600'", script)
        self.assertIn("VALUES (@p1, @p2), (@p3, @p4)\n", script)

    def test_bounds(self):
        script, _, left_out = script_of("n BIGINT\n-9223372036854775808\n9223372036854775808\n007\n")
        self.assertIn("= -9223372036854775808\n", script)
        self.assertIn("= 7\n", script)
        self.assertEqual(left_out, 1)
        self.assertEqual(script_of("t NVARCHAR(8)\n\"a\nb\"\n")[2], 1)
        self.assertEqual(script_of("b VARBINARY(1)\n0xabcd\n0xa\n0xAB\n")[2], 2)

    def test_batches_have_at_most_128_parameters(self):
        script, _, _ = script_of("a INT,b INT,c INT\n" + "1,2,3\n" * 100)
        counts = [part.count("DECLARE") for part in script.split("GO\n") if part]
        self.assertEqual(sum(counts), 300)
        self.assertEqual(max(counts), MOST_PARAMS // 3 * 3)
        self.assertEqual(script_of("a INT\n1\n2\n", most=1)[0].count("GO"), 2)

    def test_what_cannot_be_written(self):
        for text in ["", "a\n", "a INT,a INT\n", "a NVARCHAR(4001)\n"]:
            with self.assertRaises(Useless):
                script_of(text)
        with self.assertRaises(Useless):
            script_of("a,b\n", types="INT")


if __name__ == "__main__":
    unittest.main()
