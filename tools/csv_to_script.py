#!/usr/bin/env python3
"""Writes a script that inserts the rows of a CSV file into a table.

Usage: tools/csv_to_script.py TABLE [--types TYPES] [--null TEXT] [--rows N] < FILE.csv > SCRIPT

The first line of the file names the columns. Each needs a type: INT, BIGINT, NVARCHAR(n) or VARBINARY(n), exactly as
the table declares it. It follows the name, as in `id INT,name NVARCHAR(20)`, or in TYPES, as in --types
'INT,NVARCHAR(20)', which names with blanks need. A field that equals TEXT is NULL; without --null these are the empty
ones. Each value becomes a parameter, so protected columns are encrypted. A batch inserts N rows, or as many as the
limits of a batch allow.

A row that doesn't fit is left out and named on standard error, with its line and column. The status is 0 if all rows
were written, 1 if some weren't, and 2 if it had to stop; then what it wrote is not the whole.
"""
import argparse
import csv
import io
import re
import sys

MOST_PARAMS, MOST_ROWS, MOST_COLUMNS = 128, 1000, 64  # of a batch, of VALUES, of a table
MOST_SCRIPT_BYTES, MOST_STATEMENT_BYTES, MOST_NAME = 16_777_216, 65_536, 128
TYPE = re.compile(r"(INT|BIGINT)|(NVARCHAR|VARBINARY) *\( *([0-9]+) *\)", re.IGNORECASE)
BITS = {"INT": 32, "BIGINT": 64}
MOST_SIZE = {"NVARCHAR": 4000, "VARBINARY": 8000}
KEYWORDS = set(
    """ADD ALTER AND AS ASC BEGIN BY COLLATE COLUMN COMMIT CREATE DELETE DESC DISTINCT DROP FROM GROUP IN INNER INSERT
    INTO IS JOIN KEY NOT NULL ON OR ORDER ROLLBACK SELECT SET TABLE TOP TRANSACTION UNIQUE UPDATE VALUES WHERE
    WITH""".split()
)


class Unfit(Exception):
    """A value or a row that can't be written, with the reason."""


class Useless(Exception):
    """Nothing more can be written, with the reason."""


def type_of(text):
    """Returns a type's name and size, which is None for numbers."""
    found = TYPE.fullmatch(text.strip())
    if not found:
        raise Useless(f"no type: {text.strip()!r}")
    if found[1]:
        return found[1].upper(), None
    name, size = found[2].upper(), int(found[3])
    if not 1 <= size <= MOST_SIZE[name]:
        raise Useless(f"{name} has a size from 1 to {MOST_SIZE[name]}, not {size}")
    return name, size


def spelled(ty):
    name, size = ty
    return name if size is None else f"{name}({size})"


def name_of(text):
    """Returns a name as a statement has it, in brackets where it needs them."""
    if not 1 <= len(text) <= MOST_NAME or re.search(r"[\r\n]", text):
        raise Useless(f"no name of 1 to {MOST_NAME} characters: {text!r}")
    if re.fullmatch(r"[A-Za-z_][A-Za-z0-9_]*", text) and text.upper() not in KEYWORDS:
        return text
    return "[" + text.replace("]", "]]") + "]"


def columns_of(head, types):
    """Returns the columns, each with its name and its type."""
    if not 1 <= len(head) <= MOST_COLUMNS:
        raise Useless(f"a table has 1 to {MOST_COLUMNS} columns, not {len(head)}")
    if types is None:
        pairs = [cell.strip().partition(" ") for cell in head]
        columns = [(name, type_of(ty)) for name, _, ty in pairs]
    else:
        given = types.split(",")
        if len(given) != len(head):
            raise Useless(f"{len(head)} columns and {len(given)} types")
        columns = [(name.strip(), type_of(ty)) for name, ty in zip(head, given)]
    if len({name for name, _ in columns}) < len(columns):
        raise Useless("two columns have one name")
    return columns


def number(field, name):
    if not re.fullmatch(r"-?[0-9]+", field):
        raise Unfit("not a number")
    value, bound = int(field), 1 << (BITS[name] - 1)
    if not -bound <= value < bound:
        raise Unfit(f"not within the {BITS[name]} bits of {name}")
    return str(value)


def text(field, size):
    units = len(field.encode("utf-16-le")) // 2
    if units > size:
        raise Unfit(f"{units} UTF-16 units, and at most {size} fit")
    if re.search(r"[\r\n]", field):
        raise Unfit("a line break, which no declaration can have")
    return "N'" + field.replace("'", "''") + "'"


def binary(field, size):
    digits = re.fullmatch(r"(?:0[xX])?((?:[0-9A-Fa-f]{2})*)", field)
    if not digits:
        raise Unfit("not hexadecimal digits, two for each byte")
    count = len(digits[1]) // 2
    if count > size:
        raise Unfit(f"{count} bytes, and at most {size} fit")
    return "0x" + digits[1].lower()


def literal(field, ty, null):
    """Returns a value as a declaration has it."""
    name, size = ty
    if field == null:
        return "NULL"
    if name in BITS:
        return number(field, name)
    return text(field, size) if name == "NVARCHAR" else binary(field, size)


def row_of(fields, columns, null):
    """Returns the values of a row."""
    if len(fields) != len(columns):
        raise Unfit(f"{len(fields)} fields for {len(columns)} columns")
    values = []
    for field, (name, ty) in zip(fields, columns):
        try:
            values.append(literal(field, ty, null))
        except Unfit as unfit:
            raise Unfit(f"column {name}: {unfit}") from None
    return values


def batch(table, columns, rows):
    """Returns a batch that inserts some rows."""
    lines, groups, count = [], [], 0
    for row in rows:
        places = []
        for (_, ty), value in zip(columns, row):
            count += 1
            lines.append(f"DECLARE @p{count} {spelled(ty)} = {value}")
            places.append(f"@p{count}")
        groups.append(f"({', '.join(places)})")
    names = ", ".join(name_of(name) for name, _ in columns)
    statement = f"INSERT INTO {name_of(table)} ({names}) VALUES {', '.join(groups)}"
    if len(statement.encode()) > MOST_STATEMENT_BYTES:
        raise Useless(f"the names make a statement of more than {MOST_STATEMENT_BYTES:,} bytes")
    return "\n".join([*lines, statement, "GO", ""])


class Script:
    """A script that grows batch by batch, up to its limit."""

    def __init__(self, out, table, columns, most):
        self.out, self.table, self.columns, self.most = out, table, columns, most
        self.rows, self.size = [], 0

    def add(self, row):
        self.rows.append(row)
        if len(self.rows) == self.most:
            self.end()

    def end(self):
        if not self.rows:
            return
        added = batch(self.table, self.columns, self.rows)
        self.size += len(added.encode())
        if self.size > MOST_SCRIPT_BYTES:
            raise Useless(f"the script would have more than {MOST_SCRIPT_BYTES:,} bytes: split the file")
        self.out.write(added)
        self.rows = []


def convert(file, out, errors, table, types=None, null="", most=None):
    """Writes the script of a CSV file, and names what was left out. Returns how many rows were."""
    reader = csv.reader(file, strict=True)
    try:
        columns = columns_of(next(reader, []), types)
        limit = min(MOST_ROWS, MOST_PARAMS // len(columns))
        script, left_out = Script(out, table, columns, min(most or limit, limit)), 0
        name_of(table)
        for fields in reader:
            if not fields:
                continue
            try:
                script.add(row_of(fields, columns, null))
            except Unfit as unfit:
                left_out += 1
                print(f"csv_to_script: line {reader.line_num}: {unfit}", file=errors)
        script.end()
    except csv.Error as error:
        raise Useless(f"line {reader.line_num}: {error}") from None
    return left_out


def main():
    parser = argparse.ArgumentParser(description=__doc__, formatter_class=argparse.RawDescriptionHelpFormatter)
    parser.add_argument("table")
    parser.add_argument("--types")
    parser.add_argument("--null", default="")
    parser.add_argument("--rows", type=int)
    asked = parser.parse_args()
    file = io.TextIOWrapper(sys.stdin.buffer, encoding="utf-8-sig", newline="")
    out = io.TextIOWrapper(sys.stdout.buffer, encoding="utf-8", newline="\n")
    try:
        left_out = convert(file, out, sys.stderr, asked.table, asked.types, asked.null, asked.rows)
        out.flush()
    except (Useless, UnicodeDecodeError) as useless:
        out.flush()
        print(f"csv_to_script: {useless}", file=sys.stderr)
        sys.exit(2)
    sys.exit(1 if left_out else 0)


if __name__ == "__main__":
    main()
