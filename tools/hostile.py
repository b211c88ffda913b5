#!/usr/bin/env python3
"""Writes tables of hostile replies and requests, of requests at the limits and of devices that fail, and what must be printed for
each case, into a folder: data/ and stdout. Frames, cells (AES-256, HMAC), wrapped keys and faults are made from the formats alone, and
nothing of the program is used.

Usage: tools/hostile.py crates/hostile_tests
"""
import hashlib
import hmac
import os
import re
import sys

HOME = os.path.abspath(sys.argv[1])
os.makedirs(os.path.join(HOME, "data"), exist_ok=True)

# ---- cells


def times_two(a):
    return (a << 1) ^ (0x11B if a & 0x80 else 0)


def product(a, b):
    total = 0
    while b:
        total ^= a if b & 1 else 0
        a, b = times_two(a), b >> 1
    return total


def sbox_of(a):
    inverse = next((b for b in range(256) if product(a, b) == 1), 0)
    turned = [(inverse << i | inverse >> (8 - i)) & 255 for i in range(5)]
    return turned[0] ^ turned[1] ^ turned[2] ^ turned[3] ^ turned[4] ^ 0x63


SBOX = [sbox_of(a) for a in range(256)]


def round_keys(key):
    words, rcon = [list(key[i : i + 4]) for i in range(0, 32, 4)], 1
    for i in range(8, 60):
        word = words[-1]
        if i % 8 == 0:
            word = [SBOX[b] for b in word[1:] + word[:1]]
            word[0] ^= rcon
            rcon = times_two(rcon)
        elif i % 8 == 4:
            word = [SBOX[b] for b in word]
        words.append([a ^ b for a, b in zip(word, words[i - 8])])
    return [sum(words[i : i + 4], []) for i in range(0, 60, 4)]


def encrypted(keys, block):
    state = [a ^ b for a, b in zip(block, keys[0])]
    for i, key in enumerate(keys[1:], 1):
        state = [SBOX[state[(4 * (c + r) + r) % 16]] for c in range(4) for r in range(4)]
        if i < 14:
            columns = [state[c : c + 4] for c in range(0, 16, 4)]
            state = [
                product(x[r], 2) ^ product(x[(r + 1) % 4], 3) ^ x[(r + 2) % 4] ^ x[(r + 3) % 4] for x in columns for r in range(4)
            ]
        state = [a ^ b for a, b in zip(state, key)]
    return bytes(state)


def label(kind):
    return f"Microsoft SQL Server cell {kind} key with encryption algorithm:AEAD_AES_256_CBC_HMAC_SHA256 and key length:256"


def mac(key, message):
    return hmac.new(key, message, hashlib.sha256).digest()


def sealed(cek, content, padded=None, vector=None):
    """The deterministic cell of some bytes; of other padded ones, or randomized under some random bytes, where these are given."""
    enc, tag, iv = (mac(cek, label(kind).encode("utf-16-le")) for kind in ("encryption", "MAC", "IV"))
    padded = content + bytes([16 - len(content) % 16] * (16 - len(content) % 16)) if padded is None else padded
    vector = mac(iv, content)[:16] if vector is None else vector
    keys, last, text = round_keys(enc), vector, b""
    for i in range(0, len(padded), 16):
        last = encrypted(keys, [a ^ b for a, b in zip(padded[i : i + 16], last)])
        text += last
    return b"\x01" + mac(tag, b"\x01" + vector + text + b"\x01") + vector + text


def wrapped(master, cek):
    """A key that is wrapped as RFC 3394 says."""
    keys, check, parts = round_keys(master), b"\xa6" * 8, [cek[i : i + 8] for i in range(0, 32, 8)]
    for turn in range(24):
        block = encrypted(keys, check + parts[turn % 4])
        check = (int.from_bytes(block[:8], "big") ^ (turn + 1)).to_bytes(8, "big")
        parts[turn % 4] = block[8:]
    return check + b"".join(parts)


assert encrypted(round_keys(bytes(range(32))), bytes.fromhex("00112233445566778899aabbccddeeff")).hex() == "8ea2b7ca516745bfeafc49904b496089"
CEK = bytes.fromhex("00112233445566778899AABBCCDDEEFF000102030405060708090A0B0C0D0E0F")
MAIN = bytes(range(32))
WRAPPED = bytes.fromhex("28C9F404C4B810F4CBCCB35CFB87F8263F5786E2D80ED326CBC7F0E71A99F43BFB988B9B7A02DD21")
assert wrapped(MAIN, CEK) == WRAPPED

# ---- frames


def number(value, size):
    return (value % 256**size).to_bytes(size, "big")


def counted(data, size=2):
    data = data.encode() if isinstance(data, str) else data
    return number(len(data), size) + data


def frame(kind, *parts, length=None, version=1):
    body = b"".join(parts)
    return bytes([version, kind]) + number(len(body) if length is None else length, 4) + body


def second(data):
    """Frames of version 1 but for rows, in version 2."""
    return b"".join(frame(kind, body, version=2) for kind, body in frames_of(data))


INT, BIGINT = b"\x01", b"\x02"
PLAIN, DET, RND = b"\x00", b"\x01" + number(1, 4), b"\x02" + number(1, 4)


def nvarchar(n):
    return b"\x03" + number(n, 2)


def varbinary(n):
    return b"\x04" + number(n, 2)


def num(value):
    return b"\x01" + number(value, 8)


def text(value):
    return b"\x02" + counted(value)


def cell(value):
    return b"\x04" + counted(value)


def key(value=WRAPPED, path="main"):
    return number(1, 4) + counted("K") + counted(path) + counted(value)


def params(*items, count=None):
    return number(len(items) if count is None else count, 1) + b"".join(items)


def describe(sql, *items, session=1, count=None, more=b"", size=None):
    told = counted(sql, 4) if size is None else number(size, 4) + sql
    return frame(1, number(session, 2), told, params(*items, count=count), more)


def execute(version, sql, *items):
    return frame(2, number(1, 2), number(version, 8), counted(sql, 4), params(*items))


def described(version, *items, keys=()):
    return frame(0x81, number(version, 8), params(*keys), params(*items))


def columns(*items, keys=()):
    return frame(0x82, params(*keys), number(len(items), 2), *items)


def row(*atoms):
    return frame(0x83, number(len(atoms), 2), *atoms)


def rows(*lists, count=None, width=None):
    """A frame of rows, of version 2."""
    shape = number(len(lists) if count is None else count, 2) + number(len(lists[0]) if width is None else width, 2)
    return frame(0x86, shape, *(b"".join(it) for it in lists), version=2)


def done(kind, count=0):
    return frame(0x84, number(kind, 1), number(count, 8))


def refused(code, *fields):
    return frame(0x85, number(code, 1), *fields)


MASTER = "CREATE COLUMN MASTER KEY M WITH (KEY_STORE_PROVIDER_NAME = N'KEYFILE', KEY_PATH = N'main')"


def column_key(name, value):
    return (
        f"CREATE COLUMN ENCRYPTION KEY {name} WITH VALUES (COLUMN_MASTER_KEY = M, ALGORITHM = 'AES_256_KW', "
        f"ENCRYPTED_VALUE = 0x{value})"
    )


COLUMN = column_key("K", WRAPPED.hex().upper())
TABLE = (
    "CREATE TABLE u (id INT, c NVARCHAR(8) ENCRYPTED WITH (COLUMN_ENCRYPTION_KEY = K, ENCRYPTION_TYPE = DETERMINISTIC, "
    "ALGORITHM = 'AEAD_AES_256_CBC_HMAC_SHA256'))"
)
INSERT = "INSERT INTO u (id, c) VALUES (1, @p)"
SELECT = "SELECT id, c FROM u"
DEFINED = [MASTER, COLUMN, TABLE]

# ---- the tables


def words(data):
    """The digits of some bytes, in words; those of some bytes that stand many times are `DIGITS*TIMES`."""
    whole, at = [], 0
    for it in re.finditer(rb"(.{1,12}?)\1{39,}", data, flags=re.S):
        whole += [data[at : it.start()].hex(), f"{it[1].hex()}*{len(it[0]) // len(it[1])}"]
        at = it.end()
    return " ".join(it for it in [*whole, data[at:].hex()] if it)


class Table:
    """A file of cases, each a line `NAME|COMMANDS|DEVICES|SCRIPT|REPLIES`; and what is printed for them."""

    def __init__(self, name):
        self.name, self.lines, self.printed = name, [], [f"= {name}"]

    def case(self, name, commands, script, replies="", devices=""):
        self.lines.append("|".join([name, commands, devices, script, replies]))
        self.printed.append(f"== {name}")

    def came(self, command, tap, lines):
        self.printed += [f"{command}, {len(tap)} bytes at the tap", *lines]

    def write(self):
        with open(os.path.join(HOME, "data", self.name), "w") as it:
            it.write("\n".join(self.lines) + "\n")
        return self.printed


SAID = {3: "read fault", 4: "write fault", 6: "entropy fault", 7: "vault fault", 11: "bad reply at {}"}


def status_lines(status, place=None):
    return [f"status {status}"] + ([f"ae: {SAID[status].format(place)}"] if status in SAID else [])


def write_script(name, batches):
    text = "\nGO\n".join(batches) + "\n"
    with open(os.path.join(HOME, "data", name), "w") as it:
        it.write(text)
    return text


# ---- replies


def frames_of(data):
    while len(data) >= 6:
        length = 6 + int.from_bytes(data[2:6], "big")
        yield data[1], data[6:length]
        data = data[length:]


def suits(is_execute, answer):
    """Whether a peer in memory gives these replies to a request."""
    kinds = list(frames_of(answer))
    if [kind for kind, _ in kinds] == [0x85]:
        return True
    if not is_execute:
        return [kind for kind, _ in kinds] == [0x81]
    if not kinds or kinds[-1][0] != 0x84:
        return False
    if kinds[-1][1][0] < 2:
        return len(kinds) == 1
    if kinds[0][0] != 0x82 or len(kinds) < 2:
        return False
    # The columns behind the list of one key, of 4, 2 + 1, 2 + path and 2 + wrapped bytes.
    body = kinds[0][1]
    path = int.from_bytes(body[8:10], "big")
    wrap = int.from_bytes(body[10 + path : 12 + path], "big")
    width = body[12 + path + wrap :][:2]
    return all(kind == 0x83 and it[:2] == width for kind, it in kinds[1:-1])


def replies_table():
    good = sealed(CEK, "x".encode("utf-16-le"))
    typed = counted("p") + nvarchar(8)
    # The requests and replies of the batches before the last.
    asked = [it for version, sql in enumerate(DEFINED) for it in (describe(sql), execute(version, sql))]
    asked += [describe(INSERT, typed), execute(3, INSERT, typed + DET + cell(good))]
    before = [it for version in range(3) for it in (described(version), done(0))]
    before += [described(3, counted("p") + DET, keys=[key()]), done(1, 1)]
    write_script("replies.sql", [*DEFINED, f"DECLARE @p NVARCHAR(8) = N'x'\n{INSERT}", SELECT])
    ask, look = describe(SELECT), execute(3, SELECT)
    here, first = sum(map(len, before)), ["ok", "ok", "ok", "(1 affected)"]
    table = Table("replies.txt")
    told = described(3)
    heads = counted("id") + INT + PLAIN, counted("c") + nvarchar(8) + DET
    head = columns(*heads, keys=[key()])
    line, end = row(num(1), cell(good)), done(2, 1)
    header, value = "id\tc", "1\tN'x'"
    syntax = refused(10)

    def case(name, answers, lines, status, place=None, asks=2, peer=True, other=False):
        """The last batch's answers, what it prints, and how many requests it sends. `peer`: whether a peer in memory can give these
        answers; `other`: whether it refuses one of them, since it doesn't suit, and answers Syntax in its place."""
        commands = "drive peer" if peer else "drive"
        table.case(name, commands, "@replies.sql", " ".join(map(words, before + answers)))
        sent = [ask, look][:asks]
        table.came("drive", b"".join(asked + sent), first + lines + status_lines(status, None if place is None else here + place))
        if not peer:
            return
        passed = [*asked, *before]
        refuses = False
        for is_execute, request in enumerate([ask, look]):
            given = answers[is_execute] if len(answers) > is_execute else b""
            refuses = not suits(is_execute, given)
            passed += [request, syntax if refuses else given]
            if refuses or is_execute + 1 == asks:
                break
        assert refuses == other, name
        ended = ["error 10 Syntax", "status 1"] if other else lines + status_lines(status, None if place is None else here + place)
        table.came("peer", b"".join(passed), first + ended)

    failed = "error 75 CellFailed row {} column 2 {}"
    case("the replies of a run", [told, head + line + end], [header, value, "(1 rows)"], 0)
    # The places are those of the description, of the header, of the row and of the end.
    at_head = len(told)
    at_row = at_head + len(head)
    at_end = at_row + len(line)
    case("a description lists a plain parameter", [described(3, counted("z") + PLAIN), head + line + end], [], 11, 0, asks=1)
    case("no header", [told, line + end], [], 11, at_head, other=True)
    case("a row of one atom", [told, head + row(num(1)) + end], [header], 11, at_row, other=True)
    case("a number as a text", [told, head + row(text("1"), cell(good)) + end], [header], 11, at_row)
    case("a cell as a plain text", [told, head + row(num(1), text("x")) + end], [header], 11, at_row)
    case("a number as a cell", [told, head + row(cell(good), cell(good)) + end], [header], 11, at_row)
    for why, bad in (
        ("BadVersion", b"\x02" + good[1:]),
        ("BadLength", good[:-1]),
        ("BadTag", good[:7] + bytes([good[7] ^ 1]) + good[8:]),
        ("BadPadding", sealed(CEK, bytes(16), padded=bytes(16))),
        ("NotNormal", sealed(CEK, b"abc")),
    ):
        case(f"a cell that fails with {why}", [told, head + row(num(1), cell(bad)) + end], [header, failed.format(1, why)], 1)
    no_tag = row(num(2), cell(good[:32] + bytes([good[32] ^ 0x80]) + good[33:]))
    case(
        "the second cell fails, and a row follows",
        [told, head + line + no_tag + line + done(2, 3)],
        [header, value, failed.format(2, "BadTag")],
        1,
    )
    case("a cell without bytes", [told, head + row(num(1), cell(b"")) + end], [header, failed.format(1, "BadVersion")], 1)
    case("a wrapped key of 39 bytes", [told, columns(*heads, keys=[key(WRAPPED[:-1])]) + line + end], ["error 74 KeyRefused K"], 1)
    turned = WRAPPED[:-1] + bytes([WRAPPED[-1] ^ 1])
    case("a wrapped key that is changed", [told, columns(*heads, keys=[key(turned)]) + line + end], ["error 74 KeyRefused K"], 1)
    case("another path", [told, columns(*heads, keys=[key(path="gone")]) + line + end], ["error 73 NoMasterKey gone"], 1)
    case("an end of two rows", [told, head + line + done(2, 2)], [header, value], 11, at_end)
    case("refused with a code of the driver", [refused(70), head + line + end], [], 11, 0, asks=1, peer=False)
    case("moved from a version to the same", [refused(40, number(3, 8), number(3, 8))], [], 11, 0, asks=1, peer=False)
    # Too few, too many, and others.
    case("no row", [told, head + end], [header], 11, at_row)
    case("no end", [told, head + line], [header, value], 11, at_end, other=True)
    case("two rows, and an end of one", [told, head + line + line + end], [header, value, value], 11, at_end + len(line))
    case("a row behind the end", [told, head + line + end + line], [header, value, "(1 rows)"], 11, at_end + len(end), other=True)
    case("an end of a change behind rows", [told, head + line + done(1, 1)], [header, value], 11, at_end, other=True)
    case("a header twice", [told, head + head + line + end], [header], 11, at_row, other=True)
    case("rows that end at once", [told, done(2, 0)], [], 11, at_head, other=True)
    case("a description twice", [told, told], [], 11, at_head, other=True)
    case("an end in the place of a description", [end], [], 11, 0, asks=1, other=True)
    case("no answer", [], [], 11, 0, asks=1, other=True)
    case("no answer to the execution", [told], [], 11, at_head, other=True)
    # What is awaited, though no server of this program says so.
    case("a change in the place of rows", [told, done(1, 7)], ["(7 affected)"], 0)
    case("refused with another name", [refused(20, counted("zz"))], ["error 20 NoTable zz"], 1, asks=1)
    case("a number past the column's type", [told, head + row(num(2**40), cell(good)) + end], [header, f"{2 ** 40}\tN'x'", "(1 rows)"], 0)
    # Bytes.
    case("a byte too many", [told, head + line + end, b"\x01"], [header, value, "(1 rows)"], 11, at_end + len(end), peer=False)
    case("a row that is cut off", [told, head + line[:-1]], [header], 11, at_row, peer=False)
    case("a header of six bytes alone", [told, head[:6]], [], 11, at_head, peer=False)
    case("a row of version 2", [told, head + b"\x02" + line[1:] + end], [header], 11, at_row, peer=False)
    case("a row past the longest frame", [told, head + frame(0x83, length=2**24 + 1)], [header], 11, at_row, peer=False)
    case("a request", [told, head + frame(1, line[6:])], [header], 11, at_row, peer=False)
    case("a row with a byte behind its atoms", [told, head + frame(0x83, line[6:], b"\x00") + end], [header], 11, at_row, peer=False)
    second_row(table)
    return table.write()


def second_row(table):
    """Two rows of a protected column, of which the second comes to harm."""
    letters = [sealed(CEK, letter.encode("utf-16-le")) for letter in "xy"]
    typed = counted("p") + nvarchar(8)
    inserts = [f"INSERT INTO u (id, c) VALUES ({i}, @p)" for i in (1, 2)]
    select = "SELECT c FROM u"
    declared = [f"DECLARE @p NVARCHAR(8) = N'{letter}'\n{sql}" for letter, sql in zip("xy", inserts)]
    write_script("second_row.sql", [*DEFINED, *declared, select])
    asked = [it for version, sql in enumerate(DEFINED) for it in (describe(sql), execute(version, sql))]
    asked += [it for sql, value in zip(inserts, letters) for it in (describe(sql, typed), execute(3, sql, typed + DET + cell(value)))]
    asked += [describe(select), execute(3, select)]
    before = [it for version in range(3) for it in (described(version), done(0))]
    before += [described(3, counted("p") + DET, keys=[key()]), done(1, 1)] * 2 + [described(3)]
    head = columns(counted("c") + nvarchar(8) + DET, keys=[key()])
    first, second = (row(cell(value)) for value in letters)
    # The first byte of the tag stands behind the frame's head, the count, the atom's kind and length, and the cell's first byte.
    harmed = second[:12] + bytes([second[12] ^ 1]) + second[13:]
    tap = b"".join(asked)

    def case(name, commands, answer, lines, status, place=0):
        table.case(name, commands, "@second_row.sql", " ".join(map(words, [*before, answer])))
        ended = status_lines(status, sum(map(len, before)) + place)
        printed = ["ok", "ok", "ok", "(1 affected)", "(1 affected)", "c", "N'x'", *lines, *ended]
        for command in commands.split():
            table.came(command, tap if command == "drive" else tap + b"".join(before) + answer, printed)

    whole = head + first + second + done(2, 2)
    at_second = len(head + first)
    rows = ["N'y'", "(2 rows)"]
    case("two rows", "drive peer", whole, rows, 0)
    case("a byte of the second tag", "drive peer", head + first + harmed + done(2, 2), ["error 75 CellFailed row 2 column 1 BadTag"], 1)
    case("a cut inside the second row", "drive", head + first + second[:20], [], 11, at_second)
    case("a byte behind two rows", "drive", whole + b"\x01", rows, 11, len(whole))


# ---- requests


def served(table, name, frames, place=None, replies=()):
    """Serves some frames, of which one begins at that place that is refused, or which are all answered."""
    table.case(name, "serve", " ".join(map(words, frames)))
    end = "ended Done" if place is None else f"ended BadFrame({place})"
    table.came("serve", b"", [*(it.hex() for it in replies), end])


def requests_table():
    ask = describe("SELECT a FROM t")
    table = Table("requests.txt")
    a_type = counted("p") + INT
    no_table = refused(20, counted("t"))

    def bad(name, one, behind=(ask,)):
        served(table, name, [ask, one, *behind], len(ask), [no_table])

    served(table, "a question", [ask], None, [no_table])
    bad("version 3", b"\x03" + ask[1:])
    bad("kind 3", frame(3, ask[6:]))
    bad("a reply", frame(0x81, ask[6:]))
    bad("a length past the longest", frame(1, ask[6:], length=2**24 + 1))
    bad("a byte behind the parts", describe("SELECT a FROM t", more=b"\x00"))
    bad("session 0", describe("SELECT a FROM t", session=0))
    bad("session 65", describe("SELECT a FROM t", session=65))
    bad("a text of 65,537 bytes", describe(b" " * 65537, size=65537))
    bad("a text that is no UTF-8", describe(b"SELECT \xff FROM t"))
    bad("129 parameters", describe("SELECT a FROM t", *(counted(f"p{i}") + INT for i in range(129))))
    bad("two parameters of one name", describe("SELECT a FROM t", a_type, a_type))
    bad("a text of no characters", describe("SELECT a FROM t", counted("p") + nvarchar(0)))
    bad("a text of 4,001 units", describe("SELECT a FROM t", counted("p") + nvarchar(4001)))
    bad("8,001 bytes", describe("SELECT a FROM t", counted("p") + varbinary(8001)))
    bad("atom 5", execute(0, "SELECT a FROM t", a_type + PLAIN + b"\x05"))
    bad("key 0", execute(0, "SELECT a FROM t", a_type + b"\x01" + number(0, 4) + b"\x00"))
    bad("the front of a frame", ask[:-1], ())
    bad("one byte", b"\x01", ())
    served(table, "128 parameters", [describe("SELECT a FROM t", *(counted(f"p{i}") + INT for i in range(128)))], None, [no_table])
    served(table, "a text of 65,536 bytes", [describe("SELECT a FROM t" + " " * 65521)], None, [no_table])
    served(table, "a version that is not there", [execute(9, "SELECT a FROM t")], None, [refused(40, number(9, 8), number(0, 8))])
    parameters(table)
    return table.write()


def parameters(table):
    """Parameters of an INSERT into a protected column."""
    asked = [it for version, sql in enumerate(DEFINED) for it in (describe(sql), execute(version, sql))]
    answered = [it for version in range(3) for it in (described(version), done(0))]
    typed = counted("p") + nvarchar(8)
    good = sealed(CEK, "x".encode("utf-16-le"))
    ask = execute(3, SELECT)
    head = columns(counted("id") + INT + PLAIN, counted("c") + nvarchar(8) + DET, keys=[key()])
    other = b"\x01" + number(2, 4)
    clash, bad = refused(41, counted("p")), refused(42, counted("p"))

    def case(name, param, reply, rows=(done(2, 0),)):
        # The rows of the table are asked for behind it.
        served(table, name, [*asked, execute(3, INSERT, *param), ask], None, [*answered, reply, head, *rows])

    case("a plain parameter of a protected column", [typed + PLAIN + text("x")], clash)
    case("a parameter under another key", [typed + other + cell(good)], clash)
    case("a randomized parameter", [typed + RND + cell(good)], clash)
    case("a plain value under a key", [typed + DET + text("x")], clash)
    case("a cell under no key", [typed + PLAIN + cell(good)], clash)
    case("a cell of 64 bytes", [typed + DET + cell(good[:-1])], bad)
    case("a cell of 97 bytes", [typed + DET + cell(good + bytes(32))], bad)
    case("a cell of another version", [typed + DET + cell(b"\x02" + good[1:])], bad)
    case("a cell without bytes", [typed + DET + cell(b"")], bad)
    case("no parameter", [], refused(23, counted("p")))
    shape = good[:1] + bytes(64)
    case("a cell of the right shape alone", [typed + DET + cell(shape)], done(1, 1), [row(num(1), cell(shape)), done(2, 1)])


# ---- limits


def limits_table():
    table = Table("limits.txt")
    long, full, no_table = refused(13), refused(63), refused(20, counted("t"))

    def asks(name, sqls, replies):
        served(table, name, list(map(describe, sqls)), None, replies)

    def does(name, sqls, replies):
        """Executes definitions and then others; only the first raise the version."""
        version, frames = 0, []
        for sql, reply in zip(sqls, replies, strict=True):
            frames.append(execute(version, sql))
            version += reply[0] == done(0)
        served(table, name, frames, None, [it for reply in replies for it in reply])

    def master_key(name, path):
        return f"CREATE COLUMN MASTER KEY {name} WITH (KEY_STORE_PROVIDER_NAME = N'KEYFILE', KEY_PATH = N'{path}')"

    def table_of(more, name="t"):
        return f"CREATE TABLE {name} (a INT{more})"

    def where(value):
        return f"SELECT a FROM t WHERE a = {value}"

    ok = [done(0)]
    asks("parentheses", ["SELECT a FROM t WHERE " + "(" * n for n in (64, 65)], [refused(10), refused(12)])
    asks("items", ["SELECT a" + ", a" * n + " FROM t" for n in (511, 512)], [no_table, long])
    asks("sources", ["SELECT a FROM t" + " JOIN t ON a = a" * n for n in (7, 8)], [no_table, long])
    asks("rows of values", ["INSERT INTO t (a) VALUES (1)" + ", (1)" * n for n in (999, 1000)], [no_table, long])
    asks("columns", [table_of("".join(f", a{i} INT" for i in range(n))) for n in (63, 64)], [described(0), long])
    asks("columns of a key", [table_of(", UNIQUE (a" + ", a" * n + ")") for n in (15, 16)], [refused(22, counted("a")), long])
    asks("unique keys", [table_of(", UNIQUE (a)" * n) for n in (8, 9)], [described(0), long])
    asks("text literals", [where("N'" + "x" * n + "'") for n in (4000, 4001)], [no_table, long])
    asks("binary literals", [where("0x" + "00" * n) for n in (8000, 8001)], [no_table, long])
    paths = [master_key("P", "p" * n) for n in (1, 0, 1024, 1025)]
    asks("key paths", paths, [described(0), long, described(0), long])
    values = [column_key("K", "00" * n) for n in (1, 0, 1024, 1025)]
    does("encrypted values", [MASTER, *values[1:], values[0]], [ok, [long], ok, [long], [refused(60, counted("K"))]])
    # A comparison has two rules, and ORDER BY one.
    equal = where(1) + " AND a = 1" * 4095
    does("rules", [table_of(""), equal, equal + " ORDER BY a"], [ok, [columns(counted("a") + INT + PLAIN), done(2, 0)], [long]])
    does("master keys", [master_key(f"M{i}", "main") for i in range(65)], [ok] * 64 + [[full]])
    does("column keys", [MASTER, *(column_key(f"K{i}", "00") for i in range(65))], [ok] * 65 + [[full]])
    does("tables", [table_of("", f"t{i}") for i in range(257)], [ok] * 256 + [[full]])
    joined = "SELECT TOP (1) x.k FROM t AS x JOIN t AS y ON x.k = y.k"
    does(
        "joined rows",
        ["CREATE TABLE t (k INT)", "INSERT INTO t (k) VALUES (7)" + ", (7)" * 999, joined, "INSERT INTO t (k) VALUES (7)", joined],
        [ok, [done(1, 1000)], [columns(counted("k") + INT + PLAIN), row(num(7)), done(2, 1)], [done(1, 1)], [refused(53)]],
    )
    # Of a longer text the driver asks nothing.
    texts = ["SELECT a FROM t" + " " * n for n in (65521, 65522)]
    table.case("texts", "run", words("\nGO\n".join(texts).encode()))
    table.came("run", describe(texts[0]) + no_table, ["error 20 NoTable t", "error 13 TooLong", "status 1"])
    thousand, one = "INSERT INTO t (a) VALUES (1)" + ", (1)" * 999, "INSERT INTO t (a) VALUES (1)"
    count = "SELECT COUNT(*) AS n FROM t"
    sqls = [table_of(""), *[thousand] * 1000, one, count]
    counted_rows = columns(counted("n") + BIGINT + PLAIN) + row(num(1000000)) + done(2, 1)
    ends = [done(0), *[done(1, 1000)] * 1000, refused(54), counted_rows]
    tap = [describe(it) + described(min(i, 1)) + execute(min(i, 1), it) + end for i, (it, end) in enumerate(zip(sqls, ends, strict=True))]
    first, last = f"{table_of('')}\nGO\n", f"{one}\nGO\n{count}"
    table.case("rows of a table", "run", f"{first.encode().hex()} {(thousand + chr(10) + 'GO' + chr(10)).encode().hex()}*1000 {last.encode().hex()}")
    lines = ["ok", *["(1000 affected)"] * 1000, "error 54 TableFull", "n", "1000000", "(1 rows)", "status 1"]
    table.came("run", b"".join(tap), lines)
    return table.write()


# ---- devices


class Calls:
    """The calls of the devices, in their order, each with the bytes that it puts: a frame at the tap, or the text of a step; and with the
    text that is put where it fails, which is what a step has said by then. What is read comes in pieces of 28 bytes. A reply is taken
    where none stands whole."""

    PIECE = 28

    def __init__(self, script):
        self.calls = [("script", b"", b"")] * (-(-len(script) // self.PIECE) + 1)

    def does(self, device, put=b"", said=b""):
        self.calls.append((device, put, said))

    def whole(self, device, until=None):
        calls = self.calls if until is None else self.calls[:until]
        return b"".join(put for it, put, _ in calls if it == device)

    def failing(self, device, call):
        """Where that call of the device is among all, if it is made."""
        places = [place for place, (it, _, _) in enumerate(self.calls) if it == device]
        return places[call] if call < len(places) else None

    def said(self, place):
        return b"" if place is None else self.calls[place][2]


FAULTS = {"script": "ReadFault", "replies": "ReadFault", "out": "WriteFault", "tap": "WriteFault", "vault": "VaultFault"}
NUMBERS = {"script": 3, "replies": 3, "out": 4, "tap": 4, "entropy": 6, "vault": 7}


def failing(table, name, command, devices, calls, script, replies=b"", printed=None):
    """A case of which each of three calls of some devices fails."""

    def ended(device=None):
        if command in ("run", "drive", "drive2"):
            return status_lines(0 if device is None else NUMBERS[device])
        return ["ended Done" if device is None else f"ended {FAULTS[device]}"]

    table.case(name, command, script, words(replies), devices)
    printed = calls.whole("out").decode().splitlines() if printed is None else printed
    table.came(command, calls.whole("tap"), [*printed, *ended()])
    for device in devices.split():
        for call in range(3):
            place = calls.failing(device, call)
            out, tap = len(calls.whole("out", place) + calls.said(place)), len(calls.whole("tap", place))
            first, *said = ended(None if place is None else device)
            table.printed += [f"{device} {call}: {out} and {tap} bytes, fronts true, {first}", *said]


def devices_table():
    table = Table("devices.txt")

    def case(name, command, devices, calls, script, replies=b"", printed=None):
        failing(table, name, command, devices, calls, script, replies, printed)

    # Three column keys, of which each is opened first for an INSERT into its randomized column.
    ceks = [bytes([byte]) * 32 for byte in (0x11, 0x22, 0x33)]
    keys = [number(i + 1, 4) + counted(name) + counted("main") + counted(wrapped(MAIN, ceks[i])) for i, name in enumerate("JKL")]
    under = (
        "ENCRYPTED WITH (COLUMN_ENCRYPTION_KEY = {}, ENCRYPTION_TYPE = RANDOMIZED, ALGORITHM = 'AEAD_AES_256_CBC_HMAC_SHA256')"
    )
    columns_of = ", ".join(f"{name.lower()} BIGINT " + under.format(name) for name in "JKL")
    definitions = [
        MASTER,
        *(column_key(name, wrapped(MAIN, it).hex().upper()) for name, it in zip("JKL", ceks)),
        f"CREATE TABLE v ({columns_of})",
    ]
    inserts = [f"INSERT INTO v ({name}) VALUES (@n)" for name in "jkl"]
    script = write_script("three_keys.sql", definitions + [f"DECLARE @n BIGINT = {i + 1}\n{sql}" for i, sql in enumerate(inserts)])
    steps = [(describe(sql), described(i), execute(i, sql), done(0), b"ok\n") for i, sql in enumerate(definitions)]
    for i, sql in enumerate(inserts):
        typed, enc = counted("n") + BIGINT, b"\x02" + number(i + 1, 4)
        value = cell(sealed(ceks[i], (i + 1).to_bytes(8, "little"), vector=b"\x07" * 16))
        told = described(5, counted("n") + enc, keys=[keys[i]])
        steps.append((describe(sql, typed), told, execute(5, sql, typed + enc + value), done(1, 1), b"(1 affected)\n"))

    ran, driven, replies = Calls(script), Calls(script), b""
    held = 0
    everything = b"".join(told + end for _, told, _, end, _ in steps)

    def takes(reply):
        nonlocal held, replies
        while held < len(reply):
            driven.does("replies")
            taken = min(Calls.PIECE, len(everything) - len(replies) - held)
            held += taken
        held -= len(reply)
        replies += reply

    for i, (ask, told, look, end, line) in enumerate(steps):
        for calls in (ran, driven):
            calls.does("tap", ask)
            takes(told) if calls is driven else calls.does("tap", told)
            if i >= len(definitions):
                calls.does("vault")
                calls.does("entropy")
            calls.does("tap", look)
            takes(end) if calls is driven else calls.does("tap", end)
            calls.does("out", line)
    # The tap is closed before the end of the replies is read.
    driven.does("tap")
    driven.does("replies")
    case("three keys", "run", "script vault entropy out tap", ran, "@three_keys.sql")
    case("three keys", "drive", "script replies vault entropy out tap", driven, "@three_keys.sql", everything)

    checked = Calls(script)
    for i in range(len(definitions)):
        checked.does("out", b"ok\n")
    for name in "JKL":
        checked.does("out", f"described\n@n randomized {name}\n".encode())
    case("three keys", "check", "script out", checked, "@three_keys.sql")

    question, no_table = describe("SELECT a FROM t"), refused(20, counted("t"))
    assert len(question) == Calls.PIECE
    asked = Calls(b"")
    asked.calls = []
    for _ in range(3):
        asked.does("script")
        asked.does("out", no_table)
    asked.does("script")
    case("three questions", "serve", "script out", asked, words(question * 3), printed=[no_table.hex()] * 3)

    digits = CEK.hex().upper().encode()
    wraps = Calls(digits)
    wraps.does("vault")
    wraps.does("out", WRAPPED.hex().encode() + b"\n")
    case("a key", "wrap", "script vault out", wraps, words(digits))

    generated = Calls(b"")
    generated.calls = []
    generated.does("out", generated_script(1).encode())
    case("a script of one row", "gen", "out", generated, "")
    return table.write()


def generated_script(size):
    under = "ENCRYPTED WITH (COLUMN_ENCRYPTION_KEY = K, ENCRYPTION_TYPE = {}, ALGORITHM = 'AEAD_AES_256_CBC_HMAC_SHA256')"
    table = f"CREATE TABLE t (id INT NOT NULL UNIQUE, c NVARCHAR(8) {under}, v BIGINT {under})"
    batches = [MASTER, COLUMN, table.format("DETERMINISTIC", "RANDOMIZED")]
    x = size
    for i in range(size):
        x = (1103515245 * x + 12345) % 2147483648
        declared = f"DECLARE @c NVARCHAR(8) = N'c{x // 65536 % 10}'\nDECLARE @v BIGINT = {x}"
        batches.append(f"{declared}\nINSERT INTO t (id, c, v) VALUES ({i + 1}, @c, @v)")
    batches.append("SELECT c, COUNT(*) AS n FROM t GROUP BY c")
    batches.append("DECLARE @c NVARCHAR(8) = N'c7'\nSELECT COUNT(*) AS n FROM t WHERE c = @c")
    return "".join(f"{it}\nGO\n" for it in batches)


# ---- version 2


def driven(table, name, answers, lines, status=0, place=None, command="drive2", asks=2):
    """Drives a query over some frames."""
    table.case(name, command, words(b"SELECT a FROM t"), " ".join(map(words, answers)))
    came_driven(table, lines, status, place, command, asks)


def came_driven(table, lines, status, place=None, command="drive2", asks=2):
    sent = [describe("SELECT a FROM t"), execute(0, "SELECT a FROM t")][:asks]
    table.came(command, b"".join(sent), [*lines, *status_lines(status, place)])


def version_2_table():
    table = Table("version_2.txt")
    plain_table(table)
    told, head = described(0), columns(counted("a") + INT + PLAIN)
    top, end = [second(told), second(head)], lambda count: second(done(2, count))
    at_head, at_rows = len(told), len(told + head)
    five, three = rows([num(5)]), rows([num(5)], [num(7)], [b"\0"])
    header, printed = ["a"], ["a", "5", "7", "NULL"]

    def case(name, answers, lines, status=0, place=None, **more):
        driven(table, name, top + answers, header + lines, status, None if place is None else at_rows + place, **more)

    case("three rows in a frame", [three, end(3)], ["5", "7", "NULL", "(3 rows)"])
    case("three rows in two frames", [five, rows([num(7)], [b"\0"]), end(3)], ["5", "7", "NULL", "(3 rows)"])
    case("no rows", [end(0)], ["(0 rows)"])
    wide = rows([num(7), num(8)], [num(9), b"\0"])
    case("rows of another width than the header", [five, wide, end(3)], ["5"], 11, len(five))
    case("the second row of a frame has a text", [rows([num(5)], [text("x")]), end(2)], ["5"], 11, 0)
    case("a text in the second frame", [five, rows([num(6)], [text("x")]), end(3)], ["5", "6"], 11, len(five))
    case("a frame of no rows", [rows(width=1), end(0)], [], 11, 0)
    case("rows of no atoms", [rows([]), end(1)], [], 11, 0)
    case("rows of 513 atoms", [rows([b"\0"] * 513), end(1)], [], 11, 0)
    case("4,097 rows", [rows(*[[b"\0"]] * 4097), end(4097)], [], 11, 0)
    case("a byte behind the rows", [frame(0x86, b"\0\1\0\1\0\0", version=2), end(1)], [], 11, 0)
    case("fewer atoms than the counts say", [rows([b"\0"], count=2), end(2)], [], 11, 0)
    case("a cut inside the rows", [five, three[:-1]], ["5"], 11, len(five))
    case("no end", [three], printed[1:], 11, len(three))
    case("three rows, and an end of two", [three, end(2)], printed[1:], 11, len(three))
    case("rows behind the end", [end(0), three], ["(0 rows)"], 11, len(end(0)))
    case("a refusal behind rows", [three, second(refused(50))], printed[1:], 11, len(three))
    case("a row of version 1", [b"\x02" + row(num(5))[1:], end(1)], [], 11, 0)
    driven(table, "rows in the place of a header", [second(told), three, end(3)], [], 11, at_head)
    driven(table, "rows in the place of a description", [three, second(head), end(3)], [], 11, 0, asks=1)
    driven(table, "a header of version 1", [second(told), head, three, end(3)], [], 11, at_head)
    driven(table, "rows in version 1", [told, head, b"\x01" + three[1:]], header, 11, at_rows, command="drive")
    driven(table, "a request in version 2", [second(describe("SELECT a FROM t"))], [], 11, 0, asks=1)
    # The replies of one version, driven in both.
    table.case("the replies of version 1", "drive drive2", words(b"SELECT a FROM t"), " ".join(map(words, [told, head, row(num(5)), done(2, 1)])))
    came_driven(table, ["a", "5", "(1 rows)"], 0, command="drive")
    came_driven(table, [], 11, 0, asks=1)
    table.case("the replies of version 2", "drive drive2", words(b"SELECT a FROM t"), " ".join(map(words, [*top, five, end(1)])))
    came_driven(table, [], 11, 0, command="drive", asks=1)
    came_driven(table, ["a", "5", "(1 rows)"], 0)
    shared_rows(table)
    both_versions(table)
    return table.write()


def plain_table(table):
    """A run in version 2, with each of its frames."""
    sqls = ["CREATE TABLE t (a INT)", "INSERT INTO t (a) VALUES (@p), (7), (NULL)", "SELECT a FROM t WHERE a < @p"]
    typed = counted("p") + INT

    def asked(version, sql, value):
        ask = describe(sql, typed), described(version, counted("p") + PLAIN), execute(version, sql, typed + PLAIN + num(value))
        return list(map(second, ask))

    frames = [second(it) for it in (describe(sqls[0]), described(0), execute(0, sqls[0]), done(0))]
    frames += [*asked(1, sqls[1], 5), second(done(1, 3)), *asked(1, sqls[2], 6)]
    frames += [second(columns(counted("a") + INT + PLAIN)), rows([num(5)]), second(done(2, 1))]
    script = [sqls[0], f"DECLARE @p INT = 5\n{sqls[1]}", f"DECLARE @p INT = 6\n{sqls[2]}"]
    table.case("the plain table", "run2", words("\nGO\n".join(script).encode()))
    table.came("run2", b"".join(frames), ["ok", "(3 affected)", "a", "5", "(1 rows)", "status 0", *(it.hex() for it in frames)])


def shared_rows(table):
    """Rows that share a frame, of which one comes to harm, recorded and of a peer."""
    good = sealed(CEK, "x".encode("utf-16-le"))
    typed = counted("p") + nvarchar(8)
    asked = [it for version, sql in enumerate(DEFINED) for it in (describe(sql), execute(version, sql))]
    asked += [describe(INSERT, typed), execute(3, INSERT, typed + DET + cell(good)), describe(SELECT), execute(3, SELECT)]
    before = [it for version in range(3) for it in (described(version), done(0))]
    before += [described(3, counted("p") + DET, keys=[key()]), done(1, 1), described(3)]
    head = columns(counted("id") + INT + PLAIN, counted("c") + nvarchar(8) + DET, keys=[key()])
    line = [num(1), cell(good)]
    harmed = [num(2), cell(good[:32] + bytes([good[32] ^ 0x80]) + good[33:])]
    tap, begun = b"".join(asked), sum(map(len, [*before, head]))

    def case(name, lists, count, lines, status, place=None):
        ended = ["ok", "ok", "ok", "(1 affected)", "id\tc", *lines, *status_lines(status, None if place is None else begun + place)]
        packed = second(head) + rows(*lists) + second(done(2, count))
        table.case(name, "drive2", "@replies.sql", " ".join(map(words, [*map(second, before), packed])))
        table.came("drive2", tap, ended)
        # The peer is told its replies one by one.
        answer = head + b"".join(row(*it) for it in lists) + done(2, count)
        table.case(f"{name}, of a peer", "peer2", "@replies.sql", " ".join(map(words, [*before, answer])))
        table.came("peer2", tap + second(b"".join(before)) + packed, ended)

    value, failed = "1\tN'x'", "error 75 CellFailed row 2 column 2 BadTag"
    case("the second cell of a frame fails", [line, harmed, line], 3, [value, failed], 1)
    case("two rows in a frame, and an end of one", [line, line], 1, [value, value], 11, len(rows(line, line)))
    case("the second row of a frame is of other atoms", [line, [text("x"), cell(good)], line], 3, [value], 11, 0)
    devices_of_shared_rows(table)


def devices_of_shared_rows(table):
    """The devices of a query whose rows share frames. Its text is put at its end, or where it breaks off."""
    drives = Calls(b"")
    drives.calls = []
    told, head, end = second(described(0)), second(columns(counted("a") + INT + PLAIN)), second(done(2, 3))
    one, two = rows([num(5)]), rows([num(7)], [b"\0"])
    held, taken = 0, 0

    def takes(reply, said=b""):
        nonlocal held, taken
        taken += len(reply)
        while held < taken:
            drives.does("replies", said=said)
            held += Calls.PIECE

    drives.does("tap", describe("SELECT a FROM t"))
    takes(told)
    drives.does("tap", execute(0, "SELECT a FROM t"))
    takes(head)
    takes(one, b"a\n")
    takes(two, b"a\n5\n")
    takes(end, b"a\n5\n7\nNULL\n")
    drives.does("out", b"a\n5\n7\nNULL\n(3 rows)\n")
    drives.does("tap")
    drives.does("replies")
    failing(table, "devices of rows that share a frame", "drive2", "replies out tap", drives, words(b"SELECT a FROM t"), told + head + one + two + end)


def both_versions(table):
    """Requests of both versions to one server."""
    ask, no_table = describe("SELECT a FROM t"), refused(20, counted("t"))
    asks, refusals = (ask, second(ask)), (no_table, second(no_table))
    order = (0, 1, 1, 0)
    served(table, "questions of both versions", [asks[i] for i in order], None, [refusals[i] for i in order])
    create, insert, select = "CREATE TABLE t (a INT)", "INSERT INTO t (a) VALUES (5), (7)", "SELECT a FROM t"
    head = columns(counted("a") + INT + PLAIN)
    requests = [second(execute(0, create)), execute(1, insert), second(execute(1, select)), execute(1, select)]
    replies = [second(done(0)), done(1, 2), second(head), rows([num(5)], [num(7)]), second(done(2, 2))]
    served(table, "rows in each version", requests, None, [*replies, head, row(num(5)), row(num(7)), done(2, 2)])
    served(table, "a reply of version 2 to a server", [asks[1], refusals[1]], len(ask), [refusals[1]])
    served(table, "kind 3 in version 2", [ask, frame(3, ask[6:], version=2), ask], len(ask), [no_table])


printed = replies_table() + requests_table() + limits_table() + devices_table() + version_2_table()
with open(os.path.join(HOME, "stdout"), "w") as it:
    it.write("\n".join(printed) + "\n")
