"""The cells of bench/cells.sh, sealed and opened by the library `cryptography`.

Usage: cells.py KIND COUNT. Seals COUNT cells of values of that kind, opens them and writes their texts to nowhere. Prints
the processor seconds of the sealing and of the opening.
"""
import os
import sys
import time

from column import Column

KINDS = {
    "int": (lambda i: i.to_bytes(8, "little"), lambda data: str(int.from_bytes(data, "little", signed=True))),
    "text": (lambda i: f"{i:0200d}".encode("utf-16-le"), lambda data: f"N'{data.decode('utf-16-le')}'"),
    "bytes": (lambda i: i.to_bytes(8000, "big"), lambda data: f"0x{data.hex()}"),
}


def main():
    kind, count = sys.argv[1], int(sys.argv[2])
    data_of, text_of = KINDS[kind]
    column = Column(bytes(range(32)))
    begin = time.process_time()
    cells = [column.seal(data_of(i), os.urandom(16)) for i in range(count)]
    between = time.process_time()
    with open(os.devnull, "w", encoding="utf-8") as text:
        for cell in cells:
            print(text_of(column.open(cell)), file=text)
    print(between - begin, time.process_time() - between)


main()
