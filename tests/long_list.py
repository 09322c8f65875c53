"""long_list.py RUNS: writes the file list.bin, 2,048 records whose view has so many runs (2,049 to 4,097), and into the file `table` the lines of that view.

Each record is one byte of a slice of its own, and so a run. The first records stand side by side from position 0 on; one byte is uncovered before each of the
others, and the rest of the chunk behind the last.
"""
import struct, sys

RECORDS, CHUNK = 2048, 67108864
gaps = int(sys.argv[1]) - RECORDS - 1
pos = 0
with open("list.bin", "wb") as list_file, open("table", "w") as table:
    for i in range(RECORDS):
        if i >= RECORDS - gaps:
            print(pos, 0, 1, 0, 1, file=table)
            pos += 1
        list_file.write(struct.pack(">IQIII", pos, i + 1, 1, 0, 1))
        print(pos, i + 1, 1, 0, 1, file=table)
        pos += 1
    print(pos, 0, CHUNK - pos, 0, CHUNK - pos, file=table)
