"""Prints the resolved view of a list of three slices: view.py path/to/libezumokarin.so"""
import ctypes
import struct
import sys

RECORD = struct.Struct(">IQIII")  # pos, id, size, off, len
CHUNK = 64 << 20
MIB = 1 << 20


class Answer(ctypes.Structure):
    _fields_ = [(name, ctypes.c_uint64) for name in ("refusal", "place", "count")]


library = ctypes.CDLL(sys.argv[1])
library.ezk_view.restype = Answer
library.ezk_view.argtypes = [
    ctypes.c_char_p, ctypes.c_size_t, ctypes.c_uint64, ctypes.c_char_p, ctypes.c_size_t,
]

slices = [(10, 10, 30, 0, 30), (20, 11, 16, 0, 16), (16, 12, 10, 0, 10)]  # in MiB, but for the id
rows = [RECORD.pack(p * MIB, i, s * MIB, o * MIB, n * MIB) for p, i, s, o, n in slices]
slice_list = b"".join(rows)

view = ctypes.create_string_buffer((2 * len(slices) + 1) * RECORD.size)
answer = library.ezk_view(slice_list, len(slice_list), CHUNK, view, len(view))
if answer.refusal:
    sys.exit(f"refused {answer.refusal} at {answer.place}")
print("pos id size off len")
for run in RECORD.iter_unpack(view.raw[: answer.count]):
    print(*run)
