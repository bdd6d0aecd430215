"""Reads a hatch body through the shared library (host/shared-library makes it): python3 host/examples/hatch.py RELEASE HEX [X Y]"""
import pathlib, sys
from ctypes import CDLL, Structure, c_double, c_size_t, c_uint32, c_uint64

class Lengths(Structure):  # DwgLengthsAnswer
    _fields_ = [(name, c_uint64) for name in ("refusal", "place", "string_place", "words", "numbers")]

class Body(Structure):  # DwgBodyAnswer; its 584 bytes behind the places are the record
    _fields_ = [("refusal", c_uint64), ("place", c_size_t), ("string_place", c_size_t), ("record", c_uint64 * 73)]

class Moved(Structure):  # DwgMoveAnswer
    _fields_ = [(name, c_uint64) for name in ("refusal", "place", "string_place")]

library = CDLL(str(pathlib.Path(__file__).resolve().parents[2] / "target/staticlib/libdwg_hatch.so"))
library.dwg_hatch_measure.restype, library.dwg_hatch_decode.restype, library.dwg_hatch_move_origin.restype = Lengths, Body, Moved
payload = bytes.fromhex(sys.argv[2])
where = payload, c_size_t(len(payload)), c_size_t(0), c_uint64(int(sys.argv[1]))
needed = library.dwg_hatch_measure(*where)
if needed.refusal:
    sys.exit(f"refusal {needed.refusal} at bit {needed.place}")
numbers, words = (c_double * (needed.numbers + 1))(), (c_uint32 * (needed.words + 1))()
body = library.dwg_hatch_decode(*where, numbers, c_size_t(needed.numbers), words, c_size_t(needed.words))
if len(sys.argv) > 3:  # an origin that the hatch is moved to
    lists = words, c_size_t(needed.words), numbers, c_size_t(needed.numbers)
    moved = library.dwg_hatch_move_origin(body, *lists, c_double(float(sys.argv[3])), c_double(float(sys.argv[4])))
    if moved.refusal:
        sys.exit(f"refusal {moved.refusal}")
print(f"read to bit {body.place}", words[: needed.words], numbers[: needed.numbers], sep="\n")
