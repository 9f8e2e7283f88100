"""All five calls on a house from Python, through a shared object made of the archive; prints what examples/sheet.c prints.

    ./build
    cc -shared -Wl,--whole-archive target/staticlib/libpnl.a -Wl,--no-whole-archive -o target/libpnl.so
    python3 examples/sheet.py target/libpnl.so examples/volumes.pnl
"""
import ctypes
import struct
import sys

SHEET_MOST = 98304
NOT_JOINED = 4294967295
NO_COUPLING = 8


class Refused(Exception):
    """A call was refused; `number` is the refusal's (include/pnl.h)."""

    def __init__(self, number):
        super().__init__(f"refusal {number}")
        self.number = number


class Register:
    """The calls of a shared object, each on the bytes of a list."""

    def __init__(self, path):
        self.library = ctypes.CDLL(path)

    def call(self, name, list_, *numbers):
        """The numbers that a call answers, or Refused."""
        # ctypes would cut a larger number down to 32 bits without a word.
        if not all(0 <= number < 2**32 for number in numbers):
            raise ValueError("each number has 32 bits")
        call = getattr(self.library, name)
        call.restype = ctypes.c_int32
        call.argtypes = [ctypes.c_char_p, ctypes.c_size_t] + [ctypes.c_uint32] * len(numbers) + [ctypes.c_char_p, ctypes.c_size_t]
        answer = ctypes.create_string_buffer(SHEET_MOST)
        size = call(list_, len(list_), *numbers, answer, len(answer))
        if size < 0:
            raise Refused(-size)
        return struct.unpack(f"<{size // 4}I", answer.raw[:size])

    def sheet(self, list_):
        numbers = self.call("pnl_sheet", list_)
        return [numbers[at : at + 6] for at in range(0, len(numbers), 6)]

    def find(self, list_, tag):
        return self.call("pnl_find", list_, tag)

    def find_at(self, list_, fitting):
        return self.call("pnl_find_at", list_, fitting)

    def distance(self, list_, one, other):
        """In mm, or None where no way joins the two."""
        (length,) = self.call("pnl_distance", list_, one, other)
        return None if length == NOT_JOINED else length

    def quote(self, list_, first, second, length, volume=0):
        """The case of a pipe, and how many tags it would re-hang."""
        return self.call("pnl_quote", list_, first, second, length, volume)


def print_found(asked, run, fitting, low, high):
    print(f"{asked}: fitting {fitting} on run {run}, {low} mm to the low end, {high} mm to the high end")


def print_distance(register, list_, one, other):
    try:
        length = register.distance(list_, one, other)
        words = "not joined" if length is None else f"{length} mm"
    except Refused as refused:
        words = str(refused)
    print(f"fittings {one} and {other}: {words}")


def main(library, file):
    register = Register(library)
    with open(file, "rb") as opened:
        house = opened.read()
    for name, low, high, couplings, length, volume in register.sheet(house):
        words = f"{volume} ml" if volume else "volume not known"
        print(f"run {name} from {low} to {high}: {couplings} couplings, {length} mm, {words}")
    print_found("tag 8195", *register.find(house, 8195))
    print_found("number 1", *register.find_at(house, 1))
    try:
        register.find(house, 8194)
    except Refused as refused:
        if refused.number == NO_COUPLING:
            print("tag 8194 is on no coupling")
    print_distance(register, house, 0, 6)
    print_distance(register, house, 0, 7)
    print_distance(register, b"PNL\x01\x00FF", 0, 1)
    case, tags = register.quote(house, 0, 5, 1200)
    print(f"pipe 0-5: case {case}, tags re-hung: {tags}")


if len(sys.argv) != 3:
    sys.exit("usage: python3 examples/sheet.py LIBRARY LIST")
main(*sys.argv[1:])
