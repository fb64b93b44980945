"""Mends the customer's example stripe, plan 1, from Python. Build and run it at the top of the repository:

    (cd crates/shelf_c && rt lib && cp out/libshelf_c.a ../../libshelf.a)
    cc -shared -o libshelf.so -Wl,--whole-archive libshelf.a -Wl,--no-whole-archive
    python3 tests/example.py ./libshelf.so
"""
import sys
from ctypes import CDLL, POINTER, c_size_t, c_uint8, c_uint64

if len(sys.argv) != 2:
    sys.stderr.write(__doc__)
    sys.exit(2)

shelf = CDLL(sys.argv[1])
bytes_lent, words_lent = (POINTER(c_uint8), c_size_t), (POINTER(c_uint64), c_size_t)
shelf.shelf_mend.argtypes = (c_size_t, *bytes_lent, *words_lent, *bytes_lent)
shelf.shelf_mend.restype = c_size_t

stripe = (c_uint8 * 21)(
    1, 0, 0, 0, 0, 0, 0,  # column 1 is lost
    0, 0, 0, 0, 0, 1, 0,  # columns 0, 2 and 4 are lost
    0, 0, 0, 0, 0, 0, 0,  # column 2 is lost
)
marks = (c_uint64 * 3)(0x02, 0x15, 0x04)
report = (c_uint8 * 8)()

answer = shelf.shelf_mend(1, stripe, len(stripe), marks, len(marks), report, len(report))

print("answer %d level %d left %d rows %d %d" % (answer, report[0], report[1], report[2], report[3]))
for row in range(3):
    print("".join(str(symbol) for symbol in stripe[7 * row:7 * row + 7]))
sys.exit(answer)
