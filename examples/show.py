"""What show.c does, by the shared library: python3 show.py TABLE PAYLOAD. LIBBIM names the library where the system does not find it."""
import ctypes
import os
import sys

AREA, EVENT, MOST_EVENTS, MOST_PAYLOAD = 152, 16, 2048, 8192  # as bim.h has them
ACCEPTED, BLANK, CAST = 0, 7, 8

bim = ctypes.CDLL(os.environ.get("LIBBIM", "libbim.so.2"))
lent, size, word = ctypes.c_char_p, ctypes.c_size_t, ctypes.c_uint32
bim.bim_read.restype = word
bim.bim_read.argtypes = [lent, size, word, word, word, lent, size, lent, size, lent, size, lent, size]


def word_at(buffer, i):
    return int.from_bytes(buffer[4 * i : 4 * i + 4], "big")


def read(table, payload, party, root_name, root_type):
    """The number; the events, four words each, and the texts; the place of a refusal."""
    events, texts, area = (ctypes.create_string_buffer(n) for n in (MOST_EVENTS * EVENT, MOST_PAYLOAD, AREA))
    number = bim.bim_read(table, len(table), party, root_name, root_type, payload, len(payload),
                          events, len(events), texts, len(texts), area, len(area))
    count, text_bytes = word_at(area, 2), word_at(area, 3)
    return number, [[word_at(events, 4 * i + k) for k in range(4)] for i in range(count)], texts[:text_bytes], word_at(area, 0)


def main():
    if len(sys.argv) != 3:
        sys.exit("usage: show.py TABLE PAYLOAD")
    with open(sys.argv[1], "rb") as table, open(sys.argv[2], "rb") as payload:
        number, events, texts, place = read(table.read(), payload.read(), 0, 10, 0)  # party 0; root: element 10 of type 0
    if number != ACCEPTED:
        print(f"refused {number} at {place}")
        return 1
    print(f"{len(events)} events, {len(texts)} bytes of text")
    for before, (kind, p, q, _) in zip([None] + events, events):
        if kind == BLANK:
            print(f"element {p} was stepped over: type {q} is not held")
        elif kind == CAST:  # of the element that the event before begins
            print(f"element {before[1]} has type {p} here")
    return 0


sys.exit(main())
