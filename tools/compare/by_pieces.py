"""Writes a file to standard output, 1 to 7 bytes at a time: python3 by_pieces.py FILE

It waits a little after the first pieces, and now and then later, so that the reader
is given few bytes at once.
"""

import os
import sys
import time


def main():
    data = open(sys.argv[1], "rb").read()
    at, piece = 0, 0
    while at < len(data):
        size = 1 + piece * 5 % 7
        try:
            at += os.write(1, data[at : at + size])
        except BrokenPipeError:
            # the reader has what it takes
            return
        piece += 1
        if piece < 40 or piece % 500 == 0:
            time.sleep(0.001)


if __name__ == "__main__":
    main()
