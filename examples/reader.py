#!/usr/bin/env python3
"""Reads a recording on standard input, letter and expression and then the characters 0 1 P - of its elements, and prints the
day and the time of each report: reader.py LIBRARY < RECORDING.

Python loads shared objects alone. LIBRARY is one made of the archive, on x86-64:

    gcc -shared -o libduskveyra.so -Wl,--whole-archive libduskveyra.a -Wl,--no-whole-archive
"""

import sys
from ctypes import CDLL, POINTER, Structure, c_uint8, c_uint16, c_uint32, c_uint64


class Format(Structure):
    _fields_ = [("letter", c_uint8), ("expression", c_uint8)]


class Time(Structure):
    _fields_ = [("year", c_uint8), ("day", c_uint16), ("hundredths", c_uint32)]


class Reader(Structure):
    _fields_ = [("words", c_uint64 * 14)]


class Written(Structure):
    _fields_ = [("number", c_uint8)]


class Fed(Structure):
    _fields_ = [("number", c_uint8), ("reported", c_uint8), ("time", Time), ("control", c_uint64)]


class TimeOfDay(Structure):
    _fields_ = [("number", c_uint8), ("hour", c_uint8), ("minute", c_uint8), ("second", c_uint8), ("hundredth", c_uint8)]


def load(path):
    library = CDLL(path)
    library.duskveyra_interface_4  # another interface has no such symbol: AttributeError
    library.duskveyra_fresh.argtypes = [Format, c_uint8, POINTER(Reader)]
    library.duskveyra_fresh.restype = Written
    library.duskveyra_feed.argtypes = [POINTER(Reader), c_uint8]
    library.duskveyra_feed.restype = Fed
    library.duskveyra_time_of_day.argtypes = [Time]
    library.duskveyra_time_of_day.restype = TimeOfDay
    return library


def main():
    if len(sys.argv) != 2:
        sys.exit("usage: reader.py LIBRARY < RECORDING")
    library = load(sys.argv[1])
    recording = sys.stdin.buffer.read()
    letter, digit = recording[:2] if len(recording) > 1 else (0, 0)
    reader = Reader()
    number = library.duskveyra_fresh(Format(letter, (digit - ord("0")) % 256), 2, reader).number
    if number:
        sys.exit(f"refused {number}")
    for character in recording[2:]:
        symbol = b"01P-".find(character)
        if symbol < 0:  # a space or the end of a line
            continue
        fed = library.duskveyra_feed(reader, symbol)
        if fed.reported:
            clock = library.duskveyra_time_of_day(fed.time)
            print(f"day {fed.time.day}, {clock.hour:02}:{clock.minute:02}:{clock.second:02}.{clock.hundredth:02}")


if __name__ == "__main__":
    main()
