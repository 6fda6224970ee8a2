"""Tapes of controls: where their records stand, and the first fault that they have."""

import csv
from dataclasses import dataclass

from .errors import Unusable
from .numerals import numeral

MOST = 2**52


@dataclass(frozen=True)
class Record:
    """A record of a tape: its number from 1, the line that it begins on, and its fields."""

    number: int
    line: int
    fields: list


def records(path):
    """Yields the records of the tape in the file `path`. Empty lines are none, and a byte order mark is skipped."""
    try:
        with open(path, encoding="utf-8-sig", newline="") as file:
            reader = csv.reader(file)
            line, number = 1, 0
            for fields in reader:
                if fields:
                    number += 1
                    yield Record(number, line, fields)
                line = reader.line_num + 1
    except (UnicodeDecodeError, csv.Error) as fault:
        raise Unusable(f"{path}: no tape: {fault}") from None


def record(path, number):
    """The record of this number, or None."""
    return next((one for one in records(path) if one.number == number), None)


def is_control(field):
    """Whether a field is a numeral of at most 1,048,576 in size."""
    try:
        return abs(numeral(field)) <= MOST
    except ValueError:
        return False


def first_fault(path, motors, steps=0):
    """What `mj` would refuse first in the tape, as the words behind 'refused tape 1 '; None where nothing."""
    count = 0
    for one in records(path):
        count = one.number
        if len(one.fields) != motors:
            return f"Width {one.number}"
        for column, field in enumerate(one.fields, 1):
            if not is_control(field):
                return f"BadNumber {one.number} {column}"
    return f"Short {count}" if count < steps else None
