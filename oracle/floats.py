#!/usr/bin/env python3
"""Exports of the metrics collector through the program `tells`, held against Python: `floats.py [--seed S] [--values N]
[--lines K] PROGRAM`. Outside the gate; the standard library alone.

Values: every form (1 to 15 digits, the point at each place or none, a minus or none) with digits all 0, all 9, a 1 in front
and random, then N random ones, in exports of as many lines as the history has. Each bit pattern must be that of float(text).
Lines: K lines that were damaged, and two short lines damaged in every way by one byte, among sound ones in exports of some
lines. The first line that is malformed by a regular expression must be the one refused; those after it begin the next export.

Prints what was compared and ends with 0, or prints the first difference and ends with 1.
"""
import argparse
import math
import random
import re
import struct
import subprocess
import sys

HISTORY = 65_536
DIGITS = 15
MOST = 2**64 - 1
PATIENCE = 300
LINES = 6

# The point stands between two digits; the look ahead counts the digits, with the point or without.
LINE = re.compile(rb"([0-9]{1,20}),(-?(?=(?:[.]?[0-9]){1,15}\Z)[0-9]+(?:[.][0-9]+)?)")


def answer(program, export):
    """What the program writes."""
    run = subprocess.run([program], input=export, stdout=subprocess.PIPE, timeout=PATIENCE, check=False)
    return run.stdout if run.returncode == 0 else run.stdout + b"[ended with %d]\n" % run.returncode


def told(trial, text):
    """The line of an entry."""
    return b"tell %d %s\n" % (trial, struct.pack(">d", float(text)).hex().encode())


def differs(export, expected, found):
    """Prints a difference and ends."""
    shown = lambda text: repr(text if len(text) <= 400 else text[:400] + b" ..")
    print(f"A difference, in the export\n\n{shown(export)}\n\nPython: {shown(expected)}\nthe program: {shown(found)}\n")
    print("DIFFERENT")
    sys.exit(1)


def written(digits, places, minus):
    """Digits with the point before the last so many of them."""
    text = digits[: len(digits) - places] + "." + digits[len(digits) - places :] if places else digits
    return "-" + text if minus else text


def near_middle(dice, count, places):
    """Digits whose value is next to the middle between two doubles; any, where there are none near by."""
    number = dice.randrange(1, 10 ** dice.choice((count, dice.randint(1, count))))
    binade = math.frexp(number / 10**places)[1] - 1
    fives = 5**places
    rest = (fives // 2 + dice.randint(-1, 2)) * pow(2, binade + places - 52, fives) if places else 0
    near = number - number % fives + rest % fives
    return f"{near if near < 10**count else number:0{count}d}"


def forms(dice):
    """Every form, at its edges."""
    for count in range(1, DIGITS + 1):
        for places in range(count):
            for minus in (False, True):
                some = f"{dice.randrange(10**count):0{count}d}"
                for digits in ("0" * count, "9" * count, "1" + "0" * (count - 1), some, near_middle(dice, count, places)):
                    yield written(digits, places, minus)


def value(dice):
    """A random value of any form."""
    count = dice.randint(1, DIGITS)
    places = dice.randrange(count)
    kind = dice.randrange(8)
    if kind == 0:
        digits = near_middle(dice, count, places)
    elif kind == 1:
        digits = str(dice.randrange(1_000)).ljust(dice.randint(3, DIGITS), "0")[:count].rjust(count, "0")
    else:
        digits = f"{dice.randrange(10 ** (count if kind > 2 else dice.randint(1, count))):0{count}d}"
    return written(digits, places, dice.randrange(3) == 0)


def trial(dice):
    """A trial number's text."""
    number = dice.choice((dice.randrange(1_000), MOST - dice.randrange(20), dice.getrandbits(dice.randint(1, 64))))
    return str(number).rjust(dice.randint(1, 20) if dice.randrange(4) == 0 else 1, "0")


def values(program, dice, count):
    """Compares the forms and so many random values."""
    texts = list(forms(dice))
    total = len(texts) + count
    done = points = minuses = zeros = 0
    while done < total:
        size = min(HISTORY, total - done)
        some, texts = texts[:size], texts[size:]
        some += [value(dice) for _ in range(size - len(some))]
        numbers = [trial(dice) for _ in some]
        lines = [f"{number},{text}\n".encode() for number, text in zip(numbers, some)]
        expected = [told(int(number), text) for number, text in zip(numbers, some)]
        found = answer(program, b"".join(lines))
        if found != b"".join(expected):
            # One line alone, where it can be.
            for line, one, other in zip(lines, expected, found.splitlines(keepends=True)):
                if one != other and answer(program, line) != one:
                    differs(line, one, answer(program, line))
            differs(b"".join(lines), b"".join(expected), found)
        done += size
        points += sum("." in text for text in some)
        minuses += sum("-" in text for text in some)
        zeros += sum(not text.strip("-0.") for text in some)
    print(
        f"{done} values of exports read by tells as by Python's float ({points} with a point, {minuses} with a minus, "
        f"{zeros} zeros): none different"
    )


TELLING = b"0123456789,.-\n\r\t\x0b +/:;eExinf_\0\x80\xff"
WORDS = (
    b"inf", b"-inf", b"nan", b"1e5", b"+1", b".5", b"5.", b"-", b"", b".", b"1..2", b"1.2.3", b"--1", b"1,5", b" 1", b"1 ",
    b"1234567890123456", b"1.234567890123456", b"18446744073709551615", b"18446744073709551616", b"99999999999999999999",
    b"000000000000000000001", b"00000000000000000001",
)  # fmt: skip


def damaged(dice, line):
    """A line with something changed in it."""
    text = bytearray(line)
    for _ in range(1 if dice.randrange(5) else 2):
        at = dice.randrange(len(text) or 1)
        byte = dice.choice(TELLING) if dice.randrange(2) else dice.randrange(256)
        kind = dice.randrange(8)
        if kind < 2:
            text[at : at + 1] = [byte]
        elif kind < 4:
            text[at:at] = [byte]
        elif kind == 4:
            del text[at : at + 1]
        elif kind == 5:
            text = text.replace(b"\n", dice.choice((b"\r\n", b"\n\n", b"", b" \n", b"\n\r")))
        else:
            number, comma, rest = bytes(text).partition(b",")
            word = dice.choice(WORDS)
            text = bytearray(word + comma + rest if kind == 6 else number + comma + word + b"\n")
    return bytes(text)


def by_one_byte(line):
    """A line with each byte changed to each, each byte put before each and behind the last, and each left out."""
    for at in range(len(line) + 1):
        for byte in range(256):
            yield line[:at] + bytes([byte]) + line[at + 1 :]
            yield line[:at] + bytes([byte]) + line[at:]
        yield line[:at] + line[at + 1 :]


def judged(export):
    """What the program is to write, and the number of the first malformed line, 0 where there is none."""
    expected = []
    *lines, rest = export.split(b"\n")
    for number, line in enumerate(lines, 1):
        found = LINE.fullmatch(line)
        if not found or int(found[1]) > MOST:
            return b"refused 14 %d\n" % number, number
        expected.append(told(int(found[1]), found[2]))
    if rest:
        return b"refused 14 %d\n" % (len(lines) + 1), len(lines) + 1
    return b"".join(expected), 0


def smaller(program, export):
    """The export with lines left out, while it is still answered otherwise."""
    kept = export.split(b"\n")
    for at in reversed(range(len(kept))):
        rest = b"\n".join(kept[:at] + kept[at + 1 :])
        if answer(program, rest) != judged(rest)[0]:
            del kept[at]
    return b"\n".join(kept)


def lines(program, dice, count):
    """Compares so many damaged lines, and two short ones damaged by one byte."""
    sound = [f"{trial(dice)},{value(dice)}\n".encode() for _ in range(count)]
    texts = [damaged(dice, line) for line in sound]
    texts += [text for line in (b"12,-3.4\n", b"7,0\n") for text in by_one_byte(line)]
    bad = len(texts)
    # Sound lines among them, so that it is not always the first that is refused.
    texts += sound
    dice.shuffle(texts)
    at = exports = refused = entries = 0
    left = b""
    while at < len(texts) or left:
        # What was left behind a malformed line, and further lines.
        more = texts[at : at + max(0, dice.randint(1, LINES) - left.count(b"\n"))]
        at += len(more)
        export = left + b"".join(more)
        # Seldom is a last line sound but for its line feed.
        if dice.randrange(8) == 0:
            export = export.removesuffix(b"\n")
        expected, number = judged(export)
        found = answer(program, export)
        if found != expected:
            export = smaller(program, export)
            differs(export, judged(export)[0], answer(program, export))
        exports += 1
        refused += number > 0
        entries += expected.count(b"tell")
        left = b"".join(export.split(b"\n", number)[number:]) if number else b""
    print(
        f"{bad} damaged lines and {len(texts) - bad} sound ones in {exports} exports, {refused} of them refused by 14 at the "
        f"line that a regular expression says, {entries} values in the others: none different"
    )


def main():
    words = argparse.ArgumentParser(description="Exports through tells, held against Python.")
    words.add_argument("--seed", type=int, default=1)
    words.add_argument("--values", type=int, default=1_000_000)
    words.add_argument("--lines", type=int, default=100_000)
    words.add_argument("program")
    given = words.parse_args()
    dice = random.Random(given.seed)
    print(f"seed {given.seed}")
    values(given.program, dice, given.values)
    lines(given.program, dice, given.lines)


main()
