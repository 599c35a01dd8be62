"""The numbers in the letters of compressed proofs, as appendix B of the Metamath book has them: the
last letter is one of A to T, for 0 to 19, and those before it are U to Y, for 1 to 5, in base 5."""

import re
from functools import cache

NUMBER = re.compile(r"[U-Y]*[A-T]|Z")
LASTS, FIRSTS = 20, 5  # how many letters can be the last one, and how many can stand before it


@cache
def number_of(letters: str) -> int:
    """The number that letters stand for, from 0; -1 for the mark."""
    if letters == "Z":
        return -1
    number = 0
    for letter in letters[:-1]:
        number = FIRSTS * number + ord(letter) - ord("T")
    return LASTS * number + ord(letters[-1]) - ord("A")


def numbers_of(letters: str) -> list[int]:
    """The numbers of a compressed proof, in their order."""
    return [*map(number_of, NUMBER.findall(letters))]


def letters_of(number: int) -> str:
    """A number, from 0, in letters."""
    number, last = divmod(number, LASTS)
    letters = chr(ord("A") + last)
    while number:
        number, first = divmod(number - 1, FIRSTS)
        letters = chr(ord("U") + first) + letters
    return letters
