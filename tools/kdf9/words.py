"""Numbers and lists as people write them."""

# No number of a job or a deck has more digits, but for zeros before it. One with more counts as this large.
MOST_DIGITS, TOO_LARGE = 18, 10**18


# The capital of each letter that has one in a job; the others stay, since theirs may be more than a byte.
CAPITALS = {ord(letter): letter.upper() for letter in "abcdefghijklmnopqrstuvwxyz"}


def capitals(text):
    """A text of bytes with its letters from a to z as capitals."""
    return text.translate(CAPITALS)


def whole(digits):
    """The number that decimal digits are, however many they are: Python reads no more than some thousands."""
    digits = digits.lstrip("0")
    return int(digits or "0") if len(digits) <= MOST_DIGITS else TOO_LARGE


def count(number, what, several=None):
    """A number of something, in words. If there are several, they are called so, or the word gets an s."""
    return f"{number} {what if number == 1 else several or what + 's'}"


def listed(words, last="and"):
    """A list of words as a sentence has it."""
    *others, end = words
    return f"{', '.join(others)} {last} {end}" if others else end


def in_columns(rows):
    """Rows of texts as lines of a table, the first text of each on the left, and the others on the right of their columns."""
    widths = [max(map(len, column)) for column in zip(*rows)]
    return ["  ".join([row[0].ljust(widths[0]), *(text.rjust(width) for text, width in zip(row[1:], widths[1:]))]).rstrip() for row in rows]


def shown(text):
    """The text as a terminal can show it, in as many columns; a `?` replaces whatever it can't show."""
    return "".join(character if " " <= character <= "~" else "?" for character in text)
