#!/usr/bin/env python3
"""The two published tables worked out with exact whole numbers, by none of the code of this repository.

Prints a line for each row: the published figures beside the exact ones, rounded half up.
"""
from fractions import Fraction
from math import comb

LIMIT = Fraction(50_000, 1_000_000)

# Of 1066 items drawn without replacement: bad items, published sample, published confidence.
POPULATION = 1066
SAMPLE_ROWS = [
    (53, 58, "0.952264779"),
    (42, 72, "0.950075640"),
    (31, 97, "0.950316610"),
    (21, 141, "0.950699546"),
    (10, 275, "0.950137480"),
]

# Of 1,000,000 items drawn with replacement: bad items, sample, published accept number, published probability.
LOT = 1_000_000
TOO_MANY = 1000
ACCEPT_ROWS = [
    (300, 10000, 4, "0.8153"),
    (300, 12000, 6, "0.9268"),
    (300, 14000, 7, "0.9361"),
    (300, 16000, 9, "0.9749"),
    (300, 18000, 10, "0.9775"),
    (300, 20000, 12, "0.9912"),
    (300, 22000, 14, "0.9966"),
    (300, 24000, 15, "0.9969"),
    (500, 12000, 6, "0.6063"),
    (500, 14000, 7, "0.5987"),
    (500, 16000, 9, "0.7167"),
    (500, 18000, 10, "0.7060"),
    (500, 20000, 12, "0.7916"),
    (500, 22000, 14, "0.8541"),
    (500, 25000, 16, "0.8694"),
    (500, 28000, 19, "0.9235"),
    (500, 31000, 21, "0.9305"),
    (700, 12000, 6, "0.2669"),
    (700, 14000, 7, "0.2387"),
    (700, 16000, 9, "0.3191"),
    (700, 18000, 10, "0.2875"),
    (700, 20000, 12, "0.3584"),
    (700, 22000, 14, "0.4252"),
    (700, 30000, 20, "0.4709"),
    (900, 12000, 6, "0.0871"),
    (900, 22000, 14, "0.1127"),
    (900, 30000, 20, "0.1014"),
]


class Share:
    """count of total, kept as it is: reducing numbers of this size would take most of the time."""

    def __init__(self, count, total):
        self.count = count
        self.total = total

    def within(self, limit):
        return self.count * limit.denominator <= limit.numerator * self.total

    def rest(self):
        return Share(self.total - self.count, self.total)

    def figure(self, places):
        """Rounded half up to so many places."""
        scale = 10**places
        whole, part = divmod((2 * self.count * scale + self.total) // (2 * self.total), scale)
        return f"{whole}.{part:0{places}}"

    def between(self, low, high, unit):
        return low * self.total <= self.count * unit <= high * self.total


def none_bad(size, bad):
    """The share of the samples of that size, drawn without replacement, that have no bad item."""
    return Share(comb(POPULATION - bad, size), comb(POPULATION, size))


def smallest(bad):
    size = 1
    while not none_bad(size, bad).within(LIMIT):
        size += 1
    return size


def at_most(size, bad):
    """For 0, 1, 2, .. the share of the samples of that size, drawn with replacement, with at most so many bad items."""
    share = Fraction(bad, LOT)
    hit, of = share.numerator, share.denominator
    miss = of - hit
    total = of**size
    term = miss**size
    count = term
    for accept in range(size):
        yield Share(count, total)
        # choose(size, k + 1) hit^(k + 1) miss^(size - k - 1), from the same at k; both quotients are exact
        term = term * (size - accept) * hit // (miss * (accept + 1))
        count += term


def accepting(size, bad, accept):
    for number, share in enumerate(at_most(size, bad)):
        if number == accept:
            return share
    raise ValueError("the sample is not larger than the accept number")


def greatest(size, bad):
    """The greatest accept number that keeps the limit."""
    for number, share in enumerate(at_most(size, bad)):
        if not share.within(LIMIT):
            return number - 1
    raise ValueError("every accept number keeps the limit")


def sample_rows():
    """Every row of the first table: what was published, what is exact, and the share that passes."""
    for bad, sample, confidence in SAMPLE_ROWS:
        passing = none_bad(sample, bad)
        yield {
            "bad": bad,
            "sample": sample,
            "confidence": confidence,
            "exact sample": smallest(bad),
            "exact confidence": passing.rest().figure(9),
            "passing": passing,
        }


def accept_rows():
    """Every row of the second table, with the shares of the bad lot that pass at the published accept number and at the next."""
    for quality, sample, accept, probability in ACCEPT_ROWS:
        passing = accepting(sample, quality, accept)
        yield {
            "quality": quality,
            "sample": sample,
            "accept": accept,
            "probability": probability,
            "exact accept": greatest(sample, TOO_MANY),
            "exact probability": passing.figure(4),
            "at it": accepting(sample, TOO_MANY, accept),
            "at the next": accepting(sample, TOO_MANY, accept + 1),
            "passing": passing,
        }


def main():
    for row in sample_rows():
        print(
            f"{row['bad']} bad: sample {row['sample']}, exact {row['exact sample']};"
            f" confidence {row['confidence']}, exact {row['exact confidence']}"
        )
    for row in accept_rows():
        print(
            f"{row['quality']} per million, sample {row['sample']}: accept {row['accept']}, exact {row['exact accept']};"
            f" probability {row['probability']}, exact {row['exact probability']}"
        )


if __name__ == "__main__":
    main()
