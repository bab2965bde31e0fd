"""Numbers that look random and are the same on every machine and in every version of Python."""


class Draws:
    """A linear congruential generator of 64 bits; its upper 31 bits are what is drawn."""

    def __init__(self, seed):
        self.state = seed % 2**64

    def below(self, bound):
        self.state = (self.state * 6364136223846793005 + 1442695040888963407) % 2**64
        return (self.state >> 33) % bound

    def between(self, least, most):
        return least + self.below(most - least + 1)

    def happens(self, part, whole):
        """True in `part` of `whole` cases."""
        return self.below(whole) < part

    def one_of(self, items):
        return items[self.below(len(items))]

    def shuffled(self, items):
        items = list(items)
        for last in range(len(items) - 1, 0, -1):
            other = self.below(last + 1)
            items[last], items[other] = items[other], items[last]
        return items

    def magnitude(self, most_bits):
        """At least 1 and below 2^most_bits, each number of binary digits equally often."""
        bits = self.below(most_bits)
        return 2**bits + self.below(2**bits)
