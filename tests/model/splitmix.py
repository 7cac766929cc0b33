"""The generator splitmix64: the same numbers everywhere, whatever the version of Python."""
MASK64 = 2**64 - 1


class Splitmix:
    def __init__(self, seed):
        self.state = seed

    def next(self):
        self.state = self.state + 0x9E3779B97F4A7C15 & MASK64
        z = self.state
        z = (z ^ z >> 30) * 0xBF58476D1CE4E5B9 & MASK64
        z = (z ^ z >> 27) * 0x94D049BB133111EB & MASK64
        return z ^ z >> 31

    def below(self, limit):
        return self.next() % limit

    def choose(self, values):
        return values[self.below(len(values))]
