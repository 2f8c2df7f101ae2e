"""A tiny random generator of our own, so that no Python version changes it."""

MASK = (1 << 64) - 1


class Generator:
    """xorshift64 with shifts 13, 7, 17."""

    def __init__(self, seed):
        self.state = (seed * 0x9E3779B97F4A7C15 + 1) & MASK

    def step(self):
        x = self.state
        x ^= (x << 13) & MASK
        x ^= x >> 7
        x ^= (x << 17) & MASK
        self.state = x
        return x

    def below(self, n):
        return (self.step() >> 11) % n

    def between(self, low, high):
        """Both ends included."""
        return low + self.below(high - low + 1)

    def among(self, allowed):
        """One value of a range."""
        return self.between(allowed[0], allowed[-1])

    def choice(self, items):
        return items[self.below(len(items))]

    def one_in(self, n):
        return self.below(n) == 0

    def shuffled(self, items):
        items = list(items)
        for i in range(len(items) - 1, 0, -1):
            j = self.below(i + 1)
            items[i], items[j] = items[j], items[i]
        return items
