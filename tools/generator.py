"""The generator of an exercise, which docs/FORMULAS.md tells: the same seed gives the same numbers on every machine."""

MULTIPLIER, SEED_INCREMENT = 6364136223846793005, 11634580027462260723
WORD_32, WORD_64 = 2**32, 2**64


def output_of(state):
    """The 32 bits that a state gives: its high half is mixed, and turned right by its top five bits."""
    mixed, turn = ((state >> 18 ^ state) >> 27) % WORD_32, state >> 59
    return (mixed >> turn | mixed << (32 - turn)) % WORD_32


def words_of_seed(seed):
    """Four words of 32 bits, which are made of a number to seed a generator."""
    state = seed
    for _ in range(4):
        state = (state * MULTIPLIER + SEED_INCREMENT) % WORD_64
        yield output_of(state)


class Generator:
    """PCG with 64 bits of state and 32 of output (Lcg64Xsh32)."""

    def __init__(self, state, increment):
        self.increment = increment | 1
        self.state = (state + self.increment) % WORD_64
        self.step()

    @classmethod
    def of_seed(cls, seed):
        words = list(words_of_seed(seed))
        return cls(words[0] + words[1] * WORD_32, words[2] + words[3] * WORD_32)

    def step(self):
        self.state = (self.state * MULTIPLIER + self.increment) % WORD_64

    def next(self):
        output = output_of(self.state)
        self.step()
        return output

    def pick(self, low, high):
        """A number of a range, both ends in it."""
        return low + self.next() % (high - low + 1)

    def choose(self, *choices):
        return choices[self.next() % len(choices)]
