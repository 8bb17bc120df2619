"""PCG32: the generator XSH RR 64/32 of O'Neill's PCG family, seeded by one number as the Rust crates
rand_core and rand_pcg do it."""

MULTIPLIER = 6364136223846793005
SEED_INCREMENT = 11634580027462260723
MASK = 2**64 - 1


def output(state):
    """A word of 32 bits: the high bits shifted down, then rotated by the highest five."""
    word = (((state >> 18) ^ state) >> 27) & 0xFFFFFFFF
    turn = state >> 59
    return (word >> turn | word << (32 - turn)) & 0xFFFFFFFF


class Pcg32:
    """A generator with a state and an odd increment."""

    def __init__(self, state, increment):
        self.increment = increment | 1
        self.state = (state + self.increment) & MASK
        self.step()

    @classmethod
    def seed_from_u64(cls, seed):
        """Four words of a fixed generator, which steps before each, are the state and the increment."""
        words = []
        for _ in range(4):
            seed = (seed * MULTIPLIER + SEED_INCREMENT) & MASK
            words.append(output(seed))
        return cls(words[0] | words[1] << 32, words[2] | words[3] << 32)

    def step(self):
        self.state = (self.state * MULTIPLIER + self.increment) & MASK

    def next_word(self):
        """The next word of 32 bits."""
        word = output(self.state)
        self.step()
        return word
