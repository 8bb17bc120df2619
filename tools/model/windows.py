"""A window of request numbers, and the copies that are held, as functions of the list of calls since they began.

Nothing is kept but the list of calls: each question scans it. `Side` is what one side of a book's index keeps of a
history by these two, and `narrowed` what the history says of a number, as far as a window reaches.
"""

import random

HALF = LEAST = 32_768
MOST_COPIES = 65_536


class Window:
    """The request numbers of a node in its present epoch: those from HALF below the greatest one up to it."""

    def __init__(self, half=HALF):
        self.half, self.sets = half, []

    def top(self):
        """The greatest number that was set, if one was."""
        return max((number for number, _ in self.sets), default=None)

    def near(self, wire):
        """The number that 16 bits mean: the nearest one, from 32,768 below the greatest to 32,767 above it."""
        top = self.top()
        if top is None:
            return 65_536 + wire
        return next(n for n in range(top - 32_768, top + 32_768) if n % 65_536 == wire)

    def holds(self, number):
        """Whether the window holds a number."""
        top = self.top()
        return top is not None and top - self.half <= number <= top

    def state(self, number):
        """What the last call with a number gave it; Fresh where there is none, and outside the window."""
        if not self.holds(number):
            return "Fresh"
        return next((state for n, state in reversed(self.sets) if n == number), "Fresh")

    def set(self, number, state):
        """Gives a state to a number that isn't below the window, and is one that a request may have."""
        top = self.top()
        assert LEAST <= number < 2**63 and (top is None or top - self.half <= number)
        self.sets.append((number, state))

    def set_within(self, numbers, state):
        """Gives a state to those of these numbers that the window holds."""
        self.sets += [(number, state) for number in numbers if self.holds(number)]

    def clear(self):
        """Begins a new epoch."""
        self.sets = []

    def copy_from(self, other):
        """Makes the window know what another one knows."""
        self.sets = list(other.sets)


class Held:
    """The copies that are held, as the list of (node, number, place)."""

    def __init__(self):
        self.copies = []

    def find(self, node, number):
        """Where a copy lies, if it is held."""
        return next((place for n, k, place in self.copies if (n, k) == (node, number)), None)

    def hold(self, node, number, place):
        """Holds one more copy, which isn't held; False where as many are held as may be."""
        assert self.find(node, number) is None
        if len(self.copies) == MOST_COPIES:
            return False
        self.copies.append((node, number, place))
        return True

    def take(self, node, number):
        """Takes a copy out, if it is held, and tells where it lies."""
        place = self.find(node, number)
        self.copies = [copy for copy in self.copies if copy[:2] != (node, number)]
        return place

    def drop_node(self, node):
        """Takes out a node's copies, and tells how many there were."""
        before = len(self.copies)
        self.copies = [copy for copy in self.copies if copy[0] != node]
        return before - len(self.copies)

    def count(self):
        """How many copies are held."""
        return len(self.copies)

    def copy_from(self, other):
        """Holds what another one holds."""
        self.copies = list(other.copies)


class Side:
    """What an index keeps of a history: a window for each node, and the held copies."""

    def __init__(self, half=HALF):
        self.half, self.windows, self.held = half, {}, Held()

    def window(self, node):
        """The window of a node: that of no number where it isn't known."""
        return self.windows.get(node, Window(self.half))

    def state(self, node, number):
        """The state of a number: the copies are asked first."""
        return "Held" if self.held.find(node, number) is not None else self.window(node).state(number)

    def note(self, kind, node, numbers):
        """Follows one more entry; a Path has no numbers."""
        if kind == "Path":
            self.windows.setdefault(node, Window(self.half)).clear()
            return self.held.drop_node(node)
        if kind in ("Released", "Cancelled"):
            self.window(node).set_within(numbers, kind)
            return sum(self.held.take(node, number) is not None for number in numbers)
        self.windows.setdefault(node, Window(self.half)).set(numbers[0], kind)
        if kind == "Held":
            self.held.hold(node, numbers[0], 0)
        return 0


def present(history, node):
    """The entries of a node's present epoch."""
    last = max((k for k, (kind, n, _) in enumerate(history) if (kind, n) == ("Path", node)), default=-1)
    return [(kind, numbers) for kind, n, numbers in history[last + 1 :] if n == node]


def top_of(history, node):
    """The greatest number that a File, a Hold or a Seal of the present epoch names."""
    return max((xs[0] for kind, xs in present(history, node) if kind in ("Filed", "Held", "Sealed")), default=None)


def narrowed(history, node, number, half=HALF):
    """A number's present state; of one below the window only whether it is held."""
    state = next((kind for kind, xs in reversed(present(history, node)) if number in xs), "Fresh")
    top = top_of(history, node)
    if top is None or top <= number + half or state == "Held":
        return state
    return "Fresh"


def compare(steps, seed):
    """Fit entries at random: after each one a side tells what the history says."""
    chance, half = random.Random(seed), 3
    side, history = Side(half), []
    for _ in range(steps):
        node, kind = chance.randrange(3), chance.choice(["Path", "Filed", "Held", "Sealed", "Released", "Cancelled"])
        held = [k for n, k, _ in side.held.copies if n == node]
        if kind in ("Released", "Cancelled"):
            numbers = chance.sample(held, chance.randint(0, min(len(held), 3)))
        else:
            top = top_of(history, node)
            numbers = [] if kind == "Path" else [max((top or 70_000) + chance.randint(-half, 2 * half), LEAST)]
        first = kind in ("Filed", "Held", "Sealed")
        if (first and side.state(node, numbers[0]) != "Fresh") or (kind != "Path" and not numbers):
            continue
        side.note(kind, node, numbers)
        history.append((kind, node, numbers))
        for n in range(3):
            assert side.window(n).top() == top_of(history, n)
            for number in range(69_900, (top_of(history, n) or 70_000) + 3):
                assert side.state(n, number) == narrowed(history, n, number, half), (history, n, number)


def check():
    """The worked values."""
    window = Window()
    assert window.near(0x7FFF) == 65_536 + 0x7FFF
    window.set(65_536, "Filed")
    assert (window.near(0x7FFF), window.near(0x8000)) == (98_303, 32_768)
    small = Window(2)
    for number, state in [(70_007, "Sealed"), (70_005, "Filed"), (70_009, "Filed")]:
        small.set(number, state)
    assert [small.state(n) for n in range(70_005, 70_011)] == ["Fresh", "Fresh", "Sealed", "Fresh", "Filed", "Fresh"]
    other = Window(2)
    other.copy_from(small)
    small.clear()
    assert (other.state(70_007), small.state(70_007), small.top()) == ("Sealed", "Fresh", None)
    held = Held()
    assert held.hold(1, 70_000, 5) and held.hold(2, 70_000, 40) and held.hold(1, 70_001, 90)
    assert (held.take(2, 70_001), held.take(1, 70_000), held.drop_node(1), held.find(2, 70_000)) == (None, 5, 1, 40)
    side = Side(2)
    for kind, node, numbers in [("Held", 1, [70_005]), ("Filed", 1, [70_007]), ("Sealed", 1, [70_009])]:
        side.note(kind, node, numbers)
    assert [side.state(1, n) for n in range(70_005, 70_010)] == ["Held", "Fresh", "Filed", "Fresh", "Sealed"]
    assert (side.note("Released", 1, [70_005]), side.state(1, 70_005)) == (1, "Fresh")
    assert (side.note("Path", 1, []), side.state(1, 70_009), side.window(1).top()) == (0, "Fresh", None)
    for seed in range(20):
        compare(120, seed)


if __name__ == "__main__":
    check()
