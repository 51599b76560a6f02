"""The plan of a line: its profile as the transcript tells it, the quorums and stores that go with it, and its words."""

from pairs import Astray


class Plan:
    def __init__(self, row):
        try:
            kind, *numbers = row.step
            self.n, self.k, self.r, self.b = map(int, numbers)
        except ValueError:
            raise Astray('row 1 is not a plan')
        if kind != 'plan' or row.outcome != self.profile():
            raise Astray(f'row 1 says {row.outcome}, and the rule says {self.profile()}')
        self.forgetful = row.outcome == 'forgetful'
        self.stores = 0 if self.forgetful else 2 * self.k + self.r + 1  # cabinets 1 to this one have a store
        second = self.n - self.k
        self.quorums = {1: self.k + 1 if self.forgetful else second, 2: second}  # by part

    def profile(self):
        if self.n >= 2 * self.k + self.b + 1:
            return 'forgetful'
        return 'store' if self.n >= 2 * self.k + self.r + 1 else 'refused'

    def words(self):
        """What the plan means: a sentence on the cabinets, one on the quorums."""
        numbers = f'{self.n},{self.k},{self.r},{self.b}'
        if self.forgetful:
            cabinets = 'none with a store; one that restarts is stale and answers no more questions'
        else:
            cabinets = f'{self.store_words()}; {self.rollback_words()} may be rolled back'
        return f'Plan {numbers}, {self.profile()} profile: {self.n} cabinets, {cabinets}.', self.quorum_words()

    def store_words(self):
        if self.stores == self.n:
            return 'all with a store'
        return 'cabinet 1 with a store' if self.stores == 1 else f'cabinets 1 to {self.stores} with a store'

    def rollback_words(self):
        return f'at most {self.r}' if self.r else 'none'

    def quorum_words(self):
        first, second = self.quorums[1], self.quorums[2]
        if first == second:
            return f'Each part of a write or read waits for {first} of them.'
        return f'The first part of a write or read waits for {first} of them, the second for {second}.'
