"""What a cabinet holds: its versions, and what an offer, a stop, a restart and a rollback make of them."""

from pairs import Entry

FACTORY = Entry(0, 0, 'unknown')
KEPT = 8  # versions in a store, the present one included
TO_FACTORY = 8  # of a rollback: to the factory entry instead of so many versions


class Cabinet:
    __slots__ = ('store', 'forgetful', 'versions', 'up', 'stale', 'marked')

    def __init__(self, store, forgetful):
        self.store, self.forgetful = store, forgetful
        self.versions = [FACTORY]  # the present one first
        self.up, self.stale, self.marked = True, False, False

    @property
    def held(self):
        return self.versions[0]

    def offer(self, entry):
        """Taken exactly when its stamp is greater. Says whether it was."""
        taken = entry[:2] > self.versions[0][:2]
        if taken:
            self.versions.insert(0, entry)
            del self.versions[KEPT if self.store else 1:]
        return taken

    def silent(self, asked):
        """Why it does not answer, or nothing where it does. A stale cabinet still acknowledges offers."""
        return 'down' if not self.up else 'stale' if asked and self.stale else ''

    def restart(self):
        self.up = True
        if not self.store:
            self.versions = [FACTORY]
            self.stale = self.forgetful

    def can_go_back(self, places):
        """To so many versions older, or to the factory entry, which needs no version kept."""
        if places == TO_FACTORY:
            return self.store and self.held[:2] != FACTORY[:2]
        return self.store and 1 <= places < len(self.versions)

    def roll_back(self, places):
        self.versions = [FACTORY] if places == TO_FACTORY else self.versions[places:]
        self.up = self.marked = True
