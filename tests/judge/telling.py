"""Which keys are untold, and which differ from the store (docs/CONSISTENCY.md, "Coherence", "Untold keys"; docs/GLOSSARY.md, "foreign key")."""


class Untold:
    """The foreign keys, of which those are untold of which the cache has something."""

    def __init__(self):
        self.foreign = set()

    def keys(self, stripe_of):
        """The untold keys."""
        return {key for key in self.foreign if stripe_of(key).has_something(key)}

    def after_foreign_write(self, key, _stripe):
        """Somebody else has written a key of this stripe."""
        self.foreign.add(key)

    def after_own_write(self, key):
        """This cache's writer has changed the store at a key."""
        self.foreign.discard(key)

    def after_reservation(self, key, found):
        """A call has reserved a key, and found this entry."""
        if found is None:
            self.foreign.discard(key)

    def after_commit(self, key, has_lied, left, stored):
        """A call is committed, of which the loader or the writer has lied, or not. It leaves an entry, while the store holds this."""
        if has_lied:
            self.foreign.add(key)
        if left is None or left == stored:
            self.foreign.discard(key)

    def after_reopening(self, entries, store):
        """The cache is opened again with these entries."""
        if all(store.get(key) == value for key, value in entries.items()):
            self.foreign = set()


def differing(world):
    """The cached keys whose value isn't the store's, but for those whose writer has changed the store and whose call isn't committed."""
    changed = {part.key for call in world.calls.values() for part in call.parts if part.is_started() and part.has_changed}
    return [key for key, value in sorted(world.entries().items()) if world.store.get(key) != value and key not in changed]
