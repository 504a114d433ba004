"""The vectors that tools/gateway has ready before anybody asks for them.

A network's own node does the same: it takes several vectors of a subscriber at once, and uses them in the order of their numbers
(TS 33.102 §6.3.2). A vector is handed out once; those of a subscriber that resynchronises are dropped.
"""
from collections import OrderedDict
from itertools import islice

# Of a subscriber: how many vectors are ready if it seldom asks, and at most. With an index of 5 bits, the usual one, 32 numbers, one
# behind the other, have 32 indices.
FEW, MANY = 1, 32
# How many subscribers may have more than few.
OFTEN = 1024


class Stock:
    """Vectors by subscriber, in the order of their numbers, for the first ones of the subscribers."""

    def __init__(self, subscribers, most):
        self.vectors = {}
        # For whom more are to be drawn, in this order.
        self.low = dict.fromkeys(islice(subscribers, most))
        self.places = frozenset(self.low)
        # How many are to be ready for those who found too few, the last one of them at the end.
        self.wanted = OrderedDict()
        # For how many none has been drawn yet.
        self.empty, self.is_told = len(self.low), False

    def take(self, imsi, count):
        """The next vectors of a subscriber, or nothing if fewer are ready."""
        ready = self.vectors.get(imsi, ())
        if len(ready) < count:
            if imsi in self.places:
                self.want_more(imsi)
            return None
        taken, self.vectors[imsi] = ready[:count], ready[count:]
        if 2 * (len(ready) - count) <= self.wanted.get(imsi, FEW):
            self.low[imsi] = None
        return taken

    def want_more(self, imsi):
        """Has twice as many ready from now on."""
        self.wanted[imsi] = min(2 * self.wanted.pop(imsi, FEW), MANY)
        if len(self.wanted) > OFTEN:
            seldom, _ = self.wanted.popitem(last=False)
            self.put(seldom, self.pop(seldom)[:FEW])

    def put(self, imsi, vectors):
        """Takes vectors of a subscriber for whom none is ready."""
        if vectors and imsi in self.places:
            self.vectors[imsi] = vectors

    def pop(self, imsi):
        """Gives all that is ready for a subscriber."""
        return self.vectors.pop(imsi, [])

    def lack(self, imsi):
        """How many are to be drawn for a subscriber."""
        return max(0, self.wanted.get(imsi, FEW) - len(self.vectors.get(imsi, ()))) if imsi in self.places else 0

    def pop_low(self, most):
        """The next ones for whom more are to be drawn, at most so many."""
        found = list(islice(self.low, most))
        for imsi in found:
            del self.low[imsi]
        self.empty -= len(found)
        return found

    def put_back(self, imsis):
        """Lets these be the next ones again."""
        self.low = {**dict.fromkeys(imsis), **self.low}
        self.empty += len(imsis)

    def news(self):
        """What is told once: that for each subscriber one was drawn."""
        if self.empty > 0 or not self.vectors or self.is_told:
            return []
        self.is_told = True
        return [("ready", f"vectors of {len(self.vectors)} subscribers are ready")]
