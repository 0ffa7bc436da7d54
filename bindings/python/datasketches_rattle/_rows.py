"""The rows of a FrequentItemsSketch."""
from __future__ import annotations

from collections import namedtuple


class Row(namedtuple("Row", ["item", "lower_bound", "estimate", "upper_bound"])):
    """A row of a FrequentItemsSketch: a tuple of an item, its lower bound, its estimate and its upper bound.

    `lower` and `upper` are short names of the bounds.

    >>> import datasketches_rattle as ds
    >>> heavy = ds.FrequentItemsSketch(64, item=str)
    >>> heavy.update(["to", "be", "to"])
    >>> row = heavy.top(1)[0]
    >>> row
    ('to', 2, 2, 2)
    >>> row.item, row.lower, row.estimate, row.upper
    ('to', 2, 2, 2)
    """

    __slots__ = ()
    __repr__ = tuple.__repr__

    @property
    def lower(self) -> int:
        """The lower bound."""
        return self.lower_bound

    @property
    def upper(self) -> int:
        """The upper bound."""
        return self.upper_bound


Row.__module__ = "datasketches_rattle"  # in which pickle finds it
