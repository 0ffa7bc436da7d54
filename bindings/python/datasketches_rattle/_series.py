"""Series of pandas: results for them, and those that `value_counts` returns."""
from __future__ import annotations

from typing import Any

# In pandas 1, such a number of rows that descend by chance, with labels in an order of their own, are taken for those of `value_counts`.
FEW = 8


def results(series: Any, values: Any) -> Any:
    """Returns the results for a Series with its labels: a Series, or a DataFrame of the three numbers of bounds."""
    import pandas

    if values.ndim == 1:
        return pandas.Series(values, index=series.index, name=series.name)
    return pandas.DataFrame(values, index=series.index, columns=["lower_bound", "estimate", "upper_bound"])


def are_counts(series: Any) -> bool:
    """Returns whether a Series has integers by labels, as `value_counts` and `size` of groups return it.

    The labels are strings or other objects, or have a name as `value_counts` of pandas 2 gives it to them. In pandas 1 they may be numbers
    in an order of their own whose counts descend.
    """
    import pandas

    labels = series.index
    if getattr(series.dtype, "kind", "") != "i" or isinstance(labels, pandas.RangeIndex) or len(series) == 0:
        return False
    kind = getattr(labels.dtype, "kind", "O")
    if kind not in "iuf":
        return kind in "OSTU"
    if series.name == "count" and labels.name is not None:
        return True
    if not pandas.__version__.startswith("1."):
        return False
    descend = len(series) >= FEW and series.is_monotonic_decreasing and series.iloc[-1] > 0
    return bool(descend and labels.is_unique and not labels.is_monotonic_increasing)


def reject_counts(series: Any, call: str) -> None:
    """Raises TypeError for such a Series: it has weights where a call takes items."""
    if not are_counts(series):
        return
    right = "update(counts.index, counts)" if call == "update" else f"{call}(counts.index)"
    raise TypeError(
        f"{call} takes the values of a Series, and this one looks as value_counts() returns it: write {right}, "
        f"or {call}(series.to_numpy()) if its values are the items"
    )
