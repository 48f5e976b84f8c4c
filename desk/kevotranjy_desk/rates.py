"""How much somebody may do in a minute: a share that fills again as time passes."""
import time
from collections import OrderedDict

MOST_NAMES = 10_000


class Rate:
    """So many in a minute for each name, and as many at once."""

    def __init__(self, in_a_minute: int) -> None:
        self.in_a_minute = in_a_minute
        self._left: OrderedDict[str, tuple[float, float]] = OrderedDict()

    def takes(self, name: str, count: int = 1) -> bool:
        """Whether a name may do it so often now; what it does is counted."""
        moment = time.monotonic()
        left, last = self._left.pop(name, (float(self.in_a_minute), moment))
        left = min(self.in_a_minute, left + (moment - last) * self.in_a_minute / 60)
        is_taken = left >= count
        self._left[name] = (left - count if is_taken else left, moment)
        while len(self._left) > MOST_NAMES:
            self._left.popitem(last=False)
        return is_taken
