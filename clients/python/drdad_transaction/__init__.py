"""drdad and other databases in one transaction of Zope's `transaction`, with a log of decisions (README.md)."""
from .branch import Branch, join
from .log import BrokenLog, DecisionLog, Undecided
from .recovery import Outcome, recover
