"""Writing a composing block into a slice that is lent (the house rules, "Writing").

Rules 7 and 12, in this order; block.py has the bytes.
"""

import block
import limits
from jobs import breaks_rule_7


def write_into(plan, version, out):
    """Give (0, the block's length, what the slice holds then), or (7 or 12, 0, what it held)."""
    size = length(plan, version)
    if size == 0:
        return 7, 0, bytes(out)
    if len(out) < size:
        return 12, 0, bytes(out)
    return 0, size, block.write(plan, version) + bytes(out[size:])


def length(plan, version):
    """The block's length, 0 where rule 7 refuses the plan or the version."""
    return 0 if refuses(plan, version) else len(block.write(plan, version))


def refuses(plan, version):
    """Rule 7: a plan out of range, another version than 1 and 2, version 1 where pieces n and n + 1 differ."""
    return version not in limits.VERSIONS or breaks_rule_7(plan) or not block.has_place_for(version, plan)
