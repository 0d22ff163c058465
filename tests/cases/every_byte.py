"""The night, as original and as export, cut in front of each of its bytes, and with each of its bytes made 0, made 255 and
with its lowest bit turned; beside the night as it is."""

from tests.cases import BY_RULES, check, later
from tests.cases.small_night import ALL, NIGHT
from tests.recordings import bytes_of

WHOLE = bytes_of(NIGHT)


def front(count):
    """The first bytes of the night."""
    return WHOLE[:count]


def changed(at, other):
    """The night with another byte."""
    return WHOLE[:at] + bytes([other]) + WHOLE[at + 1:]


def files():
    """Each of these files, with its name."""
    for count in range(len(WHOLE)):
        yield f"first_{count}_bytes", later(front, count)
    for at, byte in enumerate(WHOLE):
        for how, other in (("0", 0), ("255", 255), ("turned", byte ^ 1)):
            yield f"byte_{at}_{how}", later(changed, at, other)


def rows():
    """Each check: the original, the export, the claim, and that its line is the one of the second reading."""
    for name, file in files():
        yield check(f"export_{name}", WHOLE, file, ALL, BY_RULES)
        yield check(f"original_{name}", file, WHOLE, ALL, BY_RULES)
