"""The operations of DIV, MOD and SCL on lanes, by the integers that are told."""
from second.lanes import scratch

MOST_DOINGS = 128  # of a loop; the last one ends it, whatever is told

S0, S1, S2, S3, S4, S5, S6 = map(scratch, range(7))


def scale(lanes, it):
    number = lanes.show(it.b)
    modulus = lanes.moduli[it.p]
    lanes.unscale(it.a, it.b, it.p, number % modulus, number // modulus % modulus)


def goes_on(lanes, place, doing):
    """Whether a loop goes on, by the difference that is shown in its doing of that number, counted from 1."""
    told = lanes.show(place)
    return told >= 0 and doing < MOST_DOINGS


def divide_positive(lanes):
    """S0 becomes what is left of S0 by S1, and the quotient is added to S5: by doubling the divisor as far as it goes."""
    for doing in range(1, MOST_DOINGS + 1):
        lanes.sub(S4, S0, S1)
        if not goes_on(lanes, S4, doing):
            return
        lanes.copy(S2, S1)
        lanes.put(S3, 1)
        for doubling in range(1, MOST_DOINGS + 1):
            lanes.sub(S6, S4, S2)
            if not goes_on(lanes, S6, doubling):
                break
            lanes.add(S2, S2, S2)
            lanes.add(S3, S3, S3)
            lanes.copy(S4, S6)
        lanes.copy(S0, S4)
        lanes.add(S5, S5, S3)


def divide(lanes, it):
    """DIV or MOD; False where 0 is told as the divisor."""
    dividend = lanes.show(it.b)
    divisor = lanes.show(it.c)
    if divisor == 0:
        return False
    turned = dividend < 0 < divisor or divisor < 0 < dividend
    signed = lanes.neg if divisor < 0 else lanes.copy
    signed(S0, it.b)
    signed(S1, it.c)
    if turned:
        lanes.put(S4, -1)
        lanes.sub(S0, S4, S0)
    lanes.put(S5, 0)
    divide_positive(lanes)
    if it.name == "DIV" and turned:
        lanes.put(S4, -1)
        lanes.sub(it.a, S4, S5)
    elif it.name == "DIV":
        lanes.copy(it.a, S5)
    else:
        if turned:
            lanes.sub(S1, S1, S0)
            lanes.put(S4, 1)
            lanes.sub(S0, S1, S4)
        signed(it.a, S0)
    return True
