"""Vectors of residues, and the nearest integer of a column, in plain integers."""
from functools import lru_cache

from second.objects import BOUND, INFORMATION, REDUNDANT, product

MODULI = {name: INFORMATION[name] + REDUNDANT[name] for name in INFORMATION}


def vector_of(name, number):
    return [number % modulus for modulus in MODULI[name]]


def differences(left, right):
    """The places in which two lists differ."""
    return [place for place, (one, other) in enumerate(zip(left, right)) if one != other]


@lru_cache(maxsize=None)
def weights_of(moduli):
    """For each modulus the number that leaves 1 by it and 0 by the others."""
    whole = product(moduli)
    return [whole // modulus * pow(whole // modulus, -1, modulus) for modulus in moduli]


def number_of(moduli, residues):
    """The number below the product of the moduli that has these residues."""
    return sum(residue * weight for residue, weight in zip(residues, weights_of(moduli))) % product(moduli)


def in_range(name, moduli, number):
    """The integer in range with the residues of a number below the product of the moduli, or None."""
    return next((it for it in (number, number - product(moduli)) if abs(it) <= BOUND[name]), None)


def without(given, place):
    return tuple(it for other, it in enumerate(given) if other != place)


def nearest(name, column):
    """The integer in range whose vector differs from the column in one channel at most, or None: by leaving out none of
    the channels, and then each in turn."""
    moduli = MODULI[name]
    for left_out in (None, *range(len(moduli))):
        kept = without(moduli, left_out)
        found = in_range(name, kept, number_of(kept, without(column, left_out)))
        if found is not None and len(differences(column, vector_of(name, found))) <= 1:
            return found
    return None


def nearest_of_all_integers(name, column):
    """The same, by trying every integer in range."""
    tried = range(-BOUND[name], BOUND[name] + 1)
    found = [it for it in tried if len(differences(column, vector_of(name, it))) <= 1]
    assert len(found) <= 1, f"{column} is near to {found}"
    return found[0] if found else None


def nearest_of_all_errors(name, column):
    """The same, by trying every residue in every channel."""
    moduli = MODULI[name]
    whole = number_of(moduli, column)
    for weight, modulus, residue in zip(weights_of(moduli), moduli, column):
        for other in range(modulus):
            found = in_range(name, moduli, (whole + (other - residue) * weight) % product(moduli))
            if found is not None:
                return found
    return None
