"""Calls on integers, made by chance, with CPython's answers."""
import math
import operator

from table_tokens import b, error, i, instead, optional, t

WIDER = "an integer past 128 bits"

LEAST, MOST = -(2**127), 2**127 - 1
SMALL = (0, 0, 1, -1, 2, -2, 3, -3, 5, 7, 10, -10, 12, 100, -100, 1000)
EDGES = (*[LEAST, MOST] * 4, LEAST + 1, MOST - 1, 2**126, -(2**126), 2**64, 2**63, -(2**63), 2**63 - 1, 2**61 - 1,
         1 - 2**61, 2**32, -(2**32), 2**64 - 1, -(2**64), 10**38, -(10**38))


def number(chance):
    kind = chance.random()
    if kind < 0.3:
        return chance.choice(SMALL)
    if kind < 0.5:
        return chance.choice(EDGES)
    made = chance.getrandbits(chance.randint(1, 127))
    return made if chance.random() < 0.5 else -made


def kept(*results):
    """The answer, or the error that is in its place where a result has more than 128 bits."""
    if all(LEAST <= result <= MOST for result in results):
        return [i(result) for result in results]
    return instead("int_too_wide", WIDER)


def of_two(operation, second=number):
    def make(chance):
        one, other = number(chance), second(chance)
        return [i(one), i(other)], operation(one, other)
    return make


def of_one(operation):
    def make(chance):
        one = number(chance)
        return [i(one)], operation(one)
    return make


def plain(operation):
    return lambda one, other: kept(operation(one, other))


def factor(chance):
    """One that keeps every second product within 128 bits."""
    return number(chance) if chance.random() < 0.5 else chance.choice(SMALL)


def divided(operation):
    def make(chance):
        one, other = number(chance), chance.choice([0, -1, number(chance), number(chance), factor(chance)])
        if chance.random() < 0.05:
            one, other = LEAST, -1  # the one quotient that leaves 128 bits
        answer = error("zero_division") if other == 0 else kept(*operation(one, other))
        return [i(one), i(other)], answer
    return make


def shift_count(chance):
    return chance.choice([-1, LEAST, MOST, 2**64, *range(-2, 130)])


def left(one, count):
    if count < 0:
        return error("negative_shift")
    # For a huge count CPython has no memory; here the error is that of a wide result, or 0 where the base is 0.
    return kept(one << count) if one == 0 or count < 1000 else instead("int_too_wide", WIDER)


def right(one, count):
    return error("negative_shift") if count < 0 else kept(one >> count)


def exchanged(make):
    """The form of a call that exchanges the operands: the answer is that of the other order."""
    def made(chance):
        (one, other), answer = make(chance)
        return [other, one], answer
    return made


DIVISIONS = {
    "floordiv": divided(lambda one, other: [one // other]), "mod_": divided(lambda one, other: [one % other]),
    "divmod": divided(divmod),
}
SHIFTS = {"lshift": of_two(left, shift_count), "rshift": of_two(right, shift_count)}


def power(chance):
    if chance.random() < 0.5:
        base = chance.choice([0, 1, -1, 2, -2, 3, -3, 10, -10, 7, number(chance)])
        exponents = [-1, -5, 0, 1, 2, 3, 31, 37, 38, 39, 62, 63, 64, 80, 126, 127, 128, MOST, number(chance)]
        exponent = chance.choice(exponents)
        return [i(base), i(exponent), "-"], raised(base, exponent)
    base, exponent = number(chance), number(chance)
    modulus = chance.choice([0, 1, -1, 2, 9, -9, 2**61 - 1, MOST, LEAST, number(chance), number(chance)])
    return [i(base), i(exponent), i(modulus)], raised_within(base, exponent, modulus)


def power_exchanged(chance):
    base = chance.choice([2, -2, 3, 10, number(chance)])
    exponent = chance.choice([-1, *range(0, 130, 7), number(chance)])
    return [i(exponent), i(base)], raised(base, exponent)


def raised(base, exponent):
    if exponent < 0:
        return instead("not_carried", "a float, or ZeroDivisionError for the base 0")
    if abs(base) > 1 and exponent > 127:
        return instead("int_too_wide", WIDER)
    return kept(pow(base, exponent if abs(base) > 1 else exponent % 2 + 2 * (exponent > 1)))


def raised_within(base, exponent, modulus):
    if modulus == 0:
        return error("modulus_zero")
    try:
        return kept(pow(base, exponent, modulus))
    except ValueError:
        assert exponent < 0 and math.gcd(base, modulus) > 1
        return error("not_invertible")


def rounded(chance):
    one = number(chance)
    digits = chance.choice([None, 0, 1, 5, MOST, *range(-42, 0)])
    if digits is not None and chance.random() < 0.4:
        one = (2 * chance.randint(-50, 50) + 1) * 10 ** min(abs(digits), 30) // 2
    return [i(one), optional(digits)], kept(round(one) if digits is None else round(one, digits))


def modular_power(chance):
    base, exponent = number(chance), number(chance)
    modulus = chance.choice([0, 1, -1, 2, 9, -9, 2**61 - 1, MOST, LEAST, number(chance)])
    return [i(base), i(exponent), i(modulus)], raised_within(base, exponent, modulus)


def compare(chance):
    one = number(chance)
    other = chance.choice([one, one + 1 if one < MOST else one, number(chance)])
    return [i(one), i(other)], [i((one > other) - (one < other))]


ARITHMETIC = {
    "add": of_two(plain(operator.add)), "sub": of_two(plain(operator.sub)),
    "rsub": of_two(plain(lambda one, other: other - one)), "mul": of_two(plain(operator.mul), factor),
    **DIVISIONS, "rfloordiv": exchanged(DIVISIONS["floordiv"]), "rmod": exchanged(DIVISIONS["mod_"]),
    "rdivmod": exchanged(DIVISIONS["divmod"]),
    **SHIFTS, "rlshift": exchanged(SHIFTS["lshift"]), "rrshift": exchanged(SHIFTS["rshift"]),
    "and": of_two(plain(operator.and_)), "or": of_two(plain(operator.or_)), "xor": of_two(plain(operator.xor)),
    "invert": of_one(lambda one: kept(~one)), "neg": of_one(lambda one: kept(-one)),
    "abs": of_one(lambda one: kept(abs(one))), "pow": power, "rpow": power_exchanged, "round": rounded,
    "modpow": modular_power, "compare": compare,
}


def order_and_sign(chance):
    return chance.choice(["big", "little"]), chance.random() < 0.5


def from_bytes(chance):
    data = bytes(chance.choice([0, 1, 127, 128, 255, chance.randrange(256)]) for _ in range(chance.randint(0, 17)))
    if chance.random() < 0.3:
        data = chance.choice([b"\x00", b"\xff"]) * chance.randint(0, 3) + data
    order, signed = order_and_sign(chance)
    return [b(data), order, i(signed)], kept(int.from_bytes(data, order, signed=signed))


def to_bytes(chance):
    one, (order, signed) = number(chance), order_and_sign(chance)
    needed = (one.bit_length() + signed + 7) // 8
    length = max(0, chance.choice([needed, needed, needed + 1, needed - 1, 16, 17, 0, 1, 20]))
    arguments = [i(one), i(length), order, i(signed)]
    if one < 0 and not signed:
        return arguments, error("negative_to_unsigned")
    if (one, length) == (-1, 0):  # no bytes, which are those of 0 too
        return arguments, instead("int_too_big", "no bytes for -1")
    try:
        return arguments, [b(one.to_bytes(length, order, signed=signed))]
    except OverflowError:
        return arguments, error("int_too_big")


DIGITS = "0123456789abcdefghijklmnopqrstuvwxyzABCDEFGHIJKLMNOPQRSTUVWXYZ"


def digits_in(chance, base):
    letters = [d for d in DIGITS if int(d, 36) < base]
    made = "".join(chance.choice(letters) for _ in range(chance.choice([1, 1, 2, 3, 5, 9])))
    return made if chance.random() < 0.7 else "_".join(made)


def written_in(one, base):
    """The digits of a number in a base."""
    digits, left = "", abs(one)
    while left or not digits:
        digits, left = DIGITS[left % base] + digits, left // base
    return "-" * (one < 0) + digits


def literal_text(chance, base):
    """A literal, or one with something added, doubled or left out."""
    kind = chance.random()
    if kind < 0.2:
        edge = chance.choice([number(chance), number(chance) * 10, LEAST, LEAST - 1, MOST, MOST + 1])
        return written_in(edge, base if base > 1 else 10)
    prefix = chance.choice(["", "", "", "0x", "0X", "0b", "0B", "0o", "0O", "0", "00", "0x_", "0_"])
    if kind < 0.5:
        prefix = {2: "0b", 8: "0O", 16: "0X"}.get(base, "")
    made = chance.choice(["", "", "+", "-"]) + prefix + digits_in(chance, chance.choice([base if base > 1 else 10, 10]))
    if kind > 0.8:
        at = chance.randint(0, len(made))
        made = made[:at] + chance.choice(["_", "__", " ", "+", "g", "\x1c", "."]) + made[at:]
    return chance.choice(["", "", " ", "\t\n"]) + made + chance.choice(["", "", " ", "\r\v\f", "_"])


def literal(chance):
    base = chance.choice([0, 0, 10, 10, 10, 2, 8, 16, 16, 36, 3, 35, 1, 37, 4294967295])
    written = literal_text(chance, min(base, 36)).encode("ascii")
    arguments = [b(written), i(base)]
    if base != 0 and not 2 <= base <= 36:
        return arguments, error("bad_base")
    try:
        return arguments, kept(int(written, base))
    except ValueError:
        return arguments, error("invalid_literal")


FORMS = {
    "from_bytes": from_bytes, "to_bytes": to_bytes, "try_int_radix": literal,
    "bit_length": of_one(lambda one: [i(one.bit_length())]), "bit_count": of_one(lambda one: [i(one.bit_count())]),
    "hash": of_one(lambda one: [i(hash(one))]), "repr": of_one(lambda one: [t(repr(one))]),
}


def of_bool(operation):
    def make(chance):
        one = chance.random() < 0.5
        return [i(one)], operation(one)
    return make


def of_two_bools(operation):
    def make(chance):
        one, other = chance.random() < 0.5, chance.random() < 0.5
        return [i(one), i(other)], [i(operation(one, other))]
    return make


def itself(operation):
    """A call of an integer that gives an integer."""
    return of_one(lambda one: [i(operation(one))])


VALUES = {
    "pos": itself(operator.pos), "int": itself(int), "trunc": itself(math.trunc), "floor": itself(math.floor),
    "ceil": itself(math.ceil), "index": itself(operator.index), "conjugate": itself(int.conjugate),
    "real": itself(lambda one: one.real), "imag": itself(lambda one: one.imag),
    "numerator": itself(lambda one: one.numerator), "denominator": itself(lambda one: one.denominator),
    "getnewargs": of_one(lambda one: [i(part) for part in one.__getnewargs__()]),
    "as_integer_ratio": of_one(lambda one: [i(part) for part in one.as_integer_ratio()]), "bool": itself(bool),
    "bool_int": of_bool(lambda one: [i(int(one))]), "bool_repr": of_bool(lambda one: [t(repr(one))]),
    "bool_and": of_two_bools(operator.and_), "bool_or": of_two_bools(operator.or_),
    "bool_xor": of_two_bools(operator.xor),
}
