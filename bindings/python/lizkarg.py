"""Lizkarg for Python: the calls of the proved library, on lists of numbers and on bytes. Python 3.8 or later, no package needed.

    >>> import lizkarg
    >>> text = open("examples/class.sheet", "rb").read()
    >>> lizkarg.judge_sheet(text)
    Accepted(margin=0)
    >>> sheet = lizkarg.read_sheet(text)
    >>> lizkarg.verify(sheet.sizes, sheet.proof)
    Accepted(margin=0)
    >>> lizkarg.write_sheet(sheet.sizes, sheet.nu, sheet.mu, sheet.proof) == text
    True
    >>> print(lizkarg.judge_sheet(open("examples/whole-case-margin.sheet", "rb").read()))
    accepted: all nine checks hold, margin 7
    >>> print(lizkarg.judge_sheet(open("examples/class-changed-digit.sheet", "rb").read()))
    failed: check 5, A z is not the sum of the c_i t_i

`prove` makes a proof; `commit`, `project`, `aggregate`, `commit_garbage` and `amortize` are its five messages. `prove_bare` makes the last level of a chain,
sent bare; `bare_commit`, `project`, `aggregate`, `bare_phi`, `bare_turn` and `amortize` are its messages. A list holds ring elements one after
another, d numbers each, lowest power first, from -2147483598 to 2147483598; `lengths` says how long each list is. A call that refuses raises
Refused, with the number of the row. The library is target/staticlib/liblizkarg.so, which bindings/python/build writes; LIZKARG_SO names another.
"""

import ctypes
import os
from dataclasses import dataclass
from pathlib import Path
from typing import List, NamedTuple, Optional

FIVE = 5  # second functions
_LEAST = -2147483648  # out of range for every list: what stands for a number that no list can hold


# ---- answers

class Refused(Exception):
    """A call was refused. `number` is the row of SPECIFICATION 7."""

    ROWS = {
        1: "the degree d is not 2, 4, 8, 16, 32 or 64",
        2: "n, r, K, L, w or a part or turn number is outside its limits",
        3: "a commitment rank is not 1 to 8",
        4: "a base is not 2 to 65536 or a digit count is not 2 to 8",
        5: "nu or mu is below 1, or they cut into more than 16 parts",
        6: "a bound is negative or above 999999999999999",
        7: "a list's length is not what the sizes give",
        8: "a number is out of range",
        9: "a projection entry is not -1, 0 or 1",
        10: "a challenge is outside the rule",
        11: "the next instance has more than 256 elements to a part",
        12: "the text is no sheet, or longer than 65536 bytes",
        13: "the buffer is shorter than the text",
        14: "a constraint of the bare level has a nonzero a_ij with i < j",
        15: "a low digit is more than half its base",
    }

    def __init__(self, number):
        super().__init__(f"refused: {number}, {self.ROWS.get(number, 'a row that this binding does not know')}")
        self.number = number


@dataclass(frozen=True)
class Accepted:
    """All nine checks hold. The margin is the target bound minus the squared length of all digits. True in a condition, whatever the margin."""

    margin: int

    def __bool__(self):
        return True

    def __str__(self):
        return f"accepted: all nine checks hold, margin {self.margin}"


@dataclass(frozen=True)
class Failed:
    """The first check that fails. False in a condition."""

    check: int

    CHECKS = (
        "the projection p is too long",
        "a constant term of b'' is not what p and the constraints give",
        "u1 does not belong to the t and g digits",
        "u2 does not belong to the h digits",
        "A z is not the sum of the c_i t_i",
        "<z,z> is not what the g digits give",
        "the sum of <phi_i,z> c_i is not what the h digits give",
        "the aggregated constraint does not hold",
        "the digits are longer than the target bound",
    )

    def __bool__(self):
        return False

    def __str__(self):
        return f"failed: check {self.check}, {self.CHECKS[self.check - 1]}"


class BareAccepted(Accepted):
    """All seven checks of the bare level hold. The margin is the bound on z minus the squared length of z."""

    def __str__(self):
        return f"accepted: all seven checks of the bare level hold, margin {self.margin}"


class BareFailed(Failed):
    """The first check of the bare level that fails."""

    CHECKS = (
        *Failed.CHECKS[:2],
        "A z is not the sum of the c_i t_i",
        "<z,z> is not what the garbage of z gives",
        "the sum of <phi_i,z> c_i is not what the garbage of phi gives",
        "the aggregated constraint does not hold",
        "z is longer than the bound on z",
    )

    def __str__(self):
        return f"failed: the bare level's check {self.check}, {self.CHECKS[self.check - 1]}"


# ---- sizes and lists

class Sizes(NamedTuple):
    """The sizes, bases and bounds of a statement, in the sheet's order."""

    d: int  # the degree: 2, 4, 8, 16, 32 or 64
    n: int  # elements to a part of the witness: 1 to 256
    r: int  # parts of the witness: 1 to 16
    k: int  # whole constraints: 0 to 32
    l: int  # constant-term constraints: 0 to 32
    w: int  # projection rows: 0 to 256
    kappa: int  # rows of A: 1 to 8
    kappa1: int  # rows of B and C: 1 to 8
    kappa2: int  # rows of D: 1 to 8
    b: Optional[int]  # base of the two digits of z: 2 to 65536; None where z is whole in one digit
    b1: int  # base of the digits of t and h: 2 to 65536
    b2: int  # base of the digits of g: 2 to 65536
    t1: int  # digits of t and h: 2 to 8
    t2: int  # digits of g: 2 to 8
    bound: int  # β²: 0 to 999999999999999
    target: int  # β'²: 0 to 999999999999999


class Proof(NamedTuple):
    """All lists of the verifier, in its order. Those marked with a message are what the prover sends."""

    a_matrix: List[int]  # A, by rows
    b_matrix: List[int]  # B, by rows
    c_matrix: List[int]  # C, by rows
    d_matrix: List[int]  # D, by rows
    whole: List[int]  # constraints that vanish wholly, each as a (by i, then j), φ (by part), b
    constant_terms: List[int]  # constraints that vanish in the constant term, likewise, but b is one number
    u1: List[int]  # message 1
    projections: List[int]  # projection rows, by row, then part; entries -1, 0, 1
    p: List[int]  # message 2
    psi: List[int]  # ψ, 5 by L numbers
    omega: List[int]  # ω, 5 by w numbers
    second_b: List[int]  # message 3: b'', five elements
    alpha: List[int]  # α, an element to each whole constraint
    delta: List[int]  # δ, five elements
    u2: List[int]  # message 4
    # challenges, an element to each part: at degree 64, 23 coefficients 0, 31 of ±1 and 10 of ±2; at smaller degrees -2 to 2, squared length at most 71
    c: List[int]
    opening: List[int]  # message 5: z low, z high, or z in one digit; the digits of t, g and h


class BareSizes(NamedTuple):
    """The sizes and bounds of the bare level. `project`, `aggregate` and `amortize` take them too; then z is whole."""

    d: int  # the degree: 2, 4, 8, 16, 32 or 64
    n: int  # elements to a part of the witness: 1 to 256
    r: int  # parts of the witness, and turns: 1 to 16
    k: int  # whole constraints: 0 to 32
    l: int  # constant-term constraints: 0 to 32
    w: int  # projection rows: 0 to 256
    kappa: int  # rows of A: 1 to 8
    bound: int  # β²: 0 to 999999999999999
    z_bound: int  # the bound on the squared length of z: 0 to 999999999999999


class BareProof(NamedTuple):
    """All lists of the verifier of the bare level, in its order; those of the same name as in Proof. No constraint has an a_ij with i < j other than 0."""

    a_matrix: List[int]
    whole: List[int]
    constant_terms: List[int]
    projections: List[int]
    p: List[int]  # message 2
    psi: List[int]
    omega: List[int]
    second_b: List[int]  # message 3
    alpha: List[int]
    delta: List[int]
    c: List[int]  # c_i is drawn after turn i
    opening: List[int]  # t (by part, then row), z, then the four elements of each turn


class Sheet(NamedTuple):
    """A sheet that was read."""

    sizes: Sizes
    nu: int  # chunks of z low and of z high in the next instance
    mu: int  # chunks of the other digits
    proof: Proof


class NextSizes(NamedTuple):
    """The sizes of the next instance; its degree is the same, it has no constant-term constraints, and its bound is β'²."""

    n: int  # n', the elements to a part
    r: int  # r' = 2ν+μ, with one z digit ν+μ: the parts
    k: int  # K' = κ+κ1+κ2+3, the constraints, all of the whole kind
    whole: int  # how many numbers the constraints have


def _as_fold(sizes):
    """The sizes of the bare level as those of a fold with one z digit, and the least of all others; sizes of a fold as they are."""
    if not isinstance(sizes, BareSizes):
        return sizes
    s = sizes
    return Sizes(s.d, s.n, s.r, s.k, s.l, s.w, s.kappa, 1, 1, None, 2, 2, 2, 2, s.bound, 0)


def z_digits(sizes):
    """How many digits z has: two to base b, or one where b is None."""
    return 1 if sizes.b is None else 2


def lengths(sizes):
    """How many numbers each list of these sizes has, by name: the lists of Proof, the witness, and the digits z, t, g and h."""
    s = sizes
    pairs = s.r * (s.r + 1) // 2
    z, t, g, h = z_digits(s) * s.n, s.r * s.t1 * s.kappa, pairs * s.t2, pairs * s.t1
    function = (pairs + s.r * s.n) * s.d
    return {
        "a_matrix": s.kappa * s.n * s.d, "b_matrix": s.kappa1 * t * s.d, "c_matrix": s.kappa1 * g * s.d, "d_matrix": s.kappa2 * h * s.d,
        "whole": s.k * (function + s.d), "constant_terms": s.l * (function + 1), "u1": s.kappa1 * s.d, "projections": s.w * s.r * s.n * s.d,
        "p": s.w, "psi": FIVE * s.l, "omega": FIVE * s.w, "second_b": FIVE * s.d, "alpha": s.k * s.d, "delta": FIVE * s.d, "u2": s.kappa2 * s.d,
        "c": s.r * s.d, "opening": (z + t + g + h) * s.d, "witness": s.r * s.n * s.d, "z": z * s.d, "t": t * s.d, "g": g * s.d, "h": h * s.d,
    }


def bare_lengths(sizes):
    """How many numbers each list of the bare level has, by name: the lists of BareProof, the witness, t, phi, z, and the garbage of a turn."""
    s, known = sizes, lengths(_as_fold(sizes))
    own = {"t": s.r * s.kappa * s.d, "phi": s.r * s.n * s.d, "z": s.n * s.d, "garbage": 4 * s.d, "opening": (s.r * s.kappa + s.n + 4 * s.r) * s.d}
    return {**{name: known[name] for name in BareProof._fields + ("witness",)}, **own}


def next_sizes(sizes, nu, mu):
    """The sizes of the next instance, whose opening is cut into ν, ν and μ chunks, with one z digit into ν and μ."""
    s = sizes
    rest = s.r * s.kappa * s.t1 + s.r * (s.r + 1) // 2 * (s.t1 + s.t2)
    n, r, k = max(-(-s.n // nu), -(-rest // mu)), z_digits(s) * nu + mu, s.kappa + s.kappa1 + s.kappa2 + 3
    return NextSizes(n, r, k, k * (r * (r + 1) // 2 + r * n + 1) * s.d)


def has_full_chunks(sizes, nu, mu):
    """Whether each chunk of z is as long as n', so that none has padding: ν·n' = n. A chain, which folds the next instance in its turn, must cut so: with other
    chunks the next instance can be solved by a witness whose padding is not zero, though the statement has no solution, and nobody sees that padding.
    No cut that row 5 refuses is full.
    """
    if nu < 1 or mu < 1:
        return False
    after = next_sizes(sizes, nu, mu)
    return after.r <= 16 and nu * after.n == sizes.n


# ---- the library

_TYPES = {"bound": ctypes.c_uint64, "target": ctypes.c_uint64, "z_bound": ctypes.c_uint64, "one_digit": ctypes.c_uint8}


def _struct(name, fields):
    return type(name, (ctypes.Structure,), {"_fields_": [(f, _TYPES.get(f, ctypes.c_size_t)) for f in fields.split()]})


_Shape = _struct("_Shape", "d n r")
_CommitSizes = _struct("_CommitSizes", "d n r kappa kappa1 b1 b2 t1 t2")
_GarbageSizes = _struct("_GarbageSizes", "d n r k l w kappa2 b1 t1")
_Sizes = _struct("_Sizes", " ".join(Sizes._fields) + " one_digit")
_PartSizes = _struct("_PartSizes", "d n r kappa t1 t2 nu mu one_digit")
_Part = _struct("_Part", "start length")
_ConstraintSizes = _struct("_ConstraintSizes", "d n r k l w")
_BareSizes = _struct("_BareSizes", " ".join(BareSizes._fields))
_HEADER = "d n r k l w kappa kappa1 kappa2 b b1 b2 t1 t2 nu mu bound target".split()


class _Answer(ctypes.Structure):
    _fields_ = [("kind", ctypes.c_uint8), ("number", ctypes.c_uint64)]


class _Sheet(ctypes.Structure):
    _fields_ = _Answer._fields_ + [(f, _TYPES.get(f, ctypes.c_size_t)) for f in _HEADER]


class _Text(ctypes.Structure):
    _fields_ = _Answer._fields_ + [("length", ctypes.c_size_t)]


class _Element(ctypes.Structure):
    _fields_ = [("coefficients", ctypes.c_int32 * 64)]


class _Product(ctypes.Structure):
    _fields_ = _Answer._fields_ + [("element", _Element)]


def _library():
    path = os.environ.get("LIZKARG_SO") or Path(__file__).resolve().parent.parent.parent / "target/staticlib/liblizkarg.so"
    if not Path(path).exists():
        raise OSError(f"{path} is not there: bindings/python/build")
    library = ctypes.CDLL(str(path))
    results = {
        "multiply": _Product, "next_part_refusal": ctypes.c_uint8, "next_part": _Part, "sheet_numbers": ctypes.c_size_t, "read_sheet": _Sheet,
        "sheet_bytes": ctypes.c_size_t, "write_sheet": _Text,
    }
    answers = "commit project aggregate commit_garbage amortize amortize_one_digit verify next_instance judge_sheet bare_commit bare_phi bare_turn bare_verify"
    for name in [*answers.split(), *results]:
        getattr(library, "lizkarg_" + name).restype = results.get(name, _Answer)
    return library


_LIBRARY = None


def _call(name, *arguments):
    """Calls the library; a list becomes pointer and length."""
    global _LIBRARY
    if _LIBRARY is None:
        _LIBRARY = _library()
    flat = []
    for argument in arguments:
        if isinstance(argument, int):
            flat.append(ctypes.c_size_t(min(max(argument, -1), 2**64 - 1)))
        elif isinstance(argument, ctypes.Array):
            flat += [argument, ctypes.c_size_t(len(argument))]
        else:
            flat.append(argument)
    return getattr(_LIBRARY, "lizkarg_" + name)(*flat)


def _numbers(numbers):
    """The numbers as a list of the library's; one that does not fit 32 bits stands as one that is out of range."""
    return (ctypes.c_int32 * len(numbers))(*(x if -2**31 <= x < 2**31 else _LEAST for x in numbers))


def _bytes(text):
    return (ctypes.c_uint8 * len(text)).from_buffer_copy(text) if text else (ctypes.c_uint8 * 0)()


def _sized(kind, sizes, **more):
    """The sizes that a call takes; a negative one stands as one that is past every limit. Without a base z has one digit, and b, which is not looked at, is 0."""
    fold = _as_fold(sizes)
    values = {**fold._asdict(), **sizes._asdict(), **more, "one_digit": z_digits(fold) == 1, "b": 0 if fold.b is None else fold.b}
    return kind(*(values[field] if 0 <= values[field] < 2**64 else 2**64 - 1 for field, _ in kind._fields_))


def _room(sizes, *names):
    """Lists to write to, of the lengths that the sizes give; empty where the sizes are past their limits, which the call refuses."""
    known = bare_lengths(sizes) if isinstance(sizes, BareSizes) else lengths(sizes)
    return [_zeros(known[name]) for name in names]


def _zeros(length):
    # sizes within their limits give no length as large as this
    return (ctypes.c_int32 * (length if 0 <= length < 2**27 else 0))()


def _written(answer, *outs):
    """What was written; Refused where the call was refused."""
    if answer.kind == 2:
        raise Refused(answer.number)
    lists = [list(out) for out in outs]
    return lists[0] if len(lists) == 1 else lists


def _judged(answer, accepted=Accepted, failed=Failed):
    if answer.kind == 2:
        raise Refused(answer.number)
    return accepted(answer.number) if answer.kind == 0 else failed(answer.number)


# ---- the calls

def multiply(d, x, y):
    """The product of two elements, d numbers each, in Z_q[X]/(X^d+1). Refused 1, 8.

    >>> multiply(2, [1, 2], [1, 2])
    [-3, 4]
    """
    # an element has sixty-four numbers, and a number past them is a number past d
    x, y = (_Element((ctypes.c_int32 * 64)(*_numbers(e[:64] if not any(e[64:]) else [_LEAST]))) for e in (x, y))
    answer = _call("multiply", d, x, y)
    return _written(answer, answer.element.coefficients)[:d]


def commit(sizes, a_matrix, b_matrix, c_matrix, witness):
    """Message 1: the t digits, the g digits and u1. Refused 1 to 4, 7, 8."""
    outs = _room(sizes, "t", "g", "u1")
    return _written(_call("commit", _sized(_CommitSizes, sizes), *map(_numbers, (a_matrix, b_matrix, c_matrix, witness)), *outs), *outs)


def project(sizes, projections, witness):
    """Message 2: p. Refused 1, 2, 7 to 9."""
    outs = _room(sizes, "p")
    return _written(_call("project", _sized(_Shape, sizes), sizes.w, _numbers(projections), _numbers(witness), *outs), *outs)


def aggregate(sizes, constant_terms, projections, psi, omega, witness):
    """Message 3: the five b''. Refused 1, 2, 7 to 9."""
    outs = _room(sizes, "second_b")
    lists = map(_numbers, (constant_terms, projections, psi, omega, witness))
    return _written(_call("aggregate", _sized(_Shape, sizes), sizes.l, sizes.w, *lists, *outs), *outs)


def commit_garbage(sizes, whole, constant_terms, projections, psi, omega, alpha, delta, d_matrix, witness):
    """Message 4: the h digits and u2. Refused 1 to 4, 7 to 9."""
    outs = _room(sizes, "h", "u2")
    lists = map(_numbers, (whole, constant_terms, projections, psi, omega, alpha, delta, d_matrix, witness))
    return _written(_call("commit_garbage", _sized(_GarbageSizes, sizes), *lists, *outs), *outs)


def amortize(sizes, c, witness):
    """Message 5: z low, then z high, or z in one digit. Refused 1, 2, 4, 7, 8, 10, with one digit not 4."""
    outs = _room(sizes, "z")
    if _as_fold(sizes).b is None:
        return _written(_call("amortize_one_digit", _sized(_Shape, sizes), _numbers(c), _numbers(witness), *outs), *outs)
    return _written(_call("amortize", _sized(_Shape, sizes), sizes.b, _numbers(c), _numbers(witness), *outs), *outs)


def prove(sizes, witness, *, a_matrix, b_matrix, c_matrix, d_matrix, whole, constant_terms, projections, psi, omega, alpha, delta, c):
    """The proof: all five messages, where everything is drawn already. bindings/python/prove.py is an example."""
    t, g, u1 = commit(sizes, a_matrix, b_matrix, c_matrix, witness)
    p = project(sizes, projections, witness)
    second_b = aggregate(sizes, constant_terms, projections, psi, omega, witness)
    h, u2 = commit_garbage(sizes, whole, constant_terms, projections, psi, omega, alpha, delta, d_matrix, witness)
    opening = amortize(sizes, c, witness) + t + g + h
    return Proof(a_matrix, b_matrix, c_matrix, d_matrix, whole, constant_terms, u1, projections, p, psi, omega, second_b, alpha, delta, u2, c, opening)


def verify(sizes, proof):
    """The verdict: Accepted(margin) or Failed(check). Refused 1 to 4, 6 to 10, 15."""
    return _judged(_call("verify", _sized(_Sizes, sizes), *map(_numbers, proof)))


def bare_commit(sizes, a_matrix, witness):
    """t of the bare level, in the clear. Refused 1, 2, 3, 7, 8."""
    outs = _room(sizes, "t")
    return _written(_call("bare_commit", _sized(_Shape, sizes), sizes.kappa, _numbers(a_matrix), _numbers(witness), *outs), *outs)


def bare_phi(sizes, whole, constant_terms, projections, psi, omega, alpha, delta):
    """φ of the aggregate, which the turns take. Refused 1, 2, 7 to 9, 14."""
    outs = _room(sizes, "phi")
    lists = map(_numbers, (whole, constant_terms, projections, psi, omega, alpha, delta))
    return _written(_call("bare_phi", _sized(_ConstraintSizes, sizes), *lists, *outs), *outs)


def bare_turn(sizes, turn, phi, c, witness):
    """The four elements of a turn, from 1 to r; c are the challenges before it, turn - 1 elements. Refused 1, 2, 7, 8, 10."""
    outs = _room(sizes, "garbage")
    return _written(_call("bare_turn", _sized(_Shape, sizes), turn, _numbers(phi), _numbers(c), _numbers(witness), *outs), *outs)


def prove_bare(sizes, witness, *, a_matrix, whole, constant_terms, projections, psi, omega, alpha, delta, c):
    """The proof of the bare level, where everything is drawn already. bindings/python/chain.py is an example."""
    t = bare_commit(sizes, a_matrix, witness)
    p = project(sizes, projections, witness)
    second_b = aggregate(sizes, constant_terms, projections, psi, omega, witness)
    phi = bare_phi(sizes, whole, constant_terms, projections, psi, omega, alpha, delta)
    turns = [x for turn in range(1, sizes.r + 1) for x in bare_turn(sizes, turn, phi, c[:(turn - 1) * sizes.d], witness)]
    return BareProof(a_matrix, whole, constant_terms, projections, p, psi, omega, second_b, alpha, delta, c, t + amortize(sizes, c, witness) + turns)


def bare_verify(sizes, proof):
    """The verdict on the bare level: BareAccepted(margin) or BareFailed(check). Refused 1 to 3, 6 to 10, 14."""
    return _judged(_call("bare_verify", _sized(_BareSizes, sizes), *map(_numbers, proof)), BareAccepted, BareFailed)


def next_instance(sizes, nu, mu, proof):
    """The constraints of the next instance, one list; Failed(1) or Failed(2) where that check fails. The opening is not looked at. Refused 1 to 11.

    A chain must cut with ν·n' = n (`has_full_chunks`): else its accepted end says nothing of the first statement.
    docs/CALLS.md says what a chain with full chunks shows, and what it does not. That of a fold with one z digit can be sent bare: `prove_bare`.
    """
    out = _zeros(next_sizes(sizes, nu, mu).whole if nu > 0 and mu > 0 else 0)
    answer = _call("next_instance", _sized(_Sizes, sizes), nu, mu, *map(_numbers, proof[:-1]), out)
    return Failed(answer.number) if answer.kind == 1 else _written(answer, out)


def next_part(sizes, nu, mu, part, opening):
    """Part `part`, from 1, of the next witness, without the zeros that pad it. Refused 1 to 5, 7; 2 also for a part that is not 1 to r'."""
    taken = _sized(_PartSizes, sizes, nu=nu, mu=mu)
    opening_numbers = _numbers(opening)
    refusal = _call("next_part_refusal", taken, part, opening_numbers)
    if refusal:
        raise Refused(refusal)
    place = _call("next_part", taken, part, opening_numbers)
    return list(opening[place.start:place.start + place.length])


def next_witness(sizes, nu, mu, opening):
    """The next witness: its parts, each padded with zeros. Refused as `next_part` is."""
    first = next_part(sizes, nu, mu, 1, opening)
    after = next_sizes(sizes, nu, mu)
    parts = [first] + [next_part(sizes, nu, mu, part, opening) for part in range(2, after.r + 1)]
    return [x for part in parts for x in part + [0] * (after.n * sizes.d - len(part))]


def judge_sheet(text):
    """The verdict on a sheet of at most 65536 bytes, as the program prints it: Accepted(margin) or Failed(check). Refused 12, 1 to 6, 8 to 10, 15."""
    return _judged(_call("judge_sheet", _bytes(text)))


def read_sheet(text):
    """A sheet of any length, given as bytes: its sizes, ν, μ and its lists as a Proof. Refused 12, 1 to 6, 8 to 10."""
    taken = _bytes(text)
    # a number takes 16 bytes: where the text is too short for the numbers of its header, it is refused by 12 before their length counts
    numbers = (ctypes.c_int32 * min(_call("sheet_numbers", taken), len(text) // 16))()
    answer = _call("read_sheet", taken, numbers)
    read = _written(answer, numbers)
    sizes = Sizes(*(getattr(answer, field) for field in Sizes._fields))
    known, at, cut = lengths(sizes), 0, []
    for name in Proof._fields:
        cut.append(read[at:at + known[name]])
        at += known[name]
    return Sheet(sizes, answer.nu, answer.mu, Proof(*cut))


def sheet_bytes(sizes, nu, mu):
    """How many bytes the text of a sheet of these sizes has; 0 where they are refused, by 1 to 6. A sheet has two z digits: without a base it is refused."""
    return _call("sheet_bytes", _sized(_Sizes, sizes), nu, mu)


def write_sheet(sizes, nu, mu, proof):
    """The text of a sheet, as bytes: the sizes, ν and μ are its header, the lists of the Proof its other numbers. Refused 1 to 10.

    A sheet has two z digits: where b is None it is refused by 4 if not by 1 to 3.
    """
    known = lengths(sizes)
    # the library counts all numbers together: where one list is too long and another too short it is given none, and refuses by 7 at the latest
    fit = all(len(numbers) == known[name] for name, numbers in zip(Proof._fields, proof))
    taken = _numbers([x for numbers in proof for x in numbers] if fit else [])
    # a number takes at most 17 bytes, the header 289: too few numbers are refused by 7 before the length of the text counts
    text = (ctypes.c_uint8 * min(sheet_bytes(sizes, nu, mu), 289 + 17 * len(taken)))()
    _written(_call("write_sheet", _sized(_Sizes, sizes), nu, mu, taken, text))
    return bytes(text)
