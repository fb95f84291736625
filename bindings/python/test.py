#!/usr/bin/env python3
"""Holds the Python calls to the second implementation (tools/reference): random small folds, refusals, sheets. python3 bindings/python/test.py"""

import contextlib
import doctest
import io
import os
import random
import re
import subprocess
import sys
import tempfile
from pathlib import Path

ROOT = Path(__file__).resolve().parent.parent.parent
sys.path[:0] = [str(Path(__file__).resolve().parent), str(ROOT / "tools/reference"), str(ROOT / "tools/class")]

import bare
import bare_cases
import bare_fixtures
import case
import chain
import examples
import fold
import lizkarg
import low_digits
import ring
import sheet
import sizes as reference
from fixtures import SMALL, challenges, honest, margin_sides, random_lists, random_sizes, sides_of_challenges, uniform
from library import library_sizes as taken
from library import library_answer, library_verdict
from lizkarg import Accepted, BareAccepted, BareFailed, BareProof, BareSizes, Failed, Proof, Refused

GIVEN = [name for name in Proof._fields if name not in ("u1", "p", "second_b", "u2", "opening")] + ["witness"]


def refusal(call, *arguments):
    try:
        call(*arguments)
    except Refused as refused:
        return refused.number
    return 0


def test_docstrings():
    os.chdir(ROOT)
    for failed, tried in (doctest.testmod(lizkarg), doctest.testfile(str(ROOT / "bindings/python/README.md"), module_relative=False)):
        assert failed == 0 and tried > 5


def test_page_of_the_sheet():
    """The code of docs/SHEET.md."""
    code, names, said = re.search(r"```python\n(.*?)```", (ROOT / "docs/SHEET.md").read_text(), re.S).group(1), {}, io.StringIO()
    os.chdir(ROOT)
    with contextlib.redirect_stdout(said):
        exec(code, names)
    assert names["text"] == (ROOT / "examples/whole-case-too-long.sheet").read_bytes()
    assert said.getvalue() == f"{Failed(9)}\n" and f"# {Failed(9)}\n" in code


def test_example():
    with tempfile.TemporaryDirectory() as folder:
        path = Path(folder) / "sheet"
        for arguments in ([], [path]):
            example = subprocess.run([sys.executable, ROOT / "bindings/python/prove.py", *arguments], capture_output=True, text=True, check=True)
            assert example.stdout == "accepted: all nine checks hold, margin 0\n"
        assert path.read_bytes() == (ROOT / "examples/whole-case.sheet").read_bytes()


def test_answers():
    assert Accepted(0) and Accepted(7) and not Failed(3)
    assert Accepted(0) != Accepted(7) and Accepted(7).margin == 7
    assert str(Accepted(7)) == "accepted: all nine checks hold, margin 7"
    assert str(Failed(9)) == "failed: check 9, the digits are longer than the target bound"
    assert str(Refused(7)) == "refused: 7, a list's length is not what the sizes give"
    assert str(Refused(13)) == "refused: 13, the buffer is shorter than the text"
    assert str(Refused(14)) == "refused: 14, a constraint of the bare level has a nonzero a_ij with i < j"
    assert BareAccepted(0) and not BareFailed(3) and BareAccepted(7) != Accepted(7) and BareFailed(3) != Failed(3)
    assert str(BareAccepted(7)) == "accepted: all seven checks of the bare level hold, margin 7"
    assert str(BareFailed(4)) == "failed: the bare level's check 4, <z,z> is not what the garbage of z gives"
    assert len({str(BareFailed(check)) for check in range(1, 8)}) == 7
    assert str(Refused(15)) == "refused: 15, a low digit is more than half its base"
    # the command verdict --words says the same; but it knows no parts and no turns
    said = re.findall(r"[012]\.[0-9*]+\) echo (?:'([^']*)'|\"([^\"]*)\") ;;", (ROOT / "verdict").read_text())
    rows = [str(Refused(number)).replace("L, w or a part or turn number", "L or w") for number in (1, 2, 3, 4, 5, 6, 8, 9, 10, 12, 15)]
    assert [one or other for one, other in said] == [str(Accepted("$2")), *(str(Failed(check)) for check in range(1, 10)), *rows]


def next_answer(z, s, proof):
    """The next instance as the second implementation answers it."""
    try:
        found = lizkarg.next_instance(z, s.nu, s.mu, proof)
    except Refused as refused:
        return ("refused", refused.number)
    return ("failed", found.check) if isinstance(found, Failed) else ("written", {"next_whole": found})


def test_random(count=40):
    rng = random.Random(11)
    for _ in range(count):
        s = random_sizes(rng)._replace(beta_squared=rng.randint(0, 400), target_beta_squared=rng.randint(0, 10**15 - 1))
        x = {name: uniform(rng, ring.LARGEST, length(s)) for name, length in reference.LENGTHS.items()}
        x |= {"projections": uniform(rng, 1, len(x["projections"])), "c": challenges(rng, s), "witness": uniform(rng, 3, len(x["witness"]))}
        z, y = taken(s), fold.honest(s, x)
        proof = lizkarg.prove(z, **{name: x[name] for name in GIVEN})
        assert proof == Proof(**y)
        assert lizkarg.verify(z, proof) == library_verdict(fold.verdict(s, y))
        assert lizkarg.read_sheet(sheet.write_sheet(s, y)) == (z, s.nu, s.mu, proof)
        assert lizkarg.write_sheet(z, s.nu, s.mu, proof) == sheet.write_sheet(s, y)
        assert lizkarg.sheet_bytes(z, s.nu, s.mu) == sheet.text_length(s)
        assert lizkarg.next_sizes(z, s.nu, s.mu).whole == reference.LENGTHS["next_whole"](s)
        assert next_answer(z, s, proof) == fold.answer("next_instance", s, y | {"next_whole": [0] * reference.LENGTHS["next_whole"](s)})
        assert lizkarg.next_witness(z, s.nu, s.mu, proof.opening) == fold.flat(fold.flat(fold.next_witness(s, y)))
        for name in Proof._fields + ("witness",):
            assert lizkarg.lengths(z)[name] == reference.LENGTHS[name](s), name


def test_one_digit(count=40):
    """z in one digit: random folds, every call that knows it; b is None."""
    rng = random.Random(16)
    for _ in range(count):
        s = random_sizes(rng)._replace(beta_squared=rng.randint(0, 400), target_beta_squared=rng.randint(0, 10**15 - 1), tz=1)
        s = s._replace(nu=rng.randint(1, 15))
        s = s._replace(mu=rng.randint(1, 16 - s.nu))
        x = {name: uniform(rng, ring.LARGEST, length(s)) for name, length in reference.LENGTHS.items()}
        x |= {"projections": uniform(rng, 1, len(x["projections"])), "c": challenges(rng, s), "witness": uniform(rng, 3, len(x["witness"]))}
        z, y = taken(s)._replace(b=None), fold.honest(s, x)
        proof = lizkarg.prove(z, **{name: x[name] for name in GIVEN})
        assert proof == Proof(**y)
        assert lizkarg.verify(z, proof) == library_verdict(fold.verdict(s, y))
        assert lizkarg.next_sizes(z, s.nu, s.mu) == (reference.next_rank(s), reference.next_multiplicity(s), reference.next_constraint_count(s), reference.LENGTHS["next_whole"](s))
        assert next_answer(z, s, proof) == fold.answer("next_instance", s, y | {"next_whole": [0] * reference.LENGTHS["next_whole"](s)})
        assert lizkarg.next_witness(z, s.nu, s.mu, proof.opening) == fold.flat(fold.flat(fold.next_witness(s, y)))
        for name in Proof._fields + ("witness",):
            assert lizkarg.lengths(z)[name] == reference.LENGTHS[name](s), name
        assert lizkarg.has_full_chunks(z, s.nu, s.mu) == (s.nu * reference.next_rank(s) == s.n)
        assert refusal(lizkarg.write_sheet, z, s.nu, s.mu, proof) == 4 and lizkarg.sheet_bytes(z, s.nu, s.mu) == 0
        assert refusal(lizkarg.verify, z._replace(b=4), proof) == 7 and refusal(lizkarg.verify, z, proof._replace(opening=proof.opening + [0] * (s.n * s.d))) == 7
    free = low_digits.FREE._replace(**low_digits.ODD, tz=1)
    for group in (low_digits.sides(free), low_digits.far_low_digits(free), low_digits.wide_tops(free), low_digits.with_rows(free), low_digits.failing_checks(free)):
        for name, answer, sized, y in group:
            assert library_answer(lizkarg.verify, taken(sized)._replace(b=None), Proof(**y)) == answer, name
    for nu, mu, row in ((9, 7, 0), (15, 1, 0), (16, 1, 5), (9, 8, 5), (0, 1, 5), (2**64, 1, 5)):
        found = refusal(lizkarg.next_instance, z, nu, mu, proof)
        assert found == row, (nu, mu)
    assert [refusal(lizkarg.next_part, z, 8, 1, part, proof.opening) for part in (0, 1, 9, 10)] == [2, 0, 0, 2]
    assert [refusal(lizkarg.next_part, z, 16, 1, part, proof.opening) for part in (17, 18)] == [5, 2]


def bare_taken(s):
    """The sizes of the second implementation, as the library's."""
    return BareSizes(s.d, s.n, s.r, s.K, s.L, s.w, s.kappa, s.beta_squared, s.z_bound)


def bare_lists(y):
    return BareProof(**{"opening" if name == "bare_opening" else name: numbers for name, numbers in y.items()})


def bare_given(x):
    """The lists that prove_bare takes."""
    return {name: x[name] for name in (*(name for name in BareProof._fields if name not in ("p", "second_b", "opening")), "witness")}


def bare_call(number, s, x):
    """A call of the bare level by its number in the stored cases."""
    z = bare_taken(s)
    if number == bare_cases.COMMIT:
        return lizkarg.bare_commit(z, x["a_matrix"], x["witness"])
    if number == bare_cases.PHI:
        return lizkarg.bare_phi(z, *(x[name] for name in bare.CALLS["bare_phi"].reads))
    if number == bare_cases.TURN:
        return lizkarg.bare_turn(z, s.turn, x["phi"], x["earlier_c"], x["witness"])
    return lizkarg.bare_verify(z, bare_lists({name: x[name] for name in bare.VERIFIER_LISTS}))


def test_bare(count=40):
    """The bare level: random honest ones and changed ones, every call of it."""
    rng = random.Random(17)
    for _ in range(count):
        s, x, y = bare_fixtures.honest_case(rng)
        z, proof = bare_taken(s), bare_lists(y)
        assert lizkarg.prove_bare(z, **bare_given(x)) == proof
        assert library_answer(lizkarg.bare_verify, z, proof) == bare.answer("bare_verify", s, y) == bare_fixtures.expected(s, y)
        for name in bare.VERIFIER_LISTS + ["witness", "t", "phi", "garbage"]:
            assert lizkarg.bare_lengths(z)["opening" if name == "bare_opening" else name] == bare.LENGTHS[name](s), name
        name = rng.choice([name for name in y if y[name]])
        place = rng.randrange(len(y[name]))
        changed = y | {name: [*y[name][:place], rng.choice((0, 1, -2, 3, ring.LARGEST, -ring.LARGEST - 1)), *y[name][place + 1:]]}
        assert library_answer(lizkarg.bare_verify, z, bare_lists(changed)) == bare.answer("bare_verify", s, changed)


def test_bare_cases():
    """The stored cases of crates/bare_cases, but those of which only the length of a written list is wrong: the binding makes these lists."""
    seen = set()
    for number, s, x, given in bare_cases.cases():
        call = bare_cases.NUMBERED[number]
        if any(length != bare.LENGTHS[name](s) for name, length in given.items()) and bare.refusal(call, s, x) == 0:
            continue
        kind, content = bare.answer(call, s, x)
        seen.add((number, kind, content if kind == "refused" else 0))
        try:
            found = bare_call(number, s, x)
        except Refused as refused:
            assert (kind, content) == ("refused", refused.number), (call, s)
            continue
        if number == bare_cases.VERIFY:
            assert found == {"accepted": BareAccepted, "failed": BareFailed}[kind](content), s
        else:
            assert content == {name: found for name in bare.CALLS[call].lengths_only}, (call, s)
    assert {row for _, kind, row in seen if kind == "refused"} == {1, 2, 3, 6, 7, 8, 9, 10, 14}


def test_bare_refusals():
    s, x, y = bare_fixtures.honest_case(random.Random(18), d=2, n=2, r=3, K=1, L=1, w=1, kappa=1)
    z, proof, phi = bare_taken(s), bare_lists(y), bare.bare_phi(s, x)["phi"]
    for change, row in (({"d": -1}, 1), ({"n": 2**64}, 2), ({"r": 10**9}, 2), ({"kappa": 9}, 3), ({"z_bound": -1}, 6), ({"z_bound": 10**15}, 6), ({"bound": 10**15}, 6)):
        assert refusal(lizkarg.bare_verify, z._replace(**change), proof) == row, change
    for turn, row in ((-1, 2), (0, 2), (1, 7), (3, 0), (4, 2), (2**64, 2), (2**70, 2)):
        assert refusal(lizkarg.bare_turn, z, turn, phi, x["c"][: 2 * s.d], x["witness"]) == row, turn
    for kind in ("whole", "constant_terms"):
        mixed = bare_lists(bare_fixtures.with_mixed(s, y, kind, 0, (1, 2), 1))
        assert refusal(lizkarg.bare_verify, z, mixed) == 14 and refusal(lizkarg.bare_verify, z, mixed._replace(c=[3, *mixed.c[1:]])) == 10
        assert refusal(lizkarg.bare_phi, z, *(getattr(mixed, name) for name in bare.CALLS["bare_phi"].reads)) == 14
    assert refusal(lizkarg.bare_verify, z, proof._replace(opening=[2**70, *proof.opening[1:]])) == 8


def test_chain():
    """bindings/python/chain.py: every level of a chain is accepted with the margin 0 under tight bounds and full chunks, and the last one, sent bare, fails with one
    less; at degree 2 the second implementation says the same of every level.
    """
    for d in (2, 8, 64):
        levels = list(chain.chain(d))
        assert [verdict for _, _, verdict in levels] == [Accepted(0)] * 3 + [BareAccepted(0)]
        assert [sizes.b for sizes, _, _ in levels[:-1]] == [16, 128, None]
        for level, (sizes, proof, _), (after, _, _) in zip(chain.LEVELS, levels, levels[1:]):
            assert lizkarg.has_full_chunks(sizes, level["nu"], level["mu"]) and after.bound == sizes.target
            assert lizkarg.verify(sizes._replace(target=sizes.target - 1), proof) == Failed(9)
        z, last, _ = levels[-1]
        assert lizkarg.bare_verify(z._replace(z_bound=z.z_bound - 1), last) == BareFailed(7)
        # the instances before have mixed products
        sizes, proof, _ = levels[2]
        early = BareSizes(d, sizes.n, sizes.r, sizes.k, sizes.l, sizes.w, sizes.kappa, sizes.bound, z.z_bound)
        assert refusal(lizkarg.bare_phi, early, *(getattr(proof, name) for name in bare.CALLS["bare_phi"].reads)) == 14
        if d == 2:
            same = reference.BareSizes(z.d, z.n, z.r, z.k, z.l, z.w, z.kappa, z.bound, z.z_bound)
            lists = last._asdict()
            assert bare.answer("bare_verify", same, lists | {"bare_opening": lists["opening"]}) == ("accepted", 0)
            for s, proof, _ in levels[:-1]:
                s = reference.Sizes(s.d, s.n, s.r, s.k, s.l, s.w, s.kappa, s.kappa1, s.kappa2, s.b, s.b1, s.b2, s.t1, s.t2, 1, 1, s.bound, s.target, 2 if s.b else 1)
                assert fold.answer("verify", s, proof._asdict()) == ("accepted", 0)


def test_chain_printed():
    """What the program prints is what docs/CLASS.md shows."""
    said = subprocess.run([sys.executable, ROOT / "bindings/python/chain.py"], capture_output=True, text=True, check=True).stdout
    assert said.count("margin 0") == 4 and all("    " + line in (ROOT / "docs/CLASS.md").read_text().splitlines() for line in said.splitlines())


def test_full_chunks():
    """ν·n' = n, up to r' = 16; past row 5 no cut is full. Here m = 6."""
    one = taken(SMALL)._replace(n=12, r=1, kappa=1, t1=2, t2=2, b=None)
    shared, half, most = [(1, 1), (2, 1), (3, 2), (4, 2), (6, 3)], 2**63, 2**64 - 1
    neither = [(0, 0), (0, 1), (0, 6), (1, 0), (2, 0), (12, 0), (1, most), (1, most - 1), (12, most), (half, 1), (half, 2), (half, half), (most, 1), (most, 2), (most, 3)]
    neither += [(most, most), (half + 1, most), (0, most), (most, 0), (2**70, 1), (1, 2**70), (-1, 1), (1, -1), (-12, -6), (18, -6), (-6, 18)]
    for sizes, full, other in (
        (one, [(1, 15), (6, 10)], [(3, 1), (5, 6), (12, 4), (1, 16), (2, 15), (6, 11), (12, 6)]),
        (one._replace(b=4), [(1, 14), (6, 4)], [(3, 1), (5, 6), (7, 2), (1, 15), (2, 13), (6, 5), (12, 6)]),
    ):
        assert [cut for cut in shared + full + neither + other if lizkarg.has_full_chunks(sizes, *cut)] == shared + full


def test_refusals():
    s, x, y = case.honest()
    z, proof = taken(s), Proof(**y)
    for change, row in (({"d": 3}, 1), ({"d": -1}, 1), ({"n": 0}, 2), ({"n": 2**64}, 2), ({"r": 17}, 2), ({"kappa": 9}, 3), ({"b": 1}, 4), ({"t1": 9}, 4), ({"bound": 10**15}, 6), ({"target": -1}, 6)):
        assert refusal(lizkarg.verify, z._replace(**change), proof) == row, change
    assert refusal(lizkarg.verify, z, proof._replace(u1=proof.u1 + [0])) == 7
    for bad in (ring.LARGEST + 1, -ring.LARGEST - 1, 2**31, 2**32, 2**32 + 1, 2**70, -2**70):
        assert refusal(lizkarg.verify, z, proof._replace(u1=[bad, *proof.u1[1:]])) == 8, bad
    assert refusal(lizkarg.verify, z, proof._replace(projections=[2, *proof.projections[1:]])) == 9
    assert refusal(lizkarg.verify, z, proof._replace(c=[3, *proof.c[1:]])) == 10
    wide = proof._replace(opening=[3, *proof.opening[1:]])
    assert refusal(lizkarg.verify, z, wide) == 15 and refusal(lizkarg.verify, z, wide._replace(c=[3, *proof.c[1:]])) == 10
    assert refusal(lizkarg.verify, z, proof._replace(opening=[2, *proof.opening[1:]])) == 0
    assert refusal(lizkarg.next_instance, z, 8, 1, proof) == 5
    assert refusal(lizkarg.next_instance, z, 0, 1, proof) == 5
    assert refusal(lizkarg.next_instance, z, 2**64, 1, proof) == 5
    assert refusal(lizkarg.commit, z._replace(r=10**9), x["a_matrix"], x["b_matrix"], x["c_matrix"], x["witness"]) == 2
    for change, row in (({"d": -1}, 1), ({"n": -1}, 2), ({"r": 2**70}, 2), ({"kappa": 2**64}, 3), ({"t1": -2}, 4), ({"t2": 2**64, "r": 2**64}, 2)):
        assert refusal(lizkarg.commit, z._replace(**change), x["a_matrix"], x["b_matrix"], x["c_matrix"], x["witness"]) == row, change
    for w in (-1, 257, 2**64, 2**70):
        assert refusal(lizkarg.project, z._replace(w=w), x["projections"], x["witness"]) == 2, w
    assert refusal(lizkarg.judge_sheet, b"") == 12
    assert refusal(lizkarg.read_sheet, b"no sheet") == 12
    largest = "64 256 16 32 32 256 8 8 8 4 8 4 8 8 1 1 5 13".split()
    assert refusal(lizkarg.read_sheet, ("".join(f"{x:>16}" for x in largest) + "\n").encode()) == 12
    assert refusal(lizkarg.next_part, z, s.nu, s.mu, 2 * s.nu + s.mu + 1, proof.opening) == 2
    assert refusal(lizkarg.next_witness, z, 8, 1, proof.opening) == 5


def test_challenges():
    """Both sides of the rule for challenges at degrees 64 and 32, through every call that takes them."""
    rng = random.Random(12)
    for name, shape, allowed, c in sides_of_challenges(rng):
        s = SMALL._replace(K=0, **shape)
        x = random_lists(rng, s, True) | {"c": c}
        s, y = honest(rng, s, **x)
        z, cut, proof, text, row = taken(s), (s.nu, s.mu), Proof(**y), sheet.write_sheet(s, y), 0 if allowed else 10
        assert refusal(lizkarg.amortize, z, c, x["witness"]) == row, name
        assert refusal(lambda: lizkarg.prove(z, **{name: x[name] for name in GIVEN})) == row, name
        for call, arguments in (
            (lizkarg.verify, (z, proof)), (lizkarg.next_instance, (z, *cut, proof)), (lizkarg.read_sheet, (text,)),
            (lizkarg.judge_sheet, (text,)), (lizkarg.write_sheet, (z, *cut, proof)),
        ):
            assert refusal(call, *arguments) == row, (name, call)
        if allowed:
            assert lizkarg.verify(z, proof) == lizkarg.judge_sheet(text) == Accepted(0) and lizkarg.write_sheet(z, *cut, proof) == text


def test_margins():
    """The target bound on both sides of the squared length of all digits, and at its largest, through both calls that judge."""
    for name, verdict, s, y in margin_sides(random.Random(14)):
        assert lizkarg.verify(taken(s), Proof(**y)) == library_verdict(verdict), name
        assert lizkarg.judge_sheet(sheet.write_sheet(s, y)) == library_verdict(verdict), name
    s, _, y = case.honest()
    z, proof = taken(s), Proof(**y)
    for margin in (0, 1, 255, 256, 65535, 65536, 2**32 - 1, 2**32, 10**15 - 1 - s.target_beta_squared):
        assert lizkarg.verify(z._replace(target=z.target + margin), proof) == Accepted(margin)
    assert lizkarg.verify(z._replace(target=z.target - 1), proof) == Failed(9)


def test_low_digits():
    """Low digits on both sides of half their base, wide top digits, lower rows and failing checks beside them, through every call that takes an opening."""
    rng = random.Random(15)
    answers = set()
    for bases in (low_digits.ODD, low_digits.EVEN, low_digits.OTHER_ODD, low_digits.OTHER_EVEN):
        s = low_digits.FREE._replace(**bases)
        groups = (
            low_digits.sides(s), low_digits.far_low_digits(s), low_digits.wide_tops(s), low_digits.with_rows(s), low_digits.with_checks(s),
            low_digits.failing_checks(s), low_digits.recomposed(rng, SMALL._replace(r=2, L=1, w=1)), low_digits.sides(s._replace(t1=4, t2=3, kappa=2)),
        )
        for name, answer, sized, y in (case for group in groups for case in group):
            z, cut, proof = taken(sized), (sized.nu, sized.mu), Proof(**y)
            assert library_answer(lizkarg.verify, z, proof) == answer, name
            answers.add(answer[:1] if answer[0] == "accepted" else answer)
            if answer == ("refused", 7):
                continue
            text = sheet.write_sheet(sized, y)
            assert library_answer(lizkarg.judge_sheet, text) == answer, name
            row = 0 if answer[0] != "refused" or answer[1] == 15 else answer[1]
            assert refusal(lizkarg.read_sheet, text) == refusal(lizkarg.write_sheet, z, *cut, proof) == row, name
            if row == 0:
                assert lizkarg.read_sheet(text) == (z, *cut, proof) and lizkarg.write_sheet(z, *cut, proof) == text, name
                assert next_answer(z, sized, proof) == fold.answer("next_instance", sized, y), name
                assert lizkarg.next_witness(z, *cut, proof.opening) == fold.flat(fold.flat(fold.next_witness(sized, y))), name
    assert answers == {("accepted",), *(("failed", check) for check in range(1, 10)), *(("refused", row) for row in (7, 8, 9, 10, 15))}
    for name, answer, sized, y in low_digits.halves(rng, SMALL._replace(n=2, r=2, b=4, b1=6, b2=2, t1=3, t2=3)):
        assert library_answer(lizkarg.verify, taken(sized), Proof(**y)) == answer, name


def test_refusals_of_the_writer():
    s, _, y = case.honest()
    z, cut, proof = taken(s), (s.nu, s.mu), Proof(**y)
    write = lizkarg.write_sheet
    spoilt = proof._replace(u1=[2**70, *proof.u1[1:]], projections=[2, *proof.projections[1:]], c=[3, *proof.c[1:]])
    for change, row in (({"d": 3, "r": 17}, 1), ({"d": -1}, 1), ({"n": 2**64, "kappa": 0}, 2), ({"kappa": 0, "b": 1}, 3), ({"b": 1, "bound": 10**15}, 4), ({"bound": -1}, 6), ({"target": 10**15}, 6), ({"r": 10**9}, 2)):
        assert refusal(write, z._replace(**change), *cut, spoilt) == row, change
        assert lizkarg.sheet_bytes(z._replace(**change), *cut) == 0, change
    for other in ((0, 1), (1, 0), (8, 1), (-1, 1), (1, -1), (2**63, 2), (2**64, 1), (1, 2**70)):
        assert refusal(write, z, *other, spoilt) == 5, other
        assert refusal(write, z._replace(t1=9), *other, spoilt) == 4, other
        assert lizkarg.sheet_bytes(z, *other) == 0, other
    assert refusal(write, z, *cut, spoilt._replace(p=[])) == 7
    # as many numbers as the sizes give, but not in their lists
    moved = {"u1": spoilt.u1 + [0], "p": spoilt.p[:-1]}
    assert refusal(write, z, *cut, spoilt._replace(**moved)) == 7
    assert refusal(write, z, *cut, proof._replace(a_matrix=proof.a_matrix[:-1], b_matrix=[1, *proof.b_matrix])) == 7
    assert refusal(write, z._replace(target=10**15), *cut, spoilt._replace(**moved)) == 6
    assert refusal(write, z, *cut, spoilt) == 8
    for bad in (ring.LARGEST + 1, -ring.LARGEST - 1, 2**31, 2**32, 2**32 + 1, 2**70, -2**70):
        for name in Proof._fields:
            if getattr(proof, name):
                assert refusal(write, z, *cut, proof._replace(**{name: [*getattr(proof, name)[:-1], bad]})) == 8, (name, bad)
    assert refusal(write, z, *cut, spoilt._replace(u1=proof.u1)) == 9
    assert refusal(write, z, *cut, proof._replace(c=spoilt.c)) == 10
    # the largest sizes, without room for their text
    largest = z._replace(d=64, n=256, r=16, k=32, l=32, w=256, kappa=8, kappa1=8, kappa2=8, t1=8, t2=8)
    assert lizkarg.sheet_bytes(largest, *cut) > 10**9 and refusal(write, largest, *cut, proof) == 7


def test_long_text():
    """Longer than the program takes: written, and read again."""
    rng = random.Random(5)
    s, _, _ = case.honest()
    s = s._replace(d=32, n=8, K=2)
    x = {name: uniform(rng, ring.LARGEST, length(s)) for name, length in reference.LENGTHS.items() if name in Proof._fields}
    x |= {"projections": uniform(rng, 1, len(x["projections"])), "c": challenges(rng, s)}
    text = lizkarg.write_sheet(taken(s), s.nu, s.mu, Proof(**x))
    assert len(text) > sheet.LARGEST_TEXT and text == sheet.write_sheet(s, x)
    assert lizkarg.read_sheet(text) == (taken(s), s.nu, s.mu, Proof(**x))
    assert refusal(lizkarg.judge_sheet, text) == 12


def test_product():
    assert lizkarg.multiply(2, [1, 2], [1, 2]) == [-3, 4]
    assert lizkarg.multiply(2, [0, 1], [0, 1]) == [-1, 0]
    assert refusal(lizkarg.multiply, 3, [1], [1]) == 1
    assert refusal(lizkarg.multiply, 2, [1, 2, 3], [1]) == 8
    assert refusal(lizkarg.multiply, 64, [0] * 63 + [2**32], [1]) == 8
    assert refusal(lizkarg.multiply, 64, [0] * 64 + [1], [1]) == 8
    assert lizkarg.multiply(2, [1, 2] + [0] * 70, [1]) == [1, 2]


def test_examples():
    for path in sorted((ROOT / "examples").glob("*.sheet")):
        kind, number = (int(x) for x in path.with_suffix(".verdict").read_text().split())
        if kind == 2:
            assert refusal(lizkarg.judge_sheet, path.read_bytes()) == number
        else:
            assert lizkarg.judge_sheet(path.read_bytes()) == (Failed(number) if kind else Accepted(number))


def test_written_examples():
    """The sheets of examples/ from their numbers: the writer makes the second implementation's texts, and refuses what the reader refuses."""
    answers = []
    for known, _, text in examples.examples():
        assert (ROOT / f"examples/{known}.sheet").read_bytes() == text
        s, start = sheet.read_header(text)[1]
        try:
            lists = sheet.read_body(s, text, start)
        except sheet.Broken:
            continue
        read, write = refusal(lizkarg.read_sheet, text), refusal(lizkarg.write_sheet, taken(s), s.nu, s.mu, Proof(**lists))
        assert read == write, known
        assert write or lizkarg.write_sheet(taken(s), s.nu, s.mu, Proof(**lists)) == text, known
        answers.append(write)
    assert sorted(answers) == [0, 0, 0, 0, 0, 0, 0, 0, 8, 10, 10]


def test_written_corpus():
    """Every text of crates/verdict_cases that the reader takes is written again, byte by byte; above 65536 bytes too, where the judge says 12."""
    cases, lines = ((ROOT / "crates/verdict_cases" / name).read_bytes() for name in ("stdin", "stdout"))
    at, written = 17, 0
    for number in range(int(cases[:16])):
        count = int(cases[at:at + 16])
        text, (kind, row) = cases[at + 17:at + 17 + count], map(int, lines[33 * number:33 * number + 33].split())
        at += count + 18
        if refusal(lizkarg.read_sheet, text):
            assert kind == 2, number
            continue
        assert kind < 2 or row == 15 or count > 65536, number
        read = lizkarg.read_sheet(text)
        assert lizkarg.write_sheet(read.sizes, read.nu, read.mu, read.proof) == text, number
        written += 1
    assert at == len(cases) and written == 353


if __name__ == "__main__":
    tests = [value for name, value in sorted(globals().items()) if name.startswith("test_")]
    for test in tests:
        test()
    print(f"{len(tests)} passed")
