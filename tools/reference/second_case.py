"""The numbers of the second closed case, all computed here: crates/fold_values/specs/Cases/SecondCaseNumbers.antt. SecondCase.antt proves that
they are the definitions'.

Sizes are small, with odd and even bases; matrices, constraints and draws have coefficients of
every size; the witness is short and meets its constraints. In z to base 4 some numbers lie halfway, so that the rule for halves matters.
"""

import random

import fold
import ring
import sizes
import stored
from fixtures import OPEN, accepted, failed, least_bounds, moved, random_lists, with_commitments
from sizes import LENGTHS, Sizes

SEED = 3
COLUMNS = 130

# 5 elements of z are cut into chunks of 2, 2, 1 and 0, 42 of the rest into 14, 14 and 14.
SIZES = Sizes(
    d=2, n=5, r=3, K=2, L=3, w=4, kappa=2, kappa1=3, kappa2=2, b=4, b1=255, b2=3, t1=2, t2=3, nu=4, mu=3, **OPEN
)

# Places of one number of the opening: in element 2 of z high, in row 2 of the low digit of t_1, in the middle digit of g_13, in the
# high digit of h_12.
PLACES = {"z": 13, "t": 22, "g": 58, "h": 87}

# The definitions' name of the constant-term constraints.
CONSTANT_TERMS = "constant_terms"

# The lists that are given, as SecondCaseNumbers names them.
GIVEN = {
    "whole": "whole", CONSTANT_TERMS: "constant_terms", "A": "a_matrix", "B": "b_matrix", "C": "c_matrix", "D": "d_matrix",
    "witness": "witness", "projections": "projections", "ψ": "psi", "ω": "omega", "α": "alpha", "δ": "delta", "c": "c",
}

# The constraints of the next instance, in order.
NEXT = "next_5_1 next_5_2 next_6 next_7 next_8 next_3_1 next_3_2 next_3_3 next_4_1 next_4_2".split()


# antt text

HEADER = """\
-- Written by tools/reference/second_case.py, the second implementation: a statement, a witness that meets it, draws, and the numbers
-- that the second implementation computes from them. SecondCase proves that they are the definitions'.
use Rattle.std.specs.Prelude.{List, [], ◌∷◌, ℕ, set, ℤ}
use Rattle.integers.specs.Literals.{+◌, -◌, ◌zeros∷◌}
use Rattle.fold.specs.Statement.{Statement, Draws}
"""

RECORDS = """\
abbrev pub statement : (bound target : ℕ) → Statement
statement bound target =
    record {{
      relation = record {{ d = {d}; n = {n}; r = {r}; K = {K}; L = {L}; bound = bound; whole = whole; {terms} = {terms} }};
      w = {w};
      tz = 2;
      κ = {kappa};
      κ₁ = {kappa1};
      κ₂ = {kappa2};
      b = {b};
      b₁ = {b1};
      b₂ = {b2};
      t₁ = {t1};
      t₂ = {t2};
      target = target;
      A = A;
      B = B;
      C = C;
      D = D;
    }}

abbrev pub draws : Draws
draws = record {{ projections = projections; ψ = ψ; ω = ω; α = α; δ = δ; c = c }}
"""


def number_text(number):
    """A number with its sign."""
    return f"{'-' if number < 0 else '+'} {abs(number)}"


def list_text(numbers):
    """The lines of a list: three zeros or more are one entry; a line breaks before "∷"."""
    text = ""
    k = 0
    while k < len(numbers):
        run = next((e for e in range(k, len(numbers)) if numbers[e]), len(numbers)) - k
        text += f"{run} zeros∷ " if run > 2 else f"{number_text(numbers[k])} ∷ "
        k += run if run > 2 else 1
    lines = []
    for entry in (text + "[]").split(" ∷ "):
        if lines and len(lines[-1]) + len(entry) + 3 <= COLUMNS:
            lines[-1] += " ∷ " + entry
        else:
            lines.append("∷ " + entry if lines else entry)
    return lines


def definition(name, type_of_it, lines, comment=None):
    """A declaration, with a comment above it if one is given."""
    body = " " + lines[0] if len(lines) == 1 else "".join("\n    " + line for line in lines)
    return (f"-- {comment}\n" if comment else "") + f"abbrev pub {name} : {type_of_it}\n{name} ={body}\n"


def list_definition(name, numbers, comment=None):
    """The declaration of a list of numbers."""
    return definition(name, "List ℤ", list_text(numbers), comment)


def changed_definition(name, of, numbers, place, comment=None):
    """The declaration of the list `of` with the number at one place greater by one."""
    return definition(name, "List ℤ", [f"set {of} {place} ({number_text(numbers[place] + 1)})"], comment)


# The case

def check_verdicts(s, y, changed):
    """The verdicts that SecondCase proves. `changed` has the lists with one number of the opening changed, by block."""
    largest = s._replace(target_beta_squared=sizes.LARGEST_BOUND)
    for bounds, lists, verdict in (
        (s, y, accepted(0)),
        (s._replace(beta_squared=s.beta_squared - 1), y, failed(1)),
        (s._replace(target_beta_squared=s.target_beta_squared - 1), y, failed(9)),
        (largest, moved(y, "second_b", 0), failed(2)),
        (largest, changed["t"], failed(3)),
        (largest, changed["g"], failed(3)),
        (largest, changed["h"], failed(4)),
        (largest, changed["z"], failed(5)),
        (largest, with_commitments(s, changed["g"]), failed(6)),
        (largest, with_commitments(s, changed["h"]), failed(7)),
        (largest, moved(y, "second_b", 1), failed(8)),
    ):
        assert fold.answer("verify", bounds, lists) == verdict


def files():
    x = random_lists(random.Random(SEED), SIZES, short_witness=True)
    y = fold.honest(SIZES, x)
    with ring.kept_rule():
        assert y["opening"] != fold.honest(SIZES, x)["opening"], "no number of z lies halfway"
    s = least_bounds(SIZES, y)
    changed = {block: moved(y, "opening", place) for block, place in PLACES.items()}
    check_verdicts(s, y, changed)
    kind, written = fold.answer("next_instance", s, y)
    assert kind == "written" and fold.solves(fold.next_statement(s, y), fold.next_witness(s, y))
    constraints = fold.cut(written["next_whole"], LENGTHS["next_whole"](s) // len(NEXT))

    texts = [HEADER]
    texts += [list_definition(name, x[GIVEN[name]]) for name in GIVEN]
    texts += [RECORDS.format(**s._asdict(), terms=CONSTANT_TERMS)]
    texts += ["-- the honest messages and opening\n" + list_definition("u₁", y["u1"])]
    texts += [list_definition("p", y["p"]), list_definition("b''", y["second_b"]), list_definition("u₂", y["u2"])]
    texts += [list_definition("opening", y["opening"])]
    texts += [definition("least-bound", "ℕ", [str(s.beta_squared)], "the least bounds with which it is accepted")]
    texts += [definition("squared_length", "ℕ", [str(s.target_beta_squared)])]
    texts += ["-- one number greater by one: in b'' a constant term or another coefficient; in the opening one of z, t, g or h"]
    texts[-1] += "\n" + changed_definition("b''_changed_0", "b''", y["second_b"], 0)
    texts += [changed_definition("b''_changed_1", "b''", y["second_b"], 1)]
    texts += [changed_definition(f"{block}_changed", "opening", y["opening"], place) for block, place in PLACES.items()]
    u1, u2 = with_commitments(s, changed["g"])["u1"], with_commitments(s, changed["h"])["u2"]
    texts += [list_definition("u₁_of_g_changed", u1, "the commitments to the changed g and h")]
    texts += [list_definition("u₂_of_h_changed", u2)]
    texts += [f"-- the next instance for ν = {s.nu}, μ = {s.mu}, and the padded opening"]
    texts[-1] += "\n" + list_definition(NEXT[0], constraints[0])
    texts += [list_definition(*each) for each in zip(NEXT[1:], constraints[1:], strict=True)]
    texts += [list_definition("next-witness", fold.flat(fold.flat(fold.next_witness(s, y))))]
    yield "crates/fold_values/specs/Cases/SecondCaseNumbers.antt", "\n".join(texts).encode()


if __name__ == "__main__":
    stored.write(files)
