"""The calls of the fold, refusals first; and the whole fold under one name.

The definitions in the modules below are for calls that are not refused. Quotations are from docs/SPECIFICATION.md.
"""

import sizes
from prover import *
from recursion import *
from relation import *
from verifier import *

DEFINITIONS = {
    "message_1": message_1,
    "message_2": message_2,
    "message_3": message_3,
    "message_4": message_4,
    "message_5": message_5,
    "verify": verdict,
    "next_instance": next_instance,
}


def answer(call, s, x):
    """ "The verifier's answer is either a refusal with its number or a judgement, and a judgement is accepted or failed with a
    check." ("refused", number), ("accepted", margin), ("failed", check), or ("written", lists) with the lists that the call writes by name.
    """
    number = sizes.refusal(call, s, x)
    if number:
        return ("refused", number)
    result = DEFINITIONS[call](s, x)
    return ("written", result) if isinstance(result, dict) else result


def answer_next_part(s, x, part):
    """ "where one of 1 to 7 applies (2 for a part outside 1..r') the chunk is empty, and a question beside it answers that
    number, else 0." The number and the chunk.
    """
    number = sizes.refusal("next_part", s, x, part)
    return (number, [] if number else next_part(s, x, part))
