"""The table of refusals that the port follows: which number a case of given sizes gets. It comes from the paper that orders the port, not from the crate.

| number | when |
|---|---|
| 1 | the key is not of 16, 24 or 32 bytes |
| 2 | m is not in 1 to 26, or the state's number of rounds is not 10, 12 or 14 |
| 3 | the nonce is not of 6 to 15 bytes |
| 4 | the tag is not of 1 to 16 bytes |
| 5 | the text has more than 2^(m+4) bytes |
| 6 | the data has more than 2^(m+4) bytes |

The smallest number that applies is given, with no cipher call and nothing changed. 0 is done; 7 is an open whose tag differs, with the text cleared.
"""

ROUNDS = {16: 10, 24: 12, 32: 14}  # of the cipher, by the length of its key
KEY_LENGTHS = tuple(ROUNDS)


def limit(m):
    """The bytes of 2^m blocks, the longest text and the longest data that a table of size m serves."""
    return 1 << (m + 4)


def refusal(case):
    """1 to 6, or 0 where the case is worked on."""
    if len(case.key) not in KEY_LENGTHS:
        return 1
    if not 1 <= case.m <= 26:
        return 2
    if not 6 <= len(case.nonce) <= 15:
        return 3
    if not 1 <= len(case.tag) <= 16:
        return 4
    if len(case.text) > limit(case.m):
        return 5
    if len(case.data) > limit(case.m):
        return 6
    return 0


def calls(case):
    """The cipher calls of a case that is worked on: the blocks of text and data, begun ones too, and two more."""
    return -(-len(case.text) // 16) + -(-len(case.data) // 16) + 2
