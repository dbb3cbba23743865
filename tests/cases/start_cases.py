"""The cases of `kbroker start`: each runs brokers and clients of its own, and raises a Fault where something differs.

A case is a function of the program. It is bounded in time, and passes on a slow machine too: nothing has to be done at once, but
for what must not be done before its time.
"""
from cases import cleaning_cases, cleaning_kept, cleaning_kills, dear_frames, kept_cases
from cases import limits, listening, many_clients, random_clients, waiting

CASES = [
    *listening.CASES,
    *many_clients.CASES,
    *dear_frames.CASES,
    *limits.CASES,
    *waiting.CASES,
    *random_clients.CASES,
    *cleaning_cases.CASES,
    *cleaning_kept.CASES,
    *cleaning_kills.CASES,
    *kept_cases.CASES,
]
