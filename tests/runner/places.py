"""Where the tests find what they run and read."""
import os

TESTS = os.path.dirname(os.path.dirname(os.path.realpath(__file__)))
ROOT = os.path.dirname(TESTS)
PROGRAM = f"{ROOT}/crates/kbroker/out/kbroker"  # as rt builds it once it is proved
