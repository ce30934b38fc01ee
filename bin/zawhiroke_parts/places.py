"""Where things stand: the repository, the program, and what lies beside it."""
import os

ROOT = os.path.dirname(os.path.dirname(os.path.dirname(os.path.realpath(__file__))))
CRATE = ROOT + '/crates/zawhiroke'
OUT = CRATE + '/out'
PROGRAM = OUT + '/zawhiroke'
SEAL = OUT + '/zawhiroke.sealed'
SEEN = OUT + '/zawhiroke.seen'
LOG = OUT + '/build.log'
