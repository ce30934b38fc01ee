"""The same as py_transitions.py, but that an effect runs in the callback that the library calls `before`."""
import py_transitions
from py_transitions import FORMS, build, run

NAME = '`transitions`, effects in `before`'
py_transitions.EFFECT_IN_BEFORE = True
