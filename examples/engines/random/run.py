#!/usr/bin/env python3
"""Runs one machine on an engine, and writes the journal.

    python3 examples/engines/random/run.py ENGINE MODEL SIGNAL .. >JOURNAL

ENGINE is named as for survey.py, and MODEL is a model in the flat form as that script writes them, such as those of examples/engines/differences.
"""
import importlib
import os
import sys
import tempfile

sys.path.insert(1, os.path.join(os.path.dirname(os.path.abspath(__file__)), '..'))

from convert import Converter, Model
from machines import read_flat


def main():
    if len(sys.argv) < 3:
        sys.exit(__doc__)
    engine = importlib.import_module(sys.argv[1])
    with open(sys.argv[2]) as file:
        machine = read_flat(file.read().splitlines())
    with tempfile.TemporaryDirectory() as folder:
        log = engine.run(engine.build(folder), machine, sys.argv[3:], folder)
    print('\n'.join(Converter(Model(machine.flat())).convert(log)))


if __name__ == '__main__':
    main()
