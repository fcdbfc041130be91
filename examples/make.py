#!/usr/bin/env python3
"""Writes the sample case file to standard output: Example A of 001, Example B of 003, Example D of 001, and 512 zero bytes."""
import pathlib
import sys

sys.dont_write_bytecode = True
sys.path.insert(0, str(pathlib.Path(__file__).resolve().parents[1] / "tests"))

from model.blocks import block_of
from model.examples import A_001, B_003, D_001

sys.stdout.buffer.write(block_of(A_001) + block_of(B_003) + block_of(D_001) + bytes(512))
