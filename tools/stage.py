#!/usr/bin/env python3
"""The stage of the rules: document 01 with those requests of document 02 that have landed. A landing changes STAGE, and nothing else
here; the makers of cases and figures, tests, stress test and benchmark all take it from this file.

    python3 tools/stage.py        prints words for gcc: the stage's number, which reference/demosaic.c takes, and the smallest width and height

To import this puts reference/ on the path too."""
import os
import sys

STAGE = 'A.7'

ROOT = os.path.dirname(os.path.dirname(os.path.abspath(__file__)))
sys.dont_write_bytecode = True
sys.path.insert(0, os.path.join(ROOT, 'reference'))
import reference  # noqa: E402

RULES = reference.Rules(STAGE)

if __name__ == '__main__':
    print('-DSTAGE=%d -DLEAST=%d' % (RULES.k, RULES.min_size))
