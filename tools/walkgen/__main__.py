"""Writes the proof files of the walks, from the repository's root: python3 tools/walkgen"""

import sys

sys.dont_write_bytecode = True

import calls
import exports
import ring
import rows
import short

for module in (ring, short, rows, calls, exports):
    module.write()
