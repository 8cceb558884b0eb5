"""The parts of tools/plan: a plan in metres, seconds and degrees is read, its chains are built and asked through the library, and the answers are written in metres."""
import os
import sys

import pages

# The Python package of this repository, whether it is installed or not.
sys.path.insert(0, os.path.join(pages.ROOT, "python"))
