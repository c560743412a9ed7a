"""python3 -m studies SETTINGS, at the top of the repository."""

import os
import sys
sys.path.insert(0, os.path.dirname(os.path.abspath(__file__)))
from study import main  # noqa: E402
main()
