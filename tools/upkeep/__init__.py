"""What looks after the repository: its papers, crates and edits, benches, and the build without proofs.

The one place where what is imported is found: the product in python/, trials/ and tests/ at the top.
"""

import sys
from pathlib import Path

TOP = Path(__file__).resolve().parents[2]
for place in (TOP, TOP / "python"):
    if str(place) not in sys.path:
        sys.path.insert(0, str(place))
