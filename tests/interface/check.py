"""The header and the wrapper held to the crate, and that each slip is found."""
import sys
from pathlib import Path

sys.path.append(str(Path(__file__).resolve().parents[1]))
from held import check
from slipped import report
from slips import GOOD, SLIPS

sys.exit(report(check, GOOD, SLIPS))
