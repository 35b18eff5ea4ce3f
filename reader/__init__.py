"""What a person sees of the proved driver: the command ./run, its progress, events and picture."""

import pathlib
import sys

ROOT = pathlib.Path(__file__).resolve().parent.parent

# The text and the decoder of images are said once, in tools/.
sys.path.append(str(ROOT / "tools"))
