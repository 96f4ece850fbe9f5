"""Programs from Debian that tests use if they are available."""

import shutil
import subprocess
from pathlib import Path

NEEDS = Path(__file__).resolve().parents[1] / "needs"


def had(name, package=None):
    """The path of this program, or None. It is installed if it is missing and root runs the test."""
    if shutil.which(name) is None and NEEDS.is_file():
        subprocess.run([NEEDS, f"{package or name}={name}"], capture_output=True)
    return shutil.which(name)
