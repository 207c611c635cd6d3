"""What else is installed that the tests use: ps, and to compare with SIMH and a browser."""
import shutil
import subprocess
import unittest

from .explore_case import SECONDS

CHROMIUM = next(
    filter(None, map(shutil.which, ("chromium", "chromium-browser", "google-chrome"))), None
)
BLOCKING = ["/usr/bin/env", "--block-signal=INT", "true"]
BY_BLOCKING = unittest.skipIf(
    subprocess.run(BLOCKING, stderr=subprocess.DEVNULL).returncode, "env can't block a signal"
)
BY_PS = unittest.skipUnless(shutil.which("ps"), "ps isn't installed")


def is_simh(program: str) -> bool:
    """SIMH's pdp11 has the same name as this repository's."""
    try:
        ended = subprocess.run(
            [program, "/dev/null"], input="exit\n", capture_output=True, text=True, timeout=SECONDS
        )
    except (OSError, subprocess.TimeoutExpired):
        return False
    return "PDP-11 simulator" in ended.stdout


SIMH = next(
    (it for it in filter(None, [shutil.which("pdp11"), shutil.which("simh-pdp11")]) if is_simh(it)),
    None,
)
