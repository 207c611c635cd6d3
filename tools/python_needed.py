"""Which Python the tools and the tests need, and where their packages are: nezdrab in src/, and
tests. They ask before they read any other module. Any Python 3 can read this one."""
import sys

ROOT = __file__.rpartition("/")[0].rpartition("/")[0]
FOLDERS = ROOT, ROOT + "/src"


def lack() -> str:
    """What this Python lacks, or an empty text."""
    if sys.version_info < (3, 9):
        return "this one is %d.%d" % sys.version_info[:2]
    try:
        for name in "ntpath", "shutil", "termios":
            __import__(name)
    except ImportError:
        return "this one has no module %s, as python3-minimal" % name
    return ""


def check() -> None:
    """Ends with a sentence if this Python is older, or lacks modules. Otherwise the packages can
    be imported from here on."""
    if lack():
        sys.exit("This needs Debian's python3, 3.9 or later: %s." % lack())
    for folder in FOLDERS:
        if folder not in sys.path:
            sys.path.insert(1, folder)


if __name__ == "__main__":
    check()
