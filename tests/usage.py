"""What the command lines of the tests have in common."""
import sys


def arguments(told, least=0, most=0, options=()):
    """The words of the command line. --help and -h tell what the test is; any other option, and too few words or too many, are refused."""
    words = sys.argv[1:]
    if {"--help", "-h"} & {*words}:
        print(told.strip())
        sys.exit(0)
    if not least <= len(words) <= most or any(word.startswith("-") and word not in options for word in words):
        print(told.strip(), file=sys.stderr)
        sys.exit(2)
    return words


def counted(checks):
    """Tells each check that does not hold, and in the last line how many hold and how many do not; whether one does not."""
    wrong = [name for name, holds in checks if not holds]
    for name in wrong:
        print(f"FAILED: {name}")
    print(f"{len(checks) - len(wrong)} passed, {len(wrong)} failed")
    return bool(wrong)
