"""Take the programs that `rt ci` has just proved and left in their crates' out/ to target/bin, so that nothing proves them again.

    python3 -m tools.taken
"""

import sys

from tools.programs import NAMES, OTHERS, take


def main():
    for name in (*NAMES, *OTHERS):
        try:
            take(name)
        except FileNotFoundError as error:
            sys.exit(f"{error.filename} is not there: `rt ci` leaves it")
    print(f"{', '.join((*NAMES, *OTHERS))}: taken to target/bin")


if __name__ == "__main__":
    main()
