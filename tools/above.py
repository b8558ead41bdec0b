#!/usr/bin/env python3
"""Lists a crate and those above it, which use it, in an order to check them: tools/above.py CRATE"""
import sys

sys.dont_write_bytecode = True
import kit  # beside this script


def main():
    arguments = kit.parser(__doc__)
    arguments.add_argument("crate")
    name, crates = arguments.parse_args().crate, kit.crates()
    if name not in crates:
        sys.exit(f"tools/above.py: there is no crate {name}")
    # Each crate follows those that it uses.
    print(*(crate.name for crate in crates.values() if name in (crate.name, *crate.below)), sep="\n")


if __name__ == "__main__":
    main()
