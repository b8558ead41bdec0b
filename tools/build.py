#!/usr/bin/env python3
"""Builds a program or the library for C, over the libraries that are proved in crates/: tools/build.py CRATE PROCESSOR..

A processor is x86_64 or aarch64. rt builds for x86_64 alone, and would prove those libraries again that rt ci left, as it leaves
them without the mark by which rt knows them. So the compiler is called here as rt calls it. It proves the crate; what it proved
for one processor, for rt check, or in an earlier run on this machine, it takes for the next. Makes out/NAME.o of a program and out/libNAME.a of a library, with
.aarch64 before the last point for that processor.
"""
import os
import sys

import kit


def build(crate, processor):
    name = f"lib{crate.name}" if crate.is_static else crate.name
    made = f"out/{name}{'' if processor == 'x86_64' else '.' + processor}.{'a' if crate.is_static else 'o'}"
    words = ["--target", f"{processor}-unknown-linux-gnu", "--toolchain", f"{kit.kit()}/toolchain", "--backend", "llvm", "-o", made]
    kept = f"{crate.folder}/out/incremental"
    os.makedirs(f"{crate.folder}/out", exist_ok=True)
    if not os.path.isdir(kept):
        kit.copied(kit.KEPT / crate.name, kept)
    ran = crate.call("build", crate.folder, kept, words)
    print(ran.stdout, end="", flush=True)
    if ran.returncode:
        sys.exit(f"tools/build.py: {crate.name} isn't built for {processor}")
    crate.leave(kept)


def main():
    crates, arguments = kit.crates(), kit.parser(__doc__)
    arguments.add_argument("crate", choices=list(crates), metavar="CRATE")
    arguments.add_argument("processors", nargs="+", choices=["x86_64", "aarch64"], metavar="PROCESSOR")
    options = arguments.parse_args()
    for processor in options.processors:
        build(crates[options.crate], processor)


if __name__ == "__main__":
    main()
