#!/usr/bin/env python3
"""Compares what pages tell of the sources with the sources: tests/sources/stale.py

The layers of docs/INTERNALS.md have the sizes that tools/sizes.py counts; the figures of
bench/RESULTS.md are of the program that release/STAMP names.
"""
import pathlib
import re
import sys

TOP = pathlib.Path(__file__).resolve().parents[2]
sys.path.insert(0, str(TOP / "tools"))
sys.dont_write_bytecode = True
import sizes        # noqa: E402


def text_of(name):
    return (TOP / name).read_text(encoding="utf-8")


def layers_fault():
    crates = {folder.parent.name: sizes.sizes_of(folder.parent)
              for folder in TOP.glob("crates/*/src")}
    layers = sizes.by_layer_of(TOP, crates)
    page = text_of("docs/INTERNALS.md")
    lacking = [layer for layer, _ in layers if f"\n| {layer} | " not in page]
    if lacking:
        return f"docs/INTERNALS.md hasn't the layers {', '.join(lacking)}"
    return (None if sizes.renewed(page, layers) == page
            else "docs/INTERNALS.md has other sizes: tools/sizes.py --renew")


def program_fault():
    shipped = re.search(r"^program ([0-9a-f]{64})$", text_of("release/STAMP"), re.M)
    told = re.search(r"^\| program \| that of `release/STAMP`, SHA-256 ([0-9a-f]{12})\b",
                     text_of("bench/RESULTS.md"), re.M)
    return (None if shipped and told and shipped[1].startswith(told[1])
            else "bench/RESULTS.md is of another program than release/STAMP")


def main():
    faults = [fault for fault in (layers_fault(), program_fault()) if fault]
    for fault in faults:
        print(f"tests/sources/stale.py: {fault}")
    print(f"{2 - len(faults)} passed, {len(faults)} failed")
    return 1 if faults else 0


sys.exit(main())
