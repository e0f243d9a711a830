#!/usr/bin/env python3
"""Prints a C program that prints, of each entry of the type tables in PipeWire's headers, the identifier that C has for its number, the
number, and PipeWire's name, with tabs between. The argument is the folder of the headers."""

import re
import sys
from pathlib import Path

ENTRY = re.compile(r'\{\s*(SPA_\w+)\s*,\s*SPA_\w+\s*,\s*((?:[^,{}"]|"[^"]*")+?)\s*,')


def main():
    root = Path(sys.argv[1])
    headers = [it for it in sorted(root.rglob("*.h")) if "static const struct spa_type_info" in it.read_text(encoding="utf-8")]
    print("#include <stdio.h>")
    for header in ["spa/debug/types.h", *(it.relative_to(root) for it in headers)]:
        print(f"#include <{header}>")
    print("int main(void)\n{")
    for header in headers:
        for identifier, name in ENTRY.findall(header.read_text(encoding="utf-8")):
            print(f'\tprintf("%s\\t%u\\t%s\\n", "{identifier}", (unsigned) {identifier}, {" ".join(name.split())});')
    print("\treturn 0;\n}")


if __name__ == "__main__":
    main() if sys.argv[1:] else sys.exit(__doc__)
