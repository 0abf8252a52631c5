#!/usr/bin/env python3
"""Public items of the given Rust that are neither in crates/ by their name nor named in docs/DIFFERENCES.md.
    compare/names.py DIR"""
import glob
import re
import sys


def code(pattern):
    return "\n".join(re.sub(r"//.*", "", open(f, encoding="utf-8").read()) for f in glob.glob(pattern, recursive=True))


here = set(re.findall(r"\w+", code("crates/*/src/**/*.rt")))
told = set(re.findall(r"\w+", " ".join(re.findall(r"`([^`]*)`", open("docs/DIFFERENCES.md", encoding="utf-8").read()))))
lacking = []
for f in sorted(glob.glob(sys.argv[1] + "/crates/*/src/*.rs")):
    if not f.endswith("/simd.rs"):
        items = re.findall(r"^\s*pub (?:(?:const )?(?:fn|struct|enum|const|type|trait|mod) )?(\w+)", code(f), re.M)
        lacking += [f"{f.split('/crates/')[1]}: {i}" for i in items if i not in here | told | {"use"}]
print("\n".join(lacking) if lacking else "every public item of the given Rust is here by its name, or on the page of differences")
sys.exit(1 if lacking else 0)
