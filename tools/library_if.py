#!/usr/bin/env python3
"""The library has `if◌then◌else◌` as `base` had it, and `rt ci` lets that name mean nothing else: each file takes the library's."""
import glob
import re

FROM, TO = "Rattle.base.specs.Choice", "Rattle.std.specs.Prelude"
NAME = "if◌then◌else◌"

for path in sorted(glob.glob("crates/*/**/*.antt", recursive=True) + glob.glob("crates/*/src/**/*.rt", recursive=True)):
    if "/out/" in path:
        continue
    old = text = open(path).read()
    for m in re.findall(r"^( *(?:ghost )?use )%s\.\{([^}]*)\}(;?)\n" % re.escape(FROM), text, re.M):
        names = [name.strip() for name in m[1].split(",")]
        if NAME not in names:
            continue
        line = "%s%s.{%s}%s\n" % (m[0], FROM, m[1], m[2])
        left = [name for name in names if name != NAME]
        new = "%s%s.{%s}%s\n" % (m[0], FROM, ", ".join(left), m[2]) if left else ""
        library = re.search(r"^ *(?:ghost )?use %s\.\{([^}]*)\};?\n" % re.escape(TO), text, re.M)
        if library and NAME in library.group(1).split(", "):
            text = text.replace(line, new)
        elif library:
            text = text.replace(line, new)
            text = text.replace(library.group(0), library.group(0).replace("{" + library.group(1), "{%s, %s" % (library.group(1), NAME)))
        else:
            text = text.replace(line, "%s%s.{%s}%s\n%s" % (m[0], TO, NAME, m[2], new))
    if text != old:
        open(path, "w").write(text)
        print(path)
