#!/usr/bin/env python3
"""Makes of the LLVM module of `rt try` one that is nearly that of the proved build: without checks, with hints on inlining.

    tools/lab/unproved/as_built.py REPOSITORY MODULE.ll OUT.ll

SIZE (7350): above how many instructions, with those of what is built into it, a function loses `inline(always)`, as does one that
calls itself. The functions that lose it are named on standard output with VERBOSE=1. By this size the functions that are left in
the module of a proved build, which has built in the others, are those that lose it here, but for one of 31.
"""
import collections
import glob
import os
import re
import sys

SIZE = int(os.environ.get("SIZE", "7350"))
CHECKS = "rattle-llvm-checks::"
NAME = re.compile(r'@(?:"([^"]*)"|([\w.$]+))\(')
ATTRIBUTES = {"always": "alwaysinline", "never": "noinline", "hint": "inlinehint"}


def hints_of(repository):
    """What the sources say of inlining: by the names that functions have in a module, a `*` for the module of a type."""
    hints = {}
    for path in glob.glob(f"{repository}/crates/*/src/**/*.rt", recursive=True):
        crate, rest = re.search(r"/crates/(\w+)/src/(.*)\.rt$", path).groups()
        modules = [it for it in rest.split("/") if it not in ("lib", "main", "mod")]
        trait = kind = hint = None
        with open(path, encoding="utf-8") as source:
            for line in source:
                if head := re.match(r"impl(?:<[^>]*>)? +(?:(\w+)(?:<[^{]*>)? +for +)?(\w+)", line):
                    trait, kind = head.groups()
                elif line.startswith("}"):
                    trait = kind = None
                elif found := re.match(r"\s*#\[inline(?:\((\w+)\))?\]", line):
                    hint = found[1] or "hint"
                elif found := re.match(r"\s*(?:pub(?:\([a-z]+\))? +)?(?:const |unsafe )*fn (\w+)", line):
                    if hint:
                        owner = f"{kind}{trait}" if trait else kind
                        hints["::".join([crate, "*", owner, found[1]] if owner else [crate, *modules, found[1]])] = hint
                    hint = None
    return hints


class Module:
    def __init__(self, path, hints):
        self.lines, self.hints, self.own = [], {}, collections.Counter()
        self.calls = collections.defaultdict(list)
        self.whole = {}
        with open(path, encoding="utf-8") as text:
            self.read(text, hints)

    def read(self, text, hints):
        function, is_check = None, False
        for line in text:
            line = line.rstrip("\n")
            if line.startswith("define"):
                function = next(it for it in NAME.search(line).groups() if it)
                # One that answers something is none that only stops.
                is_check = function.startswith(CHECKS) and re.match(r"define [^@]*\bvoid @", line) is not None
                if is_check:
                    # Nothing is left of a check.
                    self.hints[function] = "always"
                    self.lines += [line, "start:", "  ret void", "}"]
                elif hint := self.hint_of(function, hints):
                    self.hints[function] = hint
            if is_check:
                is_check = line != "}"
                continue
            # A check that can't be passed, and the call of a check; the fill that shows what is read before it is written.
            if "@llvm.trap()" in line and "call" in line or "@llvm.memset.p0.i64(ptr %r" in line and "i8 -86" in line:
                continue
            if line.startswith(f'  call void @"{CHECKS}'):
                continue
            self.count(function, line)
            self.lines.append(self.plain(line))

    @staticmethod
    def hint_of(function, hints):
        name = re.sub(r"::<.*$", "", function)
        parts = name.split("::")
        return hints.get(name) or (hints.get("::".join([parts[0], "*", *parts[-2:]])) if len(parts) > 2 else None)

    def count(self, function, line):
        if line.startswith("  ") and not re.match(r"  (%\w+ = )?(alloca|br label|load|store)|.*rattle-llvm-checks|  ret|  unreachable", line):
            self.own[function] += 1
        self.calls[function] += [it for it in re.findall(r'call [^@]*@"([^"]+)"\(', line) if not it.startswith(CHECKS)]

    @staticmethod
    def plain(line):
        """A line without the attributes that a try alone has."""
        if line.startswith("attributes #"):
            line = re.sub(r' ?(sanitize_address|"frame-pointer"="all"|"probe-stack"="[^"]*"|"stack-probe-size"="\d+")', "", line)
            line = line.replace('"target-cpu"="x86-64"', '"target-cpu"="x86-64-v2"')
            line = re.sub(r"\{ *\}", "{ nounwind }", line)
        return line

    def size(self, function, above=()):
        """The instructions of a function with those of what is built into it always."""
        if function in above or function in self.calls[function]:
            return SIZE + 1
        if function not in self.whole:
            below = (*above, function)
            self.whole[function] = self.own[function] + sum(
                self.size(it, below) for it in self.calls[function] if self.hints.get(it) == "always" and self.size(it, below) <= SIZE)
        return self.whole[function]

    def written(self):
        numbers = {hint: 900 + number for number, hint in enumerate(ATTRIBUTES)}
        for line in self.lines:
            if line.startswith("define"):
                function = next(it for it in NAME.search(line).groups() if it)
                hint = self.hints.get(function)
                if hint == "always" and (self.size(function) > SIZE or function in self.calls[function]):
                    hint = None
                    if "VERBOSE" in os.environ:
                        print(self.size(function), function)
                if hint:
                    line = re.sub(r" #\d+ \{$", f" #{numbers[hint]} {{", line)
            yield line
        for hint, number in numbers.items():
            yield f'attributes #{number} = {{ {ATTRIBUTES[hint]} nounwind "target-cpu"="x86-64-v2" }}'


def main():
    repository, module, out = sys.argv[1:]
    with open(out, "w", encoding="utf-8") as text:
        text.write("\n".join(Module(module, hints_of(repository)).written()) + "\n")


if __name__ == "__main__":
    main()
