#!/usr/bin/env -S python3 -B
"""Whether each definition in a crate's specs/ is reached by a public contract: one that isn't stands in specs/steps/.

    python3 -B tests/specs_steps.py

Public contracts are the clauses of the functions and traits that a crate exports (of a program, of all that its modules
share), what a type that it exports is by its Model (value, view and invariant), and what an impl of another trait says in its
ghost items, as the rule of a table. From these the definitions are followed, crate by crate. The test fails where
one is not reached. The last line is 'N passed, N failed'.
"""
import collections
import glob
import os
import re
import sys

# A word of antt or of a clause, with what it is named after.
WORD = re.compile(r"[A-Za-z_][\w'-]*(?:\.[A-Za-z_][\w'-]*)*")
USE = re.compile(r"^ *(?:pub |ghost )*use Rattle\.([\w.]+?)(?:\.\{([^}]*)\}| as (\w+))?;?$", re.M)
DEFINED = re.compile(r"^(?:abbrev |unfoldable |pub )*(?:(?:record|data) )?([A-Za-z_][\w'-]*)(?= *[:({])", re.M)

# The head of an impl or a trait; a function's signature, to the line that opens its body; the end of an item.
ITEM = re.compile(
    r"^(impl\b[^{]*|(?:pub )?trait [^{]*)\{"
    r"|^( *)(pub |pub\(crate\) )?fn (\w+)((?:.|\n)*?)(?:^\2\{|;$| \{\}?$|^\2\{\})"
    r"|^\}$",
    re.M,
)


def read(path):
    with open(path, encoding="utf-8") as file:
        return file.read()


def uses(text):
    """What names of a text stand for: of a name its module and name, of an alias its module."""
    names, modules = {}, {}
    for module, listed, alias in USE.findall(text):
        if alias:
            modules[alias] = module
        for it in filter(None, (it.strip() for it in listed.split(","))):
            name, _, other = it.partition(" as ")
            names[other or name] = (module, name)
    return names, modules


def without_comments(text):
    return re.sub(r"(?m)^ *(?:--|//).*$", "", text)


class Definitions:
    """All definitions of all crates, by module and name, each with the words of its text."""

    def __init__(self):
        self.words, self.place, self.lines = {}, {}, {}
        for path in sorted(glob.glob("crates/*/specs/**/*.antt", recursive=True)):
            crate, inner = re.fullmatch(r"crates/(\w+)/specs/(.*)\.antt", path).groups()
            if os.path.basename(path) == "Lib.antt" or inner == "steps":
                continue
            self.read(path, f"{crate}.specs." + inner.replace("/", "."))

    def read(self, path, module):
        text = read(path)
        named, aliases = uses(text)
        body = without_comments(re.sub(USE, "", text))
        blocks = re.split(r"\n(?=[A-Za-z_])", "\n" + body)
        own = collections.OrderedDict()
        for block in blocks:
            found = DEFINED.match(block.lstrip("\n"))
            name = found[1] if found and re.match(r"(?:abbrev|unfoldable|pub|record)", block.lstrip("\n")) else None
            if not name:
                head = re.match(r"[A-Za-z_][\w'-]*|\(", block.lstrip("\n"))
                # A case of what was declared last, in prefix or infix form.
                name = next(reversed(own), None) if head else None
            if name:
                own.setdefault(name, []).append(block)
        for name, parts in own.items():
            key = (module, name)
            self.place[key] = path
            whole = "\n".join(parts)
            self.lines[key] = sum(bool(it.strip()) for it in whole.split("\n"))
            self.words[key] = resolve(whole, named, aliases, module, own)


def resolve(text, named, aliases, module, own):
    found = set()
    for word in WORD.findall(text):
        first, _, rest = word.partition(".")
        if first in named:
            found.add(named[first])
        elif rest and first in aliases:
            found.add((aliases[first], rest.split(".")[0]))
        elif first in own:
            found.add((module, first))
        if word.startswith("Rattle."):
            path, _, name = word[len("Rattle."):].rpartition(".")
            found.add((path, name))
    return found


def exported(crate):
    """The names that the crate's root exports, and its public modules: of a program, all."""
    if not os.path.isfile(f"crates/{crate}/src/lib.rt"):
        return set(), {os.path.basename(it)[:-3] for it in glob.glob(f"crates/{crate}/src/**/*.rt", recursive=True)}
    root = read(f"crates/{crate}/src/lib.rt")
    modules = set(re.findall(r"^pub mod (\w+)", root, re.M))
    names = set()
    for listed in re.findall(r"^pub use ([^;]*);", root, re.M):
        names |= set(re.findall(r"\w+", listed))
    for path in glob.glob(f"crates/{crate}/src/*.rt"):
        # A module that a file exports from again.
        for listed in re.findall(r"^pub use (\w+)::[^;]*;", read(path), re.M):
            modules.discard(listed)
    return names, modules


def clauses(text):
    """The clauses of a signature."""
    return "\n".join(re.findall(r"(?:requires|ensures)\b[ \w]*\{.*", text, re.S))


def contracts(crate):
    """The words of each public contract of a crate."""
    names, modules = exported(crate)
    is_program = not os.path.isfile(f"crates/{crate}/src/lib.rt")
    for path in sorted(glob.glob(f"crates/{crate}/src/**/*.rt", recursive=True)):
        text = read(path)
        named, aliases = uses(text)
        is_open = os.path.basename(path)[:-3] in modules
        owner, is_trait = None, False
        body = without_comments(text)
        for found in ITEM.finditer(body):
            if found[1]:
                head = found[1].strip()
                model = re.match(r"impl(?:<.*?>)? Model for (\w+)", head)
                owner = re.match(r"(?:impl(?:<[^{]*?>)? (?:[\w<>:, ]+ for )?|(?:pub )?trait )(\w+)", head)
                owner = owner[1] if owner else None
                is_impl = head.startswith("impl")
                is_trait = " for " in head or not is_impl
                if model and (model[1] in names or is_open) or is_trait and is_impl and not model:
                    end = body.index("\n}", found.end())
                    inner = body[found.end():end]
                    more, others = uses(inner)
                    yield path, resolve(re.sub(USE, "", inner), {**named, **more}, {**aliases, **others}, "", ())
                continue
            if not found[4]:
                owner = None
                continue
            is_public = found[3] == "pub " or (found[3] and is_program) or (owner and is_trait)
            if is_public and ((owner or found[4]) in names or is_open):
                yield path, resolve(clauses(found[5]), named, aliases, "", ())


def crates():
    return sorted({it.split("/")[1] for it in glob.glob("crates/*/src/*.rt")})


def main():
    definitions = Definitions()
    reached, waiting = set(), []
    for crate in crates():
        for _, words in contracts(crate):
            waiting += words
    while waiting:
        key = waiting.pop()
        if key in definitions.words and key not in reached:
            reached.add(key)
            waiting += definitions.words[key]
    strays = {key for key in definitions.words if key not in reached and ".specs.steps" not in key[0]}
    for key in sorted(strays):
        print(f"{definitions.place[key]} {key[1]}: no public contract reaches it, so it stands in specs/steps")
    strayed = sum(definitions.lines[key] for key in strays)
    print(f"{len(strays)} of {len(definitions.words)} definitions stray, {strayed} of {sum(definitions.lines.values())} lines")
    print(f"{len(definitions.words) - len(strays)} passed, {len(strays)} failed")
    return 1 if strays or len(reached) < 100 else 0


if __name__ == "__main__":
    sys.exit(main())
