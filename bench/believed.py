#!/usr/bin/env python3
"""Says what must be read to believe a promise: the definitions of specs/ that a public contract draws in.

    bench/believed.py gp_parse program             what the contract of the public function `program` draws in
    bench/believed.py gp_parse Programs.IsProgram  what a definition of the crate's specs/ draws in
    bench/believed.py --check [CRATE..]            no contract of a public function, and no definition outside
                                                   specs/code/, draws in one that stands there
    bench/believed.py --table                      the rows of the table in docs/PROMISES.md

For each file it prints how many lines the definitions have that are drawn in, with their comments; then the lines of
all files that these files' `use` lines lead to; and last the types in src/ that are spoken of. Only specs/ folders of
this repository are followed. A name that a definition binds itself may be taken for a definition's, so a number is
rather too great than too small.
"""
import collections
import functools
import glob
import os
import re
import sys

HOME = os.path.join(os.path.dirname(os.path.abspath(__file__)), "..", "crates")
WORD = re.compile(r"[^\s(){}\[\],;.]+(?:\.[^\s(){}\[\],;.]+)*")
HEAD = re.compile(r"(?:(?:unfoldable|abbrev)\s+)?(?:pub\s+)?(?:(data|record)\s+)?(\S+)\s+(?:(?:[({].*)?:)(?:\s|$)")
USE = re.compile(r"(?:pub |ghost )*use\s+Rattle\.(\w+)\.specs\.([\w.+']+?)(?:\.\{([^}]*)\}|\s+as\s+(\w+))?;?$")


class Scope:
    """What names mean in a file, by its `use` lines: a name to (crate, module, name), a qualifier to (crate, module)."""

    def __init__(self, lines):
        self.names, self.modules = {}, {}
        for line in lines:
            found = USE.match(line.strip())
            if not found:
                continue
            crate, module, names, alias = found.groups()
            if names is None:
                self.modules[alias or module.split(".")[-1]] = (crate, module)
                continue
            for name in filter(None, map(str.strip, names.split(","))):
                name, _, other = name.partition(" as ")
                self.names[other or name] = (crate, module, name)

    def meant(self, text):
        """The definitions that the words of a text may mean."""
        plain = re.sub(r'"(?:\\.|[^"\\])*"|--.*', " ", text)
        bound = set()
        for names in re.findall(r"[({]((?:[^\s(){}:]+ )+): ", plain) + re.findall(r"λ ([^.()]*)\.", plain):
            bound.update(names.split())
        for word in set(WORD.findall(plain)):
            first, _, rest = word.partition(".")
            if rest and first in self.modules:
                yield (*self.modules[first], rest.split(".")[0])
            elif first not in bound:
                for name in (first, f"◌{first}◌"):
                    if name in self.names:
                        yield self.names[name]


class File:
    """A file of specs/: its definitions, each a list of lines with the comment before it."""

    def __init__(self, path, crate, module):
        self.lines = open(path, encoding="utf-8").read().splitlines()
        self.scope = Scope(self.lines)
        self.parts, self.names = [], {}
        self.read(list(enumerate(self.lines)), [])
        for name in self.names:
            self.scope.names.setdefault(name, (crate, module, name))

    def read(self, lines, around):
        """Takes lines of one indentation apart; `around` has the header of the module that they stand in."""
        comment, part, named = [], None, ""
        depth = min((len(text) - len(text.lstrip()) for _, text in lines if text.strip()), default=0)
        inner, header = [], None
        for number, text in lines + [(None, " " * depth + "end")]:
            here = text[depth:]
            if header is not None:
                if number is not None and (not text.strip() or here.startswith(" ")):
                    inner.append((number, text))
                    continue
                self.read(inner, around + [header])
                header = None
            if number is None:
                break
            if not here.strip():
                comment = []
            elif here.startswith("--"):
                comment.append(number)
            elif here.startswith(" "):
                if part is not None:
                    part.update(comment + [number])
                    comment = []
                    self.name_inside(here, part)
            elif re.match(r"(pub )?(mod|use|open) ", here):
                comment, part = [], None
            elif re.match(r"module _ .*where$", here):
                comment, inner, header, part = [], [], number, None
            else:
                found = HEAD.match(here)
                is_new = re.match(r"(abbrev |unfoldable |pub |data |record |mutual|infix)", here) or (
                    found and found[2] != named and " = " not in here.split(":")[0])
                if is_new and not (part is not None and named == "infix"):
                    part = set(comment + around)
                    self.parts.append(part)
                elif part is None:
                    part = set(around)
                    self.parts.append(part)
                part.update(comment + [number])
                comment = []
                named = "infix" if here.startswith("infix") else named
                if found and is_new and not here.startswith("infix"):
                    named = found[2]
                    self.names[named] = part

    def name_inside(self, text, part):
        """A constructor, or a definition of a `mutual` block."""
        found = HEAD.match(text.strip())
        if found and not text.strip().startswith("→"):
            self.names.setdefault(found[2], part)


@functools.cache
def file_of(crate, module):
    path = f"{HOME}/{crate}/specs/{module.replace('.', '/')}.antt"
    return File(path, crate, module) if os.path.isfile(path) else None


def drawn_in(begun):
    """The lines of each file that these definitions draw in, and the types of src/."""
    lines, types, due, seen = collections.defaultdict(set), set(), list(begun), set()
    while due:
        crate, module, name = meant = due.pop()
        if meant in seen or not os.path.isdir(f"{HOME}/{crate}"):
            continue
        seen.add(meant)
        if module.startswith(("declared", "contracts")):
            types.add((crate, module.split(".", 1)[1].removesuffix(".TheVariants").removesuffix(".TheOpen")))
            continue
        file = file_of(crate, module)
        if file is None or name not in file.names:
            continue
        part = file.names[name]
        lines[crate, module].update(part)
        due.extend(file.scope.meant("\n".join(file.lines[k] for k in sorted(part))))
    return lines, types


def used_files(begun):
    """The files of specs/ that `use` lines lead to from these."""
    due, seen = list(begun), {}
    while due:
        crate, module = due.pop()
        file = file_of(crate, module) if (crate, module) not in seen else None
        if file is not None:
            seen[crate, module] = file
            due += [(other, used) for other, used, _ in file.scope.names.values()] + list(file.scope.modules.values())
    return seen


def report(begun):
    lines, types = drawn_in(begun)
    for (crate, module), drawn in sorted(lines.items()):
        print(f"{len(drawn):5}  crates/{crate}/specs/{module.replace('.', '/')}.antt")
    print(f"{sum(map(len, lines.values())):5}  lines in {len(lines)} files of specs/")
    used = used_files(lines)
    print(f"{sum(len(file.lines) for file in used.values()):5}  lines in the {len(used)} files that these use, read whole")
    shown = collections.defaultdict(list)
    for crate, path in sorted(types):
        shown[crate].append(path.split(".")[-1])
    print("       types: " + "; ".join(f"{crate}: {', '.join(names)}" for crate, names in shown.items()))


def contracts(path):
    """The contract of each public function or method of a source file: its name, its type or trait, and what it cites."""
    text = open(path, encoding="utf-8").read().split("#[cfg(test)]\nmod tests {")[0]
    scope = Scope(text.splitlines())
    owner, in_trait = None, False
    heads = r"^(?:(pub trait|impl)(?:<[^\n]*?>)? (?:[^\n]*? for )?(\w+)|( *)(pub )?(?:const )?fn (\w+))"
    for found in re.finditer(heads, text, re.M):
        if found[1]:
            owner, in_trait = found[2], found[1] == "pub trait"
            continue
        if not found[3]:
            owner, in_trait = None, False
        if found[4] or in_trait:
            clauses = re.split(rf"^{found[3]}(?:\{{|\}})|;$", text[found.start():], maxsplit=1, flags=re.M)[0]
            clauses = clauses[clauses.find("\n"):]
            cited = re.findall(r"(?:requires|ensures)\*?(?: \w+)? \{(.*?)\}\s*(?=//|requires|ensures|$)", clauses, re.S)
            yield found[5], owner, list(scope.meant(" ".join(cited)))


def reached(crate, module=""):
    """The source files of a crate, each with the names that are reached from outside it; None: all public ones."""
    folder = f"{HOME}/{crate}/src"
    is_program = os.path.isfile(f"{folder}/main.rt")
    path = f"{folder}/{module or ('main' if is_program else 'lib')}.rt"
    if not os.path.isfile(path):
        return
    text = open(path, encoding="utf-8").read()
    yield path, None
    for mark, name in re.findall(r"^(pub )?mod (\w+);", text, re.M):
        inner = f"{module}/{name}" if module else name
        if name == "tests":
            continue
        if mark or is_program:
            yield from reached(crate, inner)
            continue
        taken = re.findall(rf"^pub use (?:crate::|self::)?{name}::(\{{[^}}]*\}}|\w+);", text, re.M)
        names = set(re.findall(r"\w+", " ".join(taken)))
        if names:
            yield f"{folder}/{inner}.rt", names


def check(crates):
    """Names each public contract, and each definition outside specs/code/, that draws a definition of specs/code/ in."""
    bad = 0
    for crate in crates:
        begun = [(f"`{name}` in {os.path.relpath(path, HOME)}", meant) for path, names in reached(crate)
                 for name, owner, meant in contracts(path) if names is None or name in names or owner in names]
        for path in glob.glob(f"{HOME}/{crate}/specs/**/*.antt", recursive=True):
            module = os.path.relpath(path, f"{HOME}/{crate}/specs").removesuffix(".antt").replace("/", ".")
            if module.split(".")[0] != "code":
                begun += [(f"{crate}: {module}.{name}", [(crate, module, name)]) for name in file_of(crate, module).names]
        for what, meant in begun:
            code = [f"{other}: {module}" for other, module in drawn_in(meant)[0] if module.startswith("code.")]
            if code:
                bad += 1
                print(f"{what} draws in {', '.join(code)}")
    print(f"{bad} contracts and definitions draw in what follows the code")
    sys.exit(bad > 0)


# The calls whose contracts carry the promises of docs/PROMISES.md.
PROMISES = """
guppy_call guppy, guppy_call texts_have_one_answer, guppy_call graph_texts_have_one_validity,
guppy_call graph_texts_have_one_migration, guppy_call graph_texts_have_one_run,
gp_base write_all,
gp_base worlds_stay_clean, gp_lower thin, gp_lower lower_thin, gp_lex lines, gp_form line_form, gp_parse program,
gp_types is_linear, gp_types size, gp_types leaf_count, gp_types builtin, gp_scope collect, gp_locals locals_of,
gp_locals find_callee, gp_locals is_tag, gp_typing check, gp_meaning every_level_is_enough, gp_meaning runs_are_clean, gp_evaluator evaluate,
gp_flow build, gp_flow flows_run_as_texts, gp_own programs_are_sound, gp_front check_text,
gp_front one_answer, hg_ops signature, hg_ops op_of_name, hg_ops is_effect, hg_graph feeder, walks first_back,
walks longest_chains, hg_valid validate, hg_valid is_ordered, hg_json write, hg_json read, hg_run run, guppy_words request_of
"""


def table():
    """Prints, for each call that carries a promise, what its contract draws in, as the rows of a table."""
    for crate, name in (words.split() for words in PROMISES.split(",")):
        lines = drawn_in(cited_by(crate, name))[0]
        files = collections.defaultdict(list)
        for other, module in sorted(lines):
            files[other].append(module)
        shown = "; ".join(f"`{other}`: {', '.join(modules)}" for other, modules in files.items())
        print(f"| `{name}` of `{crate}` | {sum(map(len, lines.values()))} | {shown} |")


def cited_by(crate, name):
    """What the contract of a public function or method of this name cites."""
    return [meant for path, names in reached(crate) for found, owner, cited in contracts(path)
            if found == name and (names is None or name in names or owner in names) for meant in cited]


def main():
    words = sys.argv[1:]
    if words == ["--table"]:
        return table()
    if words[:1] == ["--check"]:
        check(words[1:] or sorted(os.listdir(HOME)))
    if len(words) != 2:
        sys.exit(__doc__)
    crate, name = words
    if "." in name:
        module, _, name = name.rpartition(".")
        return report([(crate, module, name)])
    begun = cited_by(crate, name)
    if not begun:
        sys.exit(f"believed: no public function {name} of {crate} cites a definition")
    report(begun)


main()
