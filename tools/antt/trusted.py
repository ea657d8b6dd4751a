"""How much a reader has to trust, clause by clause, and what it is, in the order of the first sentence of README.md."""
import re
import tomllib
from collections.abc import Iterator
from dataclasses import dataclass
from functools import cache
from pathlib import Path

from .definitions import Definition
from .items import Item
from .modules import CRATES, ROOT, Module, defined
from .reach import Clause, Reached, Specs, Type, clauses_of, functions_of
from .worked import Value, Values

PARTS = Path(__file__).with_name("trusted.toml")
# The call whose clause is the sentence of README.md, and the crate whose calls say what follows.
SENTENCE, LAWS = ("silc", "silc"), "silc_laws"
HEADLINE = "headline"
OF_STD = {"std", "std_alloc", "core"}


class Unlisted(Exception):
    """A part or a page of trusted.toml that the definitions do not bear out."""


@cache
def lines_of(file: Path) -> list[str]:
    return file.read_text().split("\n")


def is_comment(line: str) -> bool:
    return line.strip().startswith("--")


def with_blocks(definitions: list[Definition]) -> set[int]:
    """The lines of definitions of one module, with the first lines of the blocks around them."""
    blocks: dict[int, Item] = {id(block): block for definition in definitions for block in definition.blocks}
    return {line for definition in definitions for line in definition.lines()} | {
        line for block in blocks.values() for line in range(*block.lines())}


def by_module(reached: Reached) -> dict[str, list[Definition]]:
    """What is reached, by the paths of the modules in the order in which they were met."""
    found: dict[str, list[Definition]] = {}
    for definition in reached.definitions:
        found.setdefault(definition.module.path, []).append(definition)
    return found


def counted(definitions: list[Definition]) -> int:
    """How many lines definitions of one module take, without blank lines and comments."""
    lines = lines_of(definitions[0].module.file)
    return sum(bool(lines[at].strip()) and not is_comment(lines[at]) for at in with_blocks(definitions))


def count(reached: Reached) -> int:
    return sum(counted(definitions) for definitions in by_module(reached).values())


@dataclass(frozen=True)
class Count:
    """How many lines a clause rests on, itself among them, and how many of these no clause before it rests on."""
    clause: Clause
    alone: int
    added: int


def counts_of(specs: Specs, clauses: list[Clause]) -> Iterator[Count]:
    so_far, before = Reached(), 0
    for clause in clauses:
        own = Reached()
        specs.reach(clause.paths, own)
        specs.reach(clause.paths, so_far)
        yield Count(clause, clause.lines() + count(own), clause.lines() + count(so_far) - before)
        before = count(so_far)


def is_handed_on(clause: Clause) -> bool:
    """Whether a clause of `silc_laws` is one of `silc`, which each of these calls hands on."""
    return clause.name in ("requires", "words", "ending")


def promises(specs: Specs) -> list[Clause]:
    """All clauses of the public calls, the sentence of README.md first, each once."""
    own = sorted(clauses_of(specs, *SENTENCE), key=lambda clause: clause.name != HEADLINE)
    return own + [clause for call in functions_of(LAWS) for clause in clauses_of(specs, LAWS, call)
                  if not is_handed_on(clause)]


def table(counts: list[Count]) -> str:
    rows = [f"| `{one.clause.name}` of `{one.clause.function}` | {one.alone:,} | {one.added:,} |\n" for one in counts]
    total = sum(one.added for one in counts)
    return ("| Clause | Lines that it rests on | Of these, those that no clause above rests on |\n|---|---|---|\n"
            + "".join(rows) + f"| **all of them** | | **{total:,}** |\n")


def promises_table(specs: Specs) -> str:
    return table(list(counts_of(specs, promises(specs))))


def clauses_table(specs: Specs, crate: str, function: str) -> str:
    return table(list(counts_of(specs, clauses_of(specs, crate, function))))


def without(specs: Specs) -> str:
    """How many lines the headline rests on where some definitions and fields are left out."""
    clause = headline_clause(specs)
    reached = Reached()
    specs.reach(clause.paths, reached)
    if unmet := sorted(specs.left_out - specs.met):
        raise Unlisted(f"the headline reaches no {unmet[0]}")
    return f"{clause.lines() + count(reached):,} lines\n"


def headline_clause(specs: Specs) -> Clause:
    return next(clause for clause in clauses_of(specs, *SENTENCE) if clause.name == HEADLINE)


def premises_of(specs: Specs) -> list[Clause]:
    """What the caller of the call has to see to."""
    return [clause for clause in clauses_of(specs, *SENTENCE) if clause.text.startswith("requires")]


def sentence() -> str:
    """The sentence, as README.md has it."""
    found = re.search(r"^> .+$", (ROOT / "README.md").read_text(), re.M)
    if not found:
        raise Unlisted("README.md has no line that begins with >")
    return found[0]


# The text.

@dataclass(frozen=True)
class Part:
    """A part of the sentence, with what it says in words and the names of the definitions at which it begins."""
    title: str
    says: str
    definitions: tuple[str, ...]


@dataclass(frozen=True)
class Headline:
    """The clause of the sentence, and what each part of it reaches that no part before it does."""
    clause: Clause
    parts: list[tuple[Part | None, Reached]]
    types: dict[Type, None]


def listed_parts() -> list[Part]:
    return [Part(one["title"], one["says"], tuple(one["definitions"]))
            for one in tomllib.loads(PARTS.read_text())["part"]]


def headline_of(specs: Specs) -> Headline:
    clause = headline_clause(specs)
    whole, done, found = Reached(), Reached(), []
    specs.reach(clause.paths, whole)
    parts = listed_parts()
    for part in (None, *parts):
        stops = frozenset(name for other in parts if other != part for name in other.definitions)
        paths = [path_of(whole, name) for name in part.definitions] if part else clause.paths
        before = dict(done.definitions)
        specs.reach(paths, done, stops)
        found.append((part, Reached({one: None for one in done.definitions if one not in before})))
    if missing := [one for one in whole.definitions if one not in done.definitions]:
        raise Unlisted(f"no part of {PARTS.name} reaches {missing[0].names[0]} of {missing[0].module.path}")
    return Headline(clause, found, whole.types)


def path_of(whole: Reached, name: str) -> str:
    """The path of the one definition of this name that the sentence reaches."""
    found = [one.module.path for one in whole.definitions if name in one.names]
    if len(found) != 1:
        raise Unlisted(f"{PARTS.name}: the sentence reaches {len(found)} definitions that are called {name}")
    return f"{found[0]}.{name}"


def place_of(module: Module) -> str:
    return str(module.file.relative_to(CRATES))


def worked_values(specs: Specs) -> Values:
    tables = tomllib.loads(PARTS.read_text())
    return Values(specs, tables["worked"], tables["unworked"])


@cache
def pages() -> dict[str, list[str]]:
    return tomllib.loads(PARTS.read_text())["pages"]


def page_of(module: Module) -> str:
    """The page of docs/ for a module, and the section in it."""
    crate, name = module.file.relative_to(CRATES).parts[0], module.file.stem
    found = pages().get(f"{crate}/{name}") or pages().get(crate)
    if not found:
        raise Unlisted(f"{PARTS.name} has no page for {place_of(module)}")
    page, section = found
    if not re.search(rf"^#+ {re.escape(section)}$", (ROOT / "docs" / page).read_text(), re.M):
        raise Unlisted(f"docs/{page} has no section {section}, which {PARTS.name} names for {place_of(module)}")
    return f"`docs/{page}`, \"{section}\""


def shown(definitions: list[Definition]) -> str:
    """The lines of definitions of one module, with the comments above them and a blank line where others are left
    out."""
    lines = lines_of(definitions[0].module.file)
    wanted = with_blocks(definitions)
    for line in sorted(wanted):
        while line > 0 and is_comment(lines[line - 1]):
            line -= 1
            wanted.add(line)
    found: list[str] = []
    for line in sorted(wanted):
        if found and line - 1 not in wanted:
            found.append("")
        found.append(lines[line])
    return "\n".join(found)


def place_named(path: str) -> str:
    """A module in the words of the page: the file of definitions, or the type whose variants it has."""
    words = path.removeprefix("Rattle.").split(".")
    if "declared" in words:
        return "`" + [word for word in words if not word.startswith("The")][-1] + "`"
    return "`" + "/".join(words) + "`"


def foreign_names(definitions: list[Definition], doubled: set[str]) -> str:
    """What a reader cannot see of names from other files: those with another name there, and which of two of a name is
    meant."""
    module = definitions[0].module
    words = [word for one in definitions for item in one.items for word in item.words()]
    heads = {word for word, after in zip(words, words[1:]) if after == "."}
    places: dict[str, list[str]] = {}
    for name, brought in module.brought.items():
        whole = defined(*brought)
        prefix, _, original = (whole if whole.startswith("Rattle.") else ".".join(brought)).rpartition(".")
        if name in words and (name != original or original in doubled):
            places.setdefault(place_named(prefix),
                              []).append(f"`{name}`" + (f" (there `{original}`)" if name != original else ""))
    for name, path in module.modules.items():
        if name in heads:
            places.setdefault(place_named(path), []).append(f"`{name}.`")
    said = [f"{', '.join(names)} of {place}" for place, names in places.items()]
    return f"Names of other files: {'; '.join(said)}.\n\n" if said else ""


def doubled_names(parts: list[tuple[Part | None, Reached]]) -> set[str]:
    """The names that two of the modules declare."""
    owners: dict[str, set[str]] = {}
    for _, reached in parts:
        for one in reached.definitions:
            for name in one.names:
                owners.setdefault(name, set()).add(one.module.path)
    return {name for name, modules in owners.items() if len(modules) > 1}


def section(definitions: list[Definition], doubled: set[str]) -> str:
    module, many = definitions[0].module, counted(definitions)
    return (f"### `{place_of(module)}`\n\n{many} {'line' if many == 1 else 'lines'}; {page_of(module)}.\n\n"
            f"{foreign_names(definitions, doubled)}```\n{shown(definitions)}\n```\n\n")


def worked_text(values: list[Value], done: dict[Definition, None]) -> str:
    """The statements of worked values behind what they are made of, without what was shown before."""
    new = Reached({one: None for value in values for one in value.statement() if one not in done})
    done.update(new.definitions)
    if not new.definitions:
        return ""
    names = ", ".join(f"`{value.name()}`" for value in values)
    texts = "\n\n".join(shown(definitions) for definitions in reversed(by_module(new).values()))
    return f"Worked, and proved as {names}:\n\n```\n{texts}\n```\n\n"


def text_of(headline: Headline, values: Values, premises: list[Clause]) -> str:
    """What the sentence rests on: its clause below what the caller has to see to, and part by part the definitions,
    with their worked values."""
    clauses = "\n".join(clause.text for clause in (*premises, headline.clause))
    found, doubled = [f"```\n{clauses}\n```\n\n"], doubled_names(headline.parts)
    done: dict[Definition, None] = {}
    for part, reached in headline.parts:
        if part:
            found.append(f"## {heading(part)}\n\n{part.says} {count(reached):,} lines.\n\n")
        for definitions in by_module(reached).values():
            found += [section(definitions, doubled), worked_text(values.below(definitions), done)]
    return "".join(found) + types_text(headline.types)


def heading(part: Part) -> str:
    return part.title[0].upper() + part.title[1:]


def types_text(types: dict[Type, None]) -> str:
    """The declarations of the Rust types that the definitions name."""
    declared = [declaration_of(one) for one in types if one.crate not in OF_STD]
    lines = sum(bool(line.strip()) and not line.strip().startswith("//") for text in declared
                for line in text.split("\n"))
    return ("## The types of the code\n\nThe definitions name these types, as the code declares them: "
            f"{lines:,} lines, which are not among those above.\n\n```rust\n" + "\n\n".join(declared) + "\n```\n")


DECLARATION = (r"^((?:///.*\n)*)(?:#\[.*\]\n)*(pub(?:\(crate\))? (?:struct|enum) "
               r"{}\b[^;{{]*(?:;|\{{(?:\n(?!\}}).*)*\n\}}))")


def declaration_of(one: Type) -> str:
    """A type as its crate declares it, with its comment, or the numbers of a module of constants."""
    for path in sorted((CRATES / one.crate / "src").glob("**/*.rt")):
        text = path.read_text()
        if path.stem == one.name:
            return f"// {one.crate}::{one.name}\n" + "\n".join(re.findall(r"^pub const .*;$", text, re.M))
        found = re.search(DECLARATION.format(one.name), text, re.M)
        if found:
            return f"// {one.crate}\n" + found[1] + found[2]
    raise Unlisted(f"crates/{one.crate} declares no type {one.name}")


INTRODUCTION = """# What has to be trusted

{sentence}

This sentence of `README.md` is the clause `headline` of `silc::silc`. This page has what a reader has to read to know \
what it promises: the clause, and part by part the definitions that it rests on, in the order of the sentence, each \
file with the page that tells the same in prose. That the code meets them is for the prover; that they say what they \
should is for the reader. `docs/PROOF.md` goes through the proof.

| Part of the sentence | Lines |
|---|---|
{parts}| **in all** | **{lines:,}** |

Below a file stand worked values of its definitions, under "Worked": what texts, numbers, expressions, programs, \
images and runs come to, worked out by hand. Each is a clause of `crates/worked_values`, and holds whatever the code \
is: the prover computes it from the definitions above it. They add nothing to what is promised, and do not count.

A line that is blank, a comment or a `use` line does not count. Left out are the names of the proved standard library, \
as `List`, `≡` and `slice_get`,{kit}: `rt lemma NAME` prints one.

**The environment.** `D` is any type with the trait `Desk` (`crates/desk_core`), whose calls open, read, make and \
write files by name; `D.view desk.old` and `D.view desk.new` are its state before and after the call, and their \
`files` all files with their bytes. What each call does to them is the trait's contract. An environment may leave its \
files unspecified (`None`), and then the clause says nothing of them. The environment in memory, `MemDesk`, always \
specifies them. That of the program, `HostDesk` of `crates/host_desk`, never does, since another process may change a \
file between two calls: that the host's files act like those in memory is trusted.

**What this clause leaves to the clause `planned`** of the same call: that the source breaks no rule on names, \
elements, types and loops, so that no item of it is left out of its equations and each width is one of the language; \
and that the image is that of the plan on the datapath, so that its units, buses and latencies are the file's and its \
input words have the widths that the source declares. Names are compared as text: of two names of one file it knows \
nothing. That `compile` answers Done wherever there is a plan is the clause `compiles` of `silc_laws::silc_completes`.

**Some rules that surprise.** Each is one of the language or the machine, told on its page. What was before the first \
sample is given and never computed: an element has there what its own `@@` gives, or 0, also a parameter that is \
another name of a word with a past of its own. Of two outputs that end on one latch in one cycle the latch keeps that \
of the greater unit, and this is no conflict. Roles, weights and `weighs` of the grammar say what is refused as too \
deep; the sentence does not depend on them.

**How to read the definitions.**

| Written | Read |
|---|---|
| `abbrev`, `unfoldable` | a definition; the words tell the prover how far to open it |
| `record R : Type 0 where`, lines `pub f : P` | R holds where each P does; or R is a structure with these fields |
| `data D where`, lines `c : A → D` | D has the cases c, each with what it holds; of a relation: its rules |
| `Type 0` | a type, or a statement: a statement is the type of its proofs |
| `(x : A) → B`, `A → B` | for each x of A, B; A implies B; a function from A to B |
| `(x : A) × B`, `A × B` | there is an x of A with B; A and B; a pair |
| `A ⊎ B`, `¬ A`, `A → ⊥`, `Unit {{0}}` | A or B; not A; not A; true |
| `a ≡ b`, `a ≢ b` | they are equal; they are not |
| `[]`, `x ∷ l`, `l ++ m`, `length l` | the empty list; x before l; l and then m; how many |
| `ℕ`, `ℤ`, `pos n`, `negsuc n` | 0, 1, 2 and so on; whole numbers; n; -(n + 1) |
| `a - b` on `ℕ`, `a / b`, `a % b` | 0 where b is more; the quotient rounded down; what is left |
| `λ x. e`, `let x = e in f`, `case` | the function of x with the value e; as usual; by its form |
| `module _ (x : A)` | what is indented below it is said for each x |

`tools/trusted --write` makes this page of the sources, and `tools/trusted --check` says whether it is as they are.

"""
COUNTS = """
## What else is promised

What each further clause of `silc` and of the calls of `silc_laws` rests on, and how much of it no clause above it \
rests on.

"""


def kit_of(specs: Specs, headline: Headline) -> str:
    """The libraries of the kit beside std that the definitions name."""
    paths = {path for _, reached in headline.parts for one in reached.definitions for path in specs.paths_in(one)}
    names = {path.split(".")[1] for path in paths if path.startswith("Rattle.")}
    own = {file.name for file in CRATES.iterdir()}
    named = ", ".join(f"`{name}`" for name in sorted(names - own - OF_STD))
    return f" and those of the kit's library {named}" if named else ""


def page_text(specs: Specs) -> str:
    headline, values = headline_of(specs), worked_values(specs)
    values.check([one for _, reached in headline.parts for one in reached.definitions])
    counts = {heading(part) if part else "Where `compile` answers Done": count(reached)
              for part, reached in headline.parts}
    premises = premises_of(specs)
    counts["Where `compile` answers Done"] += sum(clause.lines() for clause in (*premises, headline.clause))
    parts = "".join(f"| {title} | {many:,} |\n" for title, many in counts.items())
    introduction = INTRODUCTION.format(sentence=sentence(), lines=sum(counts.values()), parts=parts,
                                       kit=kit_of(specs, headline))
    return (introduction + "## Where `compile` answers Done\n\n" + text_of(headline, values, premises) + COUNTS
            + promises_table(specs))
