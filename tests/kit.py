"""Computing definitions with the proof kit: a copy of the crates without functions and proofs, rows that the kit must accept
by `refl`, and slips put into the copy. For the programs in the folders beside this file."""
import argparse
import os
import re
import signal
import subprocess
import sys
import tempfile
from pathlib import Path

ROOT = Path(__file__).resolve().parent.parent
VARIANTS = "Rattle.gates.specs.declared.Gate.TheVariants"

# Declarations in one file.
DECLARATIONS = 25


class Stopped(Exception):
    """Why no comparison was made."""


# ------------------------------------------------------------ the copy


def only_once(text, old, new, where):
    if text.count(old) != 1:
        raise Stopped(f"{where} must have this once, and has it {text.count(old)} times: {old.strip()}")
    return text.replace(old, new)


def declarations(text):
    """A source file without its functions and what only they need, so that nothing is left to prove."""
    kept, inside = [], False
    for line in text.split("\n"):
        if inside:
            inside = line != "}"
        elif re.match(r"(pub )?(extern \"C\" )?fn |impl ", line):
            inside = True
        elif not re.match(r"ghost use |#\[", line):
            kept.append(line)
    text = "\n".join(kept)
    # An imported function is gone; a module is still needed where a path starts with it.
    import_of_either = re.compile(r"^use [\w:]*\b([a-z]\w*);\n", re.M)
    return import_of_either.sub(lambda found: found[0] if f"{found[1]}::" in text else "", text)


def needed_crates(crate):
    """The lines of crates.txt for a crate and what it depends on."""
    lines = [line.split("#")[0] for line in (ROOT / "crates.txt").read_text().split("\n")]
    listed = [line.split(":") for line in lines if ":" in line]
    dependencies = {name.strip(): rest.split() for name, rest in listed}
    needed, waiting = {}, [crate]
    while waiting:
        name = waiting.pop()
        if name in dependencies and name not in needed:
            needed[name] = dependencies[name]
            waiting += dependencies[name]
    return needed


def copy_definitions(copy, crate):
    needed = needed_crates(crate)
    (copy / "crates.txt").write_text("".join(f"{name}: {' '.join(rest)}\n" for name, rest in needed.items()))
    for name in needed:
        folder = ROOT / "crates" / name
        for file in (*folder.glob("specs/**/*.antt"), *folder.glob("src/**/*.rt")):
            text = file.read_text()
            to = copy / file.relative_to(ROOT)
            to.parent.mkdir(parents=True, exist_ok=True)
            to.write_text(declarations(text) if file.suffix == ".rt" else text)


def slips(crate):
    """The must-fail edits of a crate's definitions by their names."""
    edits = {file.stem: file.read_text() for file in sorted((ROOT / "crates" / crate / "must-fail").glob("*.edit"))}
    return {name: edit for name, edit in edits.items() if set(re.findall(r"^file: (\w+)/", edit, re.M)) == {"specs"}}


def make_slip(copy, crate, edit):
    """Makes a must-fail edit in the copied crate, as `rt` does: each pair applies to what the earlier ones made."""
    name = old = None
    for field, text in re.findall(r"^(file|old|new): (.*)", edit, re.M):
        if field == "file":
            name = text
        elif field == "old":
            old = text
        else:
            file = copy / "crates" / crate / name
            file.write_text(only_once(file.read_text(), old, text, name))


# ------------------------------------------------------------ the kit's side


def antt_name(word):
    """The name here of a gate in the Rust's notation: cnot-0-1 for cnot(0,1)."""
    return "-".join(re.findall("[a-z]+|[0-9]+", word))


def antt_list(words):
    return "(" + "".join(f"{word} ∷ " for word in words) + "[])"


def antt_gates(text):
    """A list of gates in the Rust's notation."""
    return antt_list(antt_name(word) for word in text.split())


def notation_module(names):
    """The gates by name; a measure's second operand is its bit, and all others are wires."""
    lines = [
        "use Rattle.gates.specs.declared.Gate.{Gate}",
        f"use {VARIANTS} as Gates",
        "use Rattle.gates.specs.Gates.{wire, bit}",
    ]
    for name in names:
        kind, first, *others = name.split("-")
        operands = [f"(wire {first})", *(f"({'bit' if kind == 'measure' else 'wire'} {other})" for other in others)]
        lines += ["", f"abbrev pub {name} : Gate", f"{name} = Gates.{kind.capitalize()} {' '.join(operands)}"]
    return "\n".join(lines) + "\n"


def kit_check(copy, crate):
    """The status of the kit's check of the copy, and all that it says."""
    told = {"cwd": copy / "crates" / crate, "text": True, "stdout": subprocess.PIPE, "stderr": subprocess.STDOUT}
    # In a group of its own, so that what `rt` started ends with it where this is interrupted.
    with subprocess.Popen(["rt", "check"], start_new_session=True, **told) as running:
        try:
            said, _ = running.communicate()
        except BaseException:
            os.killpg(running.pid, signal.SIGKILL)
            raise
    return running.returncode, said.replace(f"{copy}/", "")


def write_rows(copy, table, rows, together):
    """Writes the proofs of the copy; gives the rows of each declaration by its name."""
    proofs = copy / "crates" / table.crate / "proofs"
    proofs.mkdir(exist_ok=True)
    for old in proofs.iterdir():
        old.unlink()
    names = sorted({antt_name(word) for row in rows for word in table.gates(row)})
    modules = {"Answers": table.answers(), "Notation": notation_module(names)}
    # The kit's messages name a gate in short only where its constructor is imported.
    constructors = sorted({name.split("-")[0].capitalize() for name in names})
    own = f"Rattle.{table.crate}.proofs"
    head = [
        "use Rattle.std.specs.Prelude.{◌≡◌, refl, [], ◌∷◌}",
        *table.imports,
        f"use {own}.Answers.{{{table.left}, {table.right}}}",
        f"use {own}.Notation.{{{', '.join(names)}}}" if names else "",
        f"use {VARIANTS}.{{{', '.join(constructors)}}}" if names else "",
        "",
    ]
    named = {f"row-{at}": rows[at : at + together] for at in range(0, len(rows), together)}
    texts = [declaration(table, name, of) for name, of in named.items()]
    for at in range(0, len(texts), DECLARATIONS):
        modules[f"Rows{at // DECLARATIONS}"] = "\n".join(head + texts[at : at + DECLARATIONS])
    modules["Lib"] = "".join(f"mod {name}\n" for name in modules)
    for name, text in modules.items():
        (proofs / f"{name}.antt").write_text(text)
    return named


def declaration(table, name, rows):
    sides = [table.sides(row) for row in rows]
    left, right = ([f"{head} {side[at]}" for side in sides] for at, head in enumerate((table.left, table.right)))
    if len(rows) > 1:
        left, right = (["(" + " ∷ ".join((*side, "[]")) + ")"] for side in (left, right))
    return f"{name} : {left[0]} ≡ {right[0]}\nunfolding {table.left}\n{name} = refl\n"


def refused(copy, table, rows, together):
    """The rows of each declaration that the kit does not accept, with what it says of it."""
    named = write_rows(copy, table, rows, together)
    status, said = kit_check(copy, table.crate)
    if status == 0 and "\nlogic=proved " in said:
        return []
    found, others = {}, []
    for error in re.split(r"\n(?! )", said):
        of_row = re.match(r"\S+/Rows\d+\.antt:\d+:\d+: error: `(row-\d+)`: ", error)
        if of_row:
            found.setdefault(of_row[1], error[of_row.end() :])
        elif re.match(r"\S+: error|error", error):
            others.append(error)
    if others or not found or status != 1:
        raise Stopped("the kit stopped at something else than a row:\n" + ("\n".join(others) or said)[:4000])
    return [(named[name], words) for name, words in found.items()]


def compare(copy, table, rows):
    """The rows that differ, with what the kit says of each: first many at a time, then one by one where some differ."""
    suspects = [row for together, _ in refused(copy, table, rows, table.together) for row in together]
    differing = [(row, words) for [row], words in refused(copy, table, suspects, 1)] if suspects else []
    if suspects and not differing:
        raise Stopped("rows were refused together, and none of them by itself")
    return differing


# ------------------------------------------------------------ what is printed


def in_short(words, expected):
    """What the kit says of the two sides once they are computed, without the terms that it was given."""
    said = " ".join(words.split("\n  expected type")[0].split())
    said = said[max(0, said.find("computed as far as they go")) :]
    said = said.replace("(expected)", f"({expected})").replace("(found)", "(the definitions)")
    return re.sub(r"record \{0 = (\d+)\}", r"\1", said)[:500]


def number(text):
    if not text.isdigit():
        raise argparse.ArgumentTypeError(f"not a number: {text}")
    return int(text)


def options(about, crate, random):
    words = argparse.ArgumentParser(
        description=about,
        epilog=f"slips, the must-fail edits of the definitions of crates/{crate}:\n  " + "\n  ".join(slips(crate)),
        formatter_class=argparse.RawDescriptionHelpFormatter,
    )
    words.add_argument(
        "--random", type=number, default=random, metavar="N", help=f"so many random lists (default {random})"
    )
    words.add_argument("--seed", type=number, default=0, metavar="S", help="the seed of the first of them (default 0)")
    told = "put a slip into the copied definitions, to see that lists fail then"
    words.add_argument("--with-slip", choices=list(slips(crate)), metavar="NAME", help=told)
    return words.parse_args()


def run(table, about, random):
    """Makes the rows, compares, prints what differs and a summary, and ends with 'N passed, M failed'."""
    asked = options(about, table.crate, random)
    # The copy is removed on the way out, also where this is ended from outside.
    signal.signal(signal.SIGTERM, lambda *_: sys.exit(2))
    rows = []
    try:
        rows = table.rows(asked.random, asked.seed)
        with tempfile.TemporaryDirectory() as folder:
            copy = Path(folder).resolve()
            copy_definitions(copy, table.crate)
            if asked.with_slip:
                make_slip(copy, table.crate, slips(table.crate)[asked.with_slip])
            differing = compare(copy, table, rows)
    except (Stopped, OSError) as why:
        print(f"{table.name}: {why}")
        print(f"0 passed, {max(1, len(rows))} failed")
        sys.exit(2)
    for row, words in differing:
        print(f"refused: {table.shown(row)}")
        print(f"  {in_short(words, table.expected)}")
    table.summary(rows, differing)
    print(f"{len(rows) - len(differing)} passed, {len(differing)} failed")
    sys.exit(1 if differing else 0)
