#!/usr/bin/env python3
"""Makes the tables, and the proofs of what is true of each, of what walk.c prints of PipeWire's headers.

    ./identifiers.py $(pkg-config --variable=includedir libspa-0.2)/spa-0.2 > identifiers.c
    for it in walk identifiers; do cc $(pkg-config --cflags libspa-0.2) -o $it $it.c; done
    ./identifiers > identifiers.txt && ./walk | ./generate.py identifiers.txt

A name is the shortest end of PipeWire's name, cut at a colon, that no entry before it in its table has. So a name keeps its
number when PipeWire appends entries to a table. Entries whose names end in a colon only mark where a range begins: they give no
name. Of several entries of one number the first one gives the name that the number is shown by, and the others are further names of it.

A constant is named as C's identifier, in capitals, without what all of its module begin with.
"""

import re
import sys
from pathlib import Path

CRATE = Path(__file__).resolve().parent.parent
ARRAY = 13
NOTHING = (0, 0, "Nothing")
OF_C = "by tables/generate.py from the headers of PipeWire 0.3.65. Do not edit."


def read_tables(lines):
    """The entries of each table: number, type, name, and the table of the value's numbers."""
    tables = []
    for line in lines:
        if line.startswith("table "):
            tables.append([])
        else:
            number, type_, path, values = line.rstrip("\n").split("\t")
            tables[-1].append((int(number), int(type_), path, int(values)))
    return tables


def ends_of(path):
    """The ends of a name, cut at colons, the shortest first."""
    parts = path.split(":")
    return [":".join(parts[at:]) for at in reversed(range(len(parts)))]


def named(entries):
    """The entries that have a name of their own, each with it."""
    used = set()
    for number, type_, path, values in entries:
        name = next((it for it in ends_of(path) if it and it not in used), None)
        if not path.endswith(":") and name is not None:
            used.add(name)
            yield number, name, path, type_, values


def front_of(entries):
    """What the names of a table begin with, up to the last colon that they share."""
    fronts = [path.split(":")[:-1] for _, _, path, _ in entries]
    shared = []
    for parts in zip(*fronts):
        if len(set(parts)) > 1:
            break
        shared.append(parts[0])
    return ":".join(shared)


def title_of(text):
    return "".join(it[0].upper() + it[1:] for it in text.split(":"))


def titles_of(tables, kept):
    """The name of each table in the code: `Types`, `Choices`, `Controls`, of an object's keys `FormatKeys`, of ids `AudioFormat`."""
    keys = {values: name for _, name, _, _, values in named(tables[0]) if values >= 0}
    titles = {0: "Types", 1: "Choices", 2: "Controls"}
    for at in kept[3:]:
        if at in keys:
            titles[at] = title_of(keys[at]) + "Keys"
        else:
            ends = [title_of(it) for it in ends_of(front_of(tables[at]))]
            titles[at] = next(it for it in ends if it not in titles.values())
    return titles


def constant_of(title):
    """AUDIO_FORMAT for AudioFormat."""
    return "".join(("_" if at and it.isupper() and not title[at - 1].isupper() else "") + it for at, it in enumerate(title)).upper()


def entries_in(table, place_of):
    """The lines of a table's entries, of which each number has one."""
    rows = {}
    for number, name, path, type_, values in named(table):
        rows.setdefault(number, f'    ({number}, "{path}", {len(path) - len(name)}, {place_of(type_, values)}),')
    return [rows[it] for it in sorted(rows)]


MASK = 0xFFFFFFFFFFFFFFFF
# What is multiplied to make a hash, as src/guess.rt has it; with these, SLOTS and DISPLACEMENTS places are found for all guesses.
MULTIPLIER, OF_LAST, OF_LENGTH, OF_COUNT = 0x6513270E269E0D37, 0x85EBCA6B, 0xC2B2AE35, 0x27D4EB2F
SLOTS, DISPLACEMENTS = 1024, 256


def hash_of(name, count):
    """As src/guess.rt has it: a number made of the first and last four bytes of a name, of its length, and of how many names its table has."""
    if len(name) < 4:
        first, last = int.from_bytes(name, "big"), 0
    else:
        first, last = (int.from_bytes(it, "little") for it in (name[:4], name[-4:]))
    return (first + last * OF_LAST + len(name) * OF_LENGTH + count * OF_COUNT) * MULTIPLIER & MASK


def bucket_of(hash_):
    return hash_ >> 56


def slot_of(hash_, displacement):
    return (hash_ >> 40 ^ displacement * 4) % SLOTS


def names_in(table):
    """The name that each number of a table is shown by, in the order of the numbers, and the further names, each with its number."""
    first, further = {}, []
    for number, name, _, _, _ in named(table):
        if number in first:
            further.append((name, number))
        first.setdefault(number, name)
    return [first[it] for it in sorted(first)], sorted(further)


def guesses_of(tables):
    """For each name that a number is shown by the index of its entry, at slots that no other has. Names of one hash share a slot."""
    guesses, slots, displacements = {}, {}, [0] * DISPLACEMENTS
    for table in tables:
        names, _ = names_in(table)
        for at, name in enumerate(names):
            guesses.setdefault(hash_of(name.encode(), len(names)), at)
    buckets = {}
    for hash_ in guesses:
        buckets.setdefault(bucket_of(hash_), []).append(hash_)
    for bucket, hashes in sorted(buckets.items(), key=lambda it: -len(it[1])):
        for displacement in range(256):
            ours = {slot_of(hash_, displacement): guesses[hash_] for hash_ in hashes}
            if len(ours) == len(hashes) and not ours.keys() & slots.keys():
                break
        else:
            sys.exit("generate.py: another MULTIPLIER is needed")
        displacements[bucket] = displacement
        slots.update(ours)
    return displacements, [slots.get(at, 0) for at in range(SLOTS)]


def rows_of(items, count):
    """The items in lines of so many."""
    return [f"    {', '.join(str(it) for it in items[at : at + count])}," for at in range(0, len(items), count)]


def read_identifiers(path):
    """C's identifiers, by number and PipeWire's name."""
    lines = (line.split("\t") for line in Path(path).read_text(encoding="utf-8").splitlines())
    return {(int(number), name): identifier for identifier, number, name in lines}


def constants_in(table, front, identifiers):
    """The constants of a table's numbers, under C's identifiers without this front."""
    for number, _, path, _, _ in named(table):
        identifier = identifiers[number, path]
        name = re.sub("([a-z])([A-Z])", r"\1_\2", identifier.removeprefix(front)).upper()
        yield f"/// `{identifier}`.", f"pub const {name}: u32 = {number};"


def write(name, lines):
    (CRATE / name).write_text("\n".join(lines) + "\n", encoding="utf-8")


def main():
    tables = read_tables(sys.stdin)
    arrays = {values for entries in tables for _, type_, _, values in entries if type_ == ARRAY and values >= 0}
    kept = [at for at in range(len(tables)) if at not in arrays]
    titles = titles_of(tables, kept)

    def title(at):
        return titles.get(at, "Nothing")

    def expected_of(type_, values):
        """The type of a value, that of its elements where it is an array, and the table of their numbers."""
        element, ids = 0, values
        if type_ == ARRAY and values >= 0:
            _, element, _, ids = tables[values][0]
        return type_, element, title(ids)

    def constants_of(ours):
        return ", ".join("ENTRIES_OF_" + constant_of(titles[it]) for it in kept if it in ours)

    is_keys = {at for at in kept if titles[at].endswith("Keys")}
    under_keys = {expected_of(type_, values) for at in is_keys for _, _, _, type_, values in named(tables[at])}
    expected = [NOTHING, *sorted(under_keys - {NOTHING})]
    of_rows = (("key_entries", is_keys, "whose numbers are keys"), ("id_entries", set(kept) - is_keys, "whose numbers are types and ids"))
    for module, ours, what in of_rows:
        out = [f"// Written {OF_C}", f"//! The entries of the tables {what}, by their numbers.", ""]
        if ours == is_keys:
            out += ["use crate::entry::{Entry, Expected};", "use crate::table::Table;", "use spa_utils::SpaTypes;"]
            out += ["", "/// What is expected under keys, each once: an entry names its place. The first stands for nothing."]
            out += ["#[rattlefmt::skip]", f"pub(crate) const EXPECTED: [Expected; {len(expected)}] = ["]
            out += [f"    Expected {{ type_: SpaTypes({it[0]}), element: SpaTypes({it[1]}), ids: Table::{it[2]} }}," for it in expected] + ["];"]
        else:
            out += ["use crate::entry::Entry;"]
        for at in [it for it in kept if it in ours]:
            rows = entries_in(tables[at], lambda *of: expected.index(expected_of(*of) if ours == is_keys else NOTHING))
            out += ["", "#[rattlefmt::skip]", f"pub(crate) const ENTRIES_OF_{constant_of(titles[at])}: &[Entry] = &["]
            out += rows + ["];"]
        write(f"src/{module}.rt", out)

    has_further = [at for at in kept if names_in(tables[at])[1]]
    out = [f"// Written {OF_C}", "//! Further names of numbers that have an entry.", "", "use crate::entry::Naming;"]
    for at in has_further:
        out += ["", "#[rattlefmt::skip]", f"pub(crate) const ALIASES_OF_{constant_of(titles[at])}: &[Naming] = &["]
        out += [f'    ("{name}", {number}),' for name, number in names_in(tables[at])[1]] + ["];"]
    write("src/aliases.rt", out)

    def arms(ours, rows):
        """The arms of a match that gives the rows of our tables."""
        return [f"        Table::{titles[at]} => {rows(at)}_OF_{constant_of(titles[at])}," for at in kept if at in ours]

    def entries(at):
        return ("key" if at in is_keys else "id") + "_entries::ENTRIES"

    def aliases(_):
        return "aliases::ALIASES"

    others = set(kept) - is_keys
    out = [f"// Written {OF_C}", "//! The contents of the tables."]
    out += ["ghost use Rattle.std.specs.Prelude.{◌≡◌, map};", "ghost use Rattle.spa_names.specs.Rows.{naming_of, row_of};"]
    out += ["ghost use Rattle.spa_names.specs.Tables.{aliases_of, id_rows_of, rows_of};", ""]
    out += ["use crate::entry::{Entry, Naming};", "use crate::table::Table;", "use crate::{aliases, id_entries, key_entries};"]
    out += ["", "/// The entries of a table, by their numbers.", "pub(crate) fn entries_of(table: Table) -> &'static [Entry]"]
    out += ["    ensures { map row_of result.now ≡ rows_of table }", "{", "    match table {"]
    out += arms(is_keys, entries) + ["        _ => id_entries_of(table),", "    }", "}"]
    out += ["", "/// The entries of a table of types or ids; of any other none.", "fn id_entries_of(table: Table) -> &'static [Entry]"]
    out += ["    ensures { map row_of result.now ≡ id_rows_of table }", "{", "    match table {"]
    out += arms(others, entries) + ["        _ => &[],", "    }", "}"]
    out += ["", "/// The further names of numbers in a table.", "pub(crate) fn aliases_of(table: Table) -> &'static [Naming]"]
    out += ["    ensures { map naming_of result.now ≡ aliases_of table }", "{", "    match table {"]
    out += arms(has_further, aliases) + ["        _ => &[],", "    }", "}"]
    write("src/contents.rt", out)

    displacements, guesses = guesses_of([tables[at] for at in kept])
    out = [f"// Written {OF_C}", "//! Where the tables are likely to have a name."]
    out += ["", "/// What is added to the slots of names, by the highest byte of their hash.", "#[rattlefmt::skip]"]
    out += ["pub(crate) const DISPLACEMENTS: &[u8] = &["] + rows_of(displacements, 32) + ["];"]
    out += ["", "/// For a slot the index of the entry of a name.", "#[rattlefmt::skip]"]
    out += ["pub(crate) const GUESSES: &[u8] = &["] + rows_of(guesses, 32) + ["];"]
    write("src/guesses.rt", out)

    identifiers = read_identifiers(sys.argv[1])
    objects = [entry for entry in tables[0] if entry[3] >= 0]
    formats = {at for at in kept if titles[at] in ("AudioFormat", "VideoFormat")}
    of_constants = (
        ("types", [objects], "SPA_TYPE_", "The types of objects"),
        ("shapes", [tables[1]], "SPA_CHOICE_", "The shapes of choices"),
        ("keys", [tables[at] for at in kept if at in is_keys], "SPA_", "The keys of objects"),
        ("formats", [tables[at] for at in kept if at in formats], "SPA_", "The ids of formats of samples and of pictures"),
        ("ids", [tables[at] for at in kept[2:] if at not in is_keys | formats], "SPA_", "The ids of objects, and others that stand under keys"),
    )
    for module, ours, front, what in of_constants:
        out = [f"// Written {OF_C}", f"//! {what}, named as C names them.", ""]
        out += [line for table in ours for constant in constants_in(table, front, identifiers) for line in constant]
        write(f"src/{module}.rt", out)

    out = [f"-- Written {OF_C}", "-- The contents of each table."]
    out += ["use Rattle.std.specs.Prelude.{List, [], get_or, map}"]
    out += ["use Rattle.spa_names.specs.Rows.{Row, Naming}"]
    out += ["use Rattle.spa_names.specs.declared.entry.TheConstants.Expected.{NOTHING}"]
    out += ["use Rattle.spa_names.specs.declared.table.Table.{Table}"]
    variants = [titles[at] for at in kept]
    out += [f"use Rattle.spa_names.specs.declared.table.Table.TheVariants.{{{', '.join(variants)}}}"]
    out += [f"use Rattle.spa_names.specs.declared.key_entries.TheConstants.{{EXPECTED, {constants_of(is_keys)}}}"]
    out += [f"use Rattle.spa_names.specs.declared.id_entries.TheConstants.{{{constants_of(others)}}}"]
    further = [constant_of(titles[at]) for at in has_further]
    out += [f"use Rattle.spa_names.specs.declared.aliases.TheConstants.{{{', '.join('ALIASES_OF_' + it for it in further)}}}"]
    out += ["", "-- the entries of a table of types or ids, by their numbers; of any other none", "abbrev pub id_rows_of : Table → List Row"]
    out += [f"id_rows_of {titles[at]} = map (λ e. (e.0, e.1.now, e.2, get_or EXPECTED e.3 NOTHING)) ENTRIES_OF_{constant_of(titles[at])}.now" for at in kept if at in others]
    out += ["id_rows_of _ = []"]
    out += ["", "-- the entries of a table, by their numbers", "abbrev pub rows_of : Table → List Row"]
    out += [f"rows_of {titles[at]} = map (λ e. (e.0, e.1.now, e.2, get_or EXPECTED e.3 NOTHING)) ENTRIES_OF_{constant_of(titles[at])}.now" for at in kept if at in is_keys]
    out += ["rows_of table = id_rows_of table"]
    out += ["", "-- the further names of numbers in a table", "abbrev pub aliases_of : Table → List Naming"]
    out += [f"aliases_of {titles[at]} = map (λ e. (e.0.now, e.1)) ALIASES_OF_{constant_of(titles[at])}.now" for at in has_further]
    out += ["aliases_of _ = []"]
    write("specs/Tables.antt", out)

    out = [f"-- Written {OF_C}", "-- What is true of each table."]
    out += ["use Rattle.std.proofs.Common.{◌≡◌, true, refl}"]
    out += ["use Rattle.spa_names.specs.declared.table.Table.{Table}"]
    variants += ["Nothing"]
    out += [f"use Rattle.spa_names.specs.declared.table.Table.TheVariants.{{{', '.join(variants)}}}"]
    out += ["use Rattle.spa_names.proofs.Sound.{is_sound}"]
    out += ["", "pub is_sound-all : (table : Table) → is_sound table ≡ true"]
    out += [f"is_sound-all {variant} = refl" for variant in variants]
    write("proofs/Facts.antt", out)

    out = [f"// Written {OF_C}", "//! The tables of names.", ""]
    out += ["/// A table of names."]
    out += ["#[derive(Clone, Copy, Debug, PartialEq, Eq)]", "pub enum Table {"]
    docs = {0: "The types, those of objects too.", 1: "The shapes of choices.", 2: "The types of controls."}
    for at in kept:
        keys = next((path for _, _, path, _, values in named(tables[0]) if values == at), None)
        doc = f"The keys of {keys}." if keys else f"The ids {front_of(tables[at])}."
        out += [f"    /// {docs.get(at, doc)}", f"    {titles[at]},"]
    out += ["    /// No names.", "    Nothing,", "}"]
    objects = sorted((number, values) for number, _, _, _, values in named(tables[0]) if values >= 0)
    out += ["", "/// The types of objects, by their numbers, each with the table of its keys and that of its ids."]
    out += ["#[rattlefmt::skip]", f"pub(crate) const OBJECTS: [(u32, Table, Table); {len(objects)}] = ["]
    for number, values in objects:
        ids = next((it for key, _, _, it in tables[values] if key == 0), -1)
        out += [f"    ({number}, Table::{title(values)}, Table::{title(ids)}),"]
    out += ["];"]
    write("src/table.rt", out)


if __name__ == "__main__":
    main() if sys.argv[1:] else sys.exit(__doc__)
