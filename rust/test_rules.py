"""Tests of the script that makes Rust, and of the one that judges it."""
import os
import sys
import unittest

sys.path.insert(0, os.path.dirname(os.path.abspath(__file__)))

import compare
import erase
import rattle
import surface

SOURCE = '''//! Counts.
#![tactic(auto)]
ghost use Rattle.std.specs.Prelude.{◌≡◌, ℕ};

use crate::laws::counts_grow;
use crate::other::Thing;
use std::alloc::{AllocError, Global};
use std::fmt;

/// A count's list.
#[derive(Debug, Drop)]
pub struct Counts {
    alloc: Global,
    pub items: Vec<u32>,
    ghost extra: { ℕ },
}

impl Model for Counts {
    ghost Value = { ℕ };
}

impl Counts {
    /// With one more: "in memory; of alloc".
    #[tactic(auto, using(a::b))]
    pub fn with(mut self, alloc: Global, count: u32) -> Result<Counts, AllocError>
        requires { count < 7 }
        // Nothing is lost.
        ensures kept { length result.items ≡ 1 + length self.items }
    {
        self.items.push(count)?;
        counts_grow();
        let more = small(alloc, &self.items, Vec::new(alloc))?;
        Ok(Counts { alloc, items: more })
    }

    fn is_clean(text: &[u8]) -> bool {
        !text.contains(&0)
    }
}

impl fmt::Display for Counts {
    fn fmt<W: fmt::Write>(&self, f: &mut fmt::Formatter<W>) -> fmt::Result {
        write!(f, "{}", self.items.len())
    }
}

impl Drop for Counts {
    fn drop(self) {
        let Counts { alloc: _, items } = self;
        discard(items);
    }
}
'''

RUST = '''//! Counts.

use crate::shims::prelude::*;
use crate::parts::counts::other::Thing;
use crate::shims::memory::AllocError;
use core::fmt;

/// A count's list.
#[derive(Debug)]
pub struct Counts {
    pub items: Vec<u32>,
}

impl Counts {
    /// With one more: "in memory; of alloc".
    pub fn with(mut self, count: u32) -> Result<Counts, AllocError> {
        self.items.try_push(count)?;
        let more = small(&self.items, Vec::new())?;
        Ok(Counts { items: more })
    }

    fn is_clean(text: &[u8]) -> bool {
        !text.has_nul()
    }
}

impl fmt::Display for Counts {
    fn fmt(&self, f: &mut fmt::Formatter<'_>) -> fmt::Result {
        write!(f, "{}", self.items.len())
    }
}

impl Drop for Counts {
    fn drop(&mut self) {
        let items = core::mem::take(&mut self.items);
        discard(items);
    }
}
'''


LAWS = '''//! Laws.
/// More is more.
pub fn counts_grow()
    ensures { ◌≤◌ }
{
}
'''

# What only the programs, text with names and the tests have.
PROGRAM = '''use counts::with;
use json::{Reader, Token};
use std::fmt::Write;
use std::num::f32_from_bits_with_nan;
use memchr::memchr;

pub struct SystemFiles<'a> {
    pub rt: &'a HostRuntime,
}

impl Files for SystemFiles<'_> {
    fn text(&self, alloc: Global, name: &str) -> Result<String, AllocError> {
        let mut text = name.replace(alloc, ",", " ")?;
        text.reserve_exact(itoa::Buffer::new().format(3).len())?;
        write!(text, "{}", f32_from_bits_with_nan(0))?;
        let open = File::open(self.rt, name)?;
        format!(in alloc; "{text}")
    }
}
'''

ERASED_PROGRAM = '''use spa_pod::shims::prelude::*;
use spa_pod::parts::counts::with;
use spa_pod::shims::json::{Reader, Token};
use crate::shims::memchr::memchr;

pub struct SystemFiles {}

impl Files for SystemFiles {
    fn text(&self, name: &str) -> Result<String, AllocError> {
        let mut text = name.try_replace(",", " ")?;
        text.make_room_exact(spa_pod::shims::numerals::Buffer::new().format(3).len())?;
        write!(text, "{}", f32::from_bits(0))?;
        let open = File::open(name)?;
        spa_pod::try_format!("{text}")
    }
}
'''

PACKAGES = {'spa-pod': ['counts'], 'spa-pod-cli': ['program']}
FILES = {'counts': [('laws', LAWS), ('lib', SOURCE)], 'program': [('files', PROGRAM)]}
ERASED_LAWS = erase.laws_of(FILES)


def erased(source, name):
    return erase.erase(source, erase.Place(name, PACKAGES, {}, ERASED_LAWS))


def faults(rust, source=SOURCE, name='counts'):
    laws = compare.laws_of({('counts', 'laws'): ' '.join(compare.contracts_dropped(rattle.code(LAWS))) + ' '})
    return compare.judge(source, rust, name, set(), laws)[1]


class Rules(unittest.TestCase):
    def test_tokens_join_to_the_text(self):
        text = "a 'b' 'life \"s\\\"t\" // c\n/* d */ r#\"e\"# 0..1 /// f"
        self.assertEqual(''.join(t for _, t in rattle.tokens(text)), text)
        hidden, kept = rattle.hide(text)
        self.assertNotIn('s\\"t', hidden)
        self.assertEqual(rattle.show(hidden, kept), text)

    def test_a_file_is_erased(self):
        self.assertEqual(erased(SOURCE, 'counts'), RUST)
        self.assertEqual(erased(PROGRAM, 'program'), ERASED_PROGRAM)

    def test_laws_that_do_nothing_are_erased(self):
        self.assertEqual(ERASED_LAWS, {'counts_grow', ('counts', 'laws')})
        self.assertEqual(erased('pub mod laws;\npub mod other;\n', 'counts'), 'pub mod other;\n')
        self.assertEqual(erased(LAWS, 'counts'), '//! Laws.\n')

    def test_a_module_that_needs_no_prelude_has_none(self):
        self.assertEqual(erased('pub fn one() -> u32 {\n    1\n}\n', 'counts'), 'pub fn one() -> u32 {\n    1\n}\n')

    def test_the_erased_file_differs_by_rules(self):
        self.assertEqual(faults(RUST), [])
        self.assertEqual(faults(ERASED_PROGRAM, PROGRAM, 'program'), [])

    def test_each_other_change_is_seen(self):
        for old, new in [('count)?;', 'count + 1)?;'), ('self.items.try_push(count)?;\n', ''), ('&self.items', '&items'),
                         ('discard(items);', ''), ('"{}"', '"{:?}"'), ('(mut self, count', '(self, count'), ('more })', 'more, x })'),
                         ('core::mem::take', 'core::mem::replace'), ('other::Thing', 'another::Thing'), ('pub items', 'items'),
                         ('small(&self.items, Vec::new())', 'small(Vec::new(), &self.items)'), ('u32>', 'u64>'),
                         ('use core::fmt;\n', 'use core::fmt;\nuse core::mem;\n'), ('#[derive(Debug)]', '#[derive(Debug, Clone)]'), ('!text.has_nul()', 'text.has_nul()')]:
            self.assertIn(old, RUST)
            self.assertNotEqual(faults(RUST.replace(old, new, 1)), [], (old, new))

    def test_each_other_change_of_a_program_is_seen(self):
        for old, new in [('from_bits(0)', 'from_bits(1)'), ('try_replace(",", " ")', 'try_replace(" ", ",")'), ('SystemFiles {}', 'SystemFiles { a: u8 }'),
                         ('parts::counts', 'parts::others'), ('shims::json', 'shims::flags'), ('numerals::Buffer', 'memchr::Buffer'),
                         ('File::open(name)', 'File::create(name)'), ('memchr::memchr', 'memchr::other')]:
            self.assertIn(old, ERASED_PROGRAM)
            self.assertNotEqual(faults(ERASED_PROGRAM.replace(old, new, 1), PROGRAM, 'program'), [], (old, new))

    def test_each_change_of_the_source_is_seen(self):
        for old, new in [('self.items.push(count)?;', 'self.items.push_reserved(count);'), ('Ok(Counts', 'Err(Counts'),
                         ('discard(items)', 'keep(items)'), ('alloc: _, items }', 'alloc: _, items: _ }'), ('contains(&0)', 'contains(&1)')]:
            self.assertIn(old, SOURCE)
            self.assertNotEqual(faults(RUST, SOURCE.replace(old, new, 1)), [], (old, new))

    def test_public_types_and_functions_get_their_attributes(self):
        source = """pub struct Id(pub u32);

impl Id {
    pub fn count(&self) -> u32 {
        1
    }

    pub fn read(&self) -> Result<u32, Id> {
        Ok(1)
    }

    pub fn grow(&mut self) -> u32 {
        1
    }
}
"""
        found = surface.surfaced('spa-pod/src/parts/x.rs', source)
        self.assertEqual(found, '#[derive(Hash)]\n#[derive(Default)]\n' + source.replace('    pub fn count', '    #[must_use]\n    pub fn count'))
        self.assertEqual(surface.surfaced('spav/src/parts/x.rs', source), source)
        self.assertEqual(faults(found, source), [])
        for old, new in [('derive(Hash)', 'derive(Ord)'), ('#[must_use]', '#[cold]'), ('pub u32', 'pub u64')]:
            self.assertNotEqual(faults(found.replace(old, new, 1), source), [], (old, new))

    def test_calls_of_newer_rust_are_those_of_older(self):
        source = 'fn a<const N: usize>(x: &[[u8; N]], y: &[u8]) -> u32 {\n    f(x, y.as_chunks::<N>(), str::from_utf8(y), self.0.cast_signed());\n    b(y).cast_unsigned()\n}\n'
        found = erased(source, 'counts')
        wanted = source
        for old, new in [('&[[u8; N]]', "Chunks<'_, N>"), ('as_chunks', 'in_chunks'), ('str::', 'core::str::'), ('cast_', 'to_')]:
            wanted = wanted.replace(old, new)
        self.assertEqual(found, 'use crate::shims::prelude::*;\n' + wanted)
        self.assertEqual(faults(found, source), [])
        for old, new in [("Chunks<'_, N>", "Chunks<'_, 4>"), ('in_chunks::<N>', 'in_chunks::<4>'), ('0.to_signed', '0.to_unsigned'), (').to_unsigned', ').to_signed'),
                         ('from_utf8', 'from_utf8_mut')]:
            self.assertIn(old, found)
            self.assertNotEqual(faults(found.replace(old, new, 1), source), [], (old, new))

    def test_plain_reads_are_those_of_the_api(self):
        source = 'fn a(b: B) -> C {\n    b.deserialize_any()\n}\n'
        found = surface.surfaced('tests/src/parts/x.rs', source)
        self.assertEqual(found, source.replace('deserialize_any', 'deserialize_any_unbounded'))
        self.assertEqual(faults(found, source), [])
        self.assertNotEqual(faults(source.replace('deserialize_any', 'deserialize_other'), source), [])

    def test_what_nobody_else_names_is_for_the_crate_alone(self):
        file, root, others = ('spa-pod/src/parts/' + path for path in ('spa_x/a.rs', 'spa_x/mod.rs', 'libspa/z.rs'))
        made = {
            file: 'pub fn ours() {}\n\npub fn theirs() {}\n\npub const ALSO: u32 = 1;\n\npub struct Type;\n',
            root: 'pub use a::{Type, ours, theirs};\npub use a::ALSO;\n',
            others: 'pub fn b() {}\n',
            'spav/src/parts/y.rs': 'theirs',
        }
        found = erase.close(dict(made), ['// ours', 'ALSO'])
        self.assertEqual(found, {**made, file: made[file].replace('pub fn ours', 'pub(crate) fn ours'),
                                 root: 'pub(crate) use a::ours;\npub use a::{Type, theirs};\npub use a::ALSO;\n'})
        for path in (file, root):
            self.assertEqual(faults(found[path], made[path]), [])
            self.assertNotEqual(faults(made[path], found[path]), [])

    def test_a_place_that_stands_nowhere_is_an_error(self):
        self.assertRaises(ValueError, surface.surfaced, 'spa-pod/src/parts/spa_view/settled.rs', 'text')

    def test_words_that_stand_nowhere_are_an_error(self):
        erase.WORDS['x.rs'] = [('absent', 'new')]
        try:
            self.assertRaises(ValueError, erase.reworded, 'x.rs', 'text')
        finally:
            del erase.WORDS['x.rs']

    def test_a_function_is_put_in_line(self):
        source = 'fn is_clean(text: &[u8]) -> bool {\n    f(text)\n}\n'
        erase.INLINED.append(('counts', 'is_clean'))
        try:
            self.assertEqual(erase.inline(source, 'src/counts'), erase.OPTIMIZED + '\n' + source)
            self.assertEqual(erase.inline(source, 'src/other'), source)
            self.assertEqual(erase.inline('#[inline(always)]\n' + source, 'src/other'), erase.OPTIMIZED + '\n' + source)
            generic = '#[inline(never)]\n' + source.replace('(', '<T: Takes>(', 1)
            self.assertEqual(erase.inline(generic, 'src/counts'), generic.replace('#[inline(never)]', erase.OPTIMIZED))
            self.assertEqual(erase.inline(generic, 'src/other'), generic)
        finally:
            erase.INLINED.pop()
        for attribute in '', '#[inline(always)]\n', '#[inline(never)]\n':
            self.assertEqual(faults(erase.OPTIMIZED + '\n' + source, attribute + source), [])
        self.assertNotEqual(faults(source, '#[inline(always)]\n' + source), [])

    def test_a_kit_crate_without_a_shim_is_an_error(self):
        from crates import with_those_below
        self.assertRaises(ValueError, with_those_below, ['a'], {'a': ['regex']})
        self.assertEqual(with_those_below(['a'], {'b': [], 'a': ['b', 'bitflags']}), ['b', 'a'])


if __name__ == '__main__':
    unittest.main()
