#!/usr/bin/env python3
"""Makes the Rust packages of the proved crates: drops contracts and ghost items, erases the allocator, and names std's fallible calls
as spa-pod's module `memory` names them. docs/RUST.md lists the rules with their reasons.

usage: erase.py CRATES OUT     (CRATES: the folder of the proved crates; OUT: the folder of the Rust packages)"""
import os
import re
import shutil
import sys

import rattle
from crates import EXPORTED, OF_TEXT, PACKAGES, SHIMS, TESTS, WHOLE, crates_of_packages
from surface import PLACES, surfaced
from words import WORDS

# What takes memory: an allocator, or the runtime that hands one out, as an argument, a parameter, a field or a part of a `use`.
MEMORY = r'(?:\*\s*|&\s*)*(?:rt|self\.rt|_?alloc|\$alloc|Global|[\w.]+\.alloc(?:\(\))?|[\w.]+\.allocator\(\))'
TYPED = r'(?:%s\s*:\s*(?:Global|&?HostRuntime|&impl Abort|%s)|%s)' % (MEMORY, MEMORY, MEMORY)

# Methods of std that may be refused memory, as the module `memory` names them.
FALLIBLE = {
    'push': 'try_push', 'reserve': 'make_room', 'insert': 'try_insert', 'resize': 'try_resize',
    'extend_from_slice': 'try_extend_from_slice', 'push_str': 'try_push_str', 'split_off': 'try_split_off',
    'repeat': 'try_repeat', 'clone': 'try_clone', 'reserve_exact': 'make_room_exact',
}
NAMED = {'with_capacity': 'with_room', 'from_slice': 'try_from_slice', 'from_str': 'try_from_str', 'from_array': 'try_from_array'}

ATTRIBUTES = ('tactic', 'cycle', 'derive_where', 'rattlefmt')
# What of std needs files, memory or an environment, and isn't in core.
OF_STD = r'(?:io|thread|env|fs|process)\b'


def trim(out):
    return re.sub(r'\s+\Z', '', out)


def drop_contracts(text):
    """Without clauses, ghost items, proofs' attributes, and the comments that belong to them; of text whose comments are hidden."""
    out, at = '', 0
    for_clause = re.compile(r'\b(?:requires|ensures)\b\s*\*?\s*(?:\w+\s*)?(?=\{)')
    ghost = re.compile(r'(?:\bpub\s+)?\bghost\s+')
    attribute = re.compile(r'#!?\[(?:%s)\b' % '|'.join(ATTRIBUTES))
    start = re.compile('|'.join('(?:%s)' % p.pattern for p in (for_clause, ghost, attribute)))

    def without_words(out, kinds):
        """Without the comments of these kinds at the end."""
        while True:
            cut = re.sub('\x01[%s]\\d+\x02\\Z' % kinds, '', trim(out))
            if cut == trim(out):
                return cut
            out = cut

    while True:
        found = start.search(text, at)
        if not found:
            return out + text[at:]
        out += text[at:found.start()]
        at = found.end()
        if found.group(0).startswith('#'):
            at = rattle.group_end(text, text.index('[', found.start()))
            at += len(re.match(r'\s*', text[at:]).group(0))
        elif re.search(r'ghost\s+\Z', found.group(0)):
            depth_end = at
            while text[depth_end] not in ';,':
                if text[depth_end] in '([{':
                    depth_end = rattle.group_end(text, depth_end)
                elif text[depth_end] in ')]}':
                    depth_end -= 1
                    break
                else:
                    depth_end += 1
            at = depth_end + 1
            out = without_words(out, 'dc')
        else:
            at = rattle.group_end(text, at)
            out = without_words(out, 'c')
            body = re.match(r'\s*(?=\{)', text[at:])
            if body:
                at += body.end()
                out += ' '


def drop_item(text, head):
    """Without the items that begin so and end with their braces, their comments and attributes included."""
    pattern = re.compile(r'(?:^[ \t]*(?:\x01d\d+\x02|#\[[^\]]*\])\n)*^[ \t]*' + head, re.M)
    while True:
        found = pattern.search(text)
        if not found:
            return text
        end = rattle.group_end(text, text.index('{', found.end() - 1))
        text = text[:found.start()].rstrip(' ') + text[end:].lstrip('\n')


def drop_memory(text):
    """Without the allocator."""
    text = drop_item(text, r'pub (?:const )?fn allocator\(&self\) -> Global \{')
    text = drop_item(text, r'(?:pub(?:\(crate\))? )?fn allocator\(&self\) -> Global \{')
    # A sink says whether it has memory of its own.
    text = text.replace('fn own_allocator(&self) -> Option<Global>', 'fn has_own_memory(&self) -> bool')
    text = re.sub(r'(fn has_own_memory\(&self\) -> bool \{\s*)None\b', r'\1false', text)
    text = re.sub(r'(fn has_own_memory\(&self\) -> bool \{\s*)Some\(%s\)' % MEMORY, r'\1true', text)
    text = re.sub(r'let Some\(alloc\) = (\w+)\.own_allocator\(\)', r'\1.has_own_memory()', text)
    # Statements, fields, prefixes of macros.
    text = re.sub(r'^[ \t]*let _?alloc = %s;\n+' % MEMORY, '', text, flags=re.M)
    text = re.sub(r'^(?:[ \t]*\x01d\d+\x02\n)*[ \t]*(?:pub(?:\(crate\))? )?alloc: (?:Global|%s),\n' % MEMORY, '', text, flags=re.M)
    text = re.sub(r'\bvec!\[\s*in\s+\$alloc;\s*', '$crate::try_vec![', text)
    text = re.sub(r'\b(vec|format)!([\[(])\s*in\s+%s;\s*' % MEMORY, r'crate::try_\1!\2', text)
    text = re.sub(r'([(\[]\s*)in\s+(?:\$alloc:expr|%s);\s*' % MEMORY, r'\1', text)
    text = re.sub(r'\b(assert\w*!\(\s*)%s;\s*' % MEMORY, r'\1', text)
    # A program of rows is a test.
    text = re.sub(r'\b(print(?:ln)?)!\(\s*rt;\s*', r'crate::shims::test::\1!(', text)
    text = re.sub(r'\brt\.(stdin|stdout)\(\)', r'crate::shims::test::\1()', text)
    text = re.sub(r'^fn main\(rt: HostRuntime\)', 'pub fn main()', text, flags=re.M)
    # A struct over the runtime alone.
    for name in re.findall(r"\bstruct (\w+)<'a> \{\s*(?:pub )?rt: &'a HostRuntime,\s*\}", text):
        text = re.sub(r"\bstruct %s<'a> \{[^}]*\}" % name, 'struct %s {}' % name, text)
        text = text.replace("%s<'_>" % name, name)
    # A text's copy with other words; cells and options have a method of this name, too.
    text = re.sub(r'\.replace\(%s, ' % MEMORY, '.try_replace(', text)
    # Items of lists: the first, one behind another, the only one.
    before = None
    while before != text:
        before = text
        text = re.sub(r'([(\[{|]\s*)%s\s*,[ \t]*\n?(?:(?<=\n)\s*)?' % TYPED, r'\1', text)
        text = re.sub(r',\s*%s(?=\s*(?:,|,?\s*[)\]}|]))' % TYPED, '', text)
        text = re.sub(r'\{ alloc \}', '{}', text)
        text = re.sub(r'(?<!Some)(?<!Ok)\(\s*%s\s*\)' % TYPED, '()', text)
    return text


# A function that does nothing.
EMPTY = re.compile(r'^(?:[ \t]*\x01d\d+\x02\n)*[ \t]*pub fn (\w+)(?:<[^{]*>)?\([^{]*\)\s*\{\s*\}\n*', re.M)


def laws_of(files):
    """The names of the functions in files of laws that do nothing but call such, and, as pairs of crate and module, the files without
    another item."""
    texts = {(name, path): drop_contracts(rattle.hide(text)[0]) for name, found in files.items() for path, text in found if path.endswith('laws')}
    laws, before = set(), None
    while before != laws:
        before = set(laws)
        texts = {file: drop_calls(text, laws) for file, text in texts.items()}
        laws.update(*(EMPTY.findall(text) for text in texts.values()))
    return laws | {file for file, text in texts.items() if not re.search(r'\bfn\b', EMPTY.sub('', text))}


def drop_calls(text, laws):
    """Without the statements that call such functions."""
    functions = '|'.join(law for law in laws if isinstance(law, str))
    return re.sub(r'^[ \t]*(?:\w*laws::)?(?:%s)(?:::<[^;]*>)?\([^;]*\);\n' % functions, '', text, flags=re.M) if functions else text


def drop_laws(text, place):
    """Without the functions that do nothing, their calls, and their modules."""
    text = EMPTY.sub(lambda m: '' if m.group(1) in place.laws else m.group(0), drop_calls(text, place.laws))
    return re.sub(r'^(?:[ \t]*\x01d\d+\x02\n)*[ \t]*pub mod (\w+);\n', lambda m: '' if (place.name, m.group(1)) in place.laws else m.group(0),
                  text, flags=re.M)


def drop_bounds(text):
    """Without `Drop` in derives and bounds, where Rust has it by itself."""
    text = re.sub(r',\s*Drop\b(?=[^\]\n]*\)\])', '', text)
    text = re.sub(r'#\[derive\(Drop,\s*', '#[derive(', text)
    text = re.sub(r'^[ \t]*#\[derive\(Drop\)\]\n', '', text, flags=re.M)
    text = re.sub(r'\s*\+ Drop\b', '', text)
    text = re.sub(r': Drop \+ ', ': ', text)
    return re.sub(r'\b(\w+): Drop\b(?=\s*[,>;{])', r'\1', text)


def take_apart(text):
    """`drop(self)` and `let T { .. } = self` of a type with a drop, as Rust has them."""
    for name in re.findall(r'\bimpl Drop for (\w+) \{', text):
        pattern = re.compile(r'^([ \t]*)let %s \{([^}]*)\} = self;\n' % name, re.M)

        def taken(found):
            fields = [f.split(':')[0].strip() for f in found.group(2).split(',') if f.strip() and not f.strip().endswith('_')]
            return ''.join('%slet %s = core::mem::take(&mut self.%s);\n' % (found.group(1), f, f) for f in fields)

        out, at = '', 0
        for found in pattern.finditer(text):
            head = text[at:found.start()]
            place = head.rindex('(self')
            out += head[:place] + '(mut self' + head[place + len('(self'):] + taken(found)
            at = found.end()
        text = out + text[at:]
    return text.replace('fn drop(mut self)', 'fn drop(&mut self)')


def name_calls(text, place):
    """Calls that may be refused memory, by the names of the module `memory`."""
    text = re.sub(r'\.(%s)\(' % '|'.join(FALLIBLE), lambda m: '.%s(' % FALLIBLE[m.group(1)], text)
    text = re.sub(r'\bfn (push|reserve)(?=(?:<[^>]*>)?\(\s*&mut self\b)', lambda m: 'fn ' + FALLIBLE[m.group(1)], text)
    text = re.sub(r'\b(Vec|String)::(%s)\b' % '|'.join(NAMED), lambda m: '%s::%s' % (m.group(1), NAMED[m.group(2)]), text)
    text = re.sub(r'\.append\((?=&mut\b)', '.try_append(', text)
    text = re.sub(r'\bVec::reserve\b', 'VecRoom::make_room', text)
    text = re.sub(r'\b(\w+)::reserve\b', r'\1::make_room', text)
    text = re.sub(r'\.(?:collect|to_vec)\(\)', '.try_to_vec()', text)
    # A search for NUL.
    text = re.sub(r'\.contains\(&0\)', '.has_nul()', text)
    # What core has since Rust 1.87 and 1.88, by what it had before.
    text = re.sub(r'\.cast_((?:un)?signed)\(\)', r'.to_\1()', text)
    text = re.sub(r'(?<![\w:])str::from_utf8\(', 'core::str::from_utf8(', text)
    if place.package != TESTS:
        text = text.replace('.as_chunks::<N>()', '.in_chunks::<N>()').replace('&[[u8; N]]', "Chunks<'_, N>")
        # The bodies of a side of `spa_filter` are such chunks, too.
        text = text.replace("enum Side<'a, T, B>", "enum Side<'a, T, const N: usize>").replace("&'a [B]", "Chunks<'a, N>")
        text = text.replace("Side<'_, T, [u8; N]>", "Side<'_, T, N>")
        text = text.replace('Side::Values(_, values) => is_one(x, values)', 'Side::Values(_, values) => is_one(x, *values)')
    # Copies that may be refused.
    text = re.sub(r'\bClone for (?=\w)', 'TryClone for ', text)
    text = re.sub(r'fn clone\(&self\)', 'fn try_clone(&self)', text)
    return re.sub(r'(: (?:[\w ]+\+ )*)Clone\b(?=\s*[,>+{])', r'\1TryClone', text)


class Place:
    """Where the crate of this name is: its package, and where what it names is from there. `macros` says which macros each crate exports,
    `laws` has the names of the functions, and the modules of such alone, that only proofs cite."""

    def __init__(self, name, packages, macros, laws=frozenset()):
        self.name, self.macros, self.laws = name, macros, laws
        self.packages = {crate: package for package, crates in packages.items() for crate in crates}
        self.package = self.packages[name]

    def root(self, package):
        """The root of a package."""
        return 'crate' if package == self.package else package.replace('-', '_')

    def crate(self, name):
        """The module of a proved crate."""
        return '%s::parts::%s' % (self.root(self.packages[name]), name)

    def shim(self, package, module):
        """A module of a package's shims."""
        return '%s::shims::%s' % (self.root(package), module)

    def home(self, path):
        """A path whose front is a crate of the kit, or a module of std, with a shim."""
        for old, shim in SHIMS.items():
            if shim and (path == old or path.startswith(old + '::')):
                return self.shim(*shim) + path[len(old):]
        return path


def name_paths(text, place):
    """Paths as they are in the packages."""
    pods = place.root('spa-pod').replace('crate', '\x03')
    text = re.sub(r'\$crate::(\w+)!', '$\x03::\\1!', text)
    text = re.sub(r'\$crate::(?=\w)', '$\x03::macros::%s::' % place.name, text)
    text = re.sub(r'\bcrate::try_', pods + '::try_', text)
    text = text.replace('crate::shims', '\x03::shims').replace('core::mem', '\x04::mem')
    text = re.sub(r'(?<!\$)\bcrate::', '\x03::parts::%s::' % place.name, text)
    names = '|'.join(sorted(place.packages, key=len, reverse=True))
    text = re.sub(r'(?<![\w:.$])(?<!mod )(%s)(?=::|;)(?!:[^:])' % names, lambda m: place.crate(m.group(1)).replace('crate', '\x03'), text)
    return text.replace('\x03', 'crate').replace('\x04', 'core')


def names_of(braces):
    """The parts of what stands between the braces of a `use`."""
    parts, depth, part = [], 0, ''
    for c in braces:
        depth += (c == '{') - (c == '}')
        if c == ',' and depth == 0:
            parts.append(part.strip())
            part = ''
        else:
            part += c
    return [p for p in parts + [part.strip()] if p]


def name_imports(text, place, of_std):
    """`use` items: without what is erased, and from where things stand in Rust."""
    def one(found):
        lead, public, path = found.group(1), found.group(2) or '', found.group(3)
        braces = re.fullmatch(r'([\w:]+?)::\{(.*)\}', path, re.S)
        if braces:
            base, parts = braces.group(1), names_of(braces.group(2))
        elif '::' in path:
            base, part = path.rsplit('::', 1)
            parts = [part]
        else:
            return found.group(0)
        kept = [p for p in parts if p not in ('Global', 'Abort', 'Model') and not p.endswith('_from_bits_with_nan')]
        if base == 'std::fmt':
            kept = [p for p in kept if p.split(' ')[0] != 'Write']
        root = base.split('::')[0]
        own = place.name if root == 'crate' else root
        kept = [p for p in kept if p.split(' ')[0] not in place.laws and (own, p.split(' ')[0]) not in place.laws]
        kept = [p for p in kept if public or p != 'laws' or re.search(r'\blaws::\w+\s*\(', text)]
        ours = [p for p in kept if p in place.macros.get(own, ())]
        hidden = [p for p in kept if public and place.name == WHOLE and p.split(' ')[0].endswith('laws')]
        kept = [p for p in kept if p not in ours and p not in hidden]
        base = place.home(base)
        if base == 'std' or base.startswith('std::') and not re.match('std::' + OF_STD, base):
            base = 'core' + base[3:]
        of_files = [p for p in kept if base == 'core' and re.match(OF_STD, p)]
        kept = [p for p in kept if p not in of_files]
        lines = ['%s#[cfg(feature = "std")]\n' % lead] if public and root in of_std else []
        for part in of_files:
            lines.append('%s%suse std::%s;\n' % (lead, public, part))
        if kept == parts and braces and len(kept) > 1:
            lines.append('%s%suse %s::{%s};\n' % (lead, public, base, braces.group(2)))
        elif len(kept) == 1:
            lines.append('%s%suse %s::%s;\n' % (lead, public, base, kept[0]))
        elif kept:
            lines.append('%s%suse %s::{%s};\n' % (lead, public, base, ', '.join(kept)))
        for law in hidden:
            lines.append('%s#[cfg(feature = "parts")]\n%spub use %s::%s;\n' % (lead, lead, base, law))
        if ours:
            lines.append('%s%suse %s::%s;\n' % (lead, public, place.root('spa-pod').replace('crate', '\x03'), ours[0] if len(ours) == 1 else '{%s}' % ', '.join(ours)))
        return ''.join(lines)

    return re.sub(r'^([ \t]*)(pub(?:\(\w+\))? )?use ([^;]*);\n', one, text, flags=re.M)


# A call from outside can break these `requires`: the function of a file, and what is asserted in its place.
ASSERTED = {
    ('async_seq', 'from_raw'): 'assert!(code.to_unsigned() >> SEQ_BITS == 1, "the code is not asynchronous");',
    ('code', 'into_sync_result'): 'assert!(!self.is_async(), "the code is asynchronous");',
    ('code', 'into_async_result'): 'assert!(self.0 < 0 || self.is_async(), "the code is neither an error nor asynchronous");',
}


# Functions of a file whose calls cost as much as what they do.
INLINED = [('leaves', 'read_string'), ('leaves', 'put_string'), ('bodies', 'text_of')]
# Small functions that rustc may put in place of their calls also where it compiles modules apart, as it does without link-time optimization.
HINTED = [('front', 'open'), ('words', 'u32_at'), ('words', 'u64_at'), ('words', 'two_words'), ('words', 'joined'), ('words', 'word_body'),
          ('words', 'wide_body'), ('fixed', 'of_body')]


# Where rustc doesn't optimize, what it puts in place of calls makes frames larger, also those of functions that call themselves for each level of nesting.
OPTIMIZED = '#[cfg_attr(not(debug_assertions), inline(always))]'


def inline(text, file):
    """With the attribute that has rustc put these functions, and those that have it, in place of their calls, where it optimizes."""
    for attribute, functions in (('#[inline(always)]', INLINED), ('#[inline]', HINTED)):
        for where, name in functions:
            if where == os.path.basename(file):
                text = re.sub(r'^( *)(?:#\[inline\(never\)\]\n *)?((?:pub )?fn %s(?:<[^(]*>)?\((?!.*;$))' % name, r'\1%s\n\1\2' % attribute, text, flags=re.M)
    return text.replace('#[inline(always)]', OPTIMIZED)


def assert_required(text, file):
    """With the assertions in place of `requires` that a call from outside can break."""
    for (where, name), assertion in ASSERTED.items():
        if where == os.path.basename(file):
            text, count = re.subn(r'^( *)(pub fn %s\([^{]*\{\n)' % name, lambda m: '%s%s%s    %s\n' % (m.group(1), m.group(2), m.group(1), assertion),
                                  text, flags=re.M)
            if count != 1:
                raise ValueError('%s: %d functions %s' % (file, count, name))
    return text


def erase(source, place, of_std=()):
    """The Rust text of a Rattle file of a crate; `of_std` are the crates that are behind the feature `std`."""
    text, kept = rattle.hide(source)
    text = drop_contracts(text)
    text = drop_item(text, r'impl(?:<[^{]*>)? Model for [^{]*\{')
    text = re.sub(r'\bfinal fn\b', 'fn', text)
    text = drop_memory(text)
    text = drop_laws(text, place)
    # What C calls is exported by rust/spav/src/exports.rs. The name of the ABI is a literal, and hidden.
    text = re.sub(r'^#\[unsafe\(no_mangle\)\]\n', '', text, flags=re.M)
    text = re.sub(r'\bpub extern \x01s\d+\x02 fn', 'pub fn', text)
    if place.name == EXPORTED:
        text = re.sub(r'^mod ', 'pub(crate) mod ', text, flags=re.M)
    text = re.sub(r'^([ \t]*)(#\[test\]\s*)fn (\w+)\(\) -> Result<\(\), Fail> \{\n',
                  r'\1\2fn \3() {\n\1    crate::shims::test::run(\3_answers())\n\1}\n\n\1fn \3_answers() -> Result<(), Fail> {\n', text, flags=re.M)
    text = drop_bounds(text)
    text = take_apart(text)
    text = name_calls(text, place)
    # Printing.
    text = re.sub(r'fn fmt<\w+: fmt::Write>\(', 'fn fmt(', text)
    text = re.sub(r"<('\w+), W: fmt::Write>", r'<\1>', text)
    text = re.sub(r'<W: fmt::Write>', '', text)
    text = re.sub(r'fmt::Formatter<\w+>', "fmt::Formatter<'_>", text)
    # Errors: `shims::errors` has what thiserror's derive writes.
    text = re.sub(r', thiserror::Error\b', '', text)
    text = re.sub(r'^[ \t]*#\[error\([^\]]*\)\]\n', '', text, flags=re.M)
    text = re.sub(r'\bprove(_eq)?!\(', r'debug_assert\1!(', text)
    text = re.sub(r'\b(f32|f64)_from_bits_with_nan\(', r'\1::from_bits(', text)
    text = name_imports(text, place, of_std)
    text = re.sub(r'(?<![\w:$])(\w+)(?=::)', lambda m: place.home(m.group(1)), text)
    text = re.sub(r'(?<![\w:$])std::(?!%s)' % OF_STD, 'core::', text)
    text = name_paths(text, place)
    # What a crate without std, and with fallible growth, has in scope.
    if IN_SCOPE.search(text):
        prelude = 'use %s::*;' % place.shim('spa-pod', 'prelude')
        inner = re.match('(?:\x01[ic]\\d+\x02\n|#!\\[[^\\]]*\\]\n|\\s*\n)*', text).group(0)
        text = inner + prelude + '\n' + text[len(inner):]
        text = re.sub(r'^([ \t]*)((?:pub(?:\(crate\))? )?mod \w+ \{)\n', r'\1\2\n\1    %s\n' % prelude, text, flags=re.M)
    text = re.sub(r'[ \t]+$', '', text, flags=re.M)
    text = re.sub(r'\n{3,}', '\n\n', text)
    text = re.sub(r'\{\n\n', '{\n', text)
    text = re.sub(r'\n\n([ \t]*\})', r'\n\1', text)
    return rattle.show(text, kept)


# What the prelude has.
IN_SCOPE = re.compile(r'\b(?:Vec|String|TryClone|VecRoom|has_nul|to_(?:un)?signed|in_chunks|try_\w+|make_room\w*|with_room|push_reserved)\b|\bwrite(?:ln)?!')


def sources(folder, ending='.rt'):
    """The files of a crate, in order: the path in src/ without its ending, and the text."""
    found = []
    for root, _, files in os.walk(folder):
        for file in files:
            if file.endswith(ending):
                path = os.path.join(root, file)
                with open(path, encoding='utf-8') as f:
                    found.append((os.path.relpath(path, folder)[:-3], f.read()))
    return sorted(found)


def exported_macros(files):
    """The names of the macros that each crate exports, of the files of each."""
    found = {name: {macro for _, text in texts for macro in re.findall(r'#\[macro_export\]\s*macro_rules! (\w+)', text)} for name, texts in files.items()}
    found[WHOLE] = set().union(*found.values())
    return found


def reworded(path, text):
    """The text with other words in its comments, each of which stands for one place."""
    for old, new in WORDS.get(path, []):
        if text.count(old) != 1:
            raise ValueError('%s: "%s" stands in %d places' % (path, old, text.count(old)))
        text = text.replace(old, new)
    return text


# The test of a program's rows.
ROWS = '''
#[test]
fn rows_of_NAME_are_answered() {
    crate::shims::test::answer_rows(include_str!("FOLDER/stdin"), include_str!("FOLDER/stdout"), NAME::main);
}
'''


HEAD = '''// @generated by rust/erase.py
//! The proved crates, a module each.
// The text follows its proofs. What lints say of style goes unheeded; those of correctness stand.
#![allow(unused_imports, unused_variables, dead_code, non_upper_case_globals, missing_docs)]
// The proved text also drops what has nothing to drop in Rust, makes empty arrays of what a call gives, and writes matches out.
#![allow(clippy::style, clippy::complexity, clippy::perf, clippy::drop_non_drop, clippy::zero_repeat_side_effects, clippy::manual_unwrap_or_default)]
// Values whose `==` was proved are equal exactly where all fields are, so that a derived Hash is theirs.
#![allow(clippy::pedantic, clippy::derived_hash_with_manual_eq)]
'''
# With this feature all that the modules have is public.
OF_OTHERS = '#![cfg_attr(feature = "parts", allow(missing_debug_implementations, clippy::must_use_candidate))]\n'


def modules(names, package, of_std, programs):
    """The text that names the crates of a package as its modules, with a test for the rows of each program among them."""
    features = [(of_std, 'std'), (OF_TEXT, 'text')] if package == 'spa-pod' else []
    items = ''
    for name in sorted(names):
        items += ''.join('#[cfg(feature = "%s")]\n' % feature for those, feature in features if name in those)
        items += 'pub mod %s;\n' % name
    items += ''.join(ROWS.replace('FOLDER', '../../../../crates/' + name).replace('NAME', name) for name in sorted(names) if name in programs)
    return HEAD + (OF_OTHERS if package == 'spa-pod' else '') + '\n' + items


# The files of spa-pod but for those that are its interface: libspa's paths, and PipeWire's numbers.
BEHIND = re.compile(r'spa-pod/src/parts/(?!%s/|spa_names/)\w+/' % WHOLE)


def close(made, by_hand):
    """The generated files, in which functions and constants of `spa-pod` are for itself alone where neither its interface, nor code by hand, nor a
    macro, nor another package names them. Types stay, since signatures have them."""
    behind = [path for path, text in made.items() if BEHIND.match(path) and 'macro_rules!' not in text]
    named = set().union(*(rattle.code(text) for path, text in made.items() if path not in behind), *map(rattle.code, by_hand))
    closed = set()

    def item(found):
        if found.group(1) in named:
            return found.group(0)
        closed.add(found.group(1))
        return 'pub(crate)' + found.group(0)[len('pub'):]

    def use(found):
        base, names = found.group(1), names_of(found.group(2) or found.group(3))
        ours, others = [name for name in names if name in closed], [name for name in names if name not in closed]
        parts = [(public, them) for public, them in (('pub(crate)', ours), ('pub', others)) if them]
        lines = ('%s use %s::%s;\n' % (public, base, them[0] if len(them) == 1 else '{%s}' % ', '.join(them)) for public, them in parts)
        return ''.join(lines) if ours else found.group(0)

    for path in behind:
        made[path] = re.sub(r'^pub (?:(?:const )?fn|const) (\w+)', item, made[path], flags=re.M)
    for path in behind:
        made[path] = re.sub(r'^pub use ([\w:]+)::(?:\{([\w\s,]*)\}|(\w+));\n', use, made[path], flags=re.M)
    return made


GENERATED = '// @generated by rust/erase.py of crates/%s/src/%s.rt\n'


def generate(crates):
    """All generated files of the packages: path, and text."""
    packages = crates_of_packages(crates)
    files = {name: sources(os.path.join(crates, name, 'src')) for names in packages.values() for name in names}
    macros, laws = exported_macros(files), laws_of(files)
    programs = [name for name, found in files.items() if any(path == 'main' for path, _ in found)]
    of_std = [name for name, found in files.items() if any('std::io' in text for _, text in found)]
    made = {}
    for package, names in packages.items():
        for name in names:
            place = Place(name, packages, macros, laws)
            for path, text in files[name]:
                file = '%s/src/parts/%s/%s.rs' % (package, name, 'mod' if path in ('lib', 'main') else path)
                if (name, path) in laws:
                    continue
                text = reworded(file, inline(assert_required(erase(text, place, of_std), path), path))
                made[file] = GENERATED % (name, path) + surfaced(file, text)
        made[package + '/src/parts/mod.rs'] = modules(names, package, of_std, programs)
    lacking = [path for path in [*PLACES, *WORDS] if path not in made]
    if lacking:
        raise ValueError('rules of surface.py or words.py are for files that are not made: %s' % ' '.join(lacking))
    here = os.path.dirname(os.path.abspath(__file__))
    return close(made, [text for package in PACKAGES for path, text in sources(os.path.join(here, package, 'src'), '.rs') if not path.startswith('parts')])


def main():
    crates, out = sys.argv[1:3]
    made = generate(crates)
    for package in [*PACKAGES, TESTS]:
        shutil.rmtree(os.path.join(out, package, 'src/parts'), ignore_errors=True)
    for file, text in made.items():
        path = os.path.join(out, file)
        os.makedirs(os.path.dirname(path), exist_ok=True)
        with open(path, 'w', encoding='utf-8') as f:
            f.write(text)
    print('%d files, %d lines' % (len(made), sum(t.count('\n') for t in made.values())))


if __name__ == '__main__':
    main()
