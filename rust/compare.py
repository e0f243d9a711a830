#!/usr/bin/env python3
"""Judges whether a Rust file differs from the Rattle file it was made of by nothing but the listed rules.

It shares no rule with erase.py. Contracts, ghost items and proofs' attributes are dropped from the Rattle file by counting brackets;
`use` items are compared path by path; the other tokens are walked through side by side, and where they aren't the same there must stand
an instance of one of RULES.

usage: compare.py CRATES OUT     (as erase.py)"""
import collections
import os
import re
import sys

import rattle
from crates import WHOLE, crates_of_packages

GHOST_ATTRIBUTES = {'tactic', 'cycle', 'derive_where', 'rattlefmt'}
MEMORY = r'(?:[&*] )*(?:(?:\w+ \. )+alloc(?: \( \))?|(?:\w+ \. )+allocator \( \)|self \. rt|rt|alloc|\$ alloc|Global)'
TYPED = r'(?:mut )?_?alloc : (?:Global|%s)|rt : (?:&? ?HostRuntime|& impl Abort)|%s' % (MEMORY, MEMORY)
RENAMED = [('push', 'try_push'), ('reserve', 'make_room'), ('insert', 'try_insert'), ('resize', 'try_resize'),
           ('extend_from_slice', 'try_extend_from_slice'), ('push_str', 'try_push_str'), ('split_off', 'try_split_off'),
           ('repeat', 'try_repeat'), ('append', 'try_append'), ('with_capacity', 'with_room'), ('from_slice', 'try_from_slice'), ('reserve_exact', 'make_room_exact'),
           ('from_str', 'try_from_str'), ('from_array', 'try_from_array'), ('collect', 'try_to_vec'), ('to_vec', 'try_to_vec')]

# The rules of docs/RUST.md: a name, what goes, and what comes in its place, as tokens with spaces between them. A group of what goes is
# named \1 in what comes.
RULES = [
    ('allocator', r'(?:%s) ,|, (?:%s)|(?:%s)' % (TYPED, TYPED, TYPED), r''),
    ('allocator', r'let _?alloc = %s ;' % MEMORY, r''),
    ('allocator', r'(?:pub (?:\( crate \) )?)?alloc : (?:Global|%s) ,' % MEMORY, r''),
    ('allocator', r'(?:# \[ inline \] )?(?:pub (?:\( crate \) )?)?fn allocator \( & self \) - > Global \{ [^{}]* (?:\{ [^{}]* \} )?\}', r''),
    ('allocator', r'fn own_allocator \( & self \) - > Option < Global > \{ None \}', r'fn has_own_memory ( & self ) - > bool { false }'),
    ('allocator', r'fn own_allocator \( & self \) - > Option < Global > \{ Some \( %s \) \}' % MEMORY,
     r'fn has_own_memory ( & self ) - > bool { true }'),
    ('allocator', r'let Some \( alloc \) = (\w+) \. own_allocator', r'\1 . has_own_memory'),
    ('memory in macros', r'in (?:\$ alloc : expr|%s) ;' % MEMORY, r''),
    ('memory in macros', r'%s ;' % MEMORY, r''),
    ('memory in macros', r'(vec|format) ! ([\[(]) in %s ;' % MEMORY, r'crate : : try_\1 ! \2'),
    ('memory in macros', r'(vec|format) ! ([\[(]) in %s ;' % MEMORY, r'spa_pod : : try_\1 ! \2'),
    ('memory in macros', r'vec ! \[ in \$ alloc ;', r'$ crate : : try_vec ! ['),
    ('fallible copies', r'Clone', r'TryClone'),
    ('fallible copies', r'\. clone \( \)', r'. try_clone ( )'),
    ('fallible copies', r'0\.clone \( \)', r'0.try_clone ( )'),
    ('fallible copies', r'1\.clone \( \)', r'1.try_clone ( )'),
    ('fallible copies', r'fn clone \( & self \)', r'fn try_clone ( & self )'),
    ('names of fallible calls', r'Vec : : reserve', r'VecRoom : : make_room'),
    ('names of fallible calls', r'\. replace \( %s ,' % MEMORY, r'. try_replace ('),
    ('runtime', r"< 'a > \{ (?:pub )?rt : & 'a HostRuntime , \}", r'{ }'),
    ('runtime', r"SystemFiles < '_ >", r'SystemFiles'),
    ('bits of floats', r'(f32|f64)_from_bits_with_nan', r'\1 : : from_bits'),
    ('search for NUL', r'contains \( & 0 \)', r'has_nul ( )'),
    ('older Rust', r'\. cast_((?:un)?signed) \( \)', r'. to_\1 ( )'),
    ('older Rust', r'0\.cast_((?:un)?signed) \( \)', r'0.to_\1 ( )'),
    ('older Rust', r'str : : from_utf8 \(', r'core : : str : : from_utf8 ('),
    ('older Rust', r'\. as_chunks : : < N >', r'. in_chunks : : < N >'),
    ('older Rust', r'& \[ \[ u8 ; N \] \]', r"Chunks < '_ , N >"),
    ('older Rust', r"enum Side < 'a , T , B >", r"enum Side < 'a , T , const N : usize >"),
    ('older Rust', r"& 'a \[ B \]", r"Chunks < 'a , N >"),
    ('older Rust', r"Side < '_ , T , \[ u8 ; N \] >", r"Side < '_ , T , N >"),
    ('older Rust', r'Side : : Values \( _ , values \) = > is_one \( x , values \)', r'Side : : Values ( _ , values ) = > is_one ( x , * values )'),
    ('Drop', r'# \[ derive \( Drop \) \]', r''),
    ('Drop', r', Drop|Drop ,|\+ Drop|: Drop|Drop \+|: Drop \+', r''),
    ('drop(self)', r'fn drop \( self \)', r'fn drop ( & mut self )'),
    ('drop(self)', r'\( self', r'( mut self'),
    ('printing', r'< \w+ : fmt : : Write >', r''),
    ('printing', r', W : fmt : : Write', r''),
    ('printing', r'fmt : : Formatter < W >', r"fmt : : Formatter < '_ >"),
    ('errors', r', thiserror : : Error', r''),
    ('errors', r'# \[ error \( "[^"]*" \) \]', r''),
    ('final', r'final', r''),
    ('paths into crates', r'', r'(?:crate|spa_pod|spa_pod_cli|spav) : : parts : :'),
    ('paths into crates', r'crate : :', r'(?:crate|spa_pod|spa_pod_cli|spav) : : parts : : \w+ : :'),
    ('paths into crates', r'\$ crate : :', r'\$ crate : : macros : : \w+ : :'),
    ('paths into crates', r'bitflags : :', r'(?:crate|spa_pod) : : shims : : flags : :'),
    ('paths into crates', r'(?:hex|itoa|ryu|fast_float) : :', r'(?:crate|spa_pod) : : shims : : numerals : :'),
    ('paths into crates', r'anyhow : :', r'crate : : shims : : anyhow : :'),
    ('paths', r'std : :', r'core : :'),
    ('tests', r'\) - > Result < \( \) , Fail > \{',
     r'\) \{ crate : : shims : : test : : run \( (\w+) \( \) \) \} fn \1 \( \) - > Result < \( \) , Fail > \{'),
    ('tests', r'fn main \( rt : HostRuntime \)', r'pub fn main \( \)'),
    ('tests', r'print ! \( rt ;', r'crate : : shims : : test : : print ! \('),
    ('tests', r'println ! \( rt ;', r'crate : : shims : : test : : println ! \('),
    ('tests', r'rt \. stdin', r'crate : : shims : : test : : stdin'),
    ('tests', r'rt \. stdout', r'crate : : shims : : test : : stdout'),
    ('features', r'', r'# [ cfg ( feature = "std" ) ]'),
    ('laws are not public', r'', r'# [ cfg ( feature = "parts" ) ]'),
    ('exports', r'# \[ unsafe \( no_mangle \) \] pub extern "C" fn', r'pub fn'),
    ('exports', r'mod (\w+) ;', r'pub ( crate ) mod \1 ;'),
    ('reach', r'pub', r'pub ( crate )'),
    ('asserted', r'', r'assert ! \( [^;]* \) ;'),
    ('proved conditions', r'prove !', r'debug_assert !'),
    ('inlined', r'', r'# [ cfg_attr ( not ( debug_assertions ) , inline ( always ) ) ]'),
    ('inlined', r'', r'# [ inline ]'),
    ('inlined', r'# \[ inline \( (?:always|never) \) \]', r'# [ cfg_attr ( not ( debug_assertions ) , inline ( always ) ) ]'),
    ('surface', r'', r'# \[ (?:derive \( (?:Debug|Clone|Eq|Hash|Default) \)|cfg_attr \( not \( feature = "parts" \) , non_exhaustive \)|must_use) \]'),
    ('printed floats', r'# \[ derive \( Clone , Copy , Debug ,', r'# [ cfg_attr ( feature = "parts" , derive ( Debug ) ) ] # [ derive ( Clone , Copy ,'),
    ('bounded reads', r'deserialize_any(|_from|_leniently_from|_counted) \(', r'deserialize_any\1_unbounded ('),
    ('bounded reads', r'type Content = Value ; fn of_content \( given : Value \) - > Held \{ Held : : from \( given \) \}',
     r'type Content = crate : : api : : levels : : Unbounded ; '
     r'fn of_content ( given : crate : : api : : levels : : Unbounded ) - > Held { Held : : from ( given . 0 ) }'),
    ('bounded reads', r'"InvalidType" , "a deep value"', r'"TooDeep" , "a deep value"'),
    ('texts that are read', r'text_of \( body \) else \{ return Err \( Refusal : : Text \) ; \} ; Ok \( String : : from_str \( alloc , text \) \? \)',
     r'crate : : shims : : memory : : try_text_of ( body ) ? else { return Err ( Refusal : : Text ) ; } ; Ok ( text )'),
    ('32 bits', r'', r'if size as usize > crate : : shims : : extents : : MOST { return crate : : shims : : extents : : BEYOND ; }'),
    ('32 bits', r'FOUR_WORDS as usize \+ size as usize', r'( FOUR_WORDS as usize ) . saturating_add ( size as usize )'),
    ('32 bits', r'HEADER_LEN \+ most \* u32_at \( values , 0 \) as usize',
     r'( u32_at ( values , 0 ) as usize ) . saturating_mul ( most ) . saturating_add ( HEADER_LEN )'),
    ('32 bits', r'CHOICE_HEADER_LEN \+ u32_at \( body , HEADER_LEN \) as usize',
     r'( u32_at ( body , HEADER_LEN ) as usize ) . saturating_add ( CHOICE_HEADER_LEN )'),
    ('32 bits', r'count \* size as usize', r'count . saturating_mul ( size as usize )'),
    ('32 bits', r'extent_of \( (size(?: as u32)?) \) as u64', r'crate : : shims : : extents : : wide_extent_of ( \1 )'),
    ('32 bits', r'18_446_744_073_709_551_615', r'usize : : MAX'),
    ('32 bits', r'SIZE_LIMIT : usize = 1 < < 32', r'SIZE_LIMIT : usize = crate : : shims : : extents : : SIZE_LIMIT'),
    ('bounded reads', r'', r'TooDeep ,'),
    ('bounded reads', r'', r'DeserializeError : : TooDeep = > "TooDeep" ,'),
    ('bounded reads', r'', r'DeserializeError : : TooDeep = > DeserializeError : : TooDeep ,'),
    ('bounded reads', r'', r'DeserializeError : : TooDeep = > write ! ( f , "values nest deeper than the limit" ) ,'),
] + [('names of fallible calls', r'([.]|: :|fn) %s' % a, r'\1 %s' % b) for a, b in RENAMED]
# A type with a drop is taken apart by its fields: `let T { a, b: _ } = self;`.
TAKEN = re.compile(r'let \w+ \{ ((?:\w+ (?:: _ )?,? ?)+)\} = self ; ')


def compiled(rules):
    """The rules with patterns for texts in which a space stands behind each token. What comes is text with the groups of what goes, or,
    for the rules that say so, a pattern."""
    for name, goes, comes in rules:
        pattern = name in PATTERNS
        yield name, re.compile('(?:%s) ' % goes if goes else ''), re.compile(comes + ' ') if pattern else comes + ' ' if comes else comes


PATTERNS = {'paths into crates', 'tests', 'asserted', 'surface'}
COMPILED = list(compiled(RULES))


def laws_of(texts):
    """The rules of the laws that do nothing, by the texts of all files of laws: of each crate and module, its tokens without contracts."""
    names, before = set(), None
    while before != names:
        before = set(names)
        calls = r'(?:(?:\w*laws : : )?(?:%s) (?:: : < [^;]*? > )?\( [^;]*?\) ; )*' % '|'.join(sorted(names) or ['-'])
        function = re.compile(r'pub fn (\w+) (?:< [^{]*? > )?\( [^{]*?\) \{ %s\} ' % calls)
        for text in texts.values():
            names.update(function.findall(text))
    whole = {file for file, text in texts.items() if 'fn ' not in function.sub('', text)}
    any_of = '(?:%s)' % '|'.join(sorted(names) or ['-'])
    rules = [('laws', r'(?:\w*laws : : )?%s (?:: : < [^;]*? > )?\( [^;]*?\) ;' % any_of, ''), ('laws', function.pattern[:-1].replace(r'(\w+)', any_of), '')]
    rules += [('laws', r'pub mod %s ;' % module, '') for module in {module for _, module in whole}]
    return names, whole, list(compiled(rules))


def contracts_dropped(tokens):
    """Without clauses, ghost items, the attributes of proofs and models, of tokens without comments."""
    out, i = [], 0

    def behind_group(i):
        depth = 0
        while True:
            depth += (tokens[i] in '([{') - (tokens[i] in ')]}')
            i += 1
            if depth == 0:
                return i

    while i < len(tokens):
        t = tokens[i]
        if t in ('requires', 'ensures'):
            while tokens[i] != '{':
                i += 1
            i = behind_group(i)
        elif t == 'ghost' or t == 'pub' and tokens[i + 1] == 'ghost':
            while tokens[i] not in ';,}':
                i = behind_group(i) if tokens[i] in '([{' else i + 1
            i += tokens[i] != '}'
        elif t == '#' and tokens[i + 1 + (tokens[i + 1] == '!') + 1] in GHOST_ATTRIBUTES:
            i = behind_group(i + 1 + (tokens[i + 1] == '!'))
        elif t == 'impl' and 'Model' in tokens[i:i + 24] and re.match(r'impl (?:< [^{]* > )?Model for ', ' '.join(tokens[i:i + 26])):
            while tokens[i] != '{':
                i += 1
            i = behind_group(i)
        else:
            out.append(t)
            i += 1
    return out


def uses_apart(tokens):
    """The tokens without `use` items, and the paths that these name, with a mark for public ones."""
    out, paths, i = [], collections.Counter(), 0

    def leaves(i, base):
        """The paths of a use tree, and the place behind it."""
        path, named = base, ''
        found = []
        while tokens[i] not in (',', '}', ';'):
            if tokens[i] == '{':
                i += 1
                while tokens[i] != '}':
                    more, i = leaves(i, path)
                    found += more
                    i += tokens[i] == ','
                return found, i + 1
            path += (' ' + tokens[i] + ' ') if tokens[i] == 'as' else tokens[i]
            i += 1
        return [path + named], i

    while i < len(tokens):
        if tokens[i] == 'use':
            public = 'pub ' if out and out[-1] == 'pub' else 'crate ' if out[-4:] == ['pub', '(', 'crate', ')'] else ''
            if public:
                del out[-(1 if public == 'pub ' else 4):]
            found, i = leaves(i + 1, '')
            paths.update((public, path) for path in found)
            i += 1
        else:
            out.append(tokens[i])
            i += 1
    return out, paths


# Modules of shims, for what they stand.
SHIMS = [('std::alloc', 'memory'), ('std::collections', 'sorted'), ('std::test', 'test'), ('memchr', 'memchr'), ('bitflags', 'flags'),
         ('arrayvec', 'array'), ('json', 'json'), ('clap', 'clap')]


def same_place(path, name):
    """A Rust path as the Rattle file of the crate of this name has it."""
    path = re.sub(r'^\w+::parts::(\w+)', lambda m: 'crate' if m.group(1) == name else m.group(1), path)
    for old, new in SHIMS:
        path = re.sub(r'^(?:crate|spa_pod)::shims::%s(?=::|$)' % new, old, path)
    path = re.sub('^core(?=::|$)', 'std', path)
    return path


def judge_uses(rattles, rusts, name, macros, laws):
    """Which paths differ otherwise than by rule, and how many by which."""
    counts, faults = collections.Counter(), []
    left, may_go = collections.Counter(), collections.Counter()
    for (public, path), count in rattles.items():
        last = path.split('::')[-1]
        if last in ('Global', 'Abort', 'Model'):
            counts['allocator' if last == 'Global' else 'imports'] += count
        elif path.split(' ')[0] in ('std::fmt::Write', 'std::num::f32_from_bits_with_nan', 'std::num::f64_from_bits_with_nan'):
            counts['printing'] += count
        elif last in laws[0] or name == WHOLE and tuple(path.split(' ')[0].split('::')) in laws[1] or not public and last == 'laws':
            may_go[public, path] += count
        else:
            left[public, path] += count
    for (public, path), count in rusts.items():
        if path.endswith('::shims::prelude::*'):
            counts['prelude'] += count
            continue
        macro = re.fullmatch(r'(?:crate|spa_pod)::(\w+)', path)
        places = [same_place(path, name), *(path.replace(f'{own}::shims::numerals', kit) for own in ('crate', 'spa_pod') for kit in ('hex', 'itoa', 'ryu', 'fast_float'))]
        found = next((p for p in [*left, *may_go] if (p[0] == public or (p[0], public) == ('pub ', 'crate ')) and (p[1] in places
                      or macro and p[1].split('::')[-1] == macro.group(1) and macro.group(1) in macros)), None)
        if found in may_go:
            may_go[found] -= count
            continue
        if found is None or left[found] < count:
            faults.append('+ use %s%s' % (public, path))
        else:
            left[found] -= count
            counts['imports'] += (found[1] != path) * count
            counts['reach'] += (found[0] != public) * count
    faults += ['- use %s%s' % key for key, count in left.items() if count > 0]
    return counts, faults


def instances(a, i, b, j, laws):
    """The instances of rules that begin at these places of both texts: the rule, and the places behind."""
    found = TAKEN.match(a, i)
    if found:
        fields = [f.split(':')[0].strip() for f in found.group(1).split(',') if f.strip() and '_' not in f.split()]
        wanted = ''.join('let %s = core : : mem : : take ( & mut self . %s ) ; ' % (f, f) for f in fields)
        if b.startswith(wanted, j):
            yield 'drop(self)', found.end(), j + len(wanted)
    for name, goes, comes in COMPILED + laws:
        found = goes.match(a, i)
        if not found:
            continue
        if isinstance(comes, str):
            wanted = re.sub(r'\\(\d)', lambda m: found.group(int(m.group(1))), comes)
            if b.startswith(wanted, j):
                yield name, found.end(), j + len(wanted)
        else:
            new = comes.match(b, j)
            if new:
                yield name, found.end(), new.end()


def walk(a, b, laws):
    """Both texts of tokens side by side: the rules whose instances stand where the tokens aren't the same; and where no rule says how
    to go on, the two places."""
    a, b = ''.join(t + ' ' for t in a), ''.join(t + ' ' for t in b)
    # Ways to go on, the last one tried first: where, and how it was come by.
    left, seen, behind, furthest = [(0, 0, None)], set(), {}, (0, 0)
    while left:
        i, j, how = left.pop()
        if (i, j) in seen:
            continue
        seen.add((i, j))
        behind[i, j] = how
        furthest = max(furthest, (i, j), key=sum)
        if i == len(a) and j == len(b):
            rules = []
            while behind[i, j]:
                (i, j), rule = behind[i, j]
                rules += [rule] if rule else []
            return rules, None
        for name, to_i, to_j in instances(a, i, b, j, laws):
            if (to_i, to_j) != (i, j):
                left.append((to_i, to_j, ((i, j), name)))
        if i < len(a) and j < len(b):
            token = a[i:a.index(' ', i) + 1]
            if b.startswith(token, j):
                left.append((i + len(token), j + len(token), ((i, j), None)))
    i, j = furthest
    return [], '.. %s | %s | %s' % (a[max(0, i - 60):i], a[i:i + 120], b[j:j + 120])


NO_LAWS = set(), set(), []


def judge(source, rust, name, macros, laws=NO_LAWS):
    """How often each rule is used, and what no rule says, of a Rattle file and the Rust file made of it."""
    a, rattle_uses = uses_apart(contracts_dropped(rattle.code(source)))
    b, rust_uses = uses_apart(rattle.code(rust))
    counts, faults = judge_uses(rattle_uses, rust_uses, name, macros, laws)
    rules, fault = walk(a, b, laws[2])
    counts.update(rules)
    if fault:
        faults.append(fault)
    return counts, faults


def rattle_files(crates, name):
    """The Rattle files of a crate: the path in src/ without its ending, and the text."""
    folder = os.path.join(crates, name, 'src')
    for root, _, found in os.walk(folder):
        for file in sorted(found):
            if file.endswith('.rt'):
                with open(os.path.join(root, file), encoding='utf-8') as f:
                    yield os.path.relpath(os.path.join(root, file), folder)[:-3], f.read()


def main():
    crates, out = sys.argv[1:3]
    packages = crates_of_packages(crates)
    sources = {(name, path): text for names in packages.values() for name in names for path, text in rattle_files(crates, name)}
    macros = {macro for text in sources.values() for macro in re.findall(r'macro_rules! (\w+)', text)}
    laws = laws_of({file: ''.join(t + ' ' for t in uses_apart(contracts_dropped(rattle.code(text)))[0]) for file, text in sources.items()
                    if file[1].endswith('laws')})
    total, faults, files, same = collections.Counter(), 0, 0, 0
    for package, names in packages.items():
        for (name, path), source in sources.items():
            if name not in names or (name, path) in laws[1] or not os.path.isdir(os.path.join(out, package, 'src/parts')):
                continue
            made = '%s/src/parts/%s/%s.rs' % (package, name, 'mod' if path in ('lib', 'main') else path)
            with open(os.path.join(out, made), encoding='utf-8') as f:
                rust = f.read()
            counts, wrong = judge(source, rust, name, macros, laws)
            total.update(counts)
            faults += len(wrong)
            files += 1
            same += set(counts) <= {'prelude', 'imports', 'paths'}
            for fault in wrong:
                print('%s: %s' % (made, fault))
    print('%d files; in %d of them nothing but names of places differs' % (files, same))
    for rule, count in total.most_common():
        print('%6d %s' % (count, rule))
    print('%d differences that no rule says' % faults)
    return 1 if faults else 0


if __name__ == '__main__':
    sys.exit(main())
