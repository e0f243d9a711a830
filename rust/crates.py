"""Which Rust packages are made of the proved crates, by what crates.txt says each of these stands on."""
import os

# The crate that gives the libraries under libspa's paths.
WHOLE = 'libspa'
# The packages in rust/, and the crates for which each is there. A crate that these stand on is in the first package that needs it.
PACKAGES = {
    'spa-pod': [WHOLE, 'spa_names', 'spa_events', 'spa_negotiate', 'spa_filter_pods', 'spa_text', 'spa_text_forms'],
    'spa-pod-cli': ['podtool', 'pod'],
    'spav': ['spav'],
}
# The programs, of which each package has its own `main`.
PROGRAMS = {'podtool', 'pod'}
# The crate whose functions C calls.
EXPORTED = 'spav'
# The crates of spa-pod that are behind its feature `text`.
OF_TEXT = {'spa_text_read', 'spa_text', 'spa_text_forms'}
# The package of tests, made by rust/check. Crates of tests are those whose names end so. Those of them that are programs answer rows, which become a test.
TESTS = 'tests'
TEST_SUFFIXES = ('_tests', '_rows')
# The kit's crates, and the std's modules, for which shims stand: the package and the module in its src/shims. thiserror's derive needs none.
SHIMS = {
    'bitflags': ('spa-pod', 'flags'), 'arrayvec': ('spa-pod', 'array'), 'std::alloc': ('spa-pod', 'memory'), 'std::collections': ('spa-pod', 'sorted'),
    'json': ('spa-pod', 'json'), 'fast_float': ('spa-pod', 'numerals'), 'hex': ('spa-pod', 'numerals'), 'itoa': ('spa-pod', 'numerals'),
    'ryu': ('spa-pod', 'numerals'), 'clap': ('spa-pod-cli', 'clap'), 'memchr': ('spa-pod-cli', 'memchr'),
    'anyhow': (TESTS, 'anyhow'), 'std::test': (TESTS, 'test'), 'thiserror': None,
}


def listed(crates):
    """What each crate of crates.txt stands on, in the file's order."""
    found = {}
    with open(os.path.join(crates, '..', 'crates.txt'), encoding='utf-8') as lines:
        for line in lines:
            line = line.split('#')[0].strip()
            if line:
                name, below = line.split(':', 1)
                found[name.split()[0]] = below.split()
    return found


def with_those_below(names, stands_on):
    """These crates and all below them, in the order of crates.txt."""
    found, left = set(), list(names)
    while left:
        name = left.pop()
        if name in SHIMS or name in found:
            continue
        if name not in stands_on:
            raise ValueError('for the crate "%s" of the kit there is no shim' % name)
        found.add(name)
        left += stands_on[name]
    return [name for name in stands_on if name in found]


def crates_of_packages(crates):
    """For each package, and the one of tests, its crates in the order of crates.txt."""
    stands_on, placed, packages = listed(crates), set(PROGRAMS), {}
    packages_and_roots = dict(PACKAGES)
    packages_and_roots[TESTS] = [name for name in stands_on if name.endswith(TEST_SUFFIXES)]
    for package, roots in packages_and_roots.items():
        packages[package] = [name for name in with_those_below(roots, stands_on) if name not in placed]
        placed.update(packages[package])
    return packages
