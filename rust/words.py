"""Comments that speak of what is erased, or of what a user of Rust doesn't see: for a generated file, the text, and what stands in its
place."""

WORDS = {
    'spa-pod/src/parts/spa_value/macros.rs': [
        ('`property!(in alloc; key, ..)`, where `alloc` is the allocator of a list in it.', '`property!(key, ..)`.'),
        ('`object!(in alloc; type, id, properties..)`, where `alloc` is the allocator of its list of properties.', '`object!(type, id, properties..)`.'),
    ],
    'spa-pod/src/parts/spa_sink/sink.rs': [
        ("/// The allocator of the sink's bytes, where it has one. A writer may put together bytes in memory of this allocator before it appends them:",
         '/// Whether the sink takes memory as it grows. A writer may put together bytes in memory of its own before it appends them:'),
        ('A sink without an allocator keeps the default.', 'A sink that takes none keeps the default.'),
        ("/// Its contracts relate the sink before and after, so that a device whose bytes aren't known is a sink, too.",
         "/// A device whose bytes can't be read back is a sink, too."),
        ('    /// Overwrites the four bytes at the offset `at`.\n',
         '    /// Overwrites the four bytes at the offset `at`.\n    ///\n    /// # Panics\n    /// Where the output has fewer than `at + 4` bytes.\n'),
    ],
    'spa-pod/src/parts/spa_write/sized.rs': [
        ('/// Where the sink names an allocator, the encoding of a struct or an object with more than 64 values in it is put together in memory of that\n'
         '/// allocator by a loop,',
         '/// Where the sink takes memory, the encoding of a struct or an object with more than 64 values in it is put together in memory\n'
         '/// by a loop,'),
        ('/// a sink without an allocator, is written', '/// a sink that takes no memory, is written'),
        ('/// memory. Where a sink without an allocator knows', '/// memory. Where such a sink knows'),
        ('by a loop, in memory of\n/// this allocator, so the nesting depth of the value is bounded by that memory alone',
         'by a loop, in memory of\n/// its own, so the nesting depth of the value is bounded by memory alone'),
    ],
    'spa-pod/src/parts/spa_write/nested.rs': [('/// The encoding of a value, in memory of this allocator.', '/// The encoding of a value.')],
    'spa-pod/src/parts/spa_typed_write/serializer.rs': [
        ('Refused as `refuses` states, or with an error with which the\n    /// output may refuse as many bytes as the encoding has.',
         'Refused as the type says, or with an\n    /// error of the output.'),
    ],
    'spa-pod/src/parts/spa_typed_read/deserializer.rs': [
        ('`refuses` states the refusals.', 'Each type says how it refuses one.'),
        ("/// Any value, whose tree is the pod's one value. The refusals", '/// Any value. The refusals'),
        ('/// Reads one pod from the front of an input. Its model is the remaining bytes.', '/// Reads one pod from the front of an input.'),
        ('/// A pod was read. The model is the bytes that follow it.',
         "/// A pod was read. `deserialize` gives this beside the value: it has it from the read of another type, or from a reader's `end`."),
        ('the lenient reading (docs/FORMAT.md), and', 'the lenient reading, and'),
    ],
    'spa-pod/src/parts/spa_typed_read/exact.rs': [
        ('and then the type that is made of it is one.\n',
         'and then the type that is made of it is one. A type that is\n/// read by a visitor of its own becomes one by an `impl` without items, if this is so of it.\n'),
    ],
    'spa-pod/src/parts/spa_typed_read/items.rs': [
        ('///\n/// Its model: how many elements are left, their bytes, the bytes that follow the array, and whether it has failed.\n', ''),
    ],
    'spa-pod/src/parts/spa_typed_read/members.rs': [
        ("///\n/// Its model: the remaining bytes of the struct's body, the bytes that follow the struct, and whether it has failed.\n", ''),
    ],
    'spa-pod/src/parts/spa_typed_read/properties.rs': [
        ("///\n/// Its model: the object's type and id, the remaining bytes of its body, the bytes that follow the object, and whether it has\n"
         '/// failed.\n', ''),
    ],
    'spa-pod/src/parts/spa_typed_read/visitor.rs': [
        ("Reads a struct's members and makes a value of them. It should read all: `made` is owed only then, and otherwise\n"
         '    /// the typed read is refused.',
         "Reads a struct's members and makes a value of them. It has to read all of them: else the read is refused as `UnreadMembers`."),
        ("Reads an object's properties and makes a value of them. It should read all: `made` is owed only then, and otherwise\n"
         '    /// the typed read is refused.',
         "Reads an object's properties and makes a value of them. It has to read all of them: else the read is refused as `UnreadMembers`."),
    ],
    'spa-pod/src/parts/spa_parser/parser.rs': [
        (' Its model: the remaining bytes of the input and of each open body, the innermost first.\n', '\n'),
    ],
    'spa-pod/src/parts/spa_view/lookup.rs': [
        (" A trait of this crate's own, so that what is written once for them overlaps no other type.", ''),
    ],
    'spa-pod/src/parts/spa_dict/parse.rs': [(', which is `TYPE_NAME`: a call, so that contracts can speak of it.', ', which is `TYPE_NAME`.')],
    'spa-pod/src/parts/spa_result/async_seq.rs': [
        ('`SpaResult::from_c(code).is_async()` answers whether a code is one.',
         '`SpaResult::from_c(code).is_async()` answers whether a code is one.\n    ///\n    /// # Panics\n    /// Where it isn\'t one.'),
    ],
    'spa-pod/src/parts/spa_result/code.rs': [
        ("or the error. Only for codes that aren't asynchronous.", "or the error.\n    ///\n    /// # Panics\n    /// Where the code is asynchronous."),
        ('or the error. Only for codes that are below 0 or asynchronous.',
         'or the error.\n    ///\n    /// # Panics\n    /// Where the code is neither below 0 nor asynchronous.'),
    ],
    'spa-pod/src/parts/spa_rewrite/rewriting.rs': [(' Memory is asked for by the allocator of `out`.', '')],
    'spa-pod/src/parts/spa_lenient/rewriting.rs': [
        (' Memory is asked for by the allocator of `out`.', ''),
        (" The lenient rewriting is a canonical pod, which a lenient rewriting doesn't change:\n"
         '/// `lenient_rewritings_are_pods` and `lenient_rewritings_stay` of `spa_format` say so. The refusals',
         " The lenient rewriting is a canonical pod, which a lenient rewriting doesn't\n/// change. The refusals"),
    ],
    'spa-pod/src/parts/spa_print/printed.rs': [
        ('/// level from its allocator, and', '/// level, and'),
        ('/// This value, printed with memory of this allocator.', '/// This value, printed.'),
    ],
}
