"""What users of Rust expect of the generated types and calls beside the proved text: attributes in front of public types, and the plain
names of reads for those that bound the nesting depth. For a generated file, the text, and what stands in its place."""
import re

# Attributes in front of public types.
ATTRIBUTES = {
    '#[derive(Debug)]': ['Builder', 'IoSink', 'Parser', 'StructOf', 'PodDeserializer', 'DeserializeSuccess', 'ArrayPodDeserializer',
                         'StructPodDeserializer', 'Required', 'Optional', 'ObjectOf', 'Skipped', 'ObjectPodDeserializer', 'Settled', 'Visit', 'Never',
                         'ArrayPodSerializer', 'Maybe', 'StructPodSerializer', 'ObjectPodSerializer', 'PodSerializer', 'SerializeSuccess', 'Held',
                         'HeldProperties', 'VecVisitor', 'StringVisitor', 'BytesVisitor', 'BitmapVisitor', 'PointerVisitor', 'HandedVisitor',
                         'ValueVisitor', 'OpenPod', 'Frames', 'Remainder', 'Written',
                         'BegunPod', 'What', 'Stage', 'Elements', 'TextPrinter', 'TextReader', 'FreeReader', 'Shape', 'AtPath', 'InPlace'],
    '#[derive(Clone)]': ['DeserializeError', 'Fault'],
    '#[derive(Eq)]': ['DeserializeError', 'Fault', 'Value', 'ValueArray', 'ChoiceValue', 'Object', 'Property'],
    '#[derive(Hash)]': ['Value', 'ValueArray', 'ChoiceValue', 'Object', 'Property', 'PropertyFlags', 'Choice', 'ChoiceEnum', 'ChoiceFlags',
                        'Id', 'Fd', 'Float32', 'Float64', 'Fraction', 'Rectangle', 'SpaTypes'],
    '#[derive(Default)]': ['Id', 'Fd', 'Float32', 'Float64', 'Fraction', 'Rectangle'],
    # The other packages of this repository, for which the feature `parts` is, match all variants.
    '#[cfg_attr(not(feature = "parts"), non_exhaustive)]': ['Value', 'Visit', 'DeserializeError', 'FaultKind', 'GenError', 'NegotiateError', 'FilterError', 'Error', 'ParseValueError'],
}
PUBLIC = re.compile(r'^pub(?:\(crate\))? (?:struct|enum) (\w+)', re.M)

# Public functions whose answers are all that they give: they change nothing, and their answers aren't Results, which say so themselves.
ANSWERING = re.compile(r'^( *)(pub (?:const )?fn \w+(?:<[^;{}]*?>)?\((?:(?!&mut)[^;{}])*?\) -> (?!Result\b)[^;{]*\{)', re.M)

# The reads of any value whose plain names bound the nesting depth, in src/api/levels.rs.
READS = re.compile(r'\b(deserialize_any(?:_from|_leniently_from|_counted)?)(?=\()')

# What else stands in place of what, in a file.
PLACES = {
    # The read of the type Value is the bounded one.
    'spa-pod/src/parts/spa_typed_read/deserializer.rs': [('{\n        deserializer.deserialize_any_unbounded()\n', '{\n        deserializer.deserialize_any()\n')],
    # A value that is dropped by a loop may nest in any depth.
    'spa-pod/src/parts/spa_typed_read/content.rs': [
        ('    type Content = Value;\n\n    fn of_content(given: Value) -> Held {\n        Held::from(given)\n',
         '    type Content = crate::api::levels::Unbounded;\n\n    fn of_content(given: crate::api::levels::Unbounded) -> Held {\n        Held::from(given.0)\n'),
    ],
    'tests/src/parts/spa_typed_tests/reading/visitors.rs': [
        ('assert_said(found.as_str(), "InvalidType", "a deep value")', 'assert_said(found.as_str(), "TooDeep", "a deep value")'),
    ],
    # What the reader of texts, which is public, keeps from one text to the next, and what it takes.
    'spa-pod/src/parts/spa_text_read/inside.rs': [('pub(crate) enum Inside {', '#[derive(Debug)]\npub(crate) enum Inside {')],
    'spa-pod/src/parts/spa_text_read/open_object.rs': [('pub(crate) struct OpenObject {', '#[derive(Debug)]\npub(crate) struct OpenObject {')],
    'spa-pod/src/parts/spa_text_forms/form.rs': [('#[derive(Clone, Copy)]\npub enum Form {', '#[derive(Debug)]\n#[derive(Clone, Copy)]\npub enum Form {')],
    # A text that is read is copied, and then checked.
    'spa-pod/src/parts/spa_read/leaves.rs': [
        ('let Some(text) = text_of(body) else {', 'let Some(text) = crate::shims::memory::try_text_of(body)? else {'),
        ('    Ok(String::try_from_str(text)?)\n', '    Ok(text)\n'),
    ],
    # The refusal of a value that nests too deep.
    'spa-pod/src/parts/spa_fixed_sized/fault.rs': [
        ('    OutOfMemory,\n}\n\nimpl<I> DeserializeError<I> {\n',
         '    OutOfMemory,\n    /// More structs and objects stand in one another than the limit says.\n    TooDeep,\n}\n\nimpl<I> DeserializeError<I> {\n'),
        ('            DeserializeError::OutOfMemory => "OutOfMemory",\n',
         '            DeserializeError::OutOfMemory => "OutOfMemory",\n            DeserializeError::TooDeep => "TooDeep",\n'),
        ('            DeserializeError::OutOfMemory => write!(f, "out of memory"),\n',
         '            DeserializeError::OutOfMemory => write!(f, "out of memory"),\n'
         '            DeserializeError::TooDeep => write!(f, "values nest deeper than the limit"),\n'),
    ],
    # With a `usize` of 32 bits sums of sizes don't fit, which they are proved to do with 64.
    'spa-pod/src/parts/spa_bytes/front.rs': [
        ('pub fn extent_of(size: u32) -> usize {\n',
         'pub fn extent_of(size: u32) -> usize {\n    if size as usize > crate::shims::extents::MOST {\n        return crate::shims::extents::BEYOND;\n    }\n'),
    ],
    'spa-pod/src/parts/spa_view/settled.rs': [('FOUR_WORDS as usize + size as usize', '(FOUR_WORDS as usize).saturating_add(size as usize)')],
    'spa-pod/src/parts/spa_view/arrays.rs': [
        ('HEADER_LEN + most * u32_at(values, 0) as usize', '(u32_at(values, 0) as usize).saturating_mul(most).saturating_add(HEADER_LEN)'),
    ],
    'spa-pod/src/parts/spa_read/lenient.rs': [
        ('CHOICE_HEADER_LEN + u32_at(body, HEADER_LEN) as usize', '(u32_at(body, HEADER_LEN) as usize).saturating_add(CHOICE_HEADER_LEN)'),
    ],
    'spa-pod/src/parts/spa_canonical/body.rs': [('count * size as usize', 'count.saturating_mul(size as usize)')],
    'spa-pod/src/parts/spa_write/size.rs': [
        (before + ' => Ok(extent_of(size) as u64)', before + ' => Ok(crate::shims::extents::wide_extent_of(size))')
        for before in ('        Ok(size)', '    match array_size(values) {\n        Some(size)', '    match choice_size(choice) {\n        Some(size)')
    ],
    'spa-pod/src/parts/spa_events/event.rs': [('NO_PARENT: usize = 18_446_744_073_709_551_615', 'NO_PARENT: usize = usize::MAX')],
    'spa-pod/src/parts/spa_builder/frames.rs': [('SIZE_LIMIT: usize = 1 << 32', 'SIZE_LIMIT: usize = crate::shims::extents::SIZE_LIMIT')],
    # Floats print as numbers, by src/api/numbers.rs; the proved tests compare what is printed of their bits.
    'spa-pod/src/parts/spa_utils/float.rs': [
        ('#[derive(Clone, Copy, Debug, PartialEq, Eq)]\npub struct Float%s' % bits,
         '#[cfg_attr(feature = "parts", derive(Debug))]\n#[derive(Clone, Copy, PartialEq, Eq)]\npub struct Float%s' % bits)
        for bits in ('32', '64')
    ],
}


def surfaced(path, text):
    """The text of a generated file with all of that."""
    text = READS.sub(r'\1_unbounded', text)
    for old, new in PLACES.get(path, []):
        if text.count(old) != 1:
            raise ValueError('%s: "%s" stands in %d places' % (path, old, text.count(old)))
        text = text.replace(old, new)
    if not path.startswith('spa-pod/'):
        return text

    def attributed(found):
        return ''.join(attribute + '\n' for attribute, names in ATTRIBUTES.items() if found.group(1) in names) + found.group(0)

    return ANSWERING.sub(r'\1#[must_use]\n\1\2', PUBLIC.sub(attributed, text))
