//! Safe functions over `libspav`: slices in, a `Result` out.
use std::fmt;

mod raw {
    extern "C" {
        pub fn spav_abi() -> u32;
        pub fn spav_rewrite(input: *const u8, n: usize, out: *mut u8, cap: usize, written: *mut usize, at: *mut usize) -> i32;
        pub fn spav_rewrite_leniently(input: *const u8, n: usize, out: *mut u8, cap: usize, written: *mut usize, at: *mut usize) -> i32;
        pub fn spav_rewrite_in_place(bytes: *mut u8, n: usize, written: *mut usize, at: *mut usize) -> i32;
        pub fn spav_rewrite_in_place_leniently(bytes: *mut u8, n: usize, written: *mut usize, at: *mut usize) -> i32;
        pub fn spav_check(input: *const u8, n: usize, at: *mut usize) -> i32;
        pub fn spav_fault(input: *const u8, n: usize, kind: *mut u32, top: *mut usize, at: *mut usize) -> i32;
        pub fn spav_is_canonical(input: *const u8, n: usize, canonical: *mut bool) -> i32;
        pub fn spav_nests_within(input: *const u8, n: usize, levels: u32, within: *mut bool) -> i32;
        pub fn spav_fixate(pod: *mut u8, n: usize) -> i32;
        pub fn spav_front(input: *const u8, n: usize, type_: *mut u32, size: *mut u32, whole: *mut usize) -> i32;
        pub fn spav_object(input: *const u8, n: usize, type_: *mut u32, id: *mut u32) -> i32;
        pub fn spav_bool(input: *const u8, n: usize, key: u32, value: *mut bool) -> i32;
        pub fn spav_id(input: *const u8, n: usize, key: u32, value: *mut u32) -> i32;
        pub fn spav_int(input: *const u8, n: usize, key: u32, value: *mut i32) -> i32;
        pub fn spav_long(input: *const u8, n: usize, key: u32, value: *mut i64) -> i32;
        pub fn spav_fd(input: *const u8, n: usize, key: u32, value: *mut i64) -> i32;
        pub fn spav_float(input: *const u8, n: usize, key: u32, value: *mut f32) -> i32;
        pub fn spav_double(input: *const u8, n: usize, key: u32, value: *mut f64) -> i32;
        pub fn spav_rectangle(input: *const u8, n: usize, key: u32, width: *mut u32, height: *mut u32) -> i32;
        pub fn spav_fraction(input: *const u8, n: usize, key: u32, num: *mut u32, denom: *mut u32) -> i32;
        pub fn spav_string(input: *const u8, n: usize, key: u32, out: *mut u8, cap: usize, len: *mut usize) -> i32;
        pub fn spav_negotiate(a: *const u8, n: usize, b: *const u8, m: usize, out: *mut u8, cap: usize, written: *mut usize, key_or_side: *mut u32) -> i32;
        pub fn spav_filter(a: *const u8, n: usize, b: *const u8, m: usize, out: *mut u8, cap: usize, written: *mut usize, key_or_side: *mut u32) -> i32;
        pub fn spav_build(
            calls: *const super::RawCall,
            count: usize,
            texts: *const u8,
            n: usize,
            out: *mut u8,
            cap: usize,
            written: *mut usize,
            at: *mut usize,
        ) -> i32;
    }
}

/// The number of the interface that this crate is written for, as SPAV_ABI of the header.
pub const ABI: u32 = 1;

/// Whether the library that is linked has this interface.
pub fn is_fitting() -> bool {
    // It takes nothing and touches no memory.
    unsafe { raw::spav_abi() >> 16 == ABI }
}

/// Why a call isn't done.
#[derive(Clone, Copy, PartialEq, Eq, Debug)]
pub enum Error {
    /// The pod that begins at this byte is refused.
    Refused(usize),
    /// No object is at the front.
    NoObject,
    /// No property has the key.
    NoKey,
    /// The property's value is of another type.
    OtherType,
    /// The output is shorter than this many bytes.
    NoRoom(usize),
    /// Structs and objects nest deeper than is looked into.
    TooDeep,
    /// Memory was asked for and refused.
    OutOfMemory,
}

impl fmt::Display for Error {
    fn fmt(&self, to: &mut fmt::Formatter<'_>) -> fmt::Result {
        match self {
            Error::Refused(at) => write!(to, "byte {at}: no pod"),
            Error::NoObject => write!(to, "no object"),
            Error::NoKey => write!(to, "no such key"),
            Error::OtherType => write!(to, "another type"),
            Error::NoRoom(needed) => write!(to, "{needed} bytes are needed"),
            Error::TooDeep => write!(to, "nested too deep"),
            Error::OutOfMemory => write!(to, "out of memory"),
        }
    }
}

impl std::error::Error for Error {}

// Of each call below: a slice is never null and is as long as it says, a `&mut` overlaps nothing else.

/// Writes the rewritings of all pods of the input to the front of `out`, and gives them.
pub fn rewrite_into<'a>(input: &[u8], out: &'a mut [u8]) -> Result<&'a mut [u8], Error> {
    let (mut written, mut at) = (0, 0);
    let answer = unsafe { raw::spav_rewrite(input.as_ptr(), input.len(), out.as_mut_ptr(), out.len(), &mut written, &mut at) };
    match answer {
        0 => Ok(&mut out[..written]),
        -22 => Err(Error::Refused(at)),
        -28 => Err(Error::NoRoom(written)),
        _ => Err(Error::OutOfMemory),
    }
}

/// Writes the encodings of the values that the input conveys in the lenient reading to the front of `out`, and gives them.
pub fn rewrite_leniently_into<'a>(input: &[u8], out: &'a mut [u8]) -> Result<&'a mut [u8], Error> {
    let (mut written, mut at) = (0, 0);
    let answer = unsafe { raw::spav_rewrite_leniently(input.as_ptr(), input.len(), out.as_mut_ptr(), out.len(), &mut written, &mut at) };
    match answer {
        0 => Ok(&mut out[..written]),
        -22 => Err(Error::Refused(at)),
        -28 => Err(Error::NoRoom(written)),
        _ => Err(Error::OutOfMemory),
    }
}

/// Puts the rewritings of all pods that the bytes are at their front, and gives them.
pub fn rewrite_in_place(bytes: &mut [u8]) -> Result<&mut [u8], Error> {
    let (mut written, mut at) = (0, 0);
    match unsafe { raw::spav_rewrite_in_place(bytes.as_mut_ptr(), bytes.len(), &mut written, &mut at) } {
        0 => Ok(&mut bytes[..written]),
        -22 => Err(Error::Refused(at)),
        _ => Err(Error::OutOfMemory),
    }
}

/// Puts the encodings of the values that the bytes convey in the lenient reading at their front, and gives them.
pub fn rewrite_in_place_leniently(bytes: &mut [u8]) -> Result<&mut [u8], Error> {
    let (mut written, mut at) = (0, 0);
    match unsafe { raw::spav_rewrite_in_place_leniently(bytes.as_mut_ptr(), bytes.len(), &mut written, &mut at) } {
        0 => Ok(&mut bytes[..written]),
        -22 => Err(Error::Refused(at)),
        _ => Err(Error::OutOfMemory),
    }
}

/// Whether the input is pods one after another.
pub fn check(input: &[u8]) -> Result<(), Error> {
    let mut at = 0;
    match unsafe { raw::spav_check(input.as_ptr(), input.len(), &mut at) } {
        0 => Ok(()),
        -22 => Err(Error::Refused(at)),
        _ => Err(Error::OutOfMemory),
    }
}

/// What is wrong with bytes.
#[derive(Clone, Copy, PartialEq, Eq, Debug)]
pub enum FaultKind {
    /// Fewer bytes are left than a header, the size in it, or a property's key and flags take.
    Short,
    /// A string isn't UTF-8 with one NUL, at its end.
    Text,
    /// There is no such type, or none of which elements and values can be.
    Type,
    /// A choice has no such shape.
    Shape,
    /// A choice has fewer values than its shape takes.
    Values,
    /// A body, or the size of elements or values, isn't as long as its type's are.
    Size,
}

/// A fault of bytes.
#[derive(Clone, Copy, PartialEq, Eq, Debug)]
pub struct Fault {
    /// What is wrong.
    pub kind: FaultKind,
    /// The byte at which the refused pod begins.
    pub top: usize,
    /// The byte at which the fault stands: there begins that pod, one inside it, or a property.
    pub at: usize,
}

/// The first fault of the input, or `None` where it is pods one after another. No memory is asked for.
pub fn fault(input: &[u8]) -> Result<Option<Fault>, Error> {
    let (mut kind, mut top, mut at) = (0, 0, 0);
    let kinds = [FaultKind::Short, FaultKind::Text, FaultKind::Type, FaultKind::Shape, FaultKind::Values, FaultKind::Size];
    match unsafe { raw::spav_fault(input.as_ptr(), input.len(), &mut kind, &mut top, &mut at) } {
        0 if kind == 0 => Ok(None),
        0 => Ok(Some(Fault { kind: kinds[kind as usize - 1], top, at })),
        _ => Err(Error::TooDeep),
    }
}

/// Whether the pod at the front is canonical.
pub fn is_canonical(input: &[u8]) -> Result<bool, Error> {
    let mut canonical = false;
    match unsafe { raw::spav_is_canonical(input.as_ptr(), input.len(), &mut canonical) } {
        0 => Ok(canonical),
        _ => Err(Error::OutOfMemory),
    }
}

/// Whether at most so many structs and objects stand in one another in the pod at the front. Of 1000 more aren't looked into.
pub fn nests_within(input: &[u8], levels: u32) -> Result<bool, Error> {
    let mut within = false;
    match unsafe { raw::spav_nests_within(input.as_ptr(), input.len(), levels, &mut within) } {
        0 => Ok(within),
        _ => Err(Error::TooDeep),
    }
}

/// Sets each choice of the object at the front to its default, unless its property is protected.
pub fn fixate(pod: &mut [u8]) -> Result<(), Error> {
    match unsafe { raw::spav_fixate(pod.as_mut_ptr(), pod.len()) } {
        0 => Ok(()),
        _ => Err(Error::NoObject),
    }
}

fn read(answer: i32, needed: usize) -> Result<(), Error> {
    match answer {
        0 => Ok(()),
        -2 => Err(Error::NoKey),
        -28 => Err(Error::NoRoom(needed)),
        -71 => Err(Error::OtherType),
        _ => Err(Error::NoObject),
    }
}

/// The type and the id of the object at the front.
pub fn object(input: &[u8]) -> Result<(u32, u32), Error> {
    let (mut type_, mut id) = (0, 0);
    read(unsafe { raw::spav_object(input.as_ptr(), input.len(), &mut type_, &mut id) }, 0)?;
    Ok((type_, id))
}

/// The truth value under a key of the object at the front.
pub fn bool_(input: &[u8], key: u32) -> Result<bool, Error> {
    let mut value = false;
    read(unsafe { raw::spav_bool(input.as_ptr(), input.len(), key, &mut value) }, 0)?;
    Ok(value)
}

/// The number of the Id under a key.
pub fn id(input: &[u8], key: u32) -> Result<u32, Error> {
    let mut value = 0;
    read(unsafe { raw::spav_id(input.as_ptr(), input.len(), key, &mut value) }, 0)?;
    Ok(value)
}

/// The Int under a key.
pub fn int(input: &[u8], key: u32) -> Result<i32, Error> {
    let mut value = 0;
    read(unsafe { raw::spav_int(input.as_ptr(), input.len(), key, &mut value) }, 0)?;
    Ok(value)
}

/// The Long under a key.
pub fn long(input: &[u8], key: u32) -> Result<i64, Error> {
    let mut value = 0;
    read(unsafe { raw::spav_long(input.as_ptr(), input.len(), key, &mut value) }, 0)?;
    Ok(value)
}

/// The number of the file descriptor under a key.
pub fn fd(input: &[u8], key: u32) -> Result<i64, Error> {
    let mut value = 0;
    read(unsafe { raw::spav_fd(input.as_ptr(), input.len(), key, &mut value) }, 0)?;
    Ok(value)
}

/// The Float under a key.
pub fn float(input: &[u8], key: u32) -> Result<f32, Error> {
    let mut value = 0.0;
    read(unsafe { raw::spav_float(input.as_ptr(), input.len(), key, &mut value) }, 0)?;
    Ok(value)
}

/// The Double under a key.
pub fn double(input: &[u8], key: u32) -> Result<f64, Error> {
    let mut value = 0.0;
    read(unsafe { raw::spav_double(input.as_ptr(), input.len(), key, &mut value) }, 0)?;
    Ok(value)
}

/// Width and height of the Rectangle under a key.
pub fn rectangle(input: &[u8], key: u32) -> Result<(u32, u32), Error> {
    let (mut width, mut height) = (0, 0);
    read(unsafe { raw::spav_rectangle(input.as_ptr(), input.len(), key, &mut width, &mut height) }, 0)?;
    Ok((width, height))
}

/// Numerator and denominator of the Fraction under a key.
pub fn fraction(input: &[u8], key: u32) -> Result<(u32, u32), Error> {
    let (mut num, mut denom) = (0, 0);
    read(unsafe { raw::spav_fraction(input.as_ptr(), input.len(), key, &mut num, &mut denom) }, 0)?;
    Ok((num, denom))
}

/// The text under a key of the object at the front, written to `out` with one NUL behind it.
pub fn text<'a>(input: &[u8], key: u32, out: &'a mut [u8]) -> Result<&'a [u8], Error> {
    let mut len = 0;
    let answer = unsafe { raw::spav_string(input.as_ptr(), input.len(), key, out.as_mut_ptr(), out.len(), &mut len) };
    read(answer, len + 1)?;
    Ok(&out[..len])
}

/// Why two objects don't meet, or aren't filtered.
#[derive(Clone, Copy, PartialEq, Eq, Debug)]
pub enum Apart {
    /// No object is at the front of the first input, which has the number 0, or of the second.
    NoObject(u32),
    /// They are of two types.
    Types,
    /// To filter: one has this key as MANDATORY, and the other lacks it.
    Missing(u32),
    /// Under this key stands a choice for which no common value is sought.
    Unsupported(u32),
    /// Under this key no value is admitted by both.
    Disjoint(u32),
    /// The answer is too large for a pod.
    TooLarge,
    /// The output is shorter than this many bytes.
    NoRoom(usize),
    /// Memory was asked for and refused.
    OutOfMemory,
}

impl fmt::Display for Apart {
    fn fmt(&self, to: &mut fmt::Formatter<'_>) -> fmt::Result {
        match self {
            Apart::NoObject(side) => write!(to, "no object at the front of input {side}"),
            Apart::Types => write!(to, "objects of two types"),
            Apart::Missing(key) => write!(to, "key {key} is in one alone, as mandatory"),
            Apart::Unsupported(key) => write!(to, "no value is sought in the choices for key {key}"),
            Apart::Disjoint(key) => write!(to, "no value for key {key} is in both"),
            Apart::TooLarge => write!(to, "too large for a pod"),
            Apart::NoRoom(needed) => write!(to, "{needed} bytes are needed"),
            Apart::OutOfMemory => write!(to, "out of memory"),
        }
    }
}

impl std::error::Error for Apart {}

fn joined(answer: i32, out: &mut [u8], written: usize, key_or_side: u32) -> Result<&mut [u8], Apart> {
    match answer {
        0 => Ok(&mut out[..written]),
        -2 => Err(Apart::Missing(key_or_side)),
        -22 => Err(Apart::NoObject(key_or_side)),
        -28 => Err(Apart::NoRoom(written)),
        -61 => Err(Apart::Disjoint(key_or_side)),
        -71 => Err(Apart::Types),
        -75 => Err(Apart::TooLarge),
        -95 => Err(Apart::Unsupported(key_or_side)),
        _ => Err(Apart::OutOfMemory),
    }
}

/// Writes the object in which the objects at the fronts of two inputs meet to the front of `out`, and gives it.
pub fn negotiate_into<'a>(a: &[u8], b: &[u8], out: &'a mut [u8]) -> Result<&'a mut [u8], Apart> {
    let (mut written, mut key_or_side) = (0, 0);
    let (to, cap) = (out.as_mut_ptr(), out.len());
    let answer = unsafe { raw::spav_negotiate(a.as_ptr(), a.len(), b.as_ptr(), b.len(), to, cap, &mut written, &mut key_or_side) };
    joined(answer, out, written, key_or_side)
}

/// Writes the object to which the objects at the fronts of two inputs are filtered to the front of `out`, and gives it: it may still
/// hold choices.
pub fn filter_into<'a>(a: &[u8], b: &[u8], out: &'a mut [u8]) -> Result<&'a mut [u8], Apart> {
    let (mut written, mut key_or_side) = (0, 0);
    let (to, cap) = (out.as_mut_ptr(), out.len());
    let answer = unsafe { raw::spav_filter(a.as_ptr(), a.len(), b.as_ptr(), b.len(), to, cap, &mut written, &mut key_or_side) };
    joined(answer, out, written, key_or_side)
}

/// A call of a builder: a value is added, a pod is begun or closed, or the key and the flags of a property are said.
#[derive(Clone, Copy, PartialEq, Debug)]
pub enum Call<'a> {
    None,
    Bool(bool),
    Id(u32),
    Int(i32),
    Long(i64),
    Float(f32),
    Double(f64),
    String(&'a str),
    Bytes(&'a [u8]),
    /// A canonical pod, which is added whole.
    Pod(&'a [u8]),
    /// Width and height.
    Rectangle(u32, u32),
    /// Numerator and denominator.
    Fraction(u32, u32),
    /// A type number and an address.
    Pointer(u32, u64),
    Fd(i64),
    /// A key and flags. The next call adds or begins the value.
    Prop(u32, u32),
    PushArray,
    /// A shape and flags.
    PushChoice(u32, u32),
    PushStruct,
    /// A type and an id.
    PushObject(u32, u32),
    /// The innermost pod that is begun is closed, which has this frame: how many are begun.
    Pop(u64),
}

/// A call as the library takes it.
#[repr(C)]
#[derive(Clone, Copy, Default)]
struct RawCall {
    what: u32,
    first: u32,
    second: u32,
    number: i32,
    wide: i64,
    bits: u64,
    len: u64,
    reserved: u64,
}

/// The call, whose text is put behind the others.
fn raw_call(call: &Call, texts: &mut Vec<u8>) -> RawCall {
    let words = |what, first, second, bits| RawCall { what, first, second, bits, ..RawCall::default() };
    let mut text = |what, bytes: &[u8]| {
        let from = texts.len();
        texts.extend_from_slice(bytes);
        RawCall { what, bits: from as u64, len: bytes.len() as u64, ..RawCall::default() }
    };
    match *call {
        Call::None => words(1, 0, 0, 0),
        Call::Bool(value) => words(2, value.into(), 0, 0),
        Call::Id(value) => words(3, value, 0, 0),
        Call::Int(number) => RawCall { what: 4, number, ..RawCall::default() },
        Call::Long(wide) => RawCall { what: 5, wide, ..RawCall::default() },
        Call::Float(value) => words(6, value.to_bits(), 0, 0),
        Call::Double(value) => words(7, 0, 0, value.to_bits()),
        Call::String(value) => text(8, value.as_bytes()),
        Call::Bytes(value) => text(9, value),
        Call::Rectangle(width, height) => words(10, width, height, 0),
        Call::Fraction(num, denom) => words(11, num, denom, 0),
        Call::PushArray => words(13, 0, 0, 0),
        Call::PushStruct => words(14, 0, 0, 0),
        Call::PushObject(type_, id) => words(15, type_, id, 0),
        Call::Pointer(type_, address) => words(17, type_, 0, address),
        Call::Fd(wide) => RawCall { what: 18, wide, ..RawCall::default() },
        Call::PushChoice(shape, flags) => words(19, shape, flags, 0),
        Call::Prop(key, flags) => words(256, key, flags, 0),
        Call::Pop(frame) => words(257, 0, 0, frame),
        Call::Pod(pod) => text(259, pod),
    }
}

/// Why calls build nothing.
#[derive(Clone, Copy, PartialEq, Eq, Debug)]
pub enum BuildError {
    /// The call of this number can't come there; behind the last call, a pod isn't closed.
    Refused(usize),
    /// By the call of this number the size of a pod is 4294967296 or more.
    TooLarge(usize),
    /// The output is shorter than this many bytes.
    NoRoom(usize),
    /// Memory was asked for and refused.
    OutOfMemory,
}

impl fmt::Display for BuildError {
    fn fmt(&self, to: &mut fmt::Formatter<'_>) -> fmt::Result {
        match self {
            BuildError::Refused(at) => write!(to, "call {at}: can't come there"),
            BuildError::TooLarge(at) => write!(to, "call {at}: too large for a pod"),
            BuildError::NoRoom(needed) => write!(to, "{needed} bytes are needed"),
            BuildError::OutOfMemory => write!(to, "out of memory"),
        }
    }
}

impl std::error::Error for BuildError {}

/// Writes the pods that the calls build to the front of `out`, and gives them.
pub fn build_into<'a>(calls: &[Call], out: &'a mut [u8]) -> Result<&'a mut [u8], BuildError> {
    let mut texts = Vec::new();
    let raw: Vec<RawCall> = calls.iter().map(|call| raw_call(call, &mut texts)).collect();
    let (mut written, mut at) = (0, 0);
    let (to, cap) = (out.as_mut_ptr(), out.len());
    match unsafe { raw::spav_build(raw.as_ptr(), raw.len(), texts.as_ptr(), texts.len(), to, cap, &mut written, &mut at) } {
        0 => Ok(&mut out[..written]),
        -22 => Err(BuildError::Refused(at)),
        -28 => Err(BuildError::NoRoom(written)),
        -75 => Err(BuildError::TooLarge(at)),
        _ => Err(BuildError::OutOfMemory),
    }
}

/// A pod as it lies in bytes.
#[derive(Clone, Copy, PartialEq, Eq, Debug)]
pub struct Pod<'a> {
    /// The number of its type.
    pub type_: u32,
    /// The key and the flags before it, where it is a property's.
    pub property: Option<(u32, u32)>,
    /// Its body, without the padding.
    pub body: &'a [u8],
    /// Header, body and padding.
    pub bytes: &'a [u8],
}

/// Pods one after another that are still to come. It ends for good at the first that isn't whole. It takes no memory.
#[derive(Clone, Copy, Debug)]
pub struct Walk<'a> {
    left: &'a [u8],
    keyed: bool,
}

/// The number of a struct's type, and of an object's.
const STRUCT: u32 = 14;
const OBJECT: u32 = 15;
/// How many bytes a header has, an object's type and id, or a key and flags.
const TWO_WORDS: usize = 8;

/// The walk over the pods of which the input consists.
pub fn walk(input: &[u8]) -> Walk<'_> {
    Walk { left: input, keyed: false }
}

impl<'a> Pod<'a> {
    /// The walk over what is inside: the members of a struct, the properties of an object, of any other pod nothing.
    pub fn inside(&self) -> Walk<'a> {
        match self.type_ {
            STRUCT => Walk { left: self.body, keyed: false },
            OBJECT => Walk { left: self.body.get(TWO_WORDS..).unwrap_or_default(), keyed: true },
            _ => Walk { left: &[], keyed: false },
        }
    }
}

/// All that lies inside an input: each pod with the number of structs and objects it stands in, then those inside it, then what follows it.
#[derive(Clone, Debug)]
pub struct Events<'a> {
    open: Vec<Walk<'a>>,
}

/// The pods of an input and those inside them, by types and sizes alone.
pub fn events(input: &[u8]) -> Events<'_> {
    Events { open: vec![walk(input)] }
}

impl<'a> Iterator for Events<'a> {
    type Item = (usize, Pod<'a>);

    fn next(&mut self) -> Option<(usize, Pod<'a>)> {
        loop {
            if let Some(pod) = self.open.last_mut()?.next() {
                let depth = self.open.len() - 1;
                self.open.push(pod.inside());
                return Some((depth, pod));
            }
            self.open.pop();
        }
    }
}

fn word(bytes: &[u8]) -> u32 {
    u32::from_le_bytes([bytes[0], bytes[1], bytes[2], bytes[3]])
}

impl<'a> Iterator for Walk<'a> {
    type Item = Pod<'a>;

    fn next(&mut self) -> Option<Pod<'a>> {
        let before = if self.keyed { TWO_WORDS } else { 0 };
        let input = self.left.get(before..)?;
        let (mut type_, mut size, mut whole) = (0, 0, 0);
        if unsafe { raw::spav_front(input.as_ptr(), input.len(), &mut type_, &mut size, &mut whole) } != 0 {
            return None;
        }
        let property = self.keyed.then(|| (word(self.left), word(&self.left[4..])));
        let (bytes, left) = input.split_at(whole);
        self.left = left;
        Some(Pod { type_, property, body: &bytes[TWO_WORDS..TWO_WORDS + size as usize], bytes })
    }
}

/// Bytes that are pods one after another, all canonical: made by a rewriting alone, and never changed. What reads pods
/// and trusts their sizes can be handed them.
#[derive(Clone, PartialEq, Eq, Debug)]
pub struct Pods(Vec<u8>);

impl Pods {
    /// The rewriting of these bytes.
    pub fn new(input: &[u8]) -> Result<Pods, Error> {
        let mut out = vec![0; input.len()];
        let written = rewrite_into(input, &mut out)?.len();
        out.truncate(written);
        Ok(Pods(out))
    }

    /// The walk over them.
    pub fn walk(&self) -> Walk<'_> {
        walk(&self.0)
    }

    /// All that lies inside them.
    pub fn events(&self) -> Events<'_> {
        events(&self.0)
    }

    /// The bytes.
    pub fn as_bytes(&self) -> &[u8] {
        &self.0
    }

    /// The bytes, as a vector.
    pub fn into_bytes(self) -> Vec<u8> {
        self.0
    }
}

impl AsRef<[u8]> for Pods {
    fn as_ref(&self) -> &[u8] {
        &self.0
    }
}

#[cfg(test)]
mod tests {
    use super::*;

    fn bytes(words: &[u32]) -> Vec<u8> {
        words.iter().flat_map(|word| word.to_le_bytes()).collect()
    }

    /// An object: under 1 an Int, under 2 a Range of Ints, under 3 the text "ab".
    fn object() -> Vec<u8> {
        bytes(&[
            104, 15, 5, 3, 1, 0, 4, 4, 9, 0, 2, 0, 28, 19, 1, 0, 4, 4, 5, 2, 10, 0, 3, 0, 3, 8, 0x6261, 0,
        ])
    }

    #[test]
    fn properties_are_read() {
        let (pod, mut out) = (object(), [0; 3]);
        assert_eq!(super::object(&pod), Ok((5, 3)));
        assert_eq!(super::object(&pod[24..]), Err(Error::NoObject));
        assert_eq!(int(&pod, 1), Ok(9));
        assert_eq!(int(&pod, 2), Err(Error::OtherType));
        assert_eq!(int(&pod, 4), Err(Error::NoKey));
        assert_eq!(int(&[], 4), Err(Error::NoObject));
        assert_eq!(text(&pod, 3, &mut out), Ok(&b"ab"[..]));
        assert_eq!(text(&pod, 3, &mut out[..2]), Err(Error::NoRoom(3)));
    }

    #[test]
    fn each_kind_is_read() {
        let pod = bytes(&[
            200, 15, 5, 3, 4, 0, 8, 10, 320, 240, 5, 0, 8, 11, 30, 1, 6, 0, 8, 18, 17, 0, 7, 0, 4, 6, 0x3fc0_0000, 0, 8, 0, 8, 7, 0,
            0x3ff8_0000, 9, 0, 8, 5, 1, 1, 10, 0, 4, 2, 3, 0, 11, 0, 4, 3, 77, 0,
        ]);
        assert_eq!(rectangle(&pod, 4), Ok((320, 240)));
        assert_eq!(fraction(&pod, 5), Ok((30, 1)));
        assert_eq!(fd(&pod, 6), Ok(17));
        assert_eq!(float(&pod, 7), Ok(1.5));
        assert_eq!(double(&pod, 8), Ok(1.5));
        assert_eq!(long(&pod, 9), Ok(0x1_0000_0001));
        assert_eq!(bool_(&pod, 10), Ok(true));
        assert_eq!(id(&pod, 11), Ok(77));
        assert_eq!(id(&pod, 10), Err(Error::OtherType));
    }

    #[test]
    fn a_range_becomes_its_default() {
        let mut pod = object();
        assert_eq!(fixate(&mut pod), Ok(()));
        assert_eq!(is_canonical(&pod), Ok(false));
        let pods = Pods::new(&pod).unwrap();
        let mut same = pod.clone();
        assert_eq!(rewrite_in_place(&mut same).unwrap(), pods.as_bytes());
        assert_eq!(pods.as_bytes().len(), pod.len() - 8);
        assert_eq!(is_canonical(pods.as_bytes()), Ok(true));
        assert_eq!(fixate(&mut []), Err(Error::NoObject));
    }

    #[test]
    fn what_stays_as_long_is_written_at_once() {
        let noisy = bytes(&[4, 2, 1, 0, 4, 2, 7, 9]);
        let mut out = [9; 40];
        assert_eq!(rewrite_into(&noisy, &mut out), Ok(&mut bytes(&[4, 2, 1, 0, 4, 2, 1, 0])[..]));
        assert_eq!(out[32..], [9; 8]);
        assert_eq!(rewrite_into(&noisy, &mut out[..31]), Err(Error::NoRoom(32)));
    }

    #[test]
    fn texts_with_several_nuls_are_rewritten_leniently() {
        let (padded, mut out) = (bytes(&[4, 8, 0x6261, 0]), [9; 24]);
        assert_eq!(rewrite_into(&padded, &mut out), Err(Error::Refused(0)));
        assert_eq!(rewrite_leniently_into(&padded, &mut out), Ok(&mut bytes(&[3, 8, 0x6261, 0])[..]));
        assert_eq!(out[16..], [9; 8]);
        assert_eq!(rewrite_leniently_into(&padded, &mut out[..15]), Err(Error::NoRoom(16)));
        let mut list = padded.clone();
        list.extend(bytes(&[4, 8, 0x61626162, 0]));
        let sent = list.clone();
        assert_eq!(rewrite_in_place_leniently(&mut list), Err(Error::Refused(16)));
        assert_eq!(list, sent);
        assert_eq!(rewrite_in_place_leniently(&mut list[..16]), Ok(&mut bytes(&[3, 8, 0x6261, 0])[..]));
    }

    #[test]
    fn refusals_say_where() {
        let mut two = object();
        two.extend(bytes(&[4, 5, 0, 0]));
        assert_eq!(check(&two), Err(Error::Refused(112)));
        assert_eq!(Pods::new(&two), Err(Error::Refused(112)));
        assert_eq!(rewrite_into(&object(), &mut [0; 111]), Err(Error::NoRoom(112)));
        assert_eq!(check(&[]), Ok(()));
    }

    #[test]
    fn faults_have_a_kind_and_a_place() {
        assert_eq!(fault(&object()), Ok(None));
        let inside = bytes(&[4, 4, 7, 0, 32, 15, 5, 3, 1, 0, 8, 4, 7, 0]);
        assert_eq!(fault(&inside), Ok(Some(Fault { kind: FaultKind::Size, top: 16, at: 40 })));
        assert_eq!(fault(&inside[..15]), Ok(Some(Fault { kind: FaultKind::Short, top: 0, at: 0 })));
    }

    #[test]
    fn walks_go_inside() {
        let pods = Pods::new(&object()).unwrap();
        let pod = pods.walk().next().unwrap();
        let inside: Vec<_> = pod.inside().map(|it| (it.property, it.type_, it.body.len())).collect();
        assert_eq!(inside, [(Some((1, 0)), 4, 4), (Some((2, 0)), 19, 28), (Some((3, 0)), 8, 3)]);
        assert_eq!((nests_within(pod.bytes, 1), nests_within(pod.bytes, 0)), (Ok(true), Ok(false)));
        let deep: Vec<u32> = (0..1100).flat_map(|level| [8 * (1099 - level), STRUCT]).collect();
        assert_eq!((nests_within(&bytes(&deep), 1000), nests_within(&bytes(&deep), 1001)), (Ok(false), Err(Error::TooDeep)));
        assert!(pod.inside().next().unwrap().inside().next().is_none());
    }

    /// An object of type 5: under 1 a Range of Ints from 2 to 10.
    fn range() -> Vec<u8> {
        bytes(&[56, 15, 5, 3, 1, 0, 28, 19, 1, 0, 4, 4, 5, 2, 10, 0])
    }

    #[test]
    fn objects_meet() {
        let (ours, mut out) = (range(), [9; 64]);
        let theirs = bytes(&[56, 15, 5, 7, 1, 0, 28, 19, 3, 0, 4, 4, 12, 12, 4, 0]);
        let met = bytes(&[32, 15, 5, 3, 1, 0, 4, 4, 4, 0]);
        assert_eq!(negotiate_into(&ours, &theirs, &mut out), Ok(&mut met.clone()[..]));
        assert_eq!(out[40..], [9; 24]);
        assert_eq!(negotiate_into(&ours, &theirs, &mut out[..39]), Err(Apart::NoRoom(40)));
        assert_eq!(negotiate_into(&ours, &bytes(&[8, 15, 6, 7]), &mut out), Err(Apart::Types));
        assert_eq!(negotiate_into(&ours, &bytes(&[0, 14]), &mut out), Err(Apart::NoObject(1)));
        let twelve = bytes(&[32, 15, 5, 7, 1, 0, 4, 4, 12, 0]);
        assert_eq!(negotiate_into(&ours, &twelve, &mut out), Err(Apart::Disjoint(1)));
        let step = bytes(&[56, 15, 5, 7, 1, 0, 32, 19, 2, 0, 4, 4, 5, 2, 10, 1]);
        assert_eq!(negotiate_into(&ours, &step, &mut out), Err(Apart::Unsupported(1)));
    }

    #[test]
    fn objects_are_filtered() {
        let (ours, mut out) = (range(), [9; 64]);
        let theirs = bytes(&[56, 15, 5, 7, 1, 0, 28, 19, 1, 0, 4, 4, 20, 8, 20, 0]);
        let both = bytes(&[56, 15, 5, 3, 1, 0, 28, 19, 1, 0, 4, 4, 8, 8, 10, 0]);
        assert_eq!(filter_into(&ours, &theirs, &mut out), Ok(&mut both.clone()[..]));
        assert_eq!(filter_into(&ours, &theirs, &mut out[..63]), Err(Apart::NoRoom(64)));
        let mandatory = bytes(&[32, 15, 5, 7, 2, 8, 4, 4, 6, 0]);
        assert_eq!(filter_into(&ours, &mandatory, &mut out), Err(Apart::Missing(2)));
        assert_eq!(filter_into(&[], &ours, &mut out), Err(Apart::NoObject(0)));
    }

    #[test]
    fn pods_are_built() {
        let calls = [
            Call::PushObject(5, 3),
            Call::Prop(1, 0),
            Call::Int(9),
            Call::Prop(2, 0),
            Call::PushChoice(1, 0),
            Call::Int(5),
            Call::Int(2),
            Call::Int(10),
            Call::Pop(2),
            Call::Prop(3, 0),
            Call::String("ab"),
            Call::Pop(1),
        ];
        let mut out = [9; 120];
        assert_eq!(build_into(&calls, &mut out), Ok(&mut object()[..]));
        assert_eq!(out[112..], [9; 8]);
        assert_eq!(build_into(&calls, &mut out[..111]), Err(BuildError::NoRoom(112)));
        assert_eq!(build_into(&calls[..11], &mut out), Err(BuildError::Refused(11)));
        assert_eq!(build_into(&[Call::PushStruct, Call::Pop(2)], &mut out), Err(BuildError::Refused(1)));
    }

    #[test]
    fn a_pod_is_added_whole() {
        let (pod, mut out) = (object(), [9; 120]);
        assert_eq!(build_into(&[Call::PushStruct, Call::Pod(&pod), Call::Pop(1)], &mut out).unwrap()[8..], pod[..]);
        assert_eq!(build_into(&[Call::PushStruct, Call::Pod(&pod[..104])], &mut out), Err(BuildError::Refused(1)));
    }

    #[test]
    fn each_kind_is_built() {
        let calls = [
            Call::PushStruct,
            Call::None,
            Call::Bool(true),
            Call::Id(77),
            Call::Long(0x1_0000_0001),
            Call::Float(1.5),
            Call::Double(1.5),
            Call::Bytes(b"ab"),
            Call::Rectangle(320, 240),
            Call::Fraction(30, 1),
            Call::Pointer(7, 0x1_0000_0002),
            Call::Fd(17),
            Call::PushArray,
            Call::Int(3),
            Call::Int(4),
            Call::Pop(2),
            Call::Pop(1),
        ];
        let wanted = bytes(&[
            200, 14, 0, 1, 4, 2, 1, 0, 4, 3, 77, 0, 8, 5, 1, 1, 4, 6, 0x3fc0_0000, 0, 8, 7, 0, 0x3ff8_0000, 2, 9, 0x6261, 0, 8, 10, 320,
            240, 8, 11, 30, 1, 16, 17, 7, 0, 2, 1, 8, 18, 17, 0, 16, 13, 4, 4, 3, 4,
        ]);
        assert_eq!(build_into(&calls, &mut [0; 208]), Ok(&mut wanted.clone()[..]));
    }

    #[test]
    fn events_come_in_order() {
        let pod = object();
        let found: Vec<_> = events(&pod).map(|(depth, it)| (depth, it.type_, it.property.map(|(key, _)| key), it.body.len())).collect();
        assert_eq!(found, [(0, 15, None, 104), (1, 4, Some(1), 4), (1, 19, Some(2), 28), (1, 8, Some(3), 3)]);
        assert_eq!(events(&pod[..111]).count(), 0);
        assert_eq!(Pods::new(&pod).unwrap().events().count(), 4);
    }
}
