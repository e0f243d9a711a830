//! The functions behind capi/exports.c: each takes C's regions, none of which is NULL or overlaps one that is written, and calls the erased function.
use crate::parts::spa_items::Item;
use crate::parts::spav::{self, building::Call, items::Elements};
use core::mem::{offset_of, size_of};
use core::slice::{from_raw_parts, from_raw_parts_mut};

/// What capi/exports.c takes the shared structs to be.
macro_rules! is_laid_out {
    ($type_:ident, $size:literal, $($field:ident $at:literal),*) => {
        const _: () = assert!(size_of::<$type_>() == $size $(&& offset_of!($type_, $field) == $at)*);
    };
}

is_laid_out!(Item, 56, type_ 0, key 4, flags 8, child 12, choice_flags 16, reserved 20, depth 24, at 32, first 40, second 48);
is_laid_out!(Elements, 40, type_ 0, shape 4, flags 8, element_type 12, element_size 16, reserved 20, count 24, at 32);
is_laid_out!(Call, 48, what 0, first 4, second 8, number 12, wide 16, bits 24, len 32, reserved 40);

/// Exports functions: of their parameters, `read` and `write` are regions of such elements, which C gives with their counts, `to` is a place that
/// is filled, and `by` is handed on.
macro_rules! export {
    ($($module:ident $name:ident($($kind:ident $arg:ident: $type_:ty),*);)*) => {
        $(export!(@ $module $name () () $($kind $arg: $type_,)*);)*
    };
    (@ $module:ident $name:ident ($($params:tt)*) ($($args:tt)*) read $arg:ident: $type_:ty, $($left:tt)*) => {
        export!(@ $module $name ($($params)* $arg: *const $type_, count: usize,) ($($args)* unsafe { from_raw_parts($arg, count) },) $($left)*);
    };
    (@ $module:ident $name:ident ($($params:tt)*) ($($args:tt)*) write $arg:ident: $type_:ty, $($left:tt)*) => {
        export!(@ $module $name ($($params)* $arg: *mut $type_, count: usize,) ($($args)* unsafe { from_raw_parts_mut($arg, count) },) $($left)*);
    };
    (@ $module:ident $name:ident ($($params:tt)*) ($($args:tt)*) to $arg:ident: $type_:ty, $($left:tt)*) => {
        export!(@ $module $name ($($params)* $arg: *mut $type_,) ($($args)* unsafe { &mut *$arg },) $($left)*);
    };
    (@ $module:ident $name:ident ($($params:tt)*) ($($args:tt)*) by $arg:ident: $type_:ty, $($left:tt)*) => {
        export!(@ $module $name ($($params)* $arg: $type_,) ($($args)* $arg,) $($left)*);
    };
    (@ $module:ident $name:ident ($($params:tt)*) ($($args:tt)*)) => {
        /// The function behind the call of this name of capi/spav.h.
        ///
        /// # Safety
        /// As capi/spav.h says of its arguments, and no region is NULL.
        #[unsafe(no_mangle)]
        pub unsafe extern "C" fn $name($($params)*) -> i32 {
            spav::$module::$name($($args)*)
        }
    };
}

export! {
    lists spav_rewrite(read input: u8, write out: u8, to written: usize, to at: usize);
    lists spav_check(read input: u8, to at: usize);
    lenient spav_rewrite_leniently(read input: u8, write out: u8, to written: usize, to at: usize);
    lenient spav_rewrite_in_place_leniently(write bytes: u8, to written: usize, to at: usize);
    lenient spav_check_leniently(read input: u8, to at: usize);
    lenient spav_fault_leniently(read input: u8, to kind: u32, to top: usize);
    lenient spav_read_leniently(read input: u8, write out: u8, write items: Item, to written: usize, to count: usize, to at: usize);
    in_place spav_rewrite_in_place(write bytes: u8, to written: usize, to at: usize);
    faults spav_fault(read input: u8, to kind: u32, to top: usize, to at: usize);
    questions spav_is_canonical(read input: u8, to canonical: bool);
    questions spav_nests_within(read input: u8, by levels: u32, to within: bool);
    questions spav_same(read ours: u8, read theirs: u8, to same: bool, to side: u32);
    fixation spav_fixate(write bytes: u8);
    reading spav_front(read input: u8, to type_: u32, to size: u32, to whole: usize);
    reading spav_object(read input: u8, to type_: u32, to id: u32);
    reading spav_bool(read input: u8, by key: u32, to value: bool);
    reading spav_id(read input: u8, by key: u32, to value: u32);
    reading spav_int(read input: u8, by key: u32, to value: i32);
    reading spav_long(read input: u8, by key: u32, to value: i64);
    reading spav_fd(read input: u8, by key: u32, to value: i64);
    reading spav_float(read input: u8, by key: u32, to bits: u32);
    reading spav_double(read input: u8, by key: u32, to bits: u64);
    reading spav_rectangle(read input: u8, by key: u32, to width: u32, to height: u32);
    reading spav_fraction(read input: u8, by key: u32, to num: u32, to denom: u32);
    reading spav_string(read input: u8, by key: u32, write out: u8, to len: usize);
    items spav_read(read input: u8, write out: Item, to count: usize, to kind: u32, to at: usize);
    items spav_front_item(read input: u8, to item: Item);
    items spav_settled_item(read input: u8, to item: Item);
    items spav_element(read input: u8, by number: usize, to item: Item);
    items spav_find(read input: u8, by key: u32, to at: usize);
    items spav_member(read input: u8, by number: usize, to at: usize);
    items spav_front_elements(read input: u8, to elements: Elements);
    setting spav_set_bool(write bytes: u8, by key: u32, by value: bool);
    setting spav_set_id(write bytes: u8, by key: u32, by value: u32);
    setting spav_set_int(write bytes: u8, by key: u32, by value: i32);
    setting spav_set_long(write bytes: u8, by key: u32, by value: i64);
    setting spav_set_float(write bytes: u8, by key: u32, by bits: u32);
    setting spav_set_double(write bytes: u8, by key: u32, by bits: u64);
    setting spav_set_fd(write bytes: u8, by key: u32, by value: i64);
    setting spav_set_rectangle(write bytes: u8, by key: u32, by width: u32, by height: u32);
    setting spav_set_fraction(write bytes: u8, by key: u32, by num: u32, by denom: u32);
    negotiation spav_negotiate(read ours: u8, read theirs: u8, write out: u8, to written: usize, to key_or_side: u32);
    filtering spav_filter(read ours: u8, read theirs: u8, write out: u8, to written: usize, to key_or_side: u32);
    naming spav_name(by names: u32, by type_: u32, by key: u32, by number: u32, write out: u8, to len: usize);
    naming spav_number(by names: u32, by type_: u32, by key: u32, read name: u8, to number: u32);
    text spav_json(read input: u8, write out: u8, to len: usize);
    text spav_from_json(read text: u8, write out: u8, to written: usize, to at: usize);
    building spav_build(read calls: Call, read texts: u8, write out: u8, to written: usize, to at: usize);
}

/// The version of the interface.
#[unsafe(no_mangle)]
pub extern "C" fn spav_abi() -> u32 {
    spav::spav_abi()
}
