//! The corpus: lists and strips of all sorts, whole and damaged, that every call of the table is run on. A new kind of
//! damage is a name in the table of kinds at the end.

mod damage;
mod falling;
mod nodes;
mod opening;
mod unpackable;
mod whole;

use crate::random::Random;
use crate::reference::strip::Refusal;
use crate::strips::packed;

/// A strip, a list, or a strip with its list.
#[derive(Default)]
pub struct Case {
    /// Bytes to read, whether or not they are a strip.
    pub strip: Vec<u8>,
    /// A list to pack, whether or not it can be.
    pub list: Option<Vec<u32>>,
    /// Where the strip's nodes have the list's times, what the list packs to; else nothing.
    pub image: Vec<u8>,
    /// What check must refuse the strip with, where its making tells.
    pub refused: Option<Refusal>,
}

impl Case {
    /// A strip of which nothing is known.
    pub fn strip(strip: Vec<u8>) -> Case {
        Case { strip, ..Case::default() }
    }

    /// A strip that check must refuse so. Where it is opening that refuses, every reading call must.
    pub fn refused(strip: Vec<u8>, number: usize, carried: usize) -> Case {
        Case { strip, refused: Some(Refusal { number, carried }), ..Case::default() }
    }

    /// A list to pack, whether or not it can be.
    pub fn list(list: Vec<u32>) -> Case {
        Case { list: Some(list), ..Case::default() }
    }

    /// A strip whose nodes have this list's times.
    pub fn reading(strip: Vec<u8>, list: Vec<u32>) -> Case {
        let image = packed(&list);
        let (number, carried) = (12, 0);
        Case { refused: (strip != image).then_some(Refusal { number, carried }), strip, list: Some(list), image }
    }

    /// The strip that this list packs to.
    pub fn packed(list: Vec<u32>) -> Case {
        let image = packed(&list);
        Case { strip: image.clone(), list: Some(list), image, refused: None }
    }

    /// Whether the strip's nodes have the list's times.
    pub fn reads(&self) -> bool {
        !self.image.is_empty()
    }
}

/// What is done with each case.
pub type Visit<'a> = &'a mut dyn FnMut(Case);

/// A kind of cases. They are the same ones for the same random numbers.
pub struct Kind {
    pub name: &'static str,
    pub cases: fn(&mut Random, Visit),
}

macro_rules! kinds {
    ($($module:ident: $($name:ident)*;)*) => {
        &[$($(Kind { name: stringify!($name), cases: $module::$name },)*)*]
    };
}

/// The kinds that a call of this name is run on.
pub fn kinds(call: &str) -> impl Iterator<Item = &'static Kind> {
    let large = match call {
        "access" | "check" => LARGE,
        _ => &[],
    };
    KINDS.iter().chain(large)
}

/// The kind of this name.
pub fn kind(name: &str) -> &'static Kind {
    let kind = KINDS.iter().find(|kind| kind.name == name);
    kind.expect("a kind of the corpus")
}

/// Kinds of so many cases that but a few calls are run on them.
const LARGE: &[Kind] = kinds! {
    damage: every_part_of_two_bytes;
};

/// All others.
const KINDS: &[Kind] = kinds! {
    unpackable: lists_that_are_too_long lists_that_fall lists_in_any_order;
    whole: short_lists long_lists other_codes every_code_of_a_level ties_of_codes bits_after_the_values
        zeros_on_top chains_as_long_as_the_part;
    nodes: values_around_the_greatest bits_far_above refused_nodes refused_at_every_level
        times_at_the_ends values_changed values_of_no_list;
    falling: unordered nodes_past_others nodes_past_others_in_long_lists;
    opening: examples cuts_and_bytes_added wrapping_lengths wrong_lengths wrong_lengths_at_every_level
        sets_of_faults refused_codes;
    damage: every_byte changed_bytes cut_parts random_parts moved_parts other_code_bytes
        wrong_pin_counts every_part_of_one_byte damaged_long_lists random_strips;
};
