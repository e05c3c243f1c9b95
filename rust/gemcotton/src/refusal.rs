//! Why a call is refused.

use std::error::Error;
use std::fmt;

/// Makes [`Refusal`] of a table, in which each refusal stands once: its number, its name, what it carries if it carries
/// anything, and its sentence. `include/gemcotton.h` has the same for C.
macro_rules! refusals {
    ($(
        $(#[$condition:meta])*
        $number:literal $name:ident $({ $(#[$meaning:meta])* $carried:ident })? => $sentence:literal;
    )*) => {
        /// Why a call was refused.
        ///
        /// Each case has a number, which [`number`](Refusal::number) gives and C programs see. It may carry what was
        /// met, which [`carried`](Refusal::carried) gives. Shown, it is a sentence.
        #[derive(Debug, Clone, Copy, PartialEq, Eq)]
        #[non_exhaustive]
        pub enum Refusal {
            $(
                $(#[$condition])*
                #[doc = concat!("\n\nNumber ", $number, ", shown as \"", $sentence, "\".")]
                $name $({ $(#[$meaning])* $carried: usize })?,
            )*
        }

        impl Refusal {
            /// The refusal of this number that carries this, or none where there is no such.
            pub(crate) fn new(number: usize, carried: usize) -> Option<Refusal> {
                let refusal = match number {
                    $($number => Refusal::$name { $($carried: carried)? },)*
                    _ => return None,
                };
                Some(refusal).filter(|refusal| refusal.carried() == carried)
            }

            /// The number of this refusal.
            pub fn number(&self) -> usize {
                match self {
                    $(Refusal::$name { .. } => $number,)*
                }
            }

            /// What this refusal carries: a position, bytes or entries, a level, a node or an index, else 0.
            pub fn carried(&self) -> usize {
                match self {
                    $(Refusal::$name { $($carried)? } => 0 $(+ $carried)?,)*
                }
            }
        }

        impl fmt::Display for Refusal {
            fn fmt(&self, f: &mut fmt::Formatter<'_>) -> fmt::Result {
                match self {
                    $(Refusal::$name { $($carried)? } => write!(f, $sentence),)*
                }
            }
        }
    };
}

refusals! {
    /// There are no pins, in the list or by the strip's header.
    1 Empty => "there are no pins";
    /// The list has more than [`MAX_PINS`](crate::MAX_PINS) pins.
    2 TooMany => "there are more than 65535 pins";
    /// The list falls.
    3 ListFalls {
        /// The first position with a lower time than the one before.
        position
    } => "the list falls at position {position}";
    /// The output is shorter than needed.
    4 Short {
        /// The bytes ([`pack`](crate::pack)) or entries ([`unpack`](crate::unpack)) needed.
        needed
    } => "the output is shorter than the {needed} needed";
    /// The strip is cut short.
    5 Cut => "the strip is cut short";
    /// The strip's mark is not `PIN`.
    6 Mark => "the strip's mark is not PIN";
    /// The strip's version is not 1.
    7 Version => "the strip's version is not 1";
    /// A level has a code other than 0 to 32 and 65 to 72.
    8 Code {
        /// The first such level, counted from 1.
        level
    } => "level {level} has a refused code";
    /// A fetch in a chunked level passes the level's part, or its value is 2^32 or more.
    9 Fetch {
        /// The node fetched.
        node
    } => "node {node} has no 32-bit value in its part";
    /// A time is below 0 or above 4,294,967,295.
    10 Time {
        /// The node of that time.
        node
    } => "the time of node {node} is not a 32-bit number";
    /// The strip's times fall.
    11 TimesFall {
        /// The first position with a lower time than the one before.
        position
    } => "the strip's times fall at position {position}";
    /// The strip has other bytes than its list packs to.
    12 Image => "the strip is not what its list packs to";
    /// The strip's length is not that of its header, level entries and parts.
    13 Length => "the strip's length is not its header and parts";
    /// The position is not below the pin count.
    14 Position => "the position is not below the pin count";
    /// There are not as many answers as targets.
    15 Answers => "there are not as many answers as targets";
    /// The targets fall.
    16 TargetsFall {
        /// The first index with a lower target than the one before.
        index
    } => "the targets fall at index {index}";
    /// A level in a fixed code has not exactly the fewest bytes for its width and number of values.
    23 LevelLength {
        /// The first such level, counted from 1.
        level
    } => "level {level} has not exactly the bytes that its values need";
}

impl Error for Refusal {}

#[cfg(test)]
mod tests {
    use super::*;

    const HEADER: &str = include_str!("../../../include/gemcotton.h");

    /// The refusals that there are, each carrying this or 0.
    fn refusals(carried: usize) -> impl Iterator<Item = Refusal> {
        (0..1000).filter_map(move |number| Refusal::new(number, carried).or(Refusal::new(number, 0)))
    }

    /// The name and the number of a line `  NAME = 5, ...` of the header.
    fn numbered(line: &'static str) -> Option<(&'static str, usize)> {
        let (name, rest) = line.trim().split_once(" = ").filter(|(name, _)| name.starts_with("GEMCOTTON_"))?;
        let digits = rest.split(|c: char| !c.is_ascii_digit()).next()?;
        Some((name, digits.parse().expect("a number")))
    }

    /// The sentence of this name, which stands as `  case NAME: return "...";`, as printf prints it with 7.
    fn sentence(name: &str) -> String {
        let case = format!("    case {name}: return \"");
        let format = HEADER.lines().find_map(|line| line.strip_prefix(&case)).expect("a sentence");
        assert!(format.matches('%').count() <= 1, "{format}");
        format.trim_end_matches("\";").replace("%zu", "7")
    }

    #[test]
    fn numbers_and_sentences_of_the_header() {
        let numbered = HEADER.lines().filter_map(numbered).filter(|&(name, _)| name != "GEMCOTTON_NONE");
        let told: Vec<(usize, String)> = numbered.map(|(name, number)| (number, sentence(name))).collect();
        let shown: Vec<(usize, String)> = refusals(7).map(|why| (why.number(), why.to_string())).collect();
        assert_eq!(told, shown);
        // The header also has a sentence for 0 and one for any other number.
        assert_eq!(HEADER.matches(": return \"").count(), told.len() + 2);
    }

    #[test]
    fn numbers_and_what_is_carried() {
        for refusal in [0, 1, 7, usize::MAX].into_iter().flat_map(refusals) {
            assert_eq!(Refusal::new(refusal.number(), refusal.carried()), Some(refusal));
        }
    }
}
