//! Why the engine refused a call.

use std::error::Error;
use std::fmt;

/// A refused call. It changed nothing.
///
/// Where several apply, the first in the paper's table is given. A [`Plate`](crate::Plate)
/// never gives `LogCount`, `Shape` and `StoredWord`, nor does a [`Canvas`](crate::Canvas): its
/// own buffers and the type of shapes rule them out. They are for users of
/// [`raw`](crate::raw), and `Shape` for a number that becomes a [`Shape`](crate::Shape).
///
/// ```
/// use lens::Refusal;
///
/// assert_eq!(Refusal::LogFull.number(), 8);
/// assert_eq!(Refusal::LogFull.text(), "the undo log is full");
/// assert_eq!(Refusal::LogFull.to_string(), "refused (8): the undo log is full");
/// ```
#[derive(Clone, Copy, Debug, PartialEq, Eq, Hash)]
#[non_exhaustive]
pub enum Refusal {
    /// The width, the height, their product or the reach is outside: choose sizes within
    /// [`Plate::MAX_SIDE`](crate::Plate::MAX_SIDE),
    /// [`MAX_PIXELS`](crate::Plate::MAX_PIXELS) and [`MAX_REACH`](crate::Plate::MAX_REACH),
    /// and give a raw call the state that the last one answered.
    Sizes,
    /// A picture or a part of a layer does not have width × height cells, or more than
    /// [`Plate::MAX_UNDO_STEPS`](crate::Plate::MAX_UNDO_STEPS) are asked for: lend slices of
    /// the plate's own size, and ask for fewer steps.
    Lengths,
    /// The state counts more puts than the lent log can hold: give a raw call the log that
    /// the state belongs to.
    LogCount,
    /// The place lies outside the plate: x is below the width and y below the height, both
    /// counted from 0.
    Place,
    /// A value is above [`Pixel::MAX_VALUE`](crate::Pixel::MAX_VALUE): bring values to 12
    /// bits first.
    Value,
    /// A number that no shape has: take those of [`Shape::ALL`](crate::Shape::ALL).
    Shape,
    /// The radius is above [`Shape::top_radius`](crate::Shape::top_radius) of the plate's
    /// reach: take that one, or open the plate with a greater
    /// [`reach`](crate::PlateBuilder::reach).
    Radius,
    /// A put that the undo log has no room for: undo, or fill, which empties the log, or open
    /// the plate with more [`undo_steps`](crate::PlateBuilder::undo_steps).
    LogFull,
    /// An undo with nothing left to take back: ask
    /// [`undo_count`](crate::Plate::undo_count) before, or take it as the end.
    LogEmpty,
    /// A stored pixel or the last entry of the undo log is a word that no call writes:
    /// something else wrote to the lent buffers, so open the plate anew.
    StoredWord,
    /// A number of the lens is outside: keep each within its range, see
    /// [`Lens`](crate::Lens), and the focus above the focal length.
    Lens,
    /// A depth is above [`Layer::MAX_DEPTH`](crate::Layer::MAX_DEPTH): give 0, infinity, for
    /// what is farther.
    Depth,
    /// A depth that is not 0, infinity, and not above the lens's focal length: look whether
    /// depths are in 0.1 mm, as the lens is, and bring nearer ones to focal + 1.
    DepthInside,
    /// A number that this crate has no name for, because the archive that is linked is of
    /// another version: look the number up in the `lens.h` that belongs to the archive, and
    /// take the crate of the same repository. It stands for unnamed numbers only;
    /// [`Refusal::from_number`] never gives it for one that has a name.
    Other(u32),
}

/// Makes of the table what is asked of a refusal. A variant without a row does not compile.
macro_rules! table {
    ($($name:ident, $number:literal, $text:literal;)*) => {
        impl Refusal {
            /// All refusals that have a name, by their numbers, which may have gaps.
            pub const KNOWN: &[Refusal] = &[$(Refusal::$name),*];

            /// The number in the paper's table.
            pub const fn number(self) -> u32 {
                match self {
                    $(Refusal::$name => $number,)*
                    Refusal::Other(number) => number,
                }
            }

            /// What is wrong, in a sentence.
            pub const fn text(self) -> &'static str {
                match self {
                    $(Refusal::$name => $text,)*
                    Refusal::Other(_) => {
                        "a number that this crate has no name for: the archive is of another \
                         version"
                    }
                }
            }

            /// The refusal of a number above 0. Cold, so that an accepted call looks nothing
            /// up.
            #[cold]
            const fn of(number: u32) -> Refusal {
                match number {
                    $($number => Refusal::$name,)*
                    number => Refusal::Other(number),
                }
            }
        }
    };
}

table! {
    Sizes, 1, "width and height must be 1 to 4,096, their product at most 2,097,152, \
               the reach at most 64";
    Lengths, 2, "a buffer does not have the length that the plate's sizes ask for, \
                 or the undo log is longer than 65,535 entries";
    LogCount, 3, "the state counts more entries than the undo log has";
    Place, 4, "the place lies outside the plate";
    Value, 5, "a value is above 4,095";
    Shape, 6, "there are only the shapes 0 to 5";
    Radius, 7, "the radius is above the shape's greatest, or its kernel would reach \
                farther than the plate's reach";
    LogFull, 8, "the undo log is full";
    LogEmpty, 9, "there is nothing to undo";
    StoredWord, 10, "the stored pixel or the last entry of the undo log is damaged";
    Lens, 11, "opening and focal length must be 1 to 4,000, the focus above the focal \
               length and at most 10,000,000, the pitch 1 to 1,000";
    Depth, 12, "a depth is above 10,000,000";
    DepthInside, 17, "a depth lies inside the lens, above 0 and at most its focal length; give \
                      depths in 0.1 mm, as the lens has, and 0 for infinity";
}

impl Refusal {
    /// The refusal of an answer's number; none for 0 only, which means accepted.
    ///
    /// ```
    /// use lens::Refusal;
    ///
    /// assert_eq!(Refusal::from_number(0), None);
    /// assert_eq!(Refusal::from_number(4), Some(Refusal::Place));
    /// assert_eq!(Refusal::from_number(4_000), Some(Refusal::Other(4_000)));
    /// ```
    #[inline]
    pub const fn from_number(number: u32) -> Option<Refusal> {
        if number == 0 { None } else { Some(Refusal::of(number)) }
    }
}

impl fmt::Display for Refusal {
    fn fmt(&self, f: &mut fmt::Formatter<'_>) -> fmt::Result {
        write!(f, "refused ({}): {}", self.number(), self.text())
    }
}

impl Error for Refusal {}

#[cfg(test)]
mod tests {
    use super::*;

    #[test]
    fn numbers_go_both_ways() {
        assert!(Refusal::KNOWN.is_sorted_by_key(|refusal| refusal.number()));
        for &refusal in Refusal::KNOWN {
            assert_eq!(Refusal::from_number(refusal.number()), Some(refusal));
        }
        assert_eq!(Refusal::from_number(1), Some(Refusal::Sizes));
        assert_eq!(Refusal::from_number(17), Some(Refusal::DepthInside));
    }

    #[test]
    fn only_0_is_no_refusal_and_numbers_without_a_name_are_kept() {
        let known: Vec<u32> = Refusal::KNOWN.iter().map(|refusal| refusal.number()).collect();
        assert!(!known.contains(&0));
        assert_eq!(Refusal::from_number(0), None);
        let any = (1..1_000).chain([u32::MAX]);
        for number in any.filter(|number| !known.contains(number)) {
            let other = Refusal::Other(number);
            assert_eq!(Refusal::from_number(number), Some(other));
            assert_eq!(other.number(), number);
        }
    }

    #[test]
    fn each_says_its_number_and_a_sentence_of_its_own() {
        for (at, refusal) in Refusal::KNOWN.iter().enumerate() {
            let text = refusal.text();
            assert!(!text.is_empty() && !text.contains("  "), "{text:?}");
            assert!(Refusal::KNOWN[..at].iter().all(|other| other.text() != text), "{text}");
            let said = format!("refused ({}): {text}", refusal.number());
            assert_eq!(refusal.to_string(), said);
        }
        let said = "refused (4000000000): a number that this crate has no name for: \
                    the archive is of another version";
        assert_eq!(Refusal::Other(4_000_000_000).to_string(), said);
    }

    #[test]
    fn a_refusal_goes_into_any_error() {
        let boxed: Box<dyn Error + Send + Sync> = Refusal::LogEmpty.into();
        assert_eq!(boxed.to_string(), "refused (9): there is nothing to undo");
    }
}
