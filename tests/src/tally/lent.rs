//! Bytes that are lent to the library out of the middle of longer ones, so that what is written on
//! either side shows too.

use super::difference;

/// What stands on either side.
const MARGIN: [u8; 8] = [0xa5; 8];

/// The most bytes that are printed of those that differ.
const SHOWN: usize = 12;

/// The bytes, with a margin on either side.
pub(super) fn within_margins(bytes: &[u8]) -> Vec<u8> {
    [&MARGIN, bytes, &MARGIN].concat()
}

/// The part that is lent.
pub(super) fn inside(bytes: &mut [u8]) -> &mut [u8] {
    let end = bytes.len() - MARGIN.len();
    &mut bytes[MARGIN.len()..end]
}

/// What is printed of two named bytes within their margins, from the first in which they differ.
pub(super) fn lent_difference(
    what: &str,
    (one, first): (&str, &[u8]),
    (other, second): (&str, &[u8]),
) -> Option<String> {
    let at = (0..second.len()).find(|&at| first[at] != second[at])?;
    let shown = |bytes: &[u8]| bytes.iter().skip(at).take(SHOWN).copied().collect();
    let (first, second): (Vec<u8>, Vec<u8>) = (shown(first), shown(second));
    difference(
        format_args!("{what} from byte {}", at as isize - MARGIN.len() as isize),
        (one, &first),
        (other, &second),
    )
}
