//! Every byte in the place of each byte of a small text: what is a space, a newline,
//! part of a name, and none of these.

use crate::rng::Rng;
use crate::texts::{compare_check, compare_read, ROOM, SAID};

/// Lines of three bytes and of more, names of one byte to nine, and a sort that no
/// other row names.
const TEXT: &str = "\
sort index value
lamp - -
strobe_42 - -

term head sort a b c d
a dim lamp - - - -
b7 tilt lamp - - - -
same eq prop a b7 - -

term value
a 1

step rule term value p q r s t
decide - b7 1 - - - - -
deduce same same true a b7 - - -
";

/// The name of that sort.
const UNUSED: &str = "strobe_42";

/// Puts each byte in each place and compares what is made of the text; how many texts
/// that are. In a name that stands once the bytes from 33 to 126 are read, and no other.
pub fn compare_bytes(rng: &mut Rng) -> Result<u64, String> {
    let unused = TEXT.find(UNUSED).expect("the name stands in the text");
    let mut texts = 0;
    for at in 0..TEXT.len() {
        let mut read = Vec::new();
        for byte in 0..=u8::MAX {
            let mut text = TEXT.as_bytes().to_vec();
            text[at] = byte;
            if compare_read(&text, ROOM, rng.next() as u16)?.0.number == 0 {
                read.push(byte);
            }
            compare_check(rng, &text, &plain::check(&text), SAID)?;
            texts += 1;
        }
        if (unused..unused + UNUSED.len()).contains(&at) && !read.iter().copied().eq(33..=126) {
            return Err(format!("bytes that are read in a name: {read:?}"));
        }
    }
    Ok(texts)
}
