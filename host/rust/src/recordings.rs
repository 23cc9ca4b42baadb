//! Two recordings of one line, held against each other, with `Result`. Records pair when channel index, LLID and clock agree.

use crate::calls;
use crate::refusal::Refusal;
use crate::ENTRIES;

/// What an entry says of its record: no record of the other block pairs with it.
pub const ALONE: u8 = 0;
/// It is paired, and the EQ count, EncKey, and the control and data octets of every EQ agree.
pub const SAME: u8 = 1;
/// It is paired, and they do not.
pub const DIFFERENT: u8 = 2;

/// What two blocks have in common.
#[derive(Clone, Copy, Debug, PartialEq, Eq)]
pub struct Compared<'a> {
    /// For each record of the first block in order, then for each of the second that is alone: [`ALONE`], [`SAME`] or
    /// [`DIFFERENT`].
    pub entries: &'a [u8],
    /// Records of the LLID asked for that are alone, in both blocks.
    pub total: u16,
}

/// Why two blocks can't be compared.
#[derive(Clone, Copy, Debug, PartialEq, Eq)]
pub struct Denied {
    pub refusal: Refusal,
    /// The block that earns it, 1 or 2.
    pub block: u8,
}

/// Holds two blocks against each other. What `output` has past the entries stays.
pub fn compare<'a>(llid: u16, first: &[u8], second: &[u8], output: &'a mut [u8; ENTRIES]) -> Result<Compared<'a>, Denied> {
    let answer = calls::capture_compare(llid, first, second, output);
    Refusal::block_verdict(answer.number, answer.pair)
        .map(|()| Compared { entries: &output[..usize::from(answer.entries)], total: answer.total })
        .map_err(|refusal| Denied { refusal, block: answer.block })
}
