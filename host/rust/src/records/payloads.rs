//! The records of the calls that take no end: sealing, and capture blocks.

/// What tells one envelope's counter blocks from another's. Never use one twice under one key.
#[repr(C)]
#[derive(Clone, Copy, Debug, Default, PartialEq, Eq)]
pub struct Nonce {
    /// Channel index: 00, 01, 80 or 81 hex.
    pub channel: u8,
    /// The sender's, below 2^48.
    pub mac: u64,
    /// The sender's cipher clock at the header, below 2^48.
    pub clock: u64,
}

/// The eleven round keys of AES-128, 16 octets each.
#[repr(C)]
#[derive(Clone, Copy, Debug, PartialEq, Eq)]
pub struct RoundKeys {
    pub octets: [u8; 176],
}

#[repr(C)]
#[derive(Clone, Copy, Debug, Default, PartialEq, Eq)]
pub struct PayloadAnswer {
    pub number: u8,
    /// Octets enciphered or deciphered; 0 where nothing is to be enciphered and on refusal.
    pub count: u64,
    /// Runs of the cipher; 0 where nothing is to be enciphered and on refusal.
    pub runs: u64,
}

/// What the directory of a capture block is found to be.
#[repr(C)]
#[derive(Clone, Copy, Debug, Default, PartialEq, Eq)]
pub struct BlockDirectory {
    /// 0, 15, 18 or 19.
    pub number: u8,
    /// The first broken pair from 1, for 18 and 19; else 0.
    pub pair: u16,
    /// How many records, 0 if refused.
    pub records: usize,
}

/// Whether opening opens a record.
#[repr(C)]
#[derive(Clone, Copy, Debug, Default, PartialEq, Eq)]
pub struct BlockVerdict {
    pub number: u8,
    /// 1 where opening deciphers the record; then `enckey` and `clock` are what it uses, else 0.
    pub encenabled: u8,
    pub enckey: u8,
    /// The first broken pair from 1, for 18 and 19; else 0.
    pub pair: u16,
    pub clock: u64,
}

/// Where the payload of a record lies in its block.
#[repr(C)]
#[derive(Clone, Copy, Debug, Default, PartialEq, Eq)]
pub struct BlockPart {
    pub number: u8,
    /// The first broken pair from 1, for 18 and 19; else 0.
    pub pair: u16,
    pub offset: usize,
    pub length: usize,
}

/// What opening a block gave.
#[repr(C)]
#[derive(Clone, Copy, Debug, Default, PartialEq, Eq)]
pub struct BlockAnswer {
    pub number: u8,
    /// Keys expanded: each that is present, once, used or not; 0 on refusal.
    pub expansions: u8,
    /// The first broken pair from 1, for 18 and 19; else 0.
    pub pair: u16,
    /// Octets deciphered over all opened records; 0 on refusal.
    pub count: u64,
    /// Runs of the cipher over all opened records, clear and refused ones taking none; 0 on refusal.
    pub runs: u64,
}

/// What opening a block in the near way gave (02, C-18).
#[repr(C)]
#[derive(Clone, Copy, Debug, Default, PartialEq, Eq)]
pub struct BlockNearAnswer {
    pub answer: BlockAnswer,
    /// The smallest correction, -31 to 31; 0 where no header was past 1, 2 and 10, and on refusal.
    pub smallest: i8,
    /// The largest; 0 as well.
    pub largest: i8,
}

/// What judging all records of a block in the near way gave (02, C-18).
#[repr(C)]
#[derive(Clone, Copy, Debug, Default, PartialEq, Eq)]
pub struct BlockNearVerdicts {
    pub directory: BlockDirectory,
    /// The smallest correction, -31 to 31; 0 where no header was past 1, 2 and 10, and on refusal.
    pub smallest: i8,
    /// The largest; 0 as well.
    pub largest: i8,
}

/// Who asks the reader of a class, and of how many sets and users (02, C-19).
#[repr(C)]
#[derive(Clone, Copy, Debug, Default, PartialEq, Eq)]
pub struct Caller {
    /// 1 to 16.
    pub sets: u8,
    /// Up to 16.
    pub users: u8,
    /// From 1.
    pub user: u8,
}

/// What rearranging or restoring a block gave.
#[repr(C)]
#[derive(Clone, Copy, Debug, Default, PartialEq, Eq)]
pub struct StoreAnswer {
    pub number: u8,
    /// The first broken pair from 1, for 18 and 19; else 0.
    pub pair: u16,
}

/// What holding two blocks against each other gave.
#[repr(C)]
#[derive(Clone, Copy, Debug, Default, PartialEq, Eq)]
pub struct Comparison {
    pub number: u8,
    /// The block that is refused, 1 or 2; 0 for 14 and where nothing is refused.
    pub block: u8,
    /// The first broken pair of that block from 1, for 18 and 19; else 0.
    pub pair: u16,
    /// Octets written.
    pub entries: u16,
    /// Records of the LLID asked for that are alone, in both blocks.
    pub total: u16,
}

/// What a script comes to.
#[repr(C)]
#[derive(Clone, Copy, Debug, Default, PartialEq, Eq)]
pub struct Loss {
    pub number: u8,
    /// From 1; 0 where no single loss matters, and if refused.
    pub step: usize,
}
