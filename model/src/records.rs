//! Records: "a record is its length in bytes (all of it), its kind, its
//! fields", each of them 16 bits, little-endian.

use crate::refusal::{refusal, Refusal, BYTES_AFTER_LAST, CUT_SHORT, KIND_NOT_DUE, LENGTH_WRONG};

pub const HEAD: u16 = 1;
pub const ITEM: u16 = 2;
pub const TRIGGER: u16 = 3;
pub const FUNCTION: u16 = 16;
pub const AND_OPEN: u16 = 17;
pub const BRANCH: u16 = 18;
pub const AND_CLOSE: u16 = 19;
pub const OR_OPEN: u16 = 20;
pub const OR_CLOSE: u16 = 21;
pub const IT_OPEN: u16 = 22;
pub const IT_CLOSE: u16 = 23;
pub const LP_OPEN: u16 = 24;
pub const LP_CLOSE: u16 = 25;
/// LE, the loop exit.
pub const LOOP_EXIT: u16 = 26;
pub const END: u16 = 27;
/// A BRANCH of an AND that kills.
pub const KILLING_BRANCH: u16 = 28;
/// A box: a decomposed function with several ways out.
pub const BOX_OPEN: u16 = 29;
pub const BOX_CLOSE: u16 = 30;
/// EXIT, by which a box's scenario is left.
pub const EXIT: u16 = 31;
pub const NET_HEAD: u16 = 32;
pub const PLACE: u16 = 33;
pub const TRANSITION: u16 = 34;
pub const TAKE: u16 = 35;
pub const CLEAR: u16 = 36;
pub const GIVE: u16 = 37;
/// A telegram of the old edition.
pub const OLD_TELEGRAM: u16 = 47;
pub const TELEGRAM: u16 = 48;

/// Length and kind, the two words before the fields.
pub const PREFIX_LENGTH: usize = 4;
/// One use of a FUNCTION: item, take, give.
pub const USE_LENGTH: usize = 6;

/// "Checking a record uses the length that its kind gives": the table from a
/// kind to its base length in bytes and its number of fields. A FUNCTION's uses
/// come on top. None for a kind that no record has.
pub fn shape(kind: u16) -> Option<(usize, usize)> {
    Some(match kind {
        HEAD => (10, 3),
        ITEM | TRIGGER => (6, 1),
        FUNCTION => (8, 2),
        AND_OPEN | BRANCH | AND_CLOSE => (4, 0),
        OR_OPEN | OR_CLOSE => (4, 0),
        IT_OPEN => (6, 1),
        IT_CLOSE => (4, 0),
        LP_OPEN | LP_CLOSE | LOOP_EXIT => (4, 0),
        END | KILLING_BRANCH => (4, 0),
        BOX_OPEN | BOX_CLOSE => (4, 0),
        EXIT => (6, 1),
        NET_HEAD => (8, 2),
        PLACE => (6, 1),
        TRANSITION => (10, 3),
        TAKE | CLEAR | GIVE => (8, 2),
        OLD_TELEGRAM => (8, 2),
        // Its number has 32 bits, counted here as two fields.
        TELEGRAM => (14, 5),
        _ => return None,
    })
}

/// The 16-bit word with this index; 0 where the bytes have none.
pub fn word(bytes: &[u8], index: usize) -> u16 {
    match bytes.get(2 * index..2 * index + 2) {
        Some([low, high]) => u16::from_le_bytes([*low, *high]),
        _ => 0,
    }
}

/// The bytes of these words, two each.
pub fn bytes_of<const BYTES: usize>(words: &[u16]) -> [u8; BYTES] {
    let mut bytes = [0; BYTES];
    let (pairs, _) = bytes.as_chunks_mut();
    for (pair, value) in pairs.iter_mut().zip(words) {
        *pair = value.to_le_bytes();
    }
    bytes
}

/// Writes words behind the bytes.
pub fn push_words(bytes: &mut Vec<u8>, words: &[u16]) {
    for value in words {
        bytes.extend_from_slice(&value.to_le_bytes());
    }
}

/// Writes a record behind the bytes: its length, its kind, its fields.
pub fn push_record(bytes: &mut Vec<u8>, kind: u16, fields: &[u16]) {
    let length = PREFIX_LENGTH + 2 * fields.len();
    push_words(bytes, &[length as u16, kind]);
    push_words(bytes, fields);
}

/// One record alone.
pub fn record(kind: u16, fields: &[u16]) -> Vec<u8> {
    let mut bytes = Vec::with_capacity(PREFIX_LENGTH + 2 * fields.len());
    push_record(&mut bytes, kind, fields);
    bytes
}

/// A record that was found in a file.
#[derive(Clone, Copy, Debug)]
pub struct Record<'a> {
    pub offset: usize,
    pub kind: u16,
    /// The bytes behind length and kind.
    pub fields: &'a [u8],
}

impl Record<'_> {
    pub fn field(&self, index: usize) -> u16 {
        word(self.fields, index)
    }

    /// Refuses the record's fields under this number unless they hold.
    pub fn require(&self, holds: bool, number: u32) -> Result<(), Refusal> {
        if holds {
            Ok(())
        } else {
            Err(refusal(number, self.offset))
        }
    }
}

/// Reads a file record by record.
pub struct Reader<'a> {
    file: &'a [u8],
    offset: usize,
}

impl<'a> Reader<'a> {
    pub fn new(file: &'a [u8]) -> Self {
        Reader { file, offset: 0 }
    }

    fn rest(&self) -> &'a [u8] {
        self.file.get(self.offset..).unwrap_or_default()
    }

    pub fn at_end(&self) -> bool {
        self.rest().is_empty()
    }

    /// Bytes not yet read.
    pub fn left(&self) -> usize {
        self.rest().len()
    }

    /// Kind of the record that starts here, if 4 bytes are left.
    pub fn kind_here(&self) -> Option<u16> {
        (self.rest().len() >= PREFIX_LENGTH).then(|| word(self.rest(), 1))
    }

    /// The record that is due here, fields unread. "At a record: 1 (4 bytes),
    /// 2, 3, 1". A FUNCTION may have up to `most_uses` uses.
    pub fn due(
        &mut self,
        is_due: impl Fn(u16) -> bool,
        most_uses: usize,
    ) -> Result<Record<'a>, Refusal> {
        let (rest, offset) = (self.rest(), self.offset);
        let kind = self.kind_here().ok_or(refusal(CUT_SHORT, offset))?;
        if !is_due(kind) {
            return Err(refusal(KIND_NOT_DUE, offset));
        }
        let length = usize::from(word(rest, 0));
        if !length_fits(kind, length, most_uses) {
            return Err(refusal(LENGTH_WRONG, offset));
        }
        let fields = rest
            .get(PREFIX_LENGTH..length)
            .ok_or(refusal(CUT_SHORT, offset))?;
        self.offset += length;
        Ok(Record {
            offset,
            kind,
            fields,
        })
    }

    /// "After the last, 6."
    pub fn refuse_more(&self) -> Refusal {
        refusal(BYTES_AFTER_LAST, self.offset)
    }
}

/// "Length wrong for kind": a FUNCTION has 8 + 6u bytes with u at most M.
fn length_fits(kind: u16, length: usize, most_uses: usize) -> bool {
    match shape(kind) {
        Some((base, _)) if kind == FUNCTION => {
            length >= base
                && (length - base).is_multiple_of(USE_LENGTH)
                && (length - base) / USE_LENGTH <= most_uses
        }
        Some((base, _)) => length == base,
        None => false,
    }
}
