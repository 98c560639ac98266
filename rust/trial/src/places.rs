//! Where each call can refuse by 1, 4 and 5: by hand from the papers, for no comparison is complete that leaves one out.
//!
//! The bits of layouts whose fields stand still are listed here. Where fields move, they are named: a few by their bits,
//! those of notices and tide telegrams by walking what stands before them.

pub mod notice;
pub mod tide;
mod walk;

pub use walk::Numbers;

use crate::harness::Fields::{At, Named};
use crate::harness::Places;

/// A value that fits its bits is good for some fields, so reading can't refuse what writing and correcting can.
pub mod distress {
    use super::{At, Places};

    pub const READ: Places = &[(4, At(&[16, 48, 73, 102, 107, 113, 120, 129])), (5, At(&[133]))];
    pub const WRITE: Places = &[(4, At(&[16, 48, 73, 97, 102, 107, 113, 120, 129]))];
    pub const CORRECT: Places = &[WRITE[0], READ[1]];
}

pub mod serial {
    use super::{At, Named, Places};

    const FILL: &[&str] = &["fill"];
    const MARK: &[&str] = &["mark"];
    /// The bytes of the receipts.
    const RECEIPTS: &[u32] =
        &[112, 120, 128, 136, 144, 152, 160, 168, 176, 184, 192, 200, 208, 216, 224, 232, 240, 248, 256, 264];

    pub const GLJC: Places = &[(4, At(&[56]))];
    pub const GLJC_CORRECT: Places = &[(4, At(&[56, 80]))];
    pub const TXSQ: Places = &[(1, At(&[112])), (4, At(&[56, 84, 87, 88, 112, 128])), (5, Named(FILL))];
    pub const TXSQ_RECORD: Places = &[(1, At(&[112])), (4, At(&[56, 84, 86, 87, 88, 112, 128])), (5, Named(FILL))];
    pub const TXXX: Places = &[(1, At(&[128])), (4, At(&[56, 88, 112, 120, 128])), (5, Named(FILL))];
    pub const TXXX_CORRECT: Places =
        &[(1, At(&[128])), (4, At(&[56, 80, 88, 112, 120, 128])), (4, Named(MARK)), (5, Named(FILL))];
    pub const TXHZ: Places = &[(4, At(&[56, 80, 104])), (4, At(RECEIPTS)), (5, At(RECEIPTS))];
    /// What a day log's line of any of them can have. It does not tell a receipt from another fill.
    pub const LISTED: Places =
        &[(1, At(&[112, 128])), (4, At(&[56, 80, 84, 87, 88, 104])), (4, At(RECEIPTS)), (5, Named(FILL))];

    /// The field that starts at a bit, if it is one of those that move: they stand behind the content's first bit.
    pub fn moved(number: u8, bit: u32, content: u32) -> Option<&'static str> {
        match number {
            5 if bit > content => Some(FILL[0]),
            4 if bit >= content => Some(MARK[0]),
            _ => None,
        }
    }
}

pub mod ais {
    use super::{At, Places};

    const WARNING_FILLS: &[u32] = &[38, 123, 128, 132, 147, 182];
    const AREA_FILLS: &[u32] = &[71, 156, 242];
    /// Of every warning to be written: what stands before its body and behind.
    const AROUND: &[u32] = &[6, 8, 60, 83, 156, 165, 170, 176];

    pub const WARNING: Places = &[(4, At(&[8, 60, 83, 106, 115, 124, 156, 165, 170, 176])), (5, At(WARNING_FILLS))];
    pub const WARNING_CORRECT: Places = &[
        (4, At(&[6, 8, 60, 83, 106, 109, 114, 115, 118, 119, 124, 127, 133, 134, 142, 147, 156, 165, 170, 176])),
        (5, At(WARNING_FILLS)),
    ];
    pub const CYCLONE: Places = &[(4, At(AROUND)), (4, At(&[106, 109, 118, 127, 133, 142, 147]))];
    pub const GALE: Places = &[(4, At(AROUND)), (4, At(&[114, 119, 124]))];
    pub const WAVES: Places = &[(4, At(AROUND)), (4, At(&[114, 119]))];
    pub const FOG: Places = &[(4, At(AROUND)), (4, At(&[106, 115]))];
    pub const SURGE: Places = &[(4, At(AROUND)), (4, At(&[106, 115, 124, 134]))];

    pub const AREA: Places =
        &[(4, At(&[8, 40, 88, 94, 122, 149, 177, 204, 213, 218, 224, 233, 238])), (5, At(AREA_FILLS))];
    pub const AREA_CORRECT: Places =
        &[(4, At(&[6, 8, 38, 40, 70, 88, 94, 122, 149, 177, 204, 213, 218, 224, 233, 238])), (5, At(AREA_FILLS))];
    pub const CIRCLE: Places =
        &[(4, At(&[6, 8, 38, 40, 70, 88, 94, 122, 149, 204, 213, 218, 224, 233, 238]))];
    pub const RECTANGLE: Places = &[CIRCLE[0], (4, At(&[177]))];
    /// What a day log's line of either can have.
    pub const LISTED: Places = &[WARNING[0], WARNING[1], AREA[0], AREA[1]];
}

pub mod packet {
    use super::{At, Places};

    pub const READ: Places = &[(4, At(&[20, 26]))];
    pub const WRITE: Places = &[(4, At(&[11, 20, 26]))];
    pub const CORRECT: Places = &[(4, At(&[11, 12, 20, 26]))];
}

/// Of a call that walks no fields.
pub const NONE: Places = &[];
