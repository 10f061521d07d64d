//! The ceilings of a permitted speed: worked out, and looked up in a table that is worked out when this is compiled.
use approach::raw::Limits;

const SPEEDS: usize = 331;

const fn least(a: u32, b: u32) -> u32 {
    if a < b {
        a
    } else {
        b
    }
}

/// W, SBI and EBI in 120ths of a km/h.
#[inline(always)]
pub(crate) const fn worked_out(permitted: u32) -> [u32; 3] {
    let (over, base) = (permitted.saturating_sub(110), 120 * permitted);
    [base + 480 + 4 * least(over, 30), base + 600 + 6 * least(over, 100), base + 900 + 9 * least(over, 100)]
}

const TABLE: [[u16; 3]; SPEEDS] = {
    let mut table = [[0; 3]; SPEEDS];
    let mut v = 0;
    while v < SPEEDS {
        let [w, sbi, ebi] = worked_out(v as u32);
        table[v] = [w as u16, sbi as u16, ebi as u16];
        v += 1;
    }
    table
};

const REFUSED: Limits = Limits { refusal: 3, w: 0, sbi: 0, ebi: 0 };

#[inline(never)]
pub fn ceilings(permitted: u32) -> Limits {
    if permitted as usize >= SPEEDS {
        return REFUSED;
    }
    let [w, sbi, ebi] = worked_out(permitted);
    Limits { refusal: 0, w, sbi, ebi }
}

#[inline(never)]
pub fn stored(permitted: u32) -> Limits {
    let Some(row) = TABLE.get(permitted as usize) else { return REFUSED };
    let [w, sbi, ebi] = row.map(u32::from);
    Limits { refusal: 0, w, sbi, ebi }
}
