//! The calls as `include/approach.h` declares them, each safe since it takes every input: an answer is the number 0 and its
//! fields, or a refusal's number and zeros.

/// What turning masses make of a slope: three factors in hundredths, and the gradients in per mille that part them.
#[repr(C)]
#[derive(Clone, Copy, Debug, PartialEq, Eq)]
pub struct Inertia {
    /// On gradients above i1.
    pub ki1: u32,
    /// On gradients above i2, up to i1.
    pub ki2: u32,
    /// On gradients of i2 and below.
    pub ki3: u32,
    /// Per mille.
    pub i1: u32,
    /// Per mille.
    pub i2: i32,
}

/// A train's coefficients, in hundredths where nothing else is said.
#[repr(C)]
#[derive(Clone, Copy, Debug, PartialEq, Eq)]
pub struct Coefficients {
    /// Of the brake's delay.
    pub dt: u32,
    /// The equipment's delay, in tenths of a second.
    pub h: u32,
    /// Of the nominal deceleration.
    pub kr: u32,
    /// Of the target speed.
    pub cr: u32,
    /// Of the speed above VC, in thousandths for each km/h.
    pub nc: i32,
    /// VC in km/h.
    pub vc: u32,
    /// Of the slope.
    pub inertia: Inertia,
}

/// A train. The first two are yes or no: 0 is no, any other byte is yes.
#[repr(C)]
#[derive(Clone, Copy, Debug, PartialEq, Eq)]
pub struct Train {
    /// Brake type: yes is freight, no is passenger.
    pub freight: u8,
    /// Whether the electropneumatic brake is working.
    pub electropneumatic: u8,
    /// Braked weight percentage.
    pub braked_weight: u32,
    /// Metres.
    pub length: u32,
    /// km/h.
    pub top_speed: u32,
    /// Its own.
    pub coefficients: Coefficients,
}

/// The four distances in millimetres.
#[repr(C)]
#[derive(Clone, Copy, Debug, PartialEq, Eq)]
pub struct Distances {
    /// 0, or a refusal's number.
    pub refusal: u32,
    /// Emergency brake intervention.
    pub ebi: u32,
    /// Service brake intervention.
    pub sbi: u32,
    /// Warning.
    pub w: u32,
    /// Permitted.
    pub p: u32,
}

/// What a call that writes has written.
#[repr(C)]
#[derive(Clone, Copy, Debug, PartialEq, Eq)]
pub struct Written {
    /// 0, or a refusal's number.
    pub refusal: u32,
    /// How many places of the row, or bytes of the sheet.
    pub length: u32,
}

/// How far past the signal, and when.
#[repr(C)]
#[derive(Clone, Copy, Debug, PartialEq, Eq)]
pub struct Stop {
    /// 0, or a refusal's number.
    pub refusal: u32,
    /// Millimetres.
    pub distance: u32,
    /// Milliseconds.
    pub moment: u32,
}

/// The three ceilings in 120ths of a km/h.
#[repr(C)]
#[derive(Clone, Copy, Debug, PartialEq, Eq)]
pub struct Limits {
    /// 0, or a refusal's number.
    pub refusal: u32,
    /// Of the warning.
    pub w: u32,
    /// Of the service brake intervention.
    pub sbi: u32,
    /// Of the emergency brake intervention.
    pub ebi: u32,
}

/// Speeds in km/h, a mark, the permitted speed's ceilings in 120ths of a km/h, and which stretches govern.
#[repr(C)]
#[derive(Clone, Copy, Debug, Default, PartialEq, Eq)]
pub struct Answer {
    /// 0, or a refusal's number.
    pub refusal: u32,
    /// Release speed, km/h.
    pub release: u32,
    /// Permitted speed, km/h.
    pub permitted: u32,
    /// [`CURVE`] or [`RELEASE`].
    pub mark: u32,
    /// Of the warning.
    pub w: u32,
    /// Of the service brake intervention.
    pub sbi: u32,
    /// Of the emergency brake intervention.
    pub ebi: u32,
    /// Number of the stretch that governs past the signal, or [`NO_STRETCH`].
    pub overlap_stretch: u32,
    /// Number of the stretch that governs up to the signal.
    pub ahead_stretch: u32,
}

/// The number that stands for none, where the overlap is 0.
pub const NO_STRETCH: u32 = 65_535;

/// An answer's mark "curve".
pub const CURVE: u32 = 1;

/// An answer's mark "release".
pub const RELEASE: u32 = 2;

/// A stretch of a sheet.
#[repr(C)]
#[derive(Clone, Copy, Debug, PartialEq, Eq)]
pub struct Stretch {
    /// 0, or a refusal's number.
    pub refusal: u32,
    /// Metres.
    pub start: u32,
    /// Per mille.
    pub gradient: i32,
}

/// A signal of a sheet.
#[repr(C)]
#[derive(Clone, Copy, Debug, PartialEq, Eq)]
pub struct Signal {
    /// 0, or a refusal's number.
    pub refusal: u32,
    /// Metres.
    pub place: u32,
    /// Metres.
    pub overlap: u32,
}

/// A reading mark.
#[repr(C)]
#[derive(Clone, Copy, Debug, PartialEq, Eq)]
pub struct Mark {
    /// The number of the stretch that it stands before.
    pub next: u32,
}

/// Before stretch 0.
pub const FRESH: Mark = Mark { next: 0 };

/// A move of a reading mark.
#[repr(C)]
#[derive(Clone, Copy, Debug, PartialEq, Eq)]
pub struct Move {
    /// 0, or a refusal's number.
    pub refusal: u32,
    /// 1 past the last stretch, where the mark stays; else 0.
    pub end: u32,
    /// Metres.
    pub start: u32,
    /// Per mille.
    pub gradient: i32,
    /// For the next move.
    pub mark: Mark,
}

/// A step of the walk from a signal back to a train's tail.
#[repr(C)]
#[derive(Clone, Copy, Debug, Default, PartialEq, Eq)]
pub struct Back {
    /// 0, or a refusal's number.
    pub refusal: u32,
    /// 1 past the stretch that holds the tail; else 0.
    pub end: u32,
    /// Its number along the sheet.
    pub stretch: u32,
    /// Per mille.
    pub gradient: i32,
    /// Per mille, of the steps from 0 to this one.
    pub least: i32,
    /// The lowest number among the stretches of these steps that have it.
    pub least_stretch: u32,
}

/// Which of the four distances; C has a call for each.
#[derive(Clone, Copy, Debug, PartialEq, Eq)]
pub enum Curve {
    /// Emergency brake intervention.
    Ebi,
    /// Service brake intervention.
    Sbi,
    /// Warning.
    W,
    /// Permitted.
    P,
}

/// All four, in document 01's order.
pub const CURVES: [Curve; 4] = [Curve::Ebi, Curve::Sbi, Curve::W, Curve::P];

type Row = unsafe extern "C" fn(Train, u32, i32, *mut u32, usize) -> Written;

extern "C" {
    fn approach_first_values() -> Coefficients;
    fn approach_step(train: Train, v: u32, v0: u32, gradient: i32) -> Distances;
    fn approach_row_ebi(train: Train, v0: u32, gradient: i32, row: *mut u32, places: usize) -> Written;
    fn approach_row_sbi(train: Train, v0: u32, gradient: i32, row: *mut u32, places: usize) -> Written;
    fn approach_row_w(train: Train, v0: u32, gradient: i32, row: *mut u32, places: usize) -> Written;
    fn approach_row_p(train: Train, v0: u32, gradient: i32, row: *mut u32, places: usize) -> Written;
    fn approach_ramp(braked_weight: u32, gradient: i32, v: u32, tm: u32, tr: u32, inertia: Inertia) -> Stop;
    fn approach_ceilings(permitted: u32) -> Limits;
    fn approach_ceilings_stored(permitted: u32) -> Limits;
    fn approach_sheet_write(
        starts: *const u32,
        start_count: usize,
        gradients: *const i16,
        gradient_count: usize,
        places: *const u32,
        place_count: usize,
        overlaps: *const u16,
        overlap_count: usize,
        line_end: u32,
        sheet: *mut u8,
        room: usize,
    ) -> Written;
    fn approach_sheet_stretch(sheet: *const u8, length: usize, number: u32) -> Stretch;
    fn approach_sheet_signal(sheet: *const u8, length: usize, number: u32) -> Signal;
    fn approach_sheet_next(sheet: *const u8, length: usize, mark: Mark) -> Move;
    fn approach_sheet_back(
        sheet: *const u8,
        length: usize,
        signal: u32,
        head: u32,
        train_length: u32,
        step: u32,
    ) -> Back;
    fn approach_query(
        train: Train,
        tm: u32,
        tr: u32,
        sheet: *const u8,
        length: usize,
        signal: u32,
        head: u32,
    ) -> Answer;
}

/// Document 002's first values.
pub fn first_values() -> Coefficients {
    unsafe { approach_first_values() }
}

/// Distances from V to V0, in km/h, on a gradient in per mille.
pub fn step(train: Train, v: u32, v0: u32, gradient: i32) -> Distances {
    unsafe { approach_step(train, v, v0, gradient) }
}

/// One curve's distances in millimetres for every V from V0 to the top speed.
pub fn row(curve: Curve, train: Train, v0: u32, gradient: i32, row: &mut [u32]) -> Written {
    let call: Row = match curve {
        Curve::Ebi => approach_row_ebi,
        Curve::Sbi => approach_row_sbi,
        Curve::W => approach_row_w,
        Curve::P => approach_row_p,
    };
    unsafe { call(train, v0, gradient, row.as_mut_ptr(), row.len()) }
}

/// The way past a closed signal from V in km/h; TM and TR in hundredths of a second.
pub fn ramp(braked_weight: u32, gradient: i32, v: u32, tm: u32, tr: u32, inertia: Inertia) -> Stop {
    unsafe { approach_ramp(braked_weight, gradient, v, tm, tr, inertia) }
}

/// The ceilings of a permitted speed in km/h, worked out.
pub fn ceilings(permitted: u32) -> Limits {
    unsafe { approach_ceilings(permitted) }
}

/// The ceilings of a permitted speed in km/h, looked up.
pub fn ceilings_stored(permitted: u32) -> Limits {
    unsafe { approach_ceilings_stored(permitted) }
}

/// Writes a line sheet. Starts, places, overlaps and the end are in metres, gradients in per mille.
pub fn sheet_write(
    starts: &[u32],
    gradients: &[i16],
    places: &[u32],
    overlaps: &[u16],
    end: u32,
    sheet: &mut [u8],
) -> Written {
    unsafe {
        approach_sheet_write(
            starts.as_ptr(),
            starts.len(),
            gradients.as_ptr(),
            gradients.len(),
            places.as_ptr(),
            places.len(),
            overlaps.as_ptr(),
            overlaps.len(),
            end,
            sheet.as_mut_ptr(),
            sheet.len(),
        )
    }
}

/// The stretch of a number, from 0.
pub fn sheet_stretch(sheet: &[u8], number: u32) -> Stretch {
    unsafe { approach_sheet_stretch(sheet.as_ptr(), sheet.len(), number) }
}

/// The signal of a number, from 0.
pub fn sheet_signal(sheet: &[u8], number: u32) -> Signal {
    unsafe { approach_sheet_signal(sheet.as_ptr(), sheet.len(), number) }
}

/// The next stretch along the sheet.
pub fn sheet_next(sheet: &[u8], mark: Mark) -> Move {
    unsafe { approach_sheet_next(sheet.as_ptr(), sheet.len(), mark) }
}

/// The step of a number, from 0, on the walk from the signal of a number back to the tail; head and train length in metres.
pub fn sheet_back(sheet: &[u8], signal: u32, head: u32, train_length: u32, step: u32) -> Back {
    unsafe { approach_sheet_back(sheet.as_ptr(), sheet.len(), signal, head, train_length, step) }
}

/// The approach to the signal of a number; TM and TR in hundredths of a second, the head in metres.
pub fn query(train: Train, tm: u32, tr: u32, sheet: &[u8], signal: u32, head: u32) -> Answer {
    unsafe { approach_query(train, tm, tr, sheet.as_ptr(), sheet.len(), signal, head) }
}
