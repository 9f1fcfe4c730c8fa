//! Safe calls of the C library `lrc`: Local Reconstruction Codes with six or twelve data fragments.
//!
//! Fragments are slices of one length. What the C library asks of its caller, that pointers are good and that nothing
//! overlaps what is written, is what Rust's references say, so nothing here is `unsafe` to call.

use std::fmt;

mod sys {
    #[repr(C)]
    #[derive(Clone, Copy)]
    pub struct Bytes {
        pub at: *const u8,
        pub length: usize,
    }

    #[repr(C)]
    #[derive(Clone, Copy, Default)]
    pub struct Plan {
        pub value: [u8; 16],
        pub checks: [[u8; 16]; 4],
    }

    #[link(name = "lrc")]
    extern "C" {
        pub fn lrc_version() -> u32;
        #[rustfmt::skip]
        pub fn lrc_encode_into(code: u8, data: *const Bytes, count: usize, px: *mut u8, px_length: usize, py: *mut u8,
            py_length: usize, p0: *mut u8, p0_length: usize, p1: *mut u8, p1_length: usize) -> u32;
        #[rustfmt::skip]
        pub fn lrc_update_into(code: u8, place: u8, difference: *const u8, length: usize, px: *mut u8, px_length: usize, py: *mut u8,
            py_length: usize, p0: *mut u8, p0_length: usize, p1: *mut u8, p1_length: usize) -> u32;
        pub fn lrc_reads_into(code: u8, wanted: u32, available: u32, reads: *mut u32) -> u32;
        pub fn lrc_cheapest_reads_into(code: u8, wanted: u32, available: u32, costs: *const u32, reads: *mut u32) -> u32;
        pub fn lrc_plan_into(code: u8, survivors: u32, target: u8, plan: *mut Plan) -> u32;
        pub fn lrc_apply(row: *const u8, at: *const Bytes, out: *mut u8, length: usize) -> u32;
        pub fn lrc_rebuild_into(code: u8, survivors: u32, at: *const Bytes, target: u8, out: *mut u8, length: usize) -> u32;
        pub fn lrc_verify_at(code: u8, survivors: u32, at: *const Bytes, length: usize) -> u32;
    }
}

/// A code.
#[derive(Clone, Copy, Debug, PartialEq, Eq)]
pub enum Code {
    /// (6,2,2): the places `X0` to `P1`.
    Narrow = 0,
    /// (12,2,2): all sixteen places.
    Wide = 1,
}

/// A place of a stripe, by its number.
#[derive(Clone, Copy, Debug, PartialEq, Eq)]
#[rustfmt::skip]
pub enum Place { X0, X1, X2, Y0, Y1, Y2, Px, Py, P0, P1, X3, X4, X5, Y3, Y4, Y5 }

impl Place {
    /// All places, in the order of their numbers.
    #[rustfmt::skip]
    pub const ALL: [Place; 16] = {
        use Place::*;
        [X0, X1, X2, Y0, Y1, Y2, Px, Py, P0, P1, X3, X4, X5, Y3, Y4, Y5]
    };
}

/// Why nothing was rebuilt.
#[derive(Clone, Copy, Debug, PartialEq, Eq)]
pub enum Error {
    /// No stripe has these fragments.
    Contradiction,
    /// Two stripes have these fragments and differ at the target.
    Several,
    /// A number or a length is not what the call asks.
    BadArgument,
}

impl fmt::Display for Error {
    fn fmt(&self, f: &mut fmt::Formatter<'_>) -> fmt::Result {
        f.write_str(match self {
            Error::Contradiction => "no stripe has these fragments",
            Error::Several => "the fragments that are left do not determine the lost one",
            Error::BadArgument => "invalid argument",
        })
    }
}

impl std::error::Error for Error {}

fn to_result(status: u32) -> Result<(), Error> {
    match status {
        0 => Ok(()),
        1 => Err(Error::Contradiction),
        2 => Err(Error::Several),
        _ => Err(Error::BadArgument),
    }
}

/// The version of the library: 10,000 times its first number, 100 times its second, and its third.
pub fn version() -> u32 {
    // SAFETY: it takes nothing.
    unsafe { sys::lrc_version() }
}

/// The fragments that survive, by place.
#[derive(Clone, Copy, Default)]
pub struct Survivors<'a> {
    at: [Option<&'a [u8]>; 16],
}

impl<'a> Survivors<'a> {
    /// None.
    pub fn new() -> Self {
        Self::default()
    }

    /// With a fragment more.
    pub fn with(mut self, place: Place, fragment: &'a [u8]) -> Self {
        self.at[place as usize] = Some(fragment);
        self
    }

    fn bits(&self) -> u32 {
        (0..16).filter(|&p| self.at[p].is_some()).map(|p| 1 << p).sum()
    }

    fn table(&self) -> [sys::Bytes; 16] {
        self.at.map(|fragment| lent(fragment.unwrap_or(&[])))
    }

    /// Writes the fragment at a lost place: the bytes that each stripe with these fragments has there.
    pub fn rebuild(&self, code: Code, target: Place, out: &mut [u8]) -> Result<(), Error> {
        // SAFETY: the table's slices are good for their lengths, and `out` is borrowed alone.
        to_result(unsafe {
            sys::lrc_rebuild_into(code as u8, self.bits(), self.table().as_ptr(), target as u8, out.as_mut_ptr(), out.len())
        })
    }

    /// Whether the fragments, which have the length, are those of a stripe.
    pub fn verify(&self, code: Code, length: usize) -> Result<(), Error> {
        // SAFETY: the table's slices are good for their lengths.
        to_result(unsafe { sys::lrc_verify_at(code as u8, self.bits(), self.table().as_ptr(), length) })
    }

    /// The plan for a lost place, which can be applied to the pieces of these fragments.
    pub fn plan(&self, code: Code, target: Place) -> Result<Plan, Error> {
        let mut plan = sys::Plan::default();
        // SAFETY: the plan is borrowed alone.
        to_result(unsafe { sys::lrc_plan_into(code as u8, self.bits(), target as u8, &mut plan) })?;
        Ok(Plan { plan })
    }
}

/// A plan for a lost place.
#[derive(Clone, Copy)]
pub struct Plan {
    plan: sys::Plan,
}

impl Plan {
    /// How many survivors it reads.
    pub fn reads(&self) -> usize {
        self.plan.value.iter().filter(|&&c| c != 0).count()
    }

    /// Writes the target's bytes from the survivors' of the same positions; their checks are not tested.
    pub fn apply(&self, pieces: &Survivors<'_>, out: &mut [u8]) -> Result<(), Error> {
        // SAFETY: the row has 16 coefficients, the table's slices are good for their lengths, and `out` is borrowed alone.
        to_result(unsafe {
            sys::lrc_apply(self.plan.value.as_ptr(), pieces.table().as_ptr(), out.as_mut_ptr(), out.len())
        })
    }
}

/// The four parities px, py, p0 and p1 of the data fragments, which are in the order x0, x1, .., y0, y1, ..
pub fn encode(code: Code, data: &[&[u8]]) -> Result<[Vec<u8>; 4], Error> {
    let length = data.first().map_or(0, |fragment| fragment.len());
    let mut parities = [(); 4].map(|()| vec![0; length]);
    let [px, py, p0, p1] = &mut parities;
    let table: Vec<_> = data.iter().map(|fragment| lent(fragment)).collect();
    // SAFETY: the table's slices are good for their lengths, and the parities are borrowed alone.
    #[rustfmt::skip]
    to_result(unsafe {
        sys::lrc_encode_into(code as u8, table.as_ptr(), table.len(), px.as_mut_ptr(), length, py.as_mut_ptr(), length,
            p0.as_mut_ptr(), length, p1.as_mut_ptr(), length)
    })?;
    Ok(parities)
}

/// Brings the parities px, py, p0 and p1 up to date after the data fragment at a place changed by the difference, which is the sum
/// (exclusive or) of its bytes before and after. Parities that are none are left out.
pub fn update(code: Code, place: Place, difference: &[u8], parities: [Option<&mut [u8]>; 4]) -> Result<(), Error> {
    let [px, py, p0, p1] = parities.map(|parity| parity.unwrap_or(&mut []));
    // SAFETY: the slices are good for their lengths, and the parities are borrowed alone.
    #[rustfmt::skip]
    to_result(unsafe {
        sys::lrc_update_into(code as u8, place as u8, difference.as_ptr(), difference.len(), px.as_mut_ptr(), px.len(),
            py.as_mut_ptr(), py.len(), p0.as_mut_ptr(), p0.len(), p1.as_mut_ptr(), p1.len())
    })?;
    Ok(())
}

/// Available places that determine all wanted ones: those that are wanted, and the fewest others that do.
pub fn reads(code: Code, wanted: &[Place], available: &[Place]) -> Result<Vec<Place>, Error> {
    let mut found = 0;
    // SAFETY: the room for the answer is borrowed alone.
    to_result(unsafe { sys::lrc_reads_into(code as u8, bits_of(wanted), bits_of(available), &mut found) })?;
    Ok(places_of(found))
}

/// The same where each place has a cost, by its number: the costs of what is read have the least sum.
pub fn cheapest_reads(code: Code, wanted: &[Place], available: &[Place], costs: &[u32; 16]) -> Result<Vec<Place>, Error> {
    let mut found = 0;
    // SAFETY: there are sixteen costs, and the room for the answer is borrowed alone.
    to_result(unsafe {
        sys::lrc_cheapest_reads_into(code as u8, bits_of(wanted), bits_of(available), costs.as_ptr(), &mut found)
    })?;
    Ok(places_of(found))
}

fn bits_of(places: &[Place]) -> u32 {
    places.iter().fold(0, |bits, &place| bits | 1 << place as u32)
}

fn places_of(bits: u32) -> Vec<Place> {
    Place::ALL.into_iter().filter(|&place| bits >> place as u32 & 1 != 0).collect()
}

fn lent(bytes: &[u8]) -> sys::Bytes {
    sys::Bytes { at: bytes.as_ptr(), length: bytes.len() }
}
