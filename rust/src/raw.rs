//! The library's bare answers: the structs and numbers of the C header `include/hokewhuni.h`, and its
//! functions over slices. The crate's own functions answer the same in Rust's way.
//!
//! `number` and `place` of an answer are those of a refusal, and every other number is 0 then;
//! they are 0 if nothing is refused. [`crate::Refusal`] says what the numbers mean, of writing
//! [`crate::WriteRefusal`], of a trial sheet [`crate::TrialRefusal`].

/// No sheet of this many bytes or more is accepted: a longer file may be cut here, and gets the
/// same refusal. So this many bytes have room for every sheet that is written, of which the longest
/// has 559: 11 is not answered then.
pub const SHEET_BYTES: usize = 560;

/// A record of this many bytes is long enough for every sheet: 9 is not answered then.
pub const RECORD_BYTES: usize = 59_994;

/// This many bytes have room for every printed sale.
pub const PRINT_BYTES: usize = 227;

/// `hokewhuni_field`: one field.
#[repr(C)]
#[derive(Clone, Debug, PartialEq, Eq)]
pub struct Field {
    /// The next column.
    pub next: usize,
    /// 0, or 6 if the field is faulty.
    pub number: u8,
    /// The field's number; of a faulty field, its offset.
    pub value: usize,
}

/// `hokewhuni_read`: the size of a sheet.
#[repr(C)]
#[derive(Clone, Debug, PartialEq, Eq)]
pub struct Read {
    /// A refusal's number, or 0.
    pub number: u8,
    /// A refusal's place, or 0.
    pub place: u32,
    /// The number of buyers.
    pub buyers: u8,
    /// The number of lots.
    pub lots: u8,
}

/// `hokewhuni_worths`: the same with its table of worths. The worth of buyer i and bundle S stands
/// at 16 × (i − 1) + S.
#[repr(C)]
#[derive(Clone, Debug, PartialEq, Eq)]
pub struct Worths {
    /// A refusal's number, or 0.
    pub number: u8,
    /// A refusal's place, or 0.
    pub place: u32,
    /// The number of buyers.
    pub buyers: u8,
    /// The number of lots.
    pub lots: u8,
    /// What each bundle is worth to each buyer.
    pub worths: [u16; 96],
}

/// `hokewhuni_demand`: what one buyer demands.
#[repr(C)]
#[derive(Clone, Debug, PartialEq, Eq)]
pub struct Demand {
    /// A refusal's number, or 0.
    pub number: u8,
    /// A refusal's place, or 0.
    pub place: u32,
    /// The sum of 2^S over the bundles S of greatest payoff.
    pub bundles: u16,
    /// Whether that payoff is above 0; false in a refusal.
    pub keen: bool,
}

/// `hokewhuni_settled`: whether prices are settled.
#[repr(C)]
#[derive(Clone, Debug, PartialEq, Eq)]
pub struct Settled {
    /// A refusal's number, or 0.
    pub number: u8,
    /// A refusal's place, or 0.
    pub place: u32,
    /// Whether they are; false in a refusal.
    pub settled: bool,
}

/// `hokewhuni_sale`: a settled sale.
#[repr(C)]
#[derive(Clone, Debug, PartialEq, Eq)]
pub struct Sale {
    /// A refusal's number, or 0.
    pub number: u8,
    /// A refusal's place, or 0.
    pub place: u32,
    /// The number of buyers.
    pub buyers: u8,
    /// The number of lots.
    pub lots: u8,
    /// As many as bytes recorded.
    pub rounds: u32,
    /// The last prices, which stand as worths do.
    pub prices: [u16; 96],
    /// Of lots 1 to 4: a buyer, or 0 for unsold.
    pub owners: [u8; 4],
    /// Of buyers 1 to 6.
    pub discounts: [u32; 6],
    /// Of buyers 1 to 6: price of its bundle less discount.
    pub payments: [u32; 6],
}

/// `hokewhuni_direct`: what the direct way answers.
#[repr(C)]
#[derive(Clone, Debug, PartialEq, Eq)]
pub struct Direct {
    /// A refusal's number, or 0.
    pub number: u8,
    /// A refusal's place, or 0.
    pub place: u32,
    /// The greatest total worth of an allocation.
    pub total: u32,
    /// Of lots 1 to 4: a buyer, or 0 for unsold.
    pub owners: [u8; 4],
    /// Of buyers 1 to 6.
    pub payments: [u32; 6],
}

/// `hokewhuni_wrote`: a written sheet.
#[repr(C)]
#[derive(Clone, Debug, PartialEq, Eq)]
pub struct Wrote {
    /// A refusal's number, or 0.
    pub number: u8,
    /// Always 0.
    pub place: u32,
    /// The length of the sheet, in bytes.
    pub length: u32,
}

// The header's declarations. Each function asks the same of its caller, and nothing else: that a
// pointer is valid for its length and not null, and that what it may write to overlaps nothing and
// is used by nobody else while it runs. So it is with a slice's pointer and length, and with what is
// lent by `&mut`.
unsafe extern "C" {
    fn hokewhuni_read_field(sheet: *const u8, sheet_length: usize, at: usize) -> Field;
    fn hokewhuni_read_sheet(sheet: *const u8, sheet_length: usize) -> Read;
    fn hokewhuni_read_worths(sheet: *const u8, sheet_length: usize) -> Worths;
    fn hokewhuni_buyer_demand(
        sheet: *const u8,
        sheet_length: usize,
        buyer: u32,
        prices: *const u16,
    ) -> Demand;
    fn hokewhuni_settled_at(sheet: *const u8, sheet_length: usize, prices: *const u16) -> Settled;
    fn hokewhuni_run_sale(
        sheet: *const u8,
        sheet_length: usize,
        record: *mut u8,
        record_length: usize,
    ) -> Sale;
    fn hokewhuni_direct_way(sheet: *const u8, sheet_length: usize) -> Direct;
    fn hokewhuni_print_sale(
        sheet: *const u8,
        sheet_length: usize,
        record: *mut u8,
        record_length: usize,
        out: *mut u8,
        out_length: usize,
    ) -> usize;
    fn hokewhuni_write_sheet(
        buyers: u32,
        lots: u32,
        worths: *const u32,
        worths_length: usize,
        out: *mut u8,
        out_length: usize,
    ) -> Wrote;
    fn hokewhuni_trial_sheet(
        number: u16,
        buyers: u32,
        lots: u32,
        top: u32,
        out: *mut u8,
        out_length: usize,
    ) -> Wrote;
}

/// As [`crate::read_field`].
pub fn read_field(sheet: &[u8], at: usize) -> Field {
    // SAFETY: the pointer is the slice's, with its length.
    unsafe { hokewhuni_read_field(sheet.as_ptr(), sheet.len(), at) }
}

/// As [`crate::read_sheet`].
pub fn read_sheet(sheet: &[u8]) -> Read {
    // SAFETY: the pointer is the slice's, with its length.
    unsafe { hokewhuni_read_sheet(sheet.as_ptr(), sheet.len()) }
}

/// As [`crate::read_worths`].
pub fn read_worths(sheet: &[u8]) -> Worths {
    // SAFETY: the pointer is the slice's, with its length.
    unsafe { hokewhuni_read_worths(sheet.as_ptr(), sheet.len()) }
}

/// As [`crate::buyer_demand`]. The prices stand as worths do.
pub fn buyer_demand(sheet: &[u8], buyer: u32, prices: &[u16; 96]) -> Demand {
    // SAFETY: the pointers are the slice's, with its length, and that of 96 prices.
    unsafe { hokewhuni_buyer_demand(sheet.as_ptr(), sheet.len(), buyer, prices.as_ptr()) }
}

/// As [`crate::settled_at`]. The prices stand as worths do.
pub fn settled_at(sheet: &[u8], prices: &[u16; 96]) -> Settled {
    // SAFETY: the pointers are the slice's, with its length, and that of 96 prices.
    unsafe { hokewhuni_settled_at(sheet.as_ptr(), sheet.len(), prices.as_ptr()) }
}

/// As [`crate::run_sale`].
pub fn run_sale(sheet: &[u8], record: &mut [u8]) -> Sale {
    let (to, length) = (record.as_mut_ptr(), record.len());
    // SAFETY: the pointers are the slices', each with its length, and the record is lent by `&mut`.
    unsafe { hokewhuni_run_sale(sheet.as_ptr(), sheet.len(), to, length) }
}

/// As [`crate::direct_way`].
pub fn direct_way(sheet: &[u8]) -> Direct {
    // SAFETY: the pointer is the slice's, with its length.
    unsafe { hokewhuni_direct_way(sheet.as_ptr(), sheet.len()) }
}

/// As [`crate::print_sale`]; answers 0 where `out` has no room.
pub fn print_sale(sheet: &[u8], record: &mut [u8], out: &mut [u8]) -> usize {
    // SAFETY: the pointers are the slices', each with its length, and record and `out` are lent by
    // `&mut`.
    unsafe {
        hokewhuni_print_sale(
            sheet.as_ptr(),
            sheet.len(),
            record.as_mut_ptr(),
            record.len(),
            out.as_mut_ptr(),
            out.len(),
        )
    }
}

/// As [`crate::write_sheet`].
pub fn write_sheet(buyers: u32, lots: u32, worths: &[u32], out: &mut [u8]) -> Wrote {
    let (to, length) = (out.as_mut_ptr(), out.len());
    // SAFETY: the pointers are the slices', each with its length, and `out` is lent by `&mut`.
    unsafe { hokewhuni_write_sheet(buyers, lots, worths.as_ptr(), worths.len(), to, length) }
}

/// As [`crate::trial_sheet`].
pub fn trial_sheet(number: u16, buyers: u32, lots: u32, top: u32, out: &mut [u8]) -> Wrote {
    // SAFETY: the pointer is the slice's, with its length, and it is lent by `&mut`.
    unsafe { hokewhuni_trial_sheet(number, buyers, lots, top, out.as_mut_ptr(), out.len()) }
}
