//! The reader of a lot sheet: fields, the questions put to a sheet, and the table of worths.
//! Written from the rules alone (docs/RULES.md), never from the Rattle code; the comments name the
//! rules that are met.

/// The end of a line (rule 2.1).
pub const LINE_END: u8 = 10;
/// The columns of a field (rule 2.2).
pub const FIELD: usize = 6;
/// The bytes of the first line (rule 2.6).
pub const FIRST_LINE: usize = 2 * FIELD + 1;
/// There are at most so many buyers and lots (rule 1.2).
pub const MOST_BUYERS: usize = 6;
pub const MOST_LOTS: usize = 4;
/// The bundles of four lots, the empty one included.
pub const MOST_BUNDLES: usize = 1 << MOST_LOTS;
/// The greatest worth (rule 1.4).
pub const GREATEST_WORTH: u16 = 9_999;

/// What reading a field answers (rule 2.4).
#[derive(Clone, Debug, PartialEq, Eq)]
pub struct Field {
    /// The number, or the offset of the faulty field.
    pub number: Result<u32, usize>,
    pub next: usize,
}

/// A question that got a no, and the place (rules 3.11 and 3.13).
#[derive(Clone, Debug, PartialEq, Eq)]
pub struct Refusal {
    pub number: u8,
    pub place: usize,
}

/// Worths (valuations): a row for each buyer, with the worth of a bundle at the bundle's number.
/// The empty bundle, absent bundles and absent buyers have 0 (rule 1.7).
pub type Table = [[u16; MOST_BUNDLES]; MOST_BUYERS];

/// What an accepted sheet says.
#[derive(Clone, Debug, PartialEq, Eq)]
pub struct Sheet {
    pub buyers: usize,
    pub lots: usize,
    pub worths: Table,
}

/// The answer to questions 1 to 8 (rules 3.1 to 3.8).
pub type Answer = Result<Sheet, Refusal>;

/// The field at a column, and the next column (rule 2.5).
pub fn read_field(sheet: &[u8], at: usize) -> Field {
    match sheet.get(at..).and_then(<[u8]>::first_chunk) {
        Some(columns) => Field {
            number: read_number(columns).ok_or(at),
            next: at + FIELD,
        },
        None => Field {
            number: Err(at),
            next: sheet.len(),
        },
    }
}

/// The number in six columns, if there is one (rules 2.2 and 2.3).
fn read_number(columns: &[u8; FIELD]) -> Option<u32> {
    let blanks = columns.iter().take_while(|&&byte| byte == b' ').count();
    match &columns[blanks..] {
        [] | [b'0', _, ..] => None,
        digits => digits.iter().try_fold(0, |number, byte| match byte {
            b'0'..=b'9' => Some(10 * number + u32::from(byte - b'0')),
            _ => None,
        }),
    }
}

/// The questions put to a sheet, in order, up to the first no (rule 3.11).
pub fn read_sheet(sheet: &[u8]) -> Answer {
    let (buyers, lots) = read_first_line(sheet)?;
    if sheet.len() != length(buyers, lots) {
        return refuse(5, 0);
    }
    let numbers = read_later_lines(sheet, buyers, lots)?;
    let worths = worths_in_range(&numbers, lots)?;
    match first_below_a_part(&worths, buyers, lots) {
        Some((buyer, bundle)) => refuse(8, place(lots, buyer, bundle)),
        None => Ok(Sheet {
            buyers,
            lots,
            worths,
        }),
    }
}

/// Questions 1 to 4 (rules 3.1 to 3.4): the numbers of buyers and lots.
fn read_first_line(sheet: &[u8]) -> Result<(usize, usize), Refusal> {
    if sheet.len() < FIRST_LINE {
        return refuse(1, 0);
    }
    let buyers = read_field(sheet, 0);
    let lots = read_field(sheet, buyers.next);
    let (Ok(buyers), Ok(lots), LINE_END) = (buyers.number, lots.number, sheet[lots.next]) else {
        return refuse(2, 0);
    };
    let (buyers, lots) = (buyers as usize, lots as usize);
    if !(1..=MOST_BUYERS).contains(&buyers) {
        return refuse(3, 0);
    }
    if !(1..=MOST_LOTS).contains(&lots) {
        return refuse(4, 0);
    }
    Ok((buyers, lots))
}

/// Question 6 (rule 3.6): the numbers of the fields, in order.
fn read_later_lines(sheet: &[u8], buyers: usize, lots: usize) -> Result<Vec<u32>, Refusal> {
    let bundles = bundles(lots);
    let mut numbers = Vec::with_capacity(buyers * bundles);
    let mut at = FIRST_LINE;
    for _ in 0..buyers {
        for _ in 0..bundles {
            let field = read_field(sheet, at);
            match field.number {
                Ok(number) => numbers.push(number),
                Err(place) => return refuse(6, place),
            }
            at = field.next;
        }
        if sheet[at] != LINE_END {
            return refuse(6, at);
        }
        at += 1;
    }
    Ok(numbers)
}

/// Question 7 (rule 3.7): the numbers set out as a table.
fn worths_in_range(numbers: &[u32], lots: usize) -> Result<Table, Refusal> {
    let mut worths = Table::default();
    for (row, line) in numbers.chunks(bundles(lots)).enumerate() {
        for (bundle, &number) in (1..).zip(line) {
            if number > u32::from(GREATEST_WORTH) {
                return refuse(7, place(lots, row + 1, bundle));
            }
            worths[row][bundle] = number as u16;
        }
    }
    Ok(worths)
}

/// Question 8 (rule 3.8): the buyer and bundle of the first no. A sole lot's part is the empty
/// bundle, and no worth is below 0.
fn first_below_a_part(worths: &Table, buyers: usize, lots: usize) -> Option<(usize, usize)> {
    for buyer in 1..=buyers {
        let row = &worths[buyer - 1];
        for bundle in 1..=bundles(lots) {
            if parts(bundle).any(|part| row[bundle] < row[part]) {
                return Some((buyer, bundle));
            }
        }
    }
    None
}

/// The bundles with one lot fewer than this one: each of its lots taken away in turn.
pub fn parts(bundle: usize) -> impl Iterator<Item = usize> {
    (0..MOST_LOTS)
        .map(|lot| 1 << lot)
        .filter(move |lot| bundle & lot != 0)
        .map(move |lot| bundle - lot)
}

/// The bundles that have a worth in a line (rule 2.7).
pub fn bundles(lots: usize) -> usize {
    (1 << lots) - 1
}

/// A buyer's line: a field for each bundle and the line end.
pub fn line(lots: usize) -> usize {
    FIELD * bundles(lots) + 1
}

/// The length that question 5 asks for (rule 3.5).
pub fn length(buyers: usize, lots: usize) -> usize {
    FIRST_LINE + buyers * line(lots)
}

/// The offset of the first byte of the field with a buyer's worth of a bundle.
pub fn place(lots: usize, buyer: usize, bundle: usize) -> usize {
    FIRST_LINE + (buyer - 1) * line(lots) + FIELD * (bundle - 1)
}

/// A refusal has a number and a place (rule 3.14).
pub fn refuse<T>(number: u8, place: usize) -> Result<T, Refusal> {
    Err(Refusal { number, place })
}
