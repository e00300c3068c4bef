//! Answers and refusals.

/// The run that something stands in; no refusal points into C.
#[derive(Clone, Copy, PartialEq, Eq, Debug)]
pub enum Run {
    A,
    B,
    BgpLs,
    C,
}

/// Every way to be refused. Several share one number.
#[derive(Clone, Copy, PartialEq, Eq, PartialOrd, Ord, Debug)]
pub enum Fault {
    /// A or B over 2,048 bytes, C over 1,024, a BGP-LS run over 524,288.
    RunTooLong,
    /// C is no multiple of four bytes.
    LegacySrlgsUneven,
    /// Fewer bytes are left than an element's type and length take.
    HeaderCut,
    /// An element's length leads past its holder.
    ValueCut,
    /// The value is too short for its fixed fields.
    FixedFieldsCut,
    /// The masks lead past the end of the value.
    MasksCut,
    /// The byte that gives the length of the identifier list lies past the end of the value.
    ListLengthCut,
    /// The identifier list leads past the end of the value.
    ListCut,
    /// A known kind has a wrong length.
    KindLength,
    /// A known identifier has a wrong length.
    IdentifierLength,
    /// What follows the identifier list is no multiple of four bytes.
    SrlgsUneven,
    /// A known kind stands in one list for the second time.
    KindTwice,
    /// The whole result is longer than the lent buffer.
    RoomTooSmall,
    /// There is no application of this number: above 63, of user ones above 31.
    NoApplication,
    /// The code point is none of the fourteen.
    UnknownCode,
}

impl Fault {
    /// The number of the reply.
    pub fn number(self) -> u8 {
        match self {
            Fault::RunTooLong => 1,
            Fault::LegacySrlgsUneven => 2,
            Fault::HeaderCut
            | Fault::ValueCut
            | Fault::FixedFieldsCut
            | Fault::MasksCut
            | Fault::ListLengthCut
            | Fault::ListCut => 3,
            Fault::KindLength | Fault::IdentifierLength | Fault::SrlgsUneven => 4,
            Fault::RoomTooSmall => 5,
            Fault::NoApplication => 6,
            Fault::UnknownCode => 7,
            Fault::KindTwice => 8,
        }
    }
}

/// A refusal: why, and the place of the innermost faulty element's first byte.
#[derive(Clone, Copy, PartialEq, Eq, Debug)]
pub struct Refusal {
    pub fault: Fault,
    pub run: Run,
    pub offset: usize,
}

impl Refusal {
    /// A refusal by 3, 4 or 8, of the element that begins at `offset`.
    pub fn at(fault: Fault, run: Run, offset: usize) -> Refusal {
        Refusal { fault, run, offset }
    }

    /// A refusal by 1, 2, 5, 6 or 7: these always name run A, offset 0.
    pub fn of_request(fault: Fault) -> Refusal {
        Refusal { fault, run: Run::A, offset: 0 }
    }
}

/// What a question gets that is not refused.
#[derive(Clone, PartialEq, Eq, Debug)]
pub enum Answer {
    Absent,
    Found(Reading),
}

/// How a found value is read.
#[derive(Clone, PartialEq, Eq, Debug)]
pub enum Reading {
    Number(u64),
    TwoNumbers(u64, u64),
    /// The bits of the 32-bit float.
    Bandwidth(u32),
    Place {
        offset: usize,
        length: usize,
    },
    /// The different SRLGs, ascending.
    Srlgs(Vec<u32>),
}
