//! Why a call refuses: the numbers of documents 01 and 02, with their words.

use std::fmt;

/// Why a call refuses. An event that is refused has changed nothing; many events and whole traces end
/// in a [`Stop`](crate::Stop), which says what was done before.
///
/// ```
/// use yuyarisun::{Pool, Refusal, Sizes};
///
/// let mut pool = Pool::new(Sizes { n: 1, k: 1, w: 1, r: 1, b: 0 })?;
/// let refusal = pool.load(0, 0, 0, 0).unwrap_err();
/// assert_eq!(refusal, Refusal::HoldsNone);
/// assert_eq!(refusal.number(), 4);
/// assert_eq!(refusal.to_string(), "load or store through a register that holds none");
/// # Ok::<(), Refusal>(())
/// ```
#[derive(Clone, Copy, Debug, PartialEq, Eq, PartialOrd, Ord, Hash)]
#[repr(u16)]
pub enum Refusal {
    /// 1: a size is out of its range, or a lent table has another length.
    WrongSize = 1,
    /// 2: the pool is not sound.
    NotSound = 2,
    /// 3: no such worker.
    NoSuchWorker = 3,
    /// 4: load or store through a register that holds none.
    HoldsNone = 4,
    /// 5: make, and no record is free.
    NoneFree = 5,
    // 6 is not used: no pool can produce a full log (document 02, request 4).
    /// 7: tag unknown, first field not the sizes, or sizes a second time.
    WrongTag = 7,
    /// 8: field length not the tag's.
    WrongLength = 8,
    /// 9: the trace stops inside a field or before the end field.
    StopsShort = 9,
    /// 10: step number not the previous plus one.
    WrongStep = 10,
    /// 11: a byte after the end field.
    ExtraByte = 11,
    /// 12: end field's count is not the last step number.
    WrongCount = 12,
    /// 13: no such register.
    NoSuchRegister = 13,
    /// 14: no such link or board entry.
    NoSuchLink = 14,
    /// 15: two parts differ in sizes.
    SizesDiffer = 15,
    /// 16: the output is too short.
    OutputShort = 16,
}

impl Refusal {
    /// All of them, in the order of their numbers.
    pub const ALL: [Refusal; 15] = [
        Refusal::WrongSize,
        Refusal::NotSound,
        Refusal::NoSuchWorker,
        Refusal::HoldsNone,
        Refusal::NoneFree,
        Refusal::WrongTag,
        Refusal::WrongLength,
        Refusal::StopsShort,
        Refusal::WrongStep,
        Refusal::ExtraByte,
        Refusal::WrongCount,
        Refusal::NoSuchRegister,
        Refusal::NoSuchLink,
        Refusal::SizesDiffer,
        Refusal::OutputShort,
    ];

    /// The documents' number, 1 to 16 but for 6, which is not used.
    pub fn number(self) -> u16 {
        self as u16
    }

    /// The refusal that a number stands for; `None` for 0, which is "done", for 6 and above 16.
    pub fn of_number(number: u16) -> Option<Refusal> {
        Refusal::ALL.into_iter().find(|refusal| refusal.number() == number)
    }

    /// What a number that a call has answered stands for: done, or why it refuses.
    ///
    /// Panics at a number that is none of these. A library that answers one is not the one that was proved, and
    /// whatever it has done can't be taken for done.
    pub(crate) fn answered(number: u16) -> Result<(), Refusal> {
        match number {
            0 => Ok(()),
            _ => {
                let refusal = Refusal::of_number(number);
                Err(refusal.unwrap_or_else(|| panic!("{number} is no number that a call answers")))
            }
        }
    }

    /// The documents' words.
    pub fn words(self) -> &'static str {
        match self {
            Refusal::WrongSize => "a size is out of its range, or a lent table has another length",
            Refusal::NotSound => "the pool is not sound",
            Refusal::NoSuchWorker => "no such worker",
            Refusal::HoldsNone => "load or store through a register that holds none",
            Refusal::NoneFree => "make, and no record is free",
            Refusal::WrongTag => "tag unknown, first field not the sizes, or sizes a second time",
            Refusal::WrongLength => "field length not the tag's",
            Refusal::StopsShort => "the trace stops inside a field or before the end field",
            Refusal::WrongStep => "step number not the previous plus one",
            Refusal::ExtraByte => "a byte after the end field",
            Refusal::WrongCount => "end field's count is not the last step number",
            Refusal::NoSuchRegister => "no such register",
            Refusal::NoSuchLink => "no such link or board entry",
            Refusal::SizesDiffer => "two parts differ in sizes",
            Refusal::OutputShort => "the output is too short",
        }
    }
}

impl fmt::Display for Refusal {
    fn fmt(&self, out: &mut fmt::Formatter) -> fmt::Result {
        out.write_str(self.words())
    }
}

impl std::error::Error for Refusal {}
