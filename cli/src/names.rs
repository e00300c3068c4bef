//! What things are called: the fourteen kinds, the other elements, and applications.
use crate::library::{Application, Subject};

/// How the value of a kind is read.
#[derive(Clone, Copy, Debug, PartialEq, Eq)]
pub enum Form {
    /// Bits, the lowest bit of each word of four bytes first.
    Bits,
    /// A plain number.
    Number,
    /// Microseconds, with a flag in front.
    Delay,
    /// Two of them.
    Delays,
    /// Units of 0.000003 %, with a flag in front.
    Loss,
    /// A 32-bit float, in bytes per second.
    Bandwidth,
    /// Eight of them, one for each priority.
    Bandwidths,
    /// Numbers of four bytes each.
    Srlgs,
}

/// How long a value may be.
#[derive(Clone, Copy, Debug, PartialEq, Eq)]
pub enum Length {
    Is(usize),
    /// A multiple of 4, from the first to the second.
    Words(usize, usize),
    /// There is no such element.
    None,
}

impl Length {
    /// What a length that is not allowed must be.
    pub fn must_be(self, length: usize) -> Option<String> {
        match self {
            Length::Is(right) if length != right => Some(right.to_string()),
            Length::Words(least, most)
                if !length.is_multiple_of(4) || !(least..=most).contains(&length) =>
            {
                Some(match (least, most) {
                    (0, usize::MAX) => "a multiple of 4".into(),
                    (_, usize::MAX) => "a multiple of 4, and not 0".into(),
                    _ => format!("a multiple of 4 from {least} to {most}"),
                })
            }
            _ => None,
        }
    }
}

/// One of the fourteen kinds. Two are the same when their codes are.
#[derive(Debug, Eq)]
pub struct Kind {
    /// Its BGP-LS code.
    pub code: u16,
    /// Its IS-IS type, and how long it is there; SRLGs have TLVs of their own.
    pub isis: Option<u8>,
    pub isis_length: Length,
    /// How long it is in BGP-LS.
    pub length: Length,
    pub name: &'static str,
    /// A name of at most nine characters, for the table.
    pub short: &'static str,
    pub form: Form,
}

/// A kind with the same length in IS-IS and in BGP-LS.
const fn kind(
    code: u16,
    isis: u8,
    length: usize,
    name: &'static str,
    short: &'static str,
    form: Form,
) -> Kind {
    let length = Length::Is(length);
    Kind { code, isis: Some(isis), isis_length: length, length, name, short, form }
}

const NO_LIMIT: usize = usize::MAX;

/// The fourteen kinds, by their codes.
pub static KINDS: [Kind; 14] = [
    kind(1088, 3, 4, "administrative group", "grp bits", Form::Bits),
    kind(1089, 9, 4, "maximum bandwidth", "maximum", Form::Bandwidth),
    kind(1090, 10, 4, "reservable bandwidth", "reservable", Form::Bandwidth),
    kind(1091, 11, 32, "unreserved bandwidth", "unreserved", Form::Bandwidths),
    Kind {
        isis_length: Length::Is(3),
        ..kind(1092, 18, 4, "TE metric", "TE metric", Form::Number)
    },
    Kind {
        isis: None,
        isis_length: Length::None,
        length: Length::Words(0, NO_LIMIT),
        ..kind(1096, 0, 0, "SRLG", "SRLG", Form::Srlgs)
    },
    kind(1114, 33, 4, "delay", "delay", Form::Delay),
    kind(1115, 34, 8, "min/max delay", "min/max", Form::Delays),
    kind(1116, 35, 4, "delay variation", "variation", Form::Delay),
    kind(1117, 36, 4, "loss", "loss", Form::Loss),
    kind(1118, 37, 4, "residual bandwidth", "residual", Form::Bandwidth),
    kind(1119, 38, 4, "available bandwidth", "available", Form::Bandwidth),
    kind(1120, 39, 4, "utilised bandwidth", "utilised", Form::Bandwidth),
    Kind {
        isis_length: Length::Words(4, 252),
        length: Length::Words(4, NO_LIMIT),
        ..kind(1173, 14, 4, "extended group", "ext bits", Form::Bits)
    },
];

/// The code of a BGP-LS ASLA TLV.
pub const ASLA_TLV: u16 = 1122;
/// The type of an IS-IS ASLA sub-TLV.
pub const ASLA: u16 = 16;
/// The type of the IS-IS TLV with SRLGs of applications.
pub const SRLG_TLV: u16 = 238;

impl PartialEq for Kind {
    fn eq(&self, other: &Kind) -> bool {
        self.code == other.code
    }
}

impl Kind {
    pub fn of_code(code: u16) -> Option<&'static Kind> {
        KINDS.iter().find(|k| k.code == code)
    }

    pub fn of_isis_type(number: u16) -> Option<&'static Kind> {
        KINDS.iter().find(|k| k.isis.map(u16::from) == Some(number))
    }

    /// 1089, 1090 and 1091 belong to the link and not to applications.
    pub fn is_of_the_link(&self) -> bool {
        matches!(self.code, 1089..=1091)
    }
}

/// An identifier of a link in a TLV 238: its type and length.
#[derive(Debug, PartialEq, Eq)]
pub struct Identifier {
    pub number: u16,
    pub length: Length,
    pub name: &'static str,
}

const fn identifier(number: u16, length: usize, name: &'static str) -> Identifier {
    Identifier { number, length: Length::Is(length), name }
}

/// The identifiers that are known.
pub static IDENTIFIERS: [Identifier; 5] = [
    identifier(4, 8, "link identifiers"),
    identifier(6, 4, "IPv4 interface"),
    identifier(8, 4, "IPv4 neighbour"),
    identifier(12, 16, "IPv6 interface"),
    identifier(13, 16, "IPv6 neighbour"),
];

impl Identifier {
    pub fn of(number: u16) -> Option<&'static Identifier> {
        IDENTIFIERS.iter().find(|i| i.number == number)
    }
}

/// RSVP-TE, a standard application like the others but for the rules that are its own.
pub const RSVP_TE: Application = Application::Standard(0);

/// A subject in words.
pub fn subject(whom: Subject) -> String {
    match whom {
        Subject::General => "general".into(),
        application => application.to_string(),
    }
}

/// The application that a subject is; none for the general set.
pub fn application(whom: Subject) -> Option<Application> {
    match whom {
        Subject::General => None,
        Subject::Standard(n) => u8::try_from(n).ok().map(Application::Standard),
        Subject::User(n) => u8::try_from(n).ok().map(Application::User),
    }
}

/// So many standard applications, from 0 on, have names of their own.
const NAMED: u8 = 4;

fn has_name(which: Application) -> bool {
    matches!(which, Application::Standard(0..NAMED))
}

/// A subject in at most nine characters.
pub fn short(whom: Subject) -> String {
    subject(whom).replace("standard", "std")
}

/// Ascending numbers as ranges: 0, 2-4, 9.
pub fn ranges(numbers: &[usize]) -> Vec<String> {
    let mut all = Vec::new();
    let mut left = numbers;
    while let [first, ..] = left {
        let count = (1..left.len()).take_while(|i| left[*i] == first + i).count() + 1;
        let last = first + count - 1;
        match count {
            1 => all.push(first.to_string()),
            _ => all.push(format!("{first}-{last}")),
        }
        left = &left[count..];
    }
    all
}

/// Applications in words, those without a name of their own in ranges.
pub fn applications(all: &[Application]) -> Vec<String> {
    let numbers = |of: fn(Application) -> Option<u8>| -> Vec<usize> {
        let unnamed = all.iter().copied().filter(|a| !has_name(*a));
        unnamed.filter_map(of).map(usize::from).collect()
    };
    let standard = numbers(|a| match a {
        Application::Standard(n) => Some(n),
        Application::User(_) => None,
    });
    let user = numbers(|a| match a {
        Application::User(n) => Some(n),
        Application::Standard(_) => None,
    });
    let named = all.iter().filter(|a| has_name(**a)).map(Application::to_string);
    let standard = ranges(&standard).into_iter().map(|r| format!("standard {r}"));
    let user = ranges(&user).into_iter().map(|r| format!("user {r}"));
    named.chain(standard).chain(user).collect()
}

/// The subject that a person means: `SR Policy`, `lfa`, `standard 6`, `user-5`, `general`.
pub fn parse_subject(text: &str) -> Option<Subject> {
    let plain: String =
        text.to_lowercase().chars().filter(|c| !matches!(c, ' ' | '-' | '_')).collect();
    let number = |prefix: &str, last: u64| -> Option<u64> {
        let digits = plain.strip_prefix(prefix)?;
        digits.parse().ok().filter(|n| *n <= last)
    };
    match plain.as_str() {
        "general" => Some(Subject::General),
        "rsvpte" | "rsvp" => Some(Subject::Standard(0)),
        "srpolicy" | "sr" => Some(Subject::Standard(1)),
        "lfa" => Some(Subject::Standard(2)),
        "flexalgo" => Some(Subject::Standard(3)),
        _ => ["standard", "std"]
            .iter()
            .find_map(|p| number(p, 63))
            .map(Subject::Standard)
            .or_else(|| number("user", 31).map(Subject::User)),
    }
}

#[cfg(test)]
mod tests {
    use super::*;

    #[test]
    fn ranges_join_neighbours() {
        assert_eq!(ranges(&[]), Vec::<String>::new());
        assert_eq!(ranges(&[0, 2, 3, 4, 9, 10]), ["0", "2-4", "9-10"]);
    }

    #[test]
    fn applications_stand_in_ranges() {
        let mut all =
            vec![Application::Standard(1), Application::Standard(3), Application::Standard(6)];
        all.extend((3..=17).map(Application::User));
        assert_eq!(applications(&all), ["SR Policy", "Flex-Algo", "standard 6", "user 3-17"]);
    }

    #[test]
    fn subjects_are_read_as_people_write_them() {
        assert_eq!(parse_subject("SR Policy"), Some(Subject::Standard(1)));
        assert_eq!(parse_subject("sr-policy"), Some(Subject::Standard(1)));
        assert_eq!(parse_subject("Flex-Algo"), Some(Subject::Standard(3)));
        assert_eq!(parse_subject("std 63"), Some(Subject::Standard(63)));
        assert_eq!(parse_subject("user5"), Some(Subject::User(5)));
        assert_eq!(parse_subject("std 64"), None);
        assert_eq!(parse_subject("user 31"), Some(Subject::User(31)));
        assert_eq!(parse_subject("user 32"), None);
        assert_eq!(parse_subject("users"), None);
    }

    #[test]
    fn the_first_applications_have_names() {
        for n in 0..64 {
            let standard = Application::Standard(n);
            assert_eq!(has_name(standard), !standard.to_string().starts_with("standard"));
        }
    }

    #[test]
    fn every_kind_has_a_short_name() {
        for k in KINDS.iter().filter(|k| !k.is_of_the_link()) {
            assert!(k.short.len() <= 9, "{}", k.short);
        }
    }
}
