//! Link attributes of applications (RFC 8919): read from an IS-IS link or from a BGP-LS run,
//! and a link written as BGP-LS TLVs (RFC 9294). This crate is a safe interface to the proved
//! library; it has no dependencies.
//!
//! A [`Link`] is three runs of bytes, a [`BgpLs`] is one. Both are asked for one kind of one
//! [`Subject`], and for the applications they name. Any bytes may be given: a call answers, or
//! is refused with a [`Refusal`].
//!
//! ```
//! use nakhshirul::{code, Answer, Link, Reading, Subject};
//!
//! // A TE metric of 10, one of 20 for SR Policy, and one of 30 for every other application.
//! let a = [
//!     0x12, 3, 0, 0, 10, // TE default metric
//!     0x10, 8, 1, 0, 0x40, 0x12, 3, 0, 0, 20, // ASLA that names SR Policy
//!     0x10, 7, 0, 0, 0x12, 3, 0, 0, 30, // ASLA that names nobody
//! ];
//! let link = Link { a: &a, b: &[], c: &[] };
//! let metric = |whom| link.ask(whom, code::TE_METRIC, &mut []);
//! assert_eq!(metric(Subject::Standard(0)), Answer::Found(Reading::Number(10)));
//! assert_eq!(metric(Subject::Standard(1)), Answer::Found(Reading::Number(20)));
//! assert_eq!(metric(Subject::User(5)), Answer::Found(Reading::Number(30)));
//!
//! // As BGP-LS TLVs it has 44 bytes, and they say the same.
//! let bytes = link.export_to_vec().unwrap();
//! assert_eq!(bytes.len(), 44);
//! let run = nakhshirul::BgpLs { run: &bytes };
//! assert_eq!(run.ask(Subject::Standard(1), code::TE_METRIC, &mut []), Answer::Found(Reading::Number(20)));
//! ```
//!
//! [`BgpLs::ask`] takes up to 776 KiB of stack where a run has more than 512 SRLGs for the subject, [`Link::export`]
//! 44 KiB, every other call less than 16 KiB.
#![warn(missing_docs)]

mod answers;
mod ffi;

pub use answers::{
    Answer, Application, Applications, Bandwidth, Iter, Kind, Part, Place, Reading, Refusal, Rule,
    Run, Subject, Why,
};

use answers::Reply;

/// The BGP-LS code points of the fourteen kinds.
pub mod code {
    /// Administrative group.
    pub const ADMINISTRATIVE_GROUP: u16 = 1088;
    /// Maximum link bandwidth.
    pub const MAXIMUM_LINK_BANDWIDTH: u16 = 1089;
    /// Maximum reservable bandwidth.
    pub const MAXIMUM_RESERVABLE_BANDWIDTH: u16 = 1090;
    /// Unreserved bandwidth.
    pub const UNRESERVED_BANDWIDTH: u16 = 1091;
    /// TE default metric.
    pub const TE_METRIC: u16 = 1092;
    /// Shared risk link groups.
    pub const SRLG: u16 = 1096;
    /// Unidirectional link delay.
    pub const DELAY: u16 = 1114;
    /// Minimum and maximum unidirectional link delay.
    pub const MIN_MAX_DELAY: u16 = 1115;
    /// Unidirectional delay variation.
    pub const DELAY_VARIATION: u16 = 1116;
    /// Unidirectional link loss.
    pub const LOSS: u16 = 1117;
    /// Unidirectional residual bandwidth.
    pub const RESIDUAL_BANDWIDTH: u16 = 1118;
    /// Unidirectional available bandwidth.
    pub const AVAILABLE_BANDWIDTH: u16 = 1119;
    /// Unidirectional utilised bandwidth.
    pub const UTILISED_BANDWIDTH: u16 = 1120;
    /// Extended administrative group.
    pub const EXTENDED_ADMINISTRATIVE_GROUP: u16 = 1173;
    /// All fourteen, ascending.
    pub const ALL: [u16; 14] = [
        1088, 1089, 1090, 1091, 1092, 1096, 1114, 1115, 1116, 1117, 1118, 1119, 1120, 1173,
    ];
}

/// No export is longer.
pub const LONGEST_EXPORT: usize = 233_588;

/// No answer of a link has more SRLGs.
pub const MOST_LINK_SRLGS: usize = 464;

/// No answer of a BGP-LS run has more SRLGs.
pub const MOST_RUN_SRLGS: usize = 131_064;

/// An IS-IS link.
#[derive(Clone, Copy, Debug, PartialEq, Eq)]
pub struct Link<'a> {
    /// The sub-TLVs of its neighbour entry, legacy attributes and ASLA sub-TLVs: at most 2,048 bytes.
    pub a: &'a [u8],
    /// Its TLVs of type 238 (Application-Specific SRLG), whole: at most 2,048 bytes.
    pub b: &'a [u8],
    /// Its legacy SRLG values, four bytes each: at most 1,024 bytes.
    pub c: &'a [u8],
}

impl<'a> Link<'a> {
    /// One kind of one subject. SRLGs go to the front of `list`, which is written for nothing else.
    ///
    /// ```
    /// use nakhshirul::{code, Answer, Link, Reading, Refusal, Subject};
    ///
    /// let link = Link { a: &[9, 4, 0x7F, 0xA1, 0x23, 0x45], b: &[], c: &[0, 0, 0, 9, 0, 0, 0, 2, 0, 0, 0, 9] };
    /// let mut list = [0; 4];
    /// let srlgs = link.ask(Subject::Standard(0), code::SRLG, &mut list);
    /// assert_eq!(srlgs, Answer::Found(Reading::Srlgs(&[2, 9])));
    /// assert_eq!(list, [2, 9, 0, 0]);
    ///
    /// // Too little room: refused, and nothing is written.
    /// let mut short = [0; 1];
    /// assert_eq!(link.ask(Subject::Standard(0), code::SRLG, &mut short), Answer::Refused(Refusal::NoRoom));
    /// assert_eq!(short, [0]);
    ///
    /// // The bits of a bandwidth are those in the run, the pattern of a NaN too.
    /// match link.ask(Subject::General, code::MAXIMUM_LINK_BANDWIDTH, &mut []) {
    ///     Answer::Found(Reading::Bandwidth(x)) => {
    ///         assert_eq!(x.bits(), 0x7FA1_2345);
    ///         assert!(x.bytes_per_second().is_nan());
    ///     }
    ///     other => panic!("{other:?}"),
    /// }
    ///
    /// // Absent is a normal answer; a standard application above 63 is none, nor is a user-defined one above 31.
    /// assert_eq!(link.ask(Subject::Standard(63), code::TE_METRIC, &mut []), Answer::Absent);
    /// assert_eq!(link.ask(Subject::User(31), code::TE_METRIC, &mut []), Answer::Absent);
    /// assert_eq!(link.ask(Subject::Standard(64), code::TE_METRIC, &mut []), Answer::Refused(Refusal::NoApplication));
    /// assert_eq!(link.ask(Subject::User(32), code::TE_METRIC, &mut []), Answer::Refused(Refusal::NoApplication));
    /// ```
    pub fn ask<'l>(&self, whom: Subject, code: u16, list: &'l mut [u32]) -> Answer<'a, 'l> {
        let mut reply = Reply::new();
        // SAFETY: each pointer is that of a slice and goes with its length; `reply` has four numbers.
        let status = unsafe {
            ffi::nakhshirul_ask(
                self.a.as_ptr(),
                self.a.len(),
                self.b.as_ptr(),
                self.b.len(),
                self.c.as_ptr(),
                self.c.len(),
                whom.who(),
                whom.number(),
                code,
                list.as_mut_ptr(),
                list.len(),
                reply.as_mut_ptr(),
            )
        };
        reply.answer(status, self.a, list)
    }

    /// The value of the same question as it was sent, a part of `a`; none where it is absent,
    /// refused, or SRLG.
    ///
    /// ```
    /// use nakhshirul::{code, Link, Run, Subject};
    ///
    /// let link = Link { a: &[0x12, 3, 0, 0, 10], b: &[], c: &[] };
    /// let part = link.value(Subject::Standard(0), code::TE_METRIC).unwrap();
    /// assert_eq!((part.run, part.offset, part.bytes), (Run::A, 2, &[0, 0, 10][..]));
    /// assert_eq!(link.value(Subject::Standard(1), code::TE_METRIC), None);
    /// ```
    pub fn value(&self, whom: Subject, code: u16) -> Option<Part<'a>> {
        let mut reply = Reply::new();
        // SAFETY: as in `ask`.
        let status = unsafe {
            ffi::nakhshirul_value(
                self.a.as_ptr(),
                self.a.len(),
                self.b.as_ptr(),
                self.b.len(),
                self.c.as_ptr(),
                self.c.len(),
                whom.who(),
                whom.number(),
                code,
                reply.as_mut_ptr(),
            )
        };
        reply.part(status, self.a)
    }

    /// By which rule the subject gets the kind, and which advertisement decides. Every question that
    /// [`Link::ask`] answers has an answer here, found or absent.
    ///
    /// ```
    /// use nakhshirul::{code, Link, Place, Rule, Run, Subject};
    ///
    /// let a = [
    ///     0x12, 3, 0, 0, 10, // TE metric
    ///     0x10, 3, 0x81, 0, 0x40, // ASLA with the L-flag that names SR Policy
    ///     0x10, 7, 0, 0, 0x12, 3, 0, 0, 30, // ASLA that names nobody
    /// ];
    /// let link = Link { a: &a, b: &[], c: &[] };
    /// let why = link.why(Subject::Standard(1), code::TE_METRIC).unwrap();
    /// assert_eq!(why.rule, Rule::LFlag);
    /// assert_eq!(why.advertisement, Some(Place { run: Run::A, offset: 5, fragment: 0 }));
    ///
    /// let why = link.why(Subject::Standard(2), code::TE_METRIC).unwrap();
    /// assert_eq!((why.rule, why.advertisement.unwrap().offset), (Rule::Unnamed, 10));
    ///
    /// // RSVP-TE is named nowhere: its values are the legacy ones, be there one of the kind or not.
    /// let why = link.why(Subject::Standard(0), code::DELAY).unwrap();
    /// assert_eq!((why.rule, why.advertisement, why.legacy), (Rule::Legacy, None, Some(Run::A)));
    ///
    /// // Where there is no legacy value of any kind of applications, the general set is RSVP-TE's too.
    /// let link = Link { a: &a[10..], b: &[], c: &[] };
    /// let why = link.why(Subject::Standard(0), code::TE_METRIC).unwrap();
    /// assert_eq!((why.rule, why.advertisement.unwrap().offset), (Rule::Unnamed, 0));
    /// ```
    pub fn why(&self, whom: Subject, code: u16) -> Result<Why, Refusal> {
        let mut reply = Reply::new();
        // SAFETY: as in `ask`.
        let status = unsafe {
            ffi::nakhshirul_why(
                self.a.as_ptr(),
                self.a.len(),
                self.b.as_ptr(),
                self.b.len(),
                self.c.as_ptr(),
                self.c.len(),
                whom.who(),
                whom.number(),
                code,
                reply.as_mut_ptr(),
            )
        };
        reply.why(status)
    }

    /// The applications other than RSVP-TE that the link names.
    ///
    /// ```
    /// use nakhshirul::{Application, Link};
    ///
    /// let a = [0x10, 4, 1, 1, 0b1110_0000, 0b1000_0000];
    /// let named = Link { a: &a, b: &[], c: &[] }.named().unwrap();
    /// assert_eq!(named.len(), 3);
    /// let all: Vec<Application> = named.iter().collect();
    /// assert_eq!(all, [Application::Standard(1), Application::Standard(2), Application::User(0)]);
    ///
    /// // User bits from 32 on are retired: a mask of such bits alone names nobody.
    /// let a = [0x10, 7, 0, 5, 0, 0, 0, 0, 0xFF];
    /// assert!(Link { a: &a, b: &[], c: &[] }.named().unwrap().is_empty());
    /// ```
    pub fn named(&self) -> Result<Applications, Refusal> {
        let mut reply = Reply::new();
        // SAFETY: as in `ask`.
        let status = unsafe {
            ffi::nakhshirul_named(
                self.a.as_ptr(),
                self.a.len(),
                self.b.as_ptr(),
                self.b.len(),
                self.c.as_ptr(),
                self.c.len(),
                reply.as_mut_ptr(),
            )
        };
        reply.named(status)
    }

    /// The link as BGP-LS TLVs, written to the front of `out`; what was written is the answer. A
    /// refused call writes nothing.
    ///
    /// ```
    /// use nakhshirul::{Link, Refusal, Run};
    ///
    /// let link = Link { a: &[0x12, 3, 0, 0, 10], b: &[], c: &[] };
    /// let mut out = [0xEE; 9];
    /// assert_eq!(link.export(&mut out).unwrap(), [0x04, 0x44, 0, 4, 0, 0, 0, 10]);
    /// assert_eq!(out[8], 0xEE);
    /// assert_eq!(link.export(&mut out[..7]), Err(Refusal::NoRoom));
    ///
    /// let cut = Link { a: &[0x12, 3, 0, 0, 10, 0x12], b: &[], c: &[] };
    /// assert_eq!(cut.export(&mut out), Err(Refusal::Cut { run: Run::A, offset: 5, fragment: 0 }));
    /// ```
    pub fn export<'o>(&self, out: &'o mut [u8]) -> Result<&'o [u8], Refusal> {
        let mut reply = Reply::new();
        // SAFETY: as in `ask`.
        let status = unsafe {
            ffi::nakhshirul_export(
                self.a.as_ptr(),
                self.a.len(),
                self.b.as_ptr(),
                self.b.len(),
                self.c.as_ptr(),
                self.c.len(),
                out.as_mut_ptr(),
                out.len(),
                reply.as_mut_ptr(),
            )
        };
        reply.written(status, out)
    }

    /// How many bytes [`Link::export`] writes; refused as it is, but never by `NoRoom`.
    ///
    /// ```
    /// use nakhshirul::Link;
    ///
    /// assert_eq!(Link { a: &[0x12, 3, 0, 0, 10], b: &[], c: &[] }.export_length(), Ok(8));
    /// ```
    pub fn export_length(&self) -> Result<usize, Refusal> {
        let mut reply = Reply::new();
        // SAFETY: as in `ask`.
        let status = unsafe {
            ffi::nakhshirul_export_length(
                self.a.as_ptr(),
                self.a.len(),
                self.b.as_ptr(),
                self.b.len(),
                self.c.as_ptr(),
                self.c.len(),
                reply.as_mut_ptr(),
            )
        };
        reply.length(status)
    }

    /// The export, in a vector of its own.
    ///
    /// ```
    /// use nakhshirul::Link;
    ///
    /// assert_eq!(Link { a: &[], b: &[], c: &[] }.export_to_vec(), Ok(Vec::new()));
    /// ```
    pub fn export_to_vec(&self) -> Result<Vec<u8>, Refusal> {
        let mut out = vec![0; self.export_length()?];
        self.export(&mut out)?;
        Ok(out)
    }
}

/// A BGP-LS run: the TLVs of a Link Attribute, whoever wrote them.
#[derive(Clone, Copy, Debug, PartialEq, Eq)]
pub struct BgpLs<'a> {
    /// Its bytes, at most 524,288.
    pub run: &'a [u8],
}

impl<'a> BgpLs<'a> {
    /// One kind of one subject, as [`Link::ask`].
    ///
    /// ```
    /// use nakhshirul::{code, Answer, BgpLs, Reading, Refusal, Run, Subject};
    ///
    /// let run = BgpLs { run: &[0x04, 0x5B, 0, 8, 0, 0, 0, 1, 0, 0, 0, 3] };
    /// let delay = run.ask(Subject::Standard(0), code::MIN_MAX_DELAY, &mut []);
    /// assert_eq!(delay, Answer::Found(Reading::Pair(1, 3)));
    ///
    /// // A TE metric has four bytes in BGP-LS.
    /// let run = BgpLs { run: &[0, 1, 0, 0, 0x04, 0x44, 0, 3, 0, 0, 10] };
    /// let wrong = run.ask(Subject::Standard(0), code::TE_METRIC, &mut []);
    /// assert_eq!(wrong, Answer::Refused(Refusal::Length { run: Run::BgpLs, offset: 4, fragment: 0 }));
    /// ```
    pub fn ask<'l>(&self, whom: Subject, code: u16, list: &'l mut [u32]) -> Answer<'a, 'l> {
        let mut reply = Reply::new();
        // SAFETY: as in `Link::ask`.
        let status = unsafe {
            ffi::nakhshirul_run_ask(
                self.run.as_ptr(),
                self.run.len(),
                whom.who(),
                whom.number(),
                code,
                list.as_mut_ptr(),
                list.len(),
                reply.as_mut_ptr(),
            )
        };
        reply.answer(status, self.run, list)
    }

    /// The value of the same question, a part of the run, as [`Link::value`].
    ///
    /// ```
    /// use nakhshirul::{code, BgpLs, Subject};
    ///
    /// let run = BgpLs { run: &[0x04, 0x95, 0, 4, 0, 0, 0, 2] };
    /// let part = run.value(Subject::Standard(0), code::EXTENDED_ADMINISTRATIVE_GROUP).unwrap();
    /// assert_eq!((part.offset, part.bytes), (4, &[0, 0, 0, 2][..]));
    /// ```
    pub fn value(&self, whom: Subject, code: u16) -> Option<Part<'a>> {
        let mut reply = Reply::new();
        // SAFETY: as in `Link::ask`.
        let status = unsafe {
            ffi::nakhshirul_run_value(
                self.run.as_ptr(),
                self.run.len(),
                whom.who(),
                whom.number(),
                code,
                reply.as_mut_ptr(),
            )
        };
        reply.part(status, self.run)
    }

    /// By which rule the subject gets the kind, as [`Link::why`].
    ///
    /// ```
    /// use nakhshirul::{code, BgpLs, Rule, Subject};
    ///
    /// // An ASLA TLV that names nobody, with a TE metric of 30.
    /// let run = BgpLs { run: &[0x04, 0x62, 0, 12, 0, 0, 0, 0, 0x04, 0x44, 0, 4, 0, 0, 0, 30] };
    /// let why = run.why(Subject::User(5), code::TE_METRIC).unwrap();
    /// assert_eq!((why.rule, why.advertisement.unwrap().offset), (Rule::Unnamed, 0));
    /// assert_eq!(run.why(Subject::Standard(0), code::TE_METRIC).unwrap().rule, Rule::Top);
    /// ```
    pub fn why(&self, whom: Subject, code: u16) -> Result<Why, Refusal> {
        let mut reply = Reply::new();
        // SAFETY: as in `Link::ask`.
        let status = unsafe {
            ffi::nakhshirul_run_why(
                self.run.as_ptr(),
                self.run.len(),
                whom.who(),
                whom.number(),
                code,
                reply.as_mut_ptr(),
            )
        };
        reply.why(status)
    }

    /// The applications other than RSVP-TE that the run names.
    ///
    /// ```
    /// use nakhshirul::{Application, BgpLs};
    ///
    /// // An ASLA TLV that names SR Policy and carries nothing.
    /// let run = BgpLs { run: &[0x04, 0x62, 0, 8, 4, 0, 0, 0, 0x40, 0, 0, 0] };
    /// let named = run.named().unwrap();
    /// assert!(named.contains(Application::Standard(1)));
    /// assert_eq!(named.iter().count(), 1);
    /// ```
    pub fn named(&self) -> Result<Applications, Refusal> {
        let mut reply = Reply::new();
        // SAFETY: as in `Link::ask`.
        let status = unsafe {
            ffi::nakhshirul_run_named(self.run.as_ptr(), self.run.len(), reply.as_mut_ptr())
        };
        reply.named(status)
    }
}
