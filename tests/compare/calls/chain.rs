//! The chain of ASnd and StatusResponse: the Rust's, on the payload that reading gives; and the box's, which reads the
//! section from octet 4 on, untrimmed (01). They differ only on sections of 46 octets, as docs/DIFFERENCES.md has it.
use crate::Run;
use crate::case::*;
use crate::ours::{self, Boxed};
use crate::random::{Random, status};
use crate::theirs;
use powerlink_rs::PowerlinkError;
use powerlink_rs::frame::error::ErrorEntry;
use powerlink_rs::frame::{PowerlinkFrame, StatusResponsePayload, deserialize_frame};

#[derive(Default)]
pub struct Counts {
    equal: u64,
    refused: u64,
    lost: u64,
    boxed: [u64; 3],
    left_out: u64,
}

impl Counts {
    pub fn print(&self) {
        let [refused, known, booked] = self.boxed;
        println!(
            "the chain: {} frames as the box's rule, {} refused for trimming, {} with an entry lost by trimming",
            self.equal, self.refused, self.lost
        );
        println!(
            "a fresh box, as the Rust's reader of the untrimmed payload: {refused} refused, {known} known, {booked} booked, {} of \
             them without status entries that the Rust reads",
            self.left_out
        );
    }

    pub fn missing(&self) -> bool {
        self.equal == 0 || self.refused == 0 || self.lost == 0 || self.boxed.contains(&0) || self.left_out == 0
    }
}

type Read = Result<StatusResponsePayload, PowerlinkError>;

/// The entries that the box books: those with bit 15 clear (02, CR 2).
fn bookable(s: &StatusResponsePayload) -> impl Iterator<Item = &ErrorEntry> {
    s.error_entries.iter().filter(|entry| !entry.entry_type.is_status_entry)
}

/// What the box has to make of a payload.
fn expected(read: &Read) -> Result<Boxed, String> {
    Ok(match read {
        Err(e) => {
            let (number, octet) = theirs::cause(*e)?;
            Boxed::Refused(number, octet.unwrap_or(0))
        }
        Ok(s) if !s.en_flag => Boxed::Known,
        Ok(s) if bookable(s).count() > 64 => Boxed::Refused(12, 0),
        Ok(s) => Boxed::Booked(bookable(s).map(theirs::entry_values).collect()),
    })
}

/// Where the two part: the payload is trimmed below the 14 octets of the front, or into its only entry.
pub enum Part {
    Equal,
    Refused,
    Lost,
}

pub fn part(chain: &Read, whole: &Read, section: &[u8], trimmed: usize) -> Option<Part> {
    if section.len() == 46 && trimmed < 14 {
        let none = whole.as_ref().map_or(true, |s| s.error_entries.is_empty());
        return (none && *chain == Err(PowerlinkError::BufferTooShort)).then_some(Part::Refused);
    }
    if let (46, 14..34, Ok(c), Ok(w)) = (section.len(), trimmed, chain, whole)
        && w.error_entries.len() == 1
    {
        let without = StatusResponsePayload { error_entries: Vec::new(), ..w.clone() };
        return (*c == without).then_some(Part::Lost);
    }
    (chain == whole).then_some(Part::Equal)
}

/// One frame, an ASnd of service 2 from node `id`.
pub fn check(run: &mut Run, case: &mut Case, state: &mut Case, id: u8) -> Result<(), String> {
    run.check(case);
    let f = &case.bytes[0];
    let Ok(PowerlinkFrame::ASnd(asnd)) = deserialize_frame(f) else {
        return Err("an ASnd is not read as one".into());
    };
    let chain = StatusResponsePayload::deserialize(&asnd.payload);
    let whole = StatusResponsePayload::deserialize(&f[18..]);
    // Our calls chained as the Rust's, then as the box does it.
    for payload in [&asnd.payload[..], &f[18..]] {
        state.bytes[0].clear();
        state.bytes[0].extend_from_slice(payload);
        run.check(state);
    }
    let boxed = ours::boxed(id, f);
    if boxed != expected(&whole)? {
        return Err(format!("the box makes {boxed:?} of it, the Rust {whole:?}"));
    }
    if let (Boxed::Booked(entries), Ok(s)) = (&boxed, &whole) {
        run.chain.left_out += u64::from(entries.len() < s.error_entries.len());
    }
    run.chain.boxed[match boxed {
        Boxed::Refused(..) => 0,
        Boxed::Known => 1,
        Boxed::Booked(_) => 2,
    }] += 1;
    match part(&chain, &whole, &f[14..], asnd.payload.len()) {
        Some(Part::Equal) => run.chain.equal += 1,
        Some(Part::Refused) => run.chain.refused += 1,
        Some(Part::Lost) => run.chain.lost += 1,
        None => return Err(format!("the chain gives {chain:?}, the untrimmed payload {whole:?}")),
    }
    Ok(())
}

pub fn all(run: &mut Run, factor: u64, seed: u64) {
    let r = &mut Random(seed.wrapping_mul(2) ^ 0x7777_0000_7777_0001);
    let (case, state) = (&mut Case::new(FRAME), &mut Case::new(STATUS));
    let mut payload = Vec::new();
    for i in 0..300_000 * factor {
        let id = 1 + r.below(239) as u8;
        status(r, &mut payload, 3);
        if i % 4 != 0 {
            payload.resize(42, 0);
            let keep = r.below(43);
            payload[keep..].fill(0);
        }
        let f = &mut case.bytes[0];
        f.clear();
        f.extend_from_slice(&[1, 0x11, 0x1E, 0, 0, 4, 0, 0, 0, 0, 0, id, 0x88, 0xAB, 6, r.octet(), id, 2]);
        f.extend_from_slice(&payload);
        if let Err(text) = check(run, case, state, id) {
            run.fail(format!("chain of {}: {text}", hex(&case.bytes[0])));
        }
    }
}
