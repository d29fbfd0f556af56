//! Rows of the error exchange: our states against the structs of plain.rs, both brought to the same point by the same calls.
use crate::inputs::{Random, Targets};
use crate::ours::*;
use crate::rows::{Group, Row, Side, calls, changes};
use plain::{AnswerFields, Collector, CollectorRead, ExchangeError, Reporter, ReporterRead, RequestFields};
use powerlink_rs::frame::error::ErrorEntry;
use powerlink_rs::types::{EPLVersion, NodeId};
use std::hint::black_box;

const IDS: [u8; 4] = [7, 33, 108, 239];

/// How many reporters and collectors a lap of a call that changes them goes over.
const REPORTERS: usize = 64;
const COLLECTORS: usize = 8;

/// A reporter of each side.
#[derive(Clone)]
struct ReporterPair {
    ours: ReporterState,
    theirs: Reporter,
}

/// A collector of each side.
#[derive(Clone)]
struct CollectorPair {
    ours: CollectorState,
    theirs: Collector,
}

fn our_raise(state: &mut ReporterState, e: &ErrorEntry) -> u8 {
    let (kind, time) = (e.entry_type, e.timestamp);
    unsafe {
        powerlink_reporter_raise(
            state,
            kind.is_status_entry,
            kind.send_to_queue,
            kind.mode as u8,
            kind.profile,
            e.error_code,
            time.seconds,
            time.nanoseconds,
            e.additional_information,
        )
    }
}

fn our_answer(state: &mut ReporterState, f: &AnswerFields, target: &mut [u8], written: &mut usize) -> u8 {
    let bits = f.static_error_bit_field;
    let mut field = [bits.error_register; 8];
    field[1..].copy_from_slice(&bits.specific_errors);
    let (mac, dest, pr, rs, mut octet) = (&f.source_mac.0, &f.dest_mac.0, f.pr as u8, f.rs.get(), 0);
    unsafe {
        powerlink_reporter_answer_v2(
            state,
            &DS301,
            mac,
            dest,
            f.ec_flag,
            pr,
            rs,
            f.nmt_state as u8,
            &field,
            target.as_mut_ptr(),
            target.len(),
            written,
            &mut octet,
        )
    }
}

fn our_reporter_read(state: &mut ReporterState, frame: &[u8], outcome: &mut u8) -> u8 {
    let mut octet = 0;
    unsafe { powerlink_reporter_read_v2(state, &DS301, frame.as_ptr(), frame.len(), outcome, &mut octet) }
}

fn our_collector_read(state: &mut CollectorState, frame: &[u8], outcome: &mut u8) -> u8 {
    let mut octet = 0;
    unsafe { powerlink_collector_read_v2(state, &DS301, frame.as_ptr(), frame.len(), outcome, &mut octet) }
}

fn our_request(state: &CollectorState, id: u8, f: &RequestFields, target: &mut [u8], written: &mut usize) -> u8 {
    let mut octet = 0;
    let (mac, nmt_state, version) = (&f.source_mac.0, f.nmt_state as u8, f.epl_version.0);
    unsafe {
        powerlink_collector_request(
            state,
            id,
            mac,
            nmt_state,
            version,
            target.as_mut_ptr(),
            target.len(),
            written,
            &mut octet,
        )
    }
}

impl ReporterPair {
    fn new(id: u8, waiting: usize, random: &mut Random) -> ReporterPair {
        let mut reporter = ReporterPair { ours: [0; REPORTER_LEN], theirs: Reporter::new(NodeId(id)).expect("an ID") };
        assert_eq!(unsafe { powerlink_reporter_new_v2(&mut reporter.ours, id) }, 0);
        for _ in 0..waiting {
            let entry = random.history_entry();
            assert_eq!((our_raise(&mut reporter.ours, &entry), reporter.theirs.raise(entry)), (0, Ok(())));
        }
        reporter
    }

    /// The frame, which both write.
    fn answer(&mut self, fields: &AnswerFields) -> Vec<u8> {
        let (mut a, mut b, mut n) = ([0xFC; 200], [0xFC; 200], 0);
        assert_eq!(our_answer(&mut self.ours, fields, &mut a, &mut n), 0);
        assert_eq!(self.theirs.answer(fields, &mut b), Ok(n));
        assert_eq!(a, b);
        a[..n].to_vec()
    }

    fn read(&mut self, frame: &[u8], as_expected: ReporterRead) {
        let mut outcome = 0;
        assert_eq!(
            (our_reporter_read(&mut self.ours, frame, &mut outcome), self.theirs.read(frame)),
            (0, Ok(as_expected))
        );
        assert_eq!(outcome, as_expected as u8);
    }
}

impl CollectorPair {
    fn new(ids: &[u8]) -> CollectorPair {
        let mut both = CollectorPair { ours: [0xFC; COLLECTOR_LEN], theirs: Collector::new() };
        unsafe { powerlink_collector_new_v2(&mut both.ours) };
        for id in ids {
            let ours = unsafe { powerlink_collector_register(&mut both.ours, *id) };
            assert_eq!((ours, both.theirs.register(NodeId(*id))), (0, Ok(())));
        }
        both
    }

    fn read(&mut self, frame: &[u8], as_expected: CollectorRead) {
        let mut outcome = 0;
        assert_eq!(
            (our_collector_read(&mut self.ours, frame, &mut outcome), self.theirs.read(frame)),
            (0, Ok(as_expected))
        );
        assert_eq!(outcome, as_expected as u8);
    }

    fn request(&self, id: u8, fields: &RequestFields) -> Vec<u8> {
        let (mut a, mut b, mut n) = ([0xFC; 200], [0xFC; 200], 0);
        assert_eq!(our_request(&self.ours, id, fields, &mut a, &mut n), 0);
        assert_eq!(self.theirs.request(NodeId(id), fields, &mut b), Ok(n));
        assert_eq!(a, b);
        a[..n].to_vec()
    }

    fn take(&mut self, id: u8) {
        let mut v = [0; 8];
        assert_eq!(unsafe { powerlink_collector_take(&mut self.ours, id, &mut v) }, 0);
        let e = self.theirs.take(NodeId(id)).expect("an entry");
        let (kind, time) = (e.entry_type, e.timestamp);
        let numbers = [kind.is_status_entry as u64, kind.send_to_queue as u64, kind.mode as u64, kind.profile as u64];
        assert_eq!(v[..4], numbers);
        assert_eq!(
            v[4..],
            [e.error_code as u64, time.seconds as u64, time.nanoseconds as u64, e.additional_information]
        );
    }
}

/// Where the entries of an answer begin: behind the Ethernet header, the fields of the ASnd and the front of the StatusResponse.
const ENTRIES_AT: usize = 14 + 4 + 14;

const ENTRY_LEN: usize = 20;

/// Both sides refuse a status entry, and leave those of a frame out of the book.
fn status_entries_stay_out(fields: &AnswerFields, random: &mut Random) {
    let mut reporter = ReporterPair::new(IDS[0], 4, random);
    let mut entry = random.history_entry();
    entry.entry_type.is_status_entry = true;
    assert_eq!(
        (our_raise(&mut reporter.ours, &entry), reporter.theirs.raise(entry)),
        (23, Err(ExchangeError::StatusEntry))
    );
    // The second and the fourth of four become status entries on the way.
    let mut frame = reporter.answer(fields);
    for entry in [1, 3] {
        frame[ENTRIES_AT + entry * ENTRY_LEN + 1] |= 0x80;
    }
    let mut both = CollectorPair::new(&IDS);
    both.read(&frame, CollectorRead::Booked);
    both.take(IDS[0]);
    both.take(IDS[0]);
    let ours = unsafe { powerlink_collector_take(&mut both.ours, IDS[0], &mut [0; 8]) };
    assert_eq!((ours, both.theirs.take(NodeId(IDS[0]))), (16, Err(ExchangeError::NothingBooked)));
}

struct Rows<'a> {
    rows: &'a mut Vec<Row>,
}

impl Rows<'_> {
    fn push(&mut self, name: &str, calls: usize, ours: Side, theirs: Side) {
        self.rows.push(Row::new(Group::Exchange, name, calls, ours, theirs));
    }

    /// Calls that leave a reporter as it is.
    fn reporter_calls(
        &mut self,
        name: &str,
        reporter: &ReporterPair,
        mut ours: impl FnMut(&mut ReporterState) + 'static,
        mut theirs: impl FnMut(&mut Reporter) + 'static,
    ) {
        let ReporterPair { ours: mut a, theirs: mut b } = reporter.clone();
        let ours = calls(move || ours(black_box(&mut a)));
        let theirs = calls(move || theirs(black_box(&mut b)));
        self.push(name, 1, ours, theirs);
    }

    /// Calls that leave a collector as it is.
    fn collector_calls(
        &mut self,
        name: &str,
        both: &CollectorPair,
        mut ours: impl FnMut(&mut CollectorState) + 'static,
        mut theirs: impl FnMut(&mut Collector) + 'static,
    ) {
        let CollectorPair { ours: mut a, theirs: mut b } = both.clone();
        let ours = calls(move || ours(black_box(&mut a)));
        let theirs = calls(move || theirs(black_box(&mut b)));
        self.push(name, 1, ours, theirs);
    }

    /// Calls that change reporters, `calls` for each.
    fn reporter_changes(
        &mut self,
        name: &str,
        reporters: &[ReporterPair],
        calls: usize,
        mut ours: impl FnMut(&mut ReporterState) + 'static,
        mut theirs: impl FnMut(&mut Reporter) + 'static,
    ) {
        let a = reporters.iter().map(|h| h.ours).collect();
        let b = reporters.iter().map(|h| h.theirs.clone()).collect();
        let ours = changes(a, move |states: &mut [ReporterState]| states.iter_mut().for_each(|s| ours(black_box(s))));
        let theirs = changes(b, move |states: &mut [Reporter]| states.iter_mut().for_each(|s| theirs(black_box(s))));
        self.rows.push(Row::new(Group::Exchange, name, reporters.len() * calls, ours, theirs).is_timed_whole());
    }

    /// Calls that change collectors, `calls` for each.
    fn collector_changes(
        &mut self,
        name: &str,
        both: &CollectorPair,
        calls: usize,
        mut ours: impl FnMut(&mut CollectorState) + 'static,
        mut theirs: impl FnMut(&mut Collector) + 'static,
    ) {
        let ours = changes(vec![both.ours; COLLECTORS], move |states: &mut [CollectorState]| {
            states.iter_mut().for_each(|s| ours(black_box(s)))
        });
        let theirs = changes(vec![both.theirs.clone(); COLLECTORS], move |states: &mut [Collector]| {
            states.iter_mut().for_each(|s| theirs(black_box(s)))
        });
        self.rows.push(Row::new(Group::Exchange, name, COLLECTORS * calls, ours, theirs).is_timed_whole());
    }
}

/// One answer of each reporter.
fn our_answers<'a>(
    reporters: impl Iterator<Item = &'a mut ReporterState>,
    fields: &AnswerFields,
    targets: &mut Targets,
) {
    for (s, target) in reporters.zip(targets.each()) {
        let mut written = 0;
        black_box(our_answer(black_box(s), black_box(fields), target, &mut written));
        black_box(target.as_mut_ptr());
    }
}

fn their_answers<'a>(reporters: impl Iterator<Item = &'a mut Reporter>, fields: &AnswerFields, targets: &mut Targets) {
    for (s, target) in reporters.zip(targets.each()) {
        black_box(&black_box(s).answer(black_box(fields), target));
        black_box(target.as_mut_ptr());
    }
}

/// Reporters that answer once each; the answers change them.
fn answer_changes(rows: &mut Rows, name: &str, reporters: &[ReporterPair], fields: AnswerFields) {
    let (mut targets, mut their_targets) = (Targets::new(), Targets::new());
    let ours = changes(reporters.iter().map(|h| h.ours).collect(), move |states: &mut [ReporterState]| {
        states.chunks_mut(Targets::COUNT).for_each(|states| our_answers(states.iter_mut(), &fields, &mut targets))
    });
    let theirs = changes(reporters.iter().map(|h| h.theirs.clone()).collect(), move |states: &mut [Reporter]| {
        states
            .chunks_mut(Targets::COUNT)
            .for_each(|states| their_answers(states.iter_mut(), &fields, &mut their_targets))
    });
    rows.rows.push(Row::new(Group::Exchange, name, reporters.len(), ours, theirs).is_timed_whole());
}

/// Reporters that answer without being changed.
fn answer_calls(rows: &mut Rows, name: &str, reporters: &[ReporterPair], fields: AnswerFields) {
    let reporters = &reporters[..Targets::COUNT];
    let (mut a, mut b): (Vec<ReporterState>, Vec<Reporter>) =
        reporters.iter().map(|h| (h.ours, h.theirs.clone())).unzip();
    let (mut targets, mut their_targets) = (Targets::new(), Targets::new());
    let ours = calls(move || our_answers(a.iter_mut(), &fields, &mut targets));
    let theirs = calls(move || their_answers(b.iter_mut(), &fields, &mut their_targets));
    rows.push(name, reporters.len(), ours, theirs);
}

fn reporters_reading(frame: Vec<u8>) -> (impl Fn(&mut ReporterState), impl Fn(&mut Reporter)) {
    let mine = frame.clone();
    let ours = move |s: &mut ReporterState| {
        let mut outcome = 0;
        black_box(our_reporter_read(s, black_box(&mine[..]), &mut outcome));
        black_box(outcome);
    };
    let theirs = move |s: &mut Reporter| {
        black_box(&s.read(black_box(&frame[..])));
    };
    (ours, theirs)
}

fn collectors_reading(frames: Vec<Vec<u8>>) -> (impl Fn(&mut CollectorState), impl Fn(&mut Collector)) {
    let mine = frames.clone();
    let ours = move |s: &mut CollectorState| {
        for frame in &mine {
            let mut outcome = 0;
            black_box(our_collector_read(s, black_box(&frame[..]), &mut outcome));
            black_box(outcome);
        }
    };
    let theirs = move |s: &mut Collector| {
        for frame in &frames {
            black_box(&s.read(black_box(&frame[..])));
        }
    };
    (ours, theirs)
}

pub fn rows(random: &mut Random, rows: &mut Vec<Row>) {
    let mut rows = Rows { rows };
    let id = IDS[1];
    let fields = AnswerFields {
        source_mac: random.mac(),
        dest_mac: random.mac(),
        ec_flag: false,
        pr: random.pr(),
        rs: random.rs(),
        nmt_state: random.state(),
        static_error_bit_field: random.field(),
    };
    let request = RequestFields { source_mac: random.mac(), nmt_state: random.state(), epl_version: EPLVersion(0x20) };
    status_entries_stay_out(&fields, &mut Random(1));

    // The reporter. Entries wait; then a batch is open.
    let fresh: Vec<ReporterPair> = (0..REPORTERS).map(|_| ReporterPair::new(id, 0, random)).collect();
    let entries: Vec<ErrorEntry> = (0..16).map(|_| random.history_entry()).collect();
    let mine = entries.clone();
    rows.reporter_changes(
        "raise",
        &fresh,
        entries.len(),
        move |s| mine.iter().for_each(|e| _ = black_box(our_raise(s, black_box(e)))),
        move |s| entries.iter().for_each(|e| _ = black_box(&s.raise(*black_box(e)))),
    );
    let full = ReporterPair::new(id, 16, random);
    let entry = random.history_entry();
    rows.reporter_calls(
        "raise, refused: queue full",
        &full,
        move |s| _ = black_box(our_raise(s, black_box(&entry))),
        move |s| _ = black_box(&s.raise(*black_box(&entry))),
    );
    answer_calls(&mut rows, "answer, no entries", &fresh, fields);
    let waiting: Vec<ReporterPair> = (0..REPORTERS).map(|_| ReporterPair::new(id, 16, random)).collect();
    answer_changes(&mut rows, "answer, opens a batch of 4", &waiting, fields);
    let mut open = waiting.clone();
    let answer = open.iter_mut().map(|h| h.answer(&fields)).collect::<Vec<_>>().swap_remove(0);
    answer_calls(&mut rows, "answer, repeats a batch of 4", &open, fields);

    let mut asking = CollectorPair::new(&IDS);
    let kept = asking.request(id, &request);
    open[0].clone().read(&kept, ReporterRead::Kept);
    let (ours, theirs) = reporters_reading(kept);
    rows.reporter_calls("reporter reads SoA, kept", &open[0], ours, theirs);
    let other = asking.request(IDS[0], &request);
    open[0].clone().read(&other, ReporterRead::Ignored);
    let (ours, theirs) = reporters_reading(other);
    rows.reporter_calls("reporter reads SoA, ignored", &open[0], ours, theirs);
    asking.read(&answer, CollectorRead::Booked);
    let closes = asking.request(id, &request);
    open[0].clone().read(&closes, ReporterRead::Closed);
    let (ours, theirs) = reporters_reading(closes);
    rows.reporter_changes("reporter reads SoA, closes", &open, 1, ours, theirs);
    for n in [36, 1490] {
        let mut preq = random.preq(n);
        preq.destination = NodeId(id);
        preq.flags.ea = false;
        let mut frame = vec![0; 1600];
        let len = plain::write_frame(&powerlink_rs::frame::PowerlinkFrame::PReq(preq), &mut frame).expect("it fits");
        frame.truncate(len);
        open[0].clone().read(&frame, ReporterRead::Kept);
        let (ours, theirs) = reporters_reading(frame);
        rows.reporter_calls(&format!("reporter reads PReq, payload {n}, kept"), &open[0], ours, theirs);
    }

    // The collector.
    rows.collector_changes(
        "register",
        &CollectorPair::new(&[]),
        IDS.len(),
        |s| IDS.iter().for_each(|id| _ = black_box(unsafe { powerlink_collector_register(s, *black_box(id)) })),
        |s| IDS.iter().for_each(|id| _ = black_box(&s.register(NodeId(*black_box(id))))),
    );
    // A reporter's 16 batches of 4, which fill its book.
    let mut filled = CollectorPair::new(&IDS);
    let mut answers = Vec::new();
    for id in IDS {
        let mut reporter = ReporterPair::new(id, 0, random);
        for _ in 0..16 {
            for _ in 0..4 {
                let entry = random.history_entry();
                assert_eq!((our_raise(&mut reporter.ours, &entry), reporter.theirs.raise(entry)), (0, Ok(())));
            }
            answers.push(reporter.answer(&fields));
            filled.read(answers.last().expect("one"), CollectorRead::Booked);
            reporter.read(&filled.request(id, &request), ReporterRead::Closed);
        }
    }
    let known = answers[15].clone();
    filled.clone().read(&known, CollectorRead::Known);
    let n = answers.len();
    let (ours, theirs) = collectors_reading(answers);
    rows.collector_changes("collector reads, books 4 entries", &CollectorPair::new(&IDS), n, ours, theirs);
    let (ours, theirs) = collectors_reading(vec![known]);
    rows.collector_calls("collector reads, known, 4 entries", &filled, ours, theirs);
    let none = ReporterPair::new(id, 0, random).answer(&fields);
    filled.clone().read(&none, CollectorRead::Known);
    let (ours, theirs) = collectors_reading(vec![none]);
    rows.collector_calls("collector reads, known, no entries", &filled, ours, theirs);
    let (a, b) = (filled.ours, filled.theirs.clone());
    let (mut targets, mut their_targets) = (Targets::new(), Targets::new());
    let ours = calls(move || {
        for target in targets.each() {
            let mut written = 0;
            black_box(our_request(black_box(&a), black_box(id), black_box(&request), target, &mut written));
            black_box(target.as_mut_ptr());
        }
    });
    let theirs = calls(move || {
        for target in their_targets.each() {
            black_box(&black_box(&b).request(NodeId(black_box(id)), black_box(&request), target));
            black_box(target.as_mut_ptr());
        }
    });
    rows.push("request", Targets::COUNT, ours, theirs);
    for _ in 0..3 {
        let mut taking = filled.clone();
        IDS.iter().for_each(|id| taking.take(*id));
    }
    rows.collector_changes(
        "take",
        &filled,
        4 * 64,
        |s| {
            let mut values = [0; 8];
            for i in 0..4 * 64 {
                black_box(unsafe { powerlink_collector_take(s, black_box(IDS[i % 4]), &mut values) });
            }
        },
        |s| (0..4 * 64).for_each(|i| _ = black_box(&s.take(NodeId(black_box(IDS[i % 4]))))),
    );
}
