//! Status entries, those with bit 15 set: a head does not take them, and the box leaves them out of
//! its book.
use crate::{
    answer, answer_fields, entry, framed, request, status_entry, Direction, Numbers, DS301,
};
use powerlink::*;

const HEAD: NodeId = NodeId(7);

/// Where the entries of an answer begin.
const ENTRIES: usize = 14 + 4 + 14;

fn fresh_box() -> Collector {
    let mut the_box = Collector::new();
    the_box.register(HEAD).unwrap();
    the_box
}

fn copy(the_box: &Collector) -> Collector {
    Collector::from_bytes(*the_box.as_bytes())
}

/// A StatusResponse of any node, with these entries.
fn response(en_flag: bool, entries: &[ErrorEntry]) -> Vec<u8> {
    let fields = StatusFields {
        en_flag,
        ec_flag: false,
        pr: PRFlag::Low1,
        rs: RSFlag::new(0),
        nmt_state: NmtState::NmtOperational,
        static_error_bit_field: StaticErrorBitField::default(),
    };
    let mut section = vec![0; 4 + 34 + 20 * entries.len()];
    section[..4].copy_from_slice(&[6, 255, 7, 2]);
    fields.serialize(entries, &mut section[4..]).unwrap();
    framed(&section)
}

/// The octets of a status entry; what it tells besides bit 15 and a mode is any.
fn status_octets(numbers: &mut Numbers) -> Vec<u8> {
    let mut octets: Vec<u8> = (0..20).map(|_| numbers.below(256) as u8).collect();
    octets[1] = (octets[1] & 0x4F) | 0x80 | ((1 + numbers.below(3) as u8) << 4);
    octets
}

/// The answer with `counts[i]` status entries in front of its entry `i`, and the last ones behind
/// all of them.
fn with_status(frame: &[u8], counts: &[u64], numbers: &mut Numbers) -> Vec<u8> {
    let mut put = frame[..ENTRIES].to_vec();
    let entries = counts.len() - 1;
    for (i, count) in counts.iter().enumerate() {
        for _ in 0..*count {
            put.extend(status_octets(numbers));
        }
        if i < entries {
            put.extend(&frame[ENTRIES + 20 * i..ENTRIES + 20 * (i + 1)]);
        }
    }
    put.extend(&frame[ENTRIES + 20 * entries..]);
    put
}

/// All lists of `len` numbers under 3.
fn all_counts(len: u32) -> impl Iterator<Item = Vec<u64>> {
    (0..3u64.pow(len)).map(move |n| (0..len).map(|i| n / 3u64.pow(i) % 3).collect())
}

/// A box with this EA and this many entries in the head's book, of 64.
fn box_with(ea: bool, booked: usize) -> Collector {
    let mut the_box = fresh_box();
    let entries: Vec<ErrorEntry> = (0..booked as u16).map(entry).collect();
    the_box.read(DS301, &response(true, &entries)).unwrap();
    if !ea {
        the_box.read(DS301, &response(false, &[])).unwrap();
    }
    assert_eq!(the_box.flags(HEAD).unwrap().ea, ea);
    the_box
}

fn drain(the_box: &mut Collector) -> Vec<ErrorEntry> {
    let mut taken = Vec::new();
    while let Ok(entry) = the_box.take(HEAD) {
        taken.push(entry);
    }
    assert_eq!(the_box.take(HEAD), Err(Error::NothingBooked));
    taken
}

/// A head with so many entries in its open batch, and so many that wait.
fn head_with(open: u16, waiting: u16) -> Reporter {
    let mut head = Reporter::new(HEAD).unwrap();
    for code in 0..open {
        head.raise(&entry(code)).unwrap();
    }
    answer(&mut head, 7);
    for code in 0..waiting {
        head.raise(&entry(code)).unwrap();
    }
    head
}

/// Entries of every mode, with profiles at the limits and both flags.
fn entry_types() -> impl Iterator<Item = EntryType> {
    use ErrorEntryMode::*;
    let modes = [Terminator, ErrorActive, ErrorCleared, EventOccurred];
    (0..64).map(move |n| EntryType {
        is_status_entry: n % 2 == 1,
        send_to_queue: n / 2 % 2 == 1,
        mode: modes[n / 4 % 4],
        profile: [0, 0x0FFF, 0x1000, 0xFFFF][n / 16],
    })
}

/// 02: "23, tested after 8 and before 9".
fn raising(entry_type: EntryType, waiting: u16) -> Result<(), Error> {
    if entry_type.mode == ErrorEntryMode::Terminator || entry_type.profile > 0x0FFF {
        Err(Error::EntryInvalid)
    } else if entry_type.is_status_entry {
        Err(Error::StatusEntry)
    } else if waiting == 16 {
        Err(Error::QueueFull)
    } else {
        Ok(())
    }
}

/// 8, then 23, then 9, whatever waits and with a batch open or not; a refusal leaves the head.
#[test]
fn raising_one_is_23_after_8_and_before_9() {
    let mut seen = Vec::new();
    for (open, waiting) in [(0, 0), (0, 1), (0, 15), (0, 16), (4, 0), (3, 16), (1, 15)] {
        let before = *head_with(open, waiting).as_bytes();
        for entry_type in entry_types() {
            let raised = ErrorEntry {
                entry_type,
                ..entry(0x8001)
            };
            let mut head = Reporter::from_bytes(before);
            let got = head.raise(&raised);
            assert_eq!(
                got,
                raising(entry_type, waiting),
                "{waiting} wait: {raised:?}"
            );
            assert_eq!(head.as_bytes() == &before, got.is_err());
            seen.push(got.map_or_else(Error::number, |()| 0));
        }
    }
    seen.sort();
    seen.dedup();
    assert_eq!(seen, [0, 8, 9, 23]);
}

/// Up to two at each place among the entries of a head's answers, of its first batch and of those
/// after it: the box answers, and is left, as by the answers as they were sent. So it is with their
/// repeats.
#[test]
fn at_any_places_they_change_nothing() {
    let mut numbers = Numbers(5);
    let mut frames = 0;
    for entries in 0..=4 {
        for counts in all_counts(entries + 1) {
            let mut head = Reporter::new(HEAD).unwrap();
            let (mut sent, mut put) = (fresh_box(), fresh_box());
            for batch in 0..3 {
                for code in 0..entries {
                    head.raise(&entry((10 * batch + code) as u16)).unwrap();
                }
                let frame = answer(&mut head, 7);
                let changed = with_status(&frame, &counts, &mut numbers);
                assert_eq!(
                    changed.len(),
                    frame.len() + 20 * counts.iter().sum::<u64>() as usize
                );
                for repeat in 0..2 {
                    let read = sent.read(DS301, &frame);
                    assert_eq!(put.read(DS301, &changed), read);
                    let booked = repeat == 0 && entries > 0;
                    assert_eq!(read == Ok(CollectorRead::Booked), booked);
                    assert_eq!(put.as_bytes(), sent.as_bytes());
                    frames += 1;
                }
                head.read(DS301, &request(&put, 7)).unwrap();
            }
            let expected: Vec<ErrorEntry> = (0..3)
                .flat_map(|batch| (0..entries).map(move |code| entry((10 * batch + code) as u16)))
                .collect();
            assert_eq!(drain(&mut put), expected);
        }
    }
    // 3 + 9 + 27 + 81 + 243 lists of counts.
    assert_eq!(frames, 363 * 6);
}

/// A new EN with nothing else: none is booked, and EA is EN.
#[test]
fn alone_they_move_ea_and_nothing_else() {
    for ea in [false, true] {
        for booked in [0, 1, 63, 64] {
            for count in [0, 1, 2, 64, 65, 70] {
                let entries: Vec<ErrorEntry> = (0..count).map(status_entry).collect();
                let mut the_box = box_with(ea, booked);
                let mut sent = copy(&the_box);
                let read = the_box.read(DS301, &response(!ea, &entries));
                assert_eq!(read, Ok(CollectorRead::Booked));
                assert_eq!(the_box.flags(HEAD).unwrap().ea, !ea);
                sent.read(DS301, &response(!ea, &[])).unwrap();
                assert_eq!(the_box.as_bytes(), sent.as_bytes());
                let expected: Vec<ErrorEntry> = (0..booked as u16).map(entry).collect();
                assert_eq!(drain(&mut the_box), expected);
            }
        }
    }
}

/// Only the others count against free places: as many as there are fit, and one more does not.
#[test]
fn they_need_no_place() {
    let mut numbers = Numbers(6);
    let (mut fitted, mut refused) = (0, 0);
    for free in [0, 1, 2, 3, 4, 5, 63, 64] {
        for clear in [0, 1, 2, 3, 4, 5, 6, 63, 64, 65] {
            for status in [0, 1, 4, 65] {
                // Status entries and the others, mixed.
                let (mut left, mut others) = (status, clear);
                let mut entries = Vec::new();
                while left + others > 0 {
                    if numbers.below(left + others) < left {
                        entries.push(status_entry(left as u16));
                        left -= 1;
                    } else {
                        entries.push(entry((1000 + clear - others) as u16));
                        others -= 1;
                    }
                }
                let mut the_box = box_with(true, 64 - free);
                let before = *the_box.as_bytes();
                let read = the_box.read(DS301, &response(false, &entries));
                if clear as usize <= free {
                    fitted += 1;
                    assert_eq!(read, Ok(CollectorRead::Booked));
                    let booked = (0..64 - free as u16).map(entry);
                    let new = (0..clear as u16).map(|i| entry(1000 + i));
                    assert_eq!(drain(&mut the_box), booked.chain(new).collect::<Vec<_>>());
                } else {
                    refused += 1;
                    assert_eq!(read, Err(Error::BookFull));
                    assert_eq!(the_box.as_bytes(), &before);
                }
            }
        }
    }
    assert!(fitted > 100 && refused > 100, "{fitted}, {refused}");
}

/// What is known is so whatever the entries are, and however full the book is.
#[test]
fn known_whatever_the_entries() {
    for ea in [false, true] {
        for booked in [0, 62, 64] {
            let mut the_box = box_with(ea, booked);
            let before = *the_box.as_bytes();
            for n in [0, 1, 4, 64, 65] {
                for sort in [entry, status_entry] {
                    let entries: Vec<ErrorEntry> = (0..n).map(sort).collect();
                    let read = the_box.read(DS301, &response(ea, &entries));
                    assert_eq!(read, Ok(CollectorRead::Known));
                    assert_eq!(the_box.as_bytes(), &before);
                }
            }
        }
    }
}

/// Mode 0 ends the list, whatever bit 15 is: nothing behind it is booked, or counted.
#[test]
fn a_status_entry_of_mode_0_ends_the_list() {
    for is_status_entry in [false, true] {
        for place in 0..=4 {
            let mut entries: Vec<ErrorEntry> = (0..70).map(entry).collect();
            entries[place].entry_type.is_status_entry = is_status_entry;
            entries[place].entry_type.mode = ErrorEntryMode::Terminator;
            let mut the_box = box_with(false, 60);
            let mut cut = copy(&the_box);
            let read = the_box.read(DS301, &response(true, &entries));
            assert_eq!(read, Ok(CollectorRead::Booked));
            cut.read(DS301, &response(true, &entries[..place])).unwrap();
            assert_eq!(the_box.as_bytes(), cut.as_bytes());
            assert_eq!(drain(&mut the_box).len(), 60 + place);
        }
    }
}

/// A head's state from before may hold them: they are sent, acknowledged, and not booked. A saved
/// book may, too: they are taken.
#[test]
fn in_a_saved_state() {
    let mut head = Reporter::new(HEAD).unwrap();
    for code in 1..=3 {
        head.raise(&entry(code)).unwrap();
    }
    let mut octets = *head.as_bytes();
    let mut second = [0; 20];
    entry(2).serialize(&mut second).unwrap();
    let at = octets.windows(20).position(|part| part == second).unwrap();
    octets[at + 1] |= 0x80;
    let mut head = Reporter::from_bytes(octets);
    let mut the_box = fresh_box();
    let frame = answer(&mut head, 7);
    let status = StatusResponse::deserialize(&frame[18..]).unwrap();
    assert_eq!(
        status.entries.collect::<Vec<_>>(),
        [entry(1), status_entry(2), entry(3)]
    );
    assert_eq!(the_box.read(DS301, &frame), Ok(CollectorRead::Booked));
    assert_eq!(
        head.read(DS301, &request(&the_box, 7)),
        Ok(ReporterRead::Closed)
    );

    let mut octets = *the_box.as_bytes();
    let mut third = [0; 20];
    entry(3).serialize(&mut third).unwrap();
    let at = octets.windows(20).position(|part| part == third).unwrap();
    octets[at + 1] |= 0x80;
    let mut saved = Collector::from_bytes(octets);
    assert_eq!(drain(&mut the_box), [entry(1), entry(3)]);
    assert_eq!(drain(&mut saved), [entry(1), status_entry(3)]);
}

/// A head, a box that is given its answers with status entries put in, one that is given them as they
/// were sent, and the line.
struct Site {
    numbers: Numbers,
    head: Reporter,
    sent: Collector,
    put: Collector,
    answers: Direction,
    requests: Direction,
    raised: u16,
    taken: u16,
}

impl Site {
    fn new(seed: u64) -> Self {
        Site {
            numbers: Numbers(seed),
            head: Reporter::new(HEAD).unwrap(),
            sent: fresh_box(),
            put: fresh_box(),
            answers: Direction::default(),
            requests: Direction::default(),
            raised: 0,
            taken: 0,
        }
    }

    fn answer(&mut self) {
        let mut frame = vec![0; 132];
        let n = self
            .head
            .answer(DS301, &answer_fields(7), &mut frame)
            .unwrap();
        self.answers.sent.push(frame[..n].to_vec());
    }

    fn answer_arrives(&mut self) {
        if let Some(frame) = self.answers.arrives(&mut self.numbers).map(<[u8]>::to_vec) {
            let entries = if frame.len() == 60 {
                0
            } else {
                (frame.len() - 52) / 20
            };
            let counts: Vec<u64> = (0..=entries).map(|_| self.numbers.below(3)).collect();
            let changed = with_status(&frame, &counts, &mut self.numbers);
            assert_eq!(
                self.put.read(DS301, &changed),
                self.sent.read(DS301, &frame)
            );
        }
    }

    fn request_arrives(&mut self) {
        if let Some(frame) = self.requests.arrives(&mut self.numbers) {
            self.head.read(DS301, frame).unwrap();
        }
    }

    fn take(&mut self) {
        let handed = self.put.take(HEAD);
        assert_eq!(self.sent.take(HEAD), handed);
        if let Ok(handed) = handed {
            assert_eq!(handed, entry(self.taken));
            self.taken += 1;
        }
    }

    fn call(&mut self) {
        match self.numbers.below(7) {
            0 => self.raised += self.head.raise(&entry(self.raised)).is_ok() as u16,
            1 => assert_eq!(
                self.head.raise(&status_entry(self.raised)),
                Err(Error::StatusEntry)
            ),
            2 => self.answer(),
            3 => self.requests.sent.push(request(&self.put, 7)),
            4 => self.answer_arrives(),
            5 => self.request_arrives(),
            _ => self.take(),
        }
        assert_eq!(self.put.as_bytes(), self.sent.as_bytes());
    }
}

/// On a line that loses, delays and repeats, each answer arrives with status entries among its own,
/// other ones each time: the box is always as one that reads the answers as they were sent, nothing
/// is lost and nothing listed twice.
#[test]
fn on_a_bad_line() {
    let mut entries = 0;
    for seed in 0..20 {
        let mut site = Site::new(seed);
        for _ in 0..1_000 {
            site.call();
        }
        entries += site.taken;
    }
    assert!(entries > 500, "only {entries} entries");
}
