//! What a host does beside the exchange: frames of its own, saving and restarts. tests/c/restarts.c
//! of the repository has a list of calls for each mistake.
use crate::{answer, entry, ident_request, preq, request, Direction, Numbers, DS301};
use powerlink::*;

const HEAD: NodeId = NodeId(7);

/// A box that knows the head, and no more.
fn fresh_box() -> Collector {
    let mut the_box = Collector::new();
    the_box.register(HEAD).unwrap();
    the_box
}

/// The first entry is booked and acknowledged; the answer with the second is lost.
fn second_answer_is_lost(head: &mut Reporter, the_box: &mut Collector) {
    head.raise(&entry(1)).unwrap();
    assert_eq!(
        the_box.read(DS301, &answer(head, 7)),
        Ok(CollectorRead::Booked)
    );
    assert_eq!(
        head.read(DS301, &request(the_box, 7)),
        Ok(ReporterRead::Closed)
    );
    head.raise(&entry(2)).unwrap();
    answer(head, 7);
}

#[test]
fn a_frame_without_the_flags_loses_an_entry() {
    for frame in [preq(7, false), ident_request(7, SoAFlags::default())] {
        let (mut head, mut the_box) = (Reporter::new(HEAD).unwrap(), fresh_box());
        second_answer_is_lost(&mut head, &mut the_box);
        assert_eq!(head.read(DS301, &frame), Ok(ReporterRead::Closed));
        // The next answer has no entries; that its EN is new is all that the box can see.
        let next = answer(&mut head, 7);
        assert_eq!(the_box.read(DS301, &next), Ok(CollectorRead::Booked));
        assert_eq!(the_box.take(HEAD), Ok(entry(1)));
        assert_eq!(the_box.take(HEAD), Err(Error::NothingBooked));
    }
}

#[test]
fn with_the_flags_of_the_moment_nothing_is_lost() {
    let (mut head, mut the_box) = (Reporter::new(HEAD).unwrap(), fresh_box());
    assert!(!head.en());
    let early = the_box.flags(HEAD).unwrap();
    assert_eq!(
        early,
        SoAFlags {
            ea: false,
            er: false
        }
    );
    second_answer_is_lost(&mut head, &mut the_box);
    assert!(!head.en());
    let flags = the_box.flags(HEAD).unwrap();
    assert_eq!(
        flags,
        SoAFlags {
            ea: true,
            er: false
        }
    );
    assert_eq!(head.read(DS301, &preq(7, flags.ea)), Ok(ReporterRead::Kept));
    assert_eq!(
        head.read(DS301, &ident_request(7, flags)),
        Ok(ReporterRead::Kept)
    );
    // Built ahead, the same PReq would have lost the second entry.
    assert_eq!(
        head.read(DS301, &preq(7, early.ea)),
        Ok(ReporterRead::Closed)
    );
}

#[test]
fn flags_of_a_head_that_is_not_registered() {
    let mut the_box = Collector::new();
    assert_eq!(the_box.flags(HEAD), Err(Error::NotRegistered));
    assert_eq!(the_box.flags(NodeId(0)), Err(Error::NotRegistered));
    // Until then, EA 0 loses nothing.
    let mut head = Reporter::new(HEAD).unwrap();
    head.raise(&entry(1)).unwrap();
    let frame = answer(&mut head, 7);
    assert!(head.en());
    assert_eq!(the_box.read(DS301, &frame), Err(Error::NotRegistered));
    assert_eq!(head.read(DS301, &preq(7, false)), Ok(ReporterRead::Kept));
    the_box.register(HEAD).unwrap();
    assert_eq!(
        the_box.read(DS301, &answer(&mut head, 7)),
        Ok(CollectorRead::Booked)
    );
}

/// The pattern of a cyclic task: it takes EA from a copy, which is renewed after each reading and
/// before the next. Frames that leave between the reading and the renewal have the EA of before.
#[test]
fn a_copy_of_ea_that_is_renewed_before_the_next_reading() {
    let mut listed = 0;
    for seed in 0..40 {
        let mut numbers = Numbers(seed);
        let (mut head, mut the_box) = (Reporter::new(HEAD).unwrap(), fresh_box());
        let (mut to_box, mut to_head) = (Direction::default(), Direction::default());
        let mut copy = the_box.flags(HEAD).unwrap();
        let (mut raised, mut taken) = (0, Vec::new());
        for _ in 0..2_000 {
            match numbers.below(8) {
                0 => raised += head.raise(&entry(raised)).is_ok() as u16,
                1 => to_box.sent.push(answer(&mut head, 7)),
                2 => {
                    copy = the_box.flags(HEAD).unwrap();
                    if let Some(frame) = to_box.arrives(&mut numbers) {
                        the_box.read(DS301, frame).unwrap();
                    }
                }
                3 => copy = the_box.flags(HEAD).unwrap(),
                4 => to_head.sent.push(preq(7, copy.ea)),
                5 => to_head.sent.push(ident_request(7, copy)),
                _ => {
                    if let Some(frame) = to_head.arrives(&mut numbers) {
                        head.read(DS301, frame).unwrap();
                    }
                }
            }
            while let Ok(entry) = the_box.take(HEAD) {
                taken.push(entry.error_code);
            }
            assert!((0..raised).collect::<Vec<_>>().starts_with(&taken));
        }
        listed += taken.len();
    }
    assert!(listed > 1_000, "only {listed} entries");
}

/// A power cut.
#[derive(Debug)]
struct Cut;

/// The power goes when the fuse has burnt down; 0 is no fuse.
struct Power(u64);

impl Power {
    fn burn(&mut self) -> Result<(), Cut> {
        let goes = self.0 == 1;
        self.0 = self.0.saturating_sub(1);
        if goes {
            Err(Cut)
        } else {
            Ok(())
        }
    }
}

/// Both directions of a line.
#[derive(Default)]
struct Line {
    to_box: Direction,
    to_head: Direction,
}

/// The host of a head; what it has saved is its state, and how many entries it has raised.
struct HeadHost {
    head: Reporter,
    raised: u16,
    saved: ([u8; REPORTER_LEN], u16),
}

impl HeadHost {
    fn new() -> Self {
        let head = Reporter::new(HEAD).unwrap();
        let saved = (*head.as_bytes(), 0);
        HeadHost {
            head,
            raised: 0,
            saved,
        }
    }

    fn save(&mut self, power: &mut Power) -> Result<(), Cut> {
        power.burn()?;
        self.saved = (*self.head.as_bytes(), self.raised);
        Ok(())
    }

    fn restart(&mut self) {
        self.head = Reporter::from_bytes(self.saved.0);
        self.raised = self.saved.1;
    }

    fn cycle(&mut self, frame: Option<&[u8]>, power: &mut Power) -> Result<Vec<u8>, Cut> {
        if self.head.raise(&entry(self.raised)).is_ok() {
            self.raised += 1;
        }
        if let Some(frame) = frame {
            self.head.read(DS301, frame).unwrap();
        }
        let frame = answer(&mut self.head, 7);
        self.save(power)?;
        power.burn()?;
        Ok(frame)
    }
}

/// The host of the box; what it has saved is its state and the journal's length.
struct BoxHost {
    the_box: Collector,
    journal: Vec<u16>,
    saved: ([u8; COLLECTOR_LEN], usize),
}

impl BoxHost {
    fn new() -> Self {
        let the_box = fresh_box();
        let saved = (*the_box.as_bytes(), 0);
        BoxHost {
            the_box,
            journal: Vec::new(),
            saved,
        }
    }

    fn restart(&mut self) {
        self.the_box = Collector::from_bytes(self.saved.0);
        self.journal.truncate(self.saved.1);
    }

    fn cycle(
        &mut self,
        frame: Option<&[u8]>,
        sent: &mut Direction,
        power: &mut Power,
    ) -> Result<(), Cut> {
        if let Some(frame) = frame {
            self.the_box.read(DS301, frame).unwrap();
        }
        while let Ok(taken) = self.the_box.take(HEAD) {
            power.burn()?;
            self.journal.push(taken.error_code);
        }
        power.burn()?;
        self.saved = (*self.the_box.as_bytes(), self.journal.len());
        power.burn()?;
        sent.sent
            .push(preq(7, self.the_box.flags(HEAD).unwrap().ea));
        power.burn()?;
        sent.sent.push(request(&self.the_box, 7));
        Ok(())
    }
}

/// Whatever the line does and whenever the power goes: each end reads, saves and then sends, and in
/// the end the journal has what was raised.
#[test]
fn power_cuts_lose_nothing_and_list_nothing_twice() {
    let (mut listed, mut cuts) = (0, 0);
    for seed in 0..40 {
        let mut numbers = Numbers(seed);
        let mut line = Line::default();
        let (mut head, mut the_box) = (HeadHost::new(), BoxHost::new());
        for _ in 0..500 {
            let mut power = Power(numbers.below(12));
            let frame = line.to_head.arrives(&mut numbers);
            match head.cycle(frame, &mut power) {
                Ok(frame) => line.to_box.sent.push(frame),
                Err(Cut) => {
                    head.restart();
                    cuts += 1;
                }
            }
            let mut power = Power(numbers.below(12));
            let frame = line.to_box.arrives(&mut numbers);
            if let Err(Cut) = the_box.cycle(frame, &mut line.to_head, &mut power) {
                the_box.restart();
                cuts += 1;
            }
        }
        // On a good line, all that is left arrives.
        for _ in 0..20 {
            the_box
                .the_box
                .read(DS301, &answer(&mut head.head, 7))
                .unwrap();
            the_box
                .cycle(None, &mut line.to_head, &mut Power(0))
                .unwrap();
            head.head
                .read(DS301, &request(&the_box.the_box, 7))
                .unwrap();
        }
        assert_eq!(the_box.journal, (0..head.raised).collect::<Vec<_>>());
        listed += the_box.journal.len();
    }
    assert!(
        listed > 2_000 && cuts > 2_000,
        "only {listed} entries and {cuts} cuts"
    );
}
