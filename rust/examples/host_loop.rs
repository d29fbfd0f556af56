//! A host's loop, of a managing node (the box) and of a controlled node (a head), on a line that
//! loses frames and repeats them, with power cuts at any write and any sending. In the end the
//! journal has each fault that was accepted, once.
//!
//! Each end does the same in every cycle: it reads what has come, saves what has changed, and only
//! then sends. The box also takes what is booked and appends it to the journal before it saves, and
//! saves the journal's length with its state. Both load the house's table of services when they
//! start.
use powerlink::*;
use std::collections::VecDeque;
use std::fs::{self, File, OpenOptions};
use std::io::{Read, Write};
use std::path::PathBuf;

const HEAD: NodeId = NodeId(7);
const HEAD_MAC: MacAddress = MacAddress([2, 0, 0, 0, 0, 7]);
const BOX_MAC: MacAddress = MacAddress([2, 0, 0, 0, 0, 240]);
const CYCLES: u64 = 80;

/// A service of the house, none of the twelve of DS 301.
const PRINTED: ServiceId = ServiceId(0xA0);

/// The house's table, as its file has it: that service, and of the twelve only the one of the error
/// exchange.
const HOUSE: &[u8] = b"PLS\x01\x00\x02\xA0";

/// A frame is refused, a file fails, or the power goes.
type Outcome<T> = Result<T, Box<dyn std::error::Error>>;

#[derive(Debug)]
struct PowerCut;

impl std::fmt::Display for PowerCut {
    fn fmt(&self, f: &mut std::fmt::Formatter<'_>) -> std::fmt::Result {
        write!(f, "the power has gone")
    }
}

impl std::error::Error for PowerCut {}

/// Chance, power, a line of two directions, and files.
struct World {
    number: u64,
    /// The power goes when the fuse has burnt down; 0 is no fuse.
    fuse: u64,
    good_line: bool,
    to_box: VecDeque<Vec<u8>>,
    to_head: VecDeque<Vec<u8>>,
    folder: PathBuf,
}

impl World {
    fn below(&mut self, bound: u64) -> u64 {
        self.number = self
            .number
            .wrapping_mul(6364136223846793005)
            .wrapping_add(1442695040888963407);
        (self.number >> 33) % bound
    }

    fn burn(&mut self) -> Outcome<()> {
        let goes = self.fuse == 1;
        self.fuse = self.fuse.saturating_sub(1);
        if goes {
            return Err(PowerCut.into());
        }
        Ok(())
    }

    /// How often a frame arrives that is sent now: not at all, once or twice.
    fn times(&mut self) -> Outcome<usize> {
        self.burn()?;
        Ok(if self.good_line {
            1
        } else {
            self.below(3) as usize
        })
    }

    fn send_to_head(&mut self, frame: &[u8]) -> Outcome<()> {
        let copies = vec![frame.to_vec(); self.times()?];
        self.to_head.extend(copies);
        Ok(())
    }

    fn send_to_box(&mut self, frame: &[u8]) -> Outcome<()> {
        let copies = vec![frame.to_vec(); self.times()?];
        self.to_box.extend(copies);
        Ok(())
    }

    /// Writes a file anew and renames it: a power cut leaves the old one or the new one, whole.
    /// What an end saves is its state and a number that must not get ahead of it, nor fall behind.
    fn save(&mut self, name: &str, state: &[u8], number: u64) -> Outcome<()> {
        self.burn()?;
        let new = self.folder.join("new");
        let mut file = File::create(&new)?;
        file.write_all(state)?;
        file.write_all(&number.to_le_bytes())?;
        file.sync_all()?;
        fs::rename(new, self.folder.join(name))?;
        File::open(&self.folder)?.sync_all()?;
        Ok(())
    }

    fn load<const LEN: usize>(&self, name: &str) -> Option<([u8; LEN], u64)> {
        let octets = fs::read(self.folder.join(name)).ok()?;
        let (state, number) = octets.split_at_checked(LEN)?;
        Some((
            state.try_into().ok()?,
            u64::from_le_bytes(number.try_into().ok()?),
        ))
    }

    /// A host that starts loads its table, and does not go on where the file is refused.
    fn services(&self) -> Outcome<Services> {
        Ok(Services::load(&fs::read(self.folder.join("services"))?)?)
    }
}

/// The managing node.
struct BoxHost {
    services: Services,
    the_box: Collector,
    journal: File,
    journal_len: u64,
    changed: bool,
}

impl BoxHost {
    /// For the first time, or after a power cut: records behind the saved length were taken from a
    /// state that is not saved. They are cut off, since they will be taken again.
    fn start(world: &mut World) -> Outcome<Self> {
        let path = world.folder.join("journal");
        let journal = OpenOptions::new()
            .read(true)
            .append(true)
            .create(true)
            .open(path)?;
        let Some((octets, journal_len)) = world.load("box") else {
            return BoxHost::anew(world, journal);
        };
        journal.set_len(journal_len)?;
        let the_box = Collector::from_bytes(octets);
        Ok(BoxHost {
            services: world.services()?,
            the_box,
            journal,
            journal_len,
            changed: false,
        })
    }

    /// A new box goes on with the journal that is there, without a record that a power cut has
    /// torn. A file that does not begin as a journal of this version does is somebody else's, and is
    /// left as it is. The start is flushed before the state that says how long the journal is.
    fn anew(world: &mut World, mut journal: File) -> Outcome<Self> {
        let mut found = Vec::new();
        (&journal)
            .take(journal::START.len() as u64)
            .read_to_end(&mut found)?;
        if !journal::START.starts_with(&found) {
            return Err("there is a journal that is none of this version".into());
        }
        let mut journal_len = journal.metadata()?.len();
        match journal::whole_len(1, journal_len as usize) {
            Ok(whole) => journal_len = whole as u64,
            Err(_) => {
                journal.set_len(0)?;
                journal.write_all(&journal::START)?;
                journal_len = journal::START.len() as u64;
            }
        }
        journal.set_len(journal_len)?;
        journal.sync_all()?;
        let mut the_box = Collector::new();
        the_box.register(HEAD)?;
        world.save("box", the_box.as_bytes(), journal_len)?;
        Ok(BoxHost {
            services: world.services()?,
            the_box,
            journal,
            journal_len,
            changed: false,
        })
    }

    fn cycle(&mut self, world: &mut World, cycle: u64) -> Outcome<()> {
        while let Some(frame) = world.to_box.pop_front() {
            match self.the_box.read(&self.services, &frame) {
                Ok(outcome) => self.changed |= outcome == CollectorRead::Booked,
                // A PRes, and an ASnd of the house; what the book has no place for, the head sends
                // again.
                Err(Error::NotStatusResponse | Error::BookFull) => {}
                // On this line nothing else arrives, and no service that the table does not hold:
                // it would be a mistake. On a real one it is dropped.
                Err(other) => return Err(other.into()),
            }
        }
        self.list(world)?;
        self.save(world)?;
        self.send(world, cycle)
    }

    fn list(&mut self, world: &mut World) -> Outcome<()> {
        let mut record = [0; journal::RECORD_LEN];
        while let Ok(entry) = self.the_box.take(HEAD) {
            journal::record(HEAD, &entry, &mut record)?;
            world.burn()?;
            self.journal.write_all(&record)?;
            self.journal_len += record.len() as u64;
            self.changed = true;
        }
        Ok(())
    }

    /// The journal is flushed before the state that says how long it is.
    fn save(&mut self, world: &mut World) -> Outcome<()> {
        if self.changed {
            self.journal.sync_all()?;
            world.save("box", self.the_box.as_bytes(), self.journal_len)?;
            self.changed = false;
        }
        Ok(())
    }

    /// EA is asked for when the frame is sent. Every frame to a head carries it, whatever else it
    /// is for.
    fn send(&self, world: &mut World, cycle: u64) -> Outcome<()> {
        let mut frame = [0; 60];
        let (now, since) = (NetTime::default(), RelativeTime(cycle));
        let soc = SocFrame::new(BOX_MAC, SocFlags::default(), now, since);
        let n = soc.write_frame(&mut frame)?;
        world.send_to_head(&frame[..n])?;

        let ea = self.the_box.flags(HEAD)?.ea;
        let flags = PReqFlags {
            ea,
            ..PReqFlags::default()
        };
        let preq = PReqFrame::new(BOX_MAC, HEAD_MAC, HEAD, flags, PDOVersion(0), &[0xAA]);
        let n = preq.write_frame(&mut frame)?;
        world.send_to_head(&frame[..n])?;

        let fields = RequestFields {
            source_mac: BOX_MAC,
            nmt_state: NmtState::NmtOperational,
            epl_version: EPLVersion(0x20),
        };
        let n = self.the_box.request(HEAD, &fields, &mut frame)?;
        world.send_to_head(&frame[..n])
    }
}

/// The controlled node; `raised` counts the faults that it has accepted.
struct HeadHost {
    services: Services,
    head: Reporter,
    raised: u64,
}

impl HeadHost {
    fn start(world: &mut World) -> Outcome<Self> {
        let services = world.services()?;
        let (head, raised) = match world.load("head") {
            Some((octets, raised)) => (Reporter::from_bytes(octets), raised),
            None => {
                let head = Reporter::new(HEAD)?;
                world.save("head", head.as_bytes(), 0)?;
                (head, 0)
            }
        };
        Ok(HeadHost {
            services,
            head,
            raised,
        })
    }

    fn cycle(&mut self, world: &mut World, cycle: u64) -> Outcome<()> {
        if cycle < CYCLES {
            self.raise(world)?;
        }
        while let Some(frame) = world.to_head.pop_front() {
            self.read(world, &frame)?;
        }
        self.count(world)
    }

    fn save(&self, world: &mut World) -> Outcome<()> {
        world.save("head", self.head.as_bytes(), self.raised)
    }

    /// A fault is accepted once it is saved. Where too many wait, it is not raised yet.
    fn raise(&mut self, world: &mut World) -> Outcome<()> {
        let fault = ErrorEntry {
            entry_type: EntryType::from_u16(0x5002),
            error_code: self.raised as u16,
            timestamp: NetTime::default(),
            additional_information: 0,
        };
        match self.head.raise(&fault) {
            Err(Error::QueueFull) => return Ok(()),
            raised => raised?,
        }
        self.raised += 1;
        self.save(world)
    }

    fn read(&mut self, world: &mut World, frame: &[u8]) -> Outcome<()> {
        if self.head.read(&self.services, frame)? == ReporterRead::Closed {
            self.save(world)?;
        }
        match deserialize_frame(&self.services, frame)?.frame {
            PowerlinkFrame::PReq(preq) if preq.destination == HEAD => self.poll(world),
            PowerlinkFrame::SoA(soa)
                if soa.target_node_id == HEAD
                    && soa.req_service_id == RequestedServiceId::StatusRequest =>
            {
                self.answer(world)
            }
            _ => Ok(()),
        }
    }

    fn poll(&self, world: &mut World) -> Outcome<()> {
        let en = self.head.en();
        let flags = PResFlags {
            en,
            ..PResFlags::default()
        };
        let state = NmtState::NmtOperational;
        let pres = PResFrame::new(HEAD_MAC, HEAD, state, flags, PDOVersion(0), &[0xBB]);
        let mut frame = [0; 60];
        let n = pres.write_frame(&mut frame)?;
        world.send_to_box(&frame[..n])
    }

    /// What the house has beside the exchange: an ASnd with a service of its own.
    fn count(&self, world: &mut World) -> Outcome<()> {
        let mn = NodeId(C_ADR_MN_DEF_NODE_ID);
        let printed = ASndFrame::new(HEAD_MAC, BOX_MAC, mn, HEAD, PRINTED, &[1, 2, 3]);
        let mut frame = [0; 60];
        let n = printed.write_frame(&self.services, &mut frame)?;
        world.send_to_box(&frame[..n])
    }

    /// `answer` may open a batch: that is saved before the box can book it.
    fn answer(&mut self, world: &mut World) -> Outcome<()> {
        let fields = AnswerFields {
            source_mac: HEAD_MAC,
            dest_mac: MacAddress(ASndFrame::MULTICAST),
            ec_flag: false,
            pr: PRFlag::default(),
            rs: RSFlag::default(),
            nmt_state: NmtState::NmtOperational,
            static_error_bit_field: StaticErrorBitField::default(),
        };
        let mut frame = [0; 132];
        let n = self.head.answer(&self.services, &fields, &mut frame)?;
        self.save(world)?;
        world.send_to_box(&frame[..n])
    }
}

/// Whether a cycle was ended by a power cut; any other end is passed on.
fn was_cut(outcome: Outcome<()>) -> Outcome<bool> {
    match outcome {
        Ok(()) => Ok(false),
        Err(cause) if cause.is::<PowerCut>() => Ok(true),
        Err(cause) => Err(cause),
    }
}

/// Runs both ends; gives the number of power cuts and of accepted faults.
fn run(world: &mut World) -> Outcome<(u64, u64)> {
    let mut the_box = BoxHost::start(world)?;
    let mut head = HeadHost::start(world)?;
    let mut cuts = 0;
    // When the line has become a good one, what is left needs at most as many exchanges as there
    // are entries.
    for cycle in 0..=CYCLES + 20 {
        world.good_line = cycle >= CYCLES;
        world.fuse = if world.good_line { 0 } else { world.below(20) };
        if was_cut(the_box.cycle(world, cycle))? {
            the_box = BoxHost::start(world)?;
            cuts += 1;
        }
        world.fuse = if world.good_line { 0 } else { world.below(20) };
        if was_cut(head.cycle(world, cycle))? {
            head = HeadHost::start(world)?;
            cuts += 1;
        }
    }
    Ok((cuts, head.raised))
}

fn main() -> Outcome<()> {
    let folder = std::env::temp_dir().join(format!("host_loop.{}", std::process::id()));
    fs::create_dir(&folder)?;
    fs::write(folder.join("services"), HOUSE)?;
    let mut world = World {
        number: 1,
        fuse: 0,
        good_line: false,
        to_box: VecDeque::new(),
        to_head: VecDeque::new(),
        folder: folder.clone(),
    };
    let (cuts, raised) = run(&mut world)?;
    let journal = fs::read(folder.join("journal"))?;
    fs::remove_dir_all(folder)?;
    let mut listed = Vec::new();
    let records = journal.strip_prefix(&journal::START).ok_or("no start")?;
    for record in records.chunks(journal::RECORD_LEN) {
        listed.push(ErrorEntry::deserialize(&record[1..])?.error_code as u64);
    }
    assert_eq!(listed, (0..raised).collect::<Vec<_>>());
    println!("{cuts} power cuts: {raised} faults were accepted, and each is listed once");
    Ok(())
}
