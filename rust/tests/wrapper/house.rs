//! Readers and writers of an ASnd under a table of services, and the exchange under any of them.
use crate::services::any_table;
use crate::{answer, answer_fields, entry, framed, request, Direction, Numbers, DS301};
use powerlink::*;

const US: MacAddress = MacAddress([2, 0, 0, 0, 0, 9]);
const THEM: MacAddress = MacAddress([2, 0, 0, 0, 0, 7]);
const HEAD: NodeId = NodeId(7);

/// Services of a house that are none of the twelve of DS 301, and of these StatusResponse alone.
const IDS: [u8; 6] = [0, 2, 6, 0x13, 0xA0, 0xFF];

fn house() -> Services {
    Services::load(&[&[b'P', b'L', b'S', 1, 0], &IDS[..]].concat()).unwrap()
}

/// A way to write an ASnd.
type Writer<'a> = &'a dyn Fn(&mut [u8]) -> Result<usize, Error>;

/// Holds a writer to its octets where the table holds the service; else to 6, after 1. A refusal
/// leaves the target.
fn writes(write: Writer, expected: &[u8], refusal: Option<Error>) {
    let n = expected.len();
    let mut target = [0xEE; 61];
    let before = target;
    assert_eq!(write(&mut target[..n - 1]), Err(Error::BufferTooShort));
    assert_eq!(target, before);
    match refusal {
        Some(cause) => {
            assert_eq!(write(&mut target[..n]), Err(cause));
            assert_eq!(write(&mut target), Err(cause));
            assert_eq!(target, before);
        }
        None => {
            assert_eq!(write(&mut target), Ok(n));
            assert_eq!(&target[..n], expected);
            assert_eq!(target[n..], before[n..]);
        }
    }
}

/// Reads an ASnd with this service, and writes it in every way there is.
fn goes_by_the_table(services: &Services, id: u8) {
    let is_held = services.contains(ServiceId(id));
    let refusal = (!is_held).then_some(Error::InvalidServiceId(id));
    let section = [6, 240, 7, id, 0xAA];
    let new = ASndFrame::new(US, THEM, NodeId(240), HEAD, ServiceId(id), &[0xAA]);
    let mut expected = [&THEM.0[..], &US.0, &[0x88, 0xAB], &section].concat();
    expected.resize(60, 0);

    let whole = Frame::from(new);
    let read = deserialize_frame(services, &expected);
    assert_eq!(read, refusal.map_or(Ok(whole), Err));

    let (header, frame, payload) = (&whole.eth_header, &whole.frame, whole.payload);
    let joined = |target: &mut [u8]| serialize_frame(services, header, frame, payload, target);
    writes(&|to| new.write_frame(services, to), &expected, refusal);
    writes(&|to| whole.write_frame(services, to), &expected, refusal);
    writes(&joined, &expected, refusal);
    let of_any_kind = |target: &mut [u8]| frame.serialize(services, payload, target);
    let of_an_asnd = |target: &mut [u8]| new.frame().serialize(services, payload, target);
    writes(&of_any_kind, &expected[14..], refusal);
    writes(&of_an_asnd, &expected[14..], refusal);
}

#[test]
fn a_house_has_services_of_its_own() {
    let house = house();
    for id in 0..=255 {
        assert_eq!(house.contains(ServiceId(id)), IDS.contains(&id));
        goes_by_the_table(&house, id);
        goes_by_the_table(DS301, id);
        // The two have but StatusResponse in common.
        let both = house.contains(ServiceId(id)) && DS301.contains(ServiceId(id));
        assert_eq!(both, id == 2);
    }
}

#[test]
fn readers_and_writers_go_by_any_octets() {
    let mut numbers = Numbers(5);
    for _ in 0..100 {
        let services = any_table(&mut numbers);
        for id in 0..=255 {
            goes_by_the_table(&services, id);
        }
    }
}

#[test]
fn where_6_stands_among_the_tests_of_reading() {
    let house = house();
    let refused = |octets: &[u8]| deserialize_frame(&house, octets).unwrap_err();
    let mut frame = framed(&[6, 240, 7, 5]);
    assert_eq!(refused(&frame), Error::InvalidServiceId(5));
    assert_eq!(refused(&frame[..17]), Error::BufferTooShort);
    frame[14] = 0x86;
    assert_eq!(refused(&frame), Error::InvalidServiceId(5));
    frame[14] = 7;
    assert_eq!(refused(&frame), Error::InvalidMessageType(7));
    frame[12] = 0x08;
    assert_eq!(refused(&frame), Error::InvalidEthernetFrame);
}

/// The services that an SoA requests, and the kinds that are no ASnd, go by no table.
#[test]
fn other_kinds_do_not_look_at_the_table() {
    let none = Services::from_bytes([0; SERVICES_LEN]);
    let all = Services::from_bytes([1; SERVICES_LEN]);
    for octet in 0..=255 {
        let soa = framed(&[5, 255, 240, 0xFD, 0, 0, octet, 7, 0x20]);
        let read = deserialize_frame(DS301, &soa);
        assert_eq!(deserialize_frame(&none, &soa), read);
        assert_eq!(deserialize_frame(&all, &soa), read);
        assert_eq!(read.is_ok(), RequestedServiceId::try_from(octet).is_ok());
    }
    let sections: [&[u8]; 4] = [
        &[
            1, 255, 240, 0, 0, 0, 1, 0, 0, 0, 2, 0, 0, 0, 3, 0, 0, 0, 0, 0, 0, 0,
        ],
        &[3, 7, 240, 0, 0, 0, 0, 0, 1, 0, 0xAA],
        &[4, 255, 7, 0xFD, 0, 0, 0, 0, 1, 0, 0xAA],
        &[5, 255, 240, 0xFD, 0, 0, 1, 7, 0x20],
    ];
    for section in sections {
        let mut bytes = framed(section);
        bytes.resize(60, 0);
        let frame = deserialize_frame(&none, &bytes).unwrap();
        let mut target = [0xEE; 60];
        assert_eq!(frame.write_frame(&none, &mut target), Ok(60));
        assert_eq!(target[..], bytes);
    }
}

/// An ASnd of each service, from the head, as head and box read it.
#[test]
fn head_and_box_go_by_the_table() {
    let house = house();
    let mut head = Reporter::new(HEAD).unwrap();
    head.raise(&entry(1)).unwrap();
    let mut the_box = Collector::new();
    the_box.register(HEAD).unwrap();
    let (head_before, box_before) = (*head.as_bytes(), *the_box.as_bytes());
    for services in [DS301, &house] {
        for id in 0..=255 {
            let frame = framed(&[6, 255, 7, id]);
            let (by_head, by_box) = match id {
                // The payload has no octets.
                2 => (Ok(ReporterRead::Ignored), Error::BufferTooShort),
                _ if services.contains(ServiceId(id)) => {
                    (Ok(ReporterRead::Ignored), Error::NotStatusResponse)
                }
                _ => (
                    Err(Error::InvalidServiceId(id)),
                    Error::InvalidServiceId(id),
                ),
            };
            assert_eq!(head.read(services, &frame), by_head);
            assert_eq!(the_box.read(services, &frame), Err(by_box));
        }
    }
    assert_eq!(head.as_bytes(), &head_before);
    assert_eq!(the_box.as_bytes(), &box_before);
}

/// Every table holds StatusResponse: the answer is the same, and so are its refusals.
#[test]
fn an_answer_does_not_depend_on_the_table() {
    let mut numbers = Numbers(4);
    for raised in 0..200 {
        let services = any_table(&mut numbers);
        let mut one = Reporter::new(HEAD).unwrap();
        for code in 0..raised % 6 {
            one.raise(&entry(code)).unwrap();
        }
        let mut other = Reporter::from_bytes(*one.as_bytes());
        for len in [0, 59, 60, 71, 72, 131, 132] {
            let (mut by_one, mut by_other) = ([0xEE; 132], [0xEE; 132]);
            let fields = answer_fields(7);
            assert_eq!(
                one.answer(DS301, &fields, &mut by_one[..len]),
                other.answer(&services, &fields, &mut by_other[..len])
            );
            assert_eq!(by_one, by_other);
            assert_eq!(one, other);
        }
    }
}

/// Two pairs of head and box: one under the table of DS 301, the other under another table with each
/// call. What each call answers and writes is the same for both, and so are the states after it.
struct Twins {
    head: Reporter,
    the_box: Collector,
    other_head: Reporter,
    other_box: Collector,
}

impl Twins {
    fn new() -> Self {
        let head = Reporter::new(HEAD).unwrap();
        let mut the_box = Collector::new();
        the_box.register(HEAD).unwrap();
        Twins {
            other_head: Reporter::from_bytes(*head.as_bytes()),
            other_box: Collector::from_bytes(*the_box.as_bytes()),
            head,
            the_box,
        }
    }

    fn raise(&mut self, code: u16) -> bool {
        let raised = self.head.raise(&entry(code));
        assert_eq!(self.other_head.raise(&entry(code)), raised);
        raised.is_ok()
    }

    fn answer(&mut self, services: &Services) -> Vec<u8> {
        let frame = answer(&mut self.head, 7);
        let mut other = vec![0xEE; frame.len()];
        let fields = answer_fields(7);
        let n = self.other_head.answer(services, &fields, &mut other);
        assert_eq!((n, &other), (Ok(frame.len()), &frame));
        frame
    }

    fn box_reads(&mut self, services: &Services, frame: &[u8]) {
        let read = self.the_box.read(DS301, frame);
        assert_eq!(self.other_box.read(services, frame), read);
    }

    fn head_reads(&mut self, services: &Services, frame: &[u8]) {
        let read = self.head.read(DS301, frame);
        assert_eq!(self.other_head.read(services, frame), read);
    }

    fn take(&mut self) -> Option<ErrorEntry> {
        let taken = self.the_box.take(HEAD);
        assert_eq!(self.other_box.take(HEAD), taken);
        taken.ok()
    }
}

#[test]
fn an_exchange_under_any_table_books_as_before() {
    let house = house();
    let mut entries = 0;
    for seed in 0..20 {
        let mut numbers = Numbers(seed);
        let mut twins = Twins::new();
        let (mut to_box, mut to_head) = (Direction::default(), Direction::default());
        let (mut raised, mut taken) = (0, 0);
        for _ in 0..1_000 {
            let services = match numbers.below(3) {
                0 => house.clone(),
                _ => any_table(&mut numbers),
            };
            match numbers.below(6) {
                0 => raised += twins.raise(raised) as u16,
                1 => to_box.sent.push(twins.answer(&services)),
                2 => to_head.sent.push(request(&twins.the_box, 7)),
                3 => to_box
                    .arrives(&mut numbers)
                    .into_iter()
                    .for_each(|frame| twins.box_reads(&services, frame)),
                4 => to_head
                    .arrives(&mut numbers)
                    .into_iter()
                    .for_each(|frame| twins.head_reads(&services, frame)),
                _ => {
                    if let Some(handed) = twins.take() {
                        assert_eq!(handed, entry(taken));
                        taken += 1;
                    }
                }
            }
            assert!(twins.head == twins.other_head && twins.the_box == twins.other_box);
        }
        entries += taken;
    }
    assert!(entries > 500, "only {entries} entries");
}
