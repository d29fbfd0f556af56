//! States by their octets.
use crate::{answer, answer_fields, entry, request, request_fields, Numbers, DS301};
use powerlink::*;

#[test]
fn a_state_goes_on_from_its_octets() {
    let mut head = Reporter::new(NodeId(7)).unwrap();
    let mut the_box = Collector::new();
    the_box.register(NodeId(7)).unwrap();
    for code in 0..6 {
        head.raise(&entry(code)).unwrap();
    }
    let batch = answer(&mut head, 7);
    the_box.read(DS301, &batch).unwrap();

    // Both are switched off and on again between the booking and its acknowledgement.
    let kept = *head.as_bytes();
    let mut head = Reporter::from_bytes(kept);
    assert_eq!(head.as_bytes(), &kept);
    let kept = *the_box.as_bytes();
    let mut the_box = Collector::from_bytes(kept);
    assert_eq!(the_box.as_bytes(), &kept);

    assert_eq!(answer(&mut head, 7), batch);
    assert_eq!(the_box.read(DS301, &batch), Ok(CollectorRead::Known));
    assert_eq!(
        head.read(DS301, &request(&the_box, 7)),
        Ok(ReporterRead::Closed)
    );
    assert_eq!(
        the_box.read(DS301, &answer(&mut head, 7)),
        Ok(CollectorRead::Booked)
    );
    for code in 0..6 {
        assert_eq!(the_box.take(NodeId(7)), Ok(entry(code)));
    }
}

#[test]
fn fresh_states_are_equal() {
    assert_eq!(Reporter::new(NodeId(7)), Reporter::new(NodeId(7)));
    assert_ne!(Reporter::new(NodeId(7)), Reporter::new(NodeId(8)));
    assert_eq!(Collector::new(), Collector::default());
    assert_eq!(format!("{:?}", Collector::new()), "Collector { .. }");
    assert_eq!(
        format!("{:?}", Reporter::new(NodeId(7)).unwrap()),
        "Reporter { .. }"
    );
}

/// Threads: a state goes to another one, and may be read from several.
#[test]
fn states_are_send_and_sync() {
    fn both<T: Send + Sync>() {}
    both::<Reporter>();
    both::<Collector>();
    both::<Services>();
}

/// Every pattern is a state: each call ends in one of its answers.
#[test]
fn any_octets_are_a_state() {
    let mut numbers = Numbers(2);
    let mut the_box = Collector::new();
    the_box.register(NodeId(7)).unwrap();
    for _ in 0..200 {
        let mut octets = [0; REPORTER_LEN];
        octets.fill_with(|| numbers.below(256) as u8);
        let mut head = Reporter::from_bytes(octets);
        let raised = head.raise(&entry(1));
        assert!(
            matches!(raised, Ok(()) | Err(Error::QueueFull)),
            "{raised:?}"
        );
        let mut frame = [0; 132];
        let n = head.answer(DS301, &answer_fields(7), &mut frame).unwrap();
        assert!([60, 72, 92, 112, 132].contains(&n), "{n}");
        let frame = &frame[..n];
        let status = StatusResponse::deserialize(&frame[18..]).unwrap();
        assert_eq!(head.en(), status.fields.en_flag);
        let heard = head.read(DS301, &request(&the_box, 7));
        assert!(heard.is_ok(), "{heard:?}");

        let mut octets = [0; COLLECTOR_LEN];
        octets.fill_with(|| numbers.below(256) as u8);
        let mut any_box = Collector::from_bytes(octets);
        let mut target = [0; 60];
        for id in 0..=255 {
            let taken = any_box.take(NodeId(id));
            let requested = any_box.request(NodeId(id), &request_fields(), &mut target);
            if taken == Err(Error::NotRegistered) {
                assert_eq!(requested, Err(Error::NotRegistered));
                assert_eq!(any_box.flags(NodeId(id)), Err(Error::NotRegistered));
            } else {
                assert!(
                    matches!(taken, Ok(_) | Err(Error::NothingBooked)),
                    "{taken:?}"
                );
                assert_eq!(requested, Ok(60));
                let soa = deserialize_frame(DS301, &target).unwrap().frame.into_soa();
                assert_eq!(any_box.flags(NodeId(id)), Ok(soa.unwrap().flags));
            }
        }
        let read = any_box.read(DS301, frame);
        let known = [Error::NotRegistered, Error::BookFull];
        assert!(
            read.map_or_else(|cause| known.contains(&cause), |_| true),
            "{read:?}"
        );
    }
}
