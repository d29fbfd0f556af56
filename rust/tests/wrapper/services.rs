//! Tables of services: what is loaded and what is refused, in the order 20, 21, 22.
use crate::{Numbers, DS301};
use powerlink::*;

/// What a file of a table begins with.
const START: [u8; 5] = [b'P', b'L', b'S', 1, 0];

/// Mark and version, then these IDs.
fn load(ids: &[u8]) -> Result<Services, Error> {
    Services::load(&[&START, ids].concat())
}

/// The IDs that a table holds.
fn held(services: &Services) -> Vec<u8> {
    (0..=255)
        .filter(|id| services.contains(ServiceId(*id)))
        .collect()
}

/// A table of any octets, of which none to three in four are 0.
pub fn any_table(numbers: &mut Numbers) -> Services {
    let mut octets = [0; SERVICES_LEN];
    let zeros = numbers.below(4);
    octets.fill_with(|| match numbers.below(4) {
        chance if chance < zeros => 0,
        _ => numbers.below(256) as u8,
    });
    Services::from_bytes(octets)
}

#[test]
fn under_five_octets_another_mark_or_another_version() {
    for n in 0..5 {
        assert_eq!(Services::load(&START[..n]), Err(Error::NotATable));
        assert_eq!(Services::load(&[2; 5][..n]), Err(Error::NotATable));
    }
    for place in 0..3 {
        for octet in 0..=255 {
            let mut file = [b'P', b'L', b'S', 1, 0, 2];
            let is_right = file[place] == octet;
            file[place] = octet;
            assert_eq!(Services::load(&file).is_ok(), is_right);
            // 20 comes first, whatever the IDs are.
            let bad = Services::load(&[&file[..], &[1]].concat());
            let expected = if is_right {
                Error::NotAscending
            } else {
                Error::NotATable
            };
            assert_eq!(bad, Err(expected));
        }
    }
    for version in 0..=u16::MAX {
        let [low, high] = version.to_le_bytes();
        let loaded = Services::load(&[b'P', b'L', b'S', low, high, 2]);
        let expected = match version {
            1 => Ok(vec![2]),
            _ => Err(Error::NotATable),
        };
        assert_eq!(loaded.map(|services| held(&services)), expected);
    }
}

#[test]
fn ids_that_are_not_strictly_ascending_or_lack_2() {
    assert_eq!(load(&[]), Err(Error::WithoutStatusResponse));
    for a in 0..=255 {
        let expected = match a {
            2 => Ok(vec![2]),
            _ => Err(Error::WithoutStatusResponse),
        };
        assert_eq!(load(&[a]).map(|services| held(&services)), expected);
        for b in 0..=255 {
            // 21 before 22, equal neighbours among them.
            let expected = match (a, b) {
                _ if b <= a => Err(Error::NotAscending),
                (2, _) | (_, 2) => Ok(vec![a, b]),
                _ => Err(Error::WithoutStatusResponse),
            };
            assert_eq!(load(&[a, b]).map(|services| held(&services)), expected);
        }
    }
    let all: Vec<u8> = (0..=255).collect();
    for i in 0..255 {
        let mut ids = all.clone();
        ids.swap(i, i + 1);
        assert_eq!(load(&ids), Err(Error::NotAscending), "{i} descends");
        ids = all.clone();
        ids[i + 1] = ids[i];
        assert_eq!(load(&ids), Err(Error::NotAscending), "{i} comes twice");
    }
    // A 257th ID cannot ascend.
    assert_eq!(load(&[&all[..], &[255]].concat()), Err(Error::NotAscending));
}

#[test]
fn a_loaded_table_holds_its_ids_and_no_other() {
    let all: Vec<u8> = (0..=255).collect();
    for ids in [&[2][..], &[0, 2, 255], &[1, 2, 3], &all] {
        let services = load(ids).unwrap();
        assert_eq!(held(&services), ids);
        for (octet, id) in services.as_bytes().iter().zip(0..=255) {
            assert_eq!(*octet, ids.contains(&id) as u8);
        }
    }
}

#[test]
fn the_twelve() {
    let ids = [1, 2, 3, 4, 5, 0x0B, 0x0D, 0x0E, 0x0F, 0x10, 0x11, 0x12];
    assert_eq!(load(&ids), Ok(Services::default()));
    assert_eq!(Services::default(), Services::DS301);
    assert_eq!(held(DS301), ids);
    assert_eq!(u8::from(ServiceId::STATUS_RESPONSE), 2);
    assert_eq!(
        format!("{DS301:?}"),
        "Services {1, 2, 3, 4, 5, 11, 13, 14, 15, 16, 17, 18}"
    );
}

#[test]
fn any_octets_are_a_table() {
    let mut numbers = Numbers(3);
    for _ in 0..200 {
        let services = any_table(&mut numbers);
        assert_eq!(Services::from_bytes(*services.as_bytes()), services);
        for (octet, id) in services.as_bytes().iter().zip(0..=255) {
            let is_held = id == 2 || *octet != 0;
            assert_eq!(services.contains(ServiceId(id)), is_held);
        }
    }
}

/// Tables are equal by what they hold: 2 is held whatever its octet is, and any octet but 0 is one.
#[test]
fn equal_tables_hold_the_same() {
    let mut octets = [0; SERVICES_LEN];
    assert_eq!(Services::from_bytes(octets), load(&[2]).unwrap());
    octets[0xA0] = 7;
    assert_eq!(Services::from_bytes(octets), load(&[2, 0xA0]).unwrap());
    assert_ne!(Services::from_bytes(octets), load(&[2]).unwrap());
}
