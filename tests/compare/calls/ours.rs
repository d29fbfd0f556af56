//! Our side: the C functions of libpowerlink.a, as include/powerlink.h declares them.
use crate::case::*;

/// The octets of a box, as the header has them.
const COLLECTOR_LEN: usize = 5184;

/// The header's table of DS 301: the twelve services that the Rust knows.
static SERVICES: [u8; 256] = {
    let known = [0, 1, 1, 1, 1, 1, 0, 0, 0, 0, 0, 1, 0, 1, 1, 1, 1, 1, 1];
    let mut table = [0; 256];
    let mut id = 0;
    while id < known.len() {
        table[id] = known[id];
        id += 1;
    }
    table
};

unsafe extern "C" {
    fn powerlink_deserialize_frame_v2(
        services: *const u8, buffer: *const u8, len: usize, values: *mut u64, octet: *mut u8,
    ) -> u8;
    fn powerlink_deserialize_eth_header(
        buffer: *const u8, len: usize, destination: *mut u8, source: *mut u8, ether_type: *mut u16,
    ) -> u8;
    fn powerlink_deserialize_pl_header(buffer: *const u8, len: usize, values: *mut u64, octet: *mut u8) -> u8;
    fn powerlink_deserialize_status(
        payload: *const u8, len: usize, values: *mut u64, field: *mut u8, octet: *mut u8,
    ) -> u8;
    fn powerlink_deserialize_error_field(buffer: *const u8, len: usize, field: *mut u8) -> u8;
    fn powerlink_deserialize_entry(buffer: *const u8, len: usize, values: *mut u64) -> u8;
    fn powerlink_entry_step(
        payload: *const u8, len: usize, offset: usize, values: *mut u64, next: *mut usize,
    ) -> u8;
    fn powerlink_serialize_soc(
        destination: u8, source: u8, mc: bool, ps: bool, seconds: u32, nanoseconds: u32, relative_time: u64,
        target: *mut u8, target_len: usize, written: *mut usize,
    ) -> u8;
    fn powerlink_serialize_preq(
        destination: u8, source: u8, ms: bool, ea: bool, rd: bool, pdo_version: u8, payload_size: u16,
        payload: *const u8, payload_len: usize, target: *mut u8, target_len: usize, written: *mut usize,
    ) -> u8;
    fn powerlink_serialize_pres(
        destination: u8, source: u8, state: u8, ms: bool, en: bool, rd: bool, pr: u8, rs: u8, pdo_version: u8,
        payload_size: u16, payload: *const u8, payload_len: usize, target: *mut u8, target_len: usize,
        written: *mut usize, octet: *mut u8,
    ) -> u8;
    fn powerlink_serialize_soa(
        destination: u8, source: u8, state: u8, ea: bool, er: bool, requested_service: u8, target_node: u8,
        epl_version: u8, target: *mut u8, target_len: usize, written: *mut usize, octet: *mut u8,
    ) -> u8;
    fn powerlink_serialize_asnd_v2(
        services: *const u8, destination: u8, source: u8, service: u8, payload: *const u8, payload_len: usize,
        target: *mut u8, target_len: usize, written: *mut usize, octet: *mut u8,
    ) -> u8;
    fn powerlink_serialize_eth_header(
        destination: *const u8, source: *const u8, ether_type: u16, target: *mut u8, target_len: usize,
        written: *mut usize,
    ) -> u8;
    fn powerlink_serialize_pl_header(
        message_type: u8, destination: u8, source: u8, target: *mut u8, target_len: usize, written: *mut usize,
        octet: *mut u8,
    ) -> u8;
    fn powerlink_serialize_entry(
        status_entry: bool, send_to_queue: bool, mode: u8, profile: u16, code: u16, seconds: u32, nanoseconds: u32,
        information: u64, target: *mut u8, target_len: usize, written: *mut usize,
    ) -> u8;
    fn powerlink_serialize_error_field(
        field: *const u8, target: *mut u8, target_len: usize, written: *mut usize,
    ) -> u8;
    fn powerlink_serialize_status(
        en: bool, ec: bool, pr: u8, rs: u8, state: u8, field: *const u8, entries: *const u8, entries_len: usize,
        target: *mut u8, target_len: usize, written: *mut usize, octet: *mut u8,
    ) -> u8;
    fn powerlink_new_soc(
        source_mac: *const u8, mc: bool, ps: bool, seconds: u32, nanoseconds: u32, relative_time: u64,
        target: *mut u8, target_len: usize, written: *mut usize,
    ) -> u8;
    fn powerlink_new_preq(
        source_mac: *const u8, dest_mac: *const u8, target_node: u8, ms: bool, ea: bool, rd: bool, pdo_version: u8,
        payload: *const u8, payload_len: usize, target: *mut u8, target_len: usize, written: *mut usize,
    ) -> u8;
    fn powerlink_new_pres(
        source_mac: *const u8, source: u8, state: u8, ms: bool, en: bool, rd: bool, pr: u8, rs: u8, pdo_version: u8,
        payload: *const u8, payload_len: usize, target: *mut u8, target_len: usize, written: *mut usize,
        octet: *mut u8,
    ) -> u8;
    fn powerlink_new_soa(
        source_mac: *const u8, state: u8, ea: bool, er: bool, requested_service: u8, target_node: u8,
        epl_version: u8, target: *mut u8, target_len: usize, written: *mut usize, octet: *mut u8,
    ) -> u8;
    fn powerlink_new_asnd_v2(
        services: *const u8, source_mac: *const u8, dest_mac: *const u8, target_node: u8, source: u8, service: u8,
        payload: *const u8, payload_len: usize, target: *mut u8, target_len: usize, written: *mut usize, octet: *mut u8,
    ) -> u8;
    fn powerlink_collector_new_v2(state: *mut u8) -> u8;
    fn powerlink_collector_register(state: *mut u8, id: u8) -> u8;
    fn powerlink_collector_read_v2(
        state: *mut u8, services: *const u8, buffer: *const u8, len: usize, outcome: *mut u8, octet: *mut u8,
    ) -> u8;
    fn powerlink_collector_take(state: *mut u8, id: u8, values: *mut u64) -> u8;
}

/// Calls the function of the case. `out` is as before the call.
pub fn answer(case: &Case, out: &mut Out) {
    let n = &case.numbers;
    let flag = |i: usize| n[i] != 0;
    let octet = |i: usize| n[i] as u8;
    let half = |i: usize| n[i] as u16;
    let word = |i: usize| n[i] as u32;
    let [a, b, c] = [0, 1, 2].map(|i| case.bytes[i].as_ptr());
    let [a_len, b_len, c_len] = [0, 1, 2].map(|i| case.bytes[i].len());
    let len = case.target;
    let target = out.target.as_mut_ptr();
    let values = (&raw mut out.values).cast::<u64>();
    let (written, said) = (&raw mut out.written, &raw mut out.octet);
    let services = SERVICES.as_ptr();
    // Sound: each pointer has the octets behind it that the header asks for, none is null, and no two overlap.
    unsafe {
        out.cause = match case.call {
            FRAME => powerlink_deserialize_frame_v2(services, a, a_len, values, said),
            ETH => {
                let mut ether_type = out.values[0] as u16;
                let (to, from) = out.octets.split_at_mut(6);
                let cause =
                    powerlink_deserialize_eth_header(a, a_len, to.as_mut_ptr(), from.as_mut_ptr(), &mut ether_type);
                if ether_type != out.values[0] as u16 || cause == 0 {
                    out.values[0] = ether_type.into();
                }
                cause
            }
            PL => powerlink_deserialize_pl_header(a, a_len, values, said),
            STATUS => powerlink_deserialize_status(a, a_len, values, out.octets.as_mut_ptr(), said),
            FIELD => powerlink_deserialize_error_field(a, a_len, out.octets.as_mut_ptr()),
            ENTRY => powerlink_deserialize_entry(a, a_len, values),
            STEP => {
                let mut next = out.values[8] as usize;
                let cause = powerlink_entry_step(a, a_len, n[0] as usize, values, &mut next);
                out.values[8] = next as u64;
                cause
            }
            WRITE_SOC => powerlink_serialize_soc(
                octet(0), octet(1), flag(2), flag(3), word(4), word(5), n[6], target, len, written,
            ),
            WRITE_PREQ => powerlink_serialize_preq(
                octet(0), octet(1), flag(2), flag(3), flag(4), octet(5), half(6), a, a_len, target, len, written,
            ),
            WRITE_PRES => powerlink_serialize_pres(
                octet(0), octet(1), octet(2), flag(3), flag(4), flag(5), octet(6), octet(7), octet(8), half(9), a, a_len,
                target, len, written, said,
            ),
            WRITE_SOA => powerlink_serialize_soa(
                octet(0), octet(1), octet(2), flag(3), flag(4), octet(5), octet(6), octet(7), target, len, written, said,
            ),
            WRITE_ASND => powerlink_serialize_asnd_v2(
                services, octet(0), octet(1), octet(2), a, a_len, target, len, written, said,
            ),
            WRITE_ETH => powerlink_serialize_eth_header(a, b, half(0), target, len, written),
            WRITE_PL => powerlink_serialize_pl_header(octet(0), octet(1), octet(2), target, len, written, said),
            WRITE_ENTRY => powerlink_serialize_entry(
                flag(0), flag(1), octet(2), half(3), half(4), word(5), word(6), n[7], target, len, written,
            ),
            WRITE_FIELD => powerlink_serialize_error_field(a, target, len, written),
            WRITE_STATUS => powerlink_serialize_status(
                flag(0), flag(1), octet(2), octet(3), octet(4), a, b, b_len, target, len, written, said,
            ),
            NEW_SOC => powerlink_new_soc(a, flag(0), flag(1), word(2), word(3), n[4], target, len, written),
            NEW_PREQ => powerlink_new_preq(
                a, b, octet(0), flag(1), flag(2), flag(3), octet(4), c, c_len, target, len, written,
            ),
            NEW_PRES => powerlink_new_pres(
                a, octet(0), octet(1), flag(2), flag(3), flag(4), octet(5), octet(6), octet(7), b, b_len, target, len,
                written, said,
            ),
            NEW_SOA => powerlink_new_soa(
                a, octet(0), flag(1), flag(2), octet(3), octet(4), octet(5), target, len, written, said,
            ),
            NEW_ASND => powerlink_new_asnd_v2(
                services, a, b, octet(0), octet(1), octet(2), c, c_len, target, len, written, said,
            ),
            other => panic!("no call {other}"),
        };
    }
}

/// Addresses and EtherType of an Ethernet header, or the cause.
pub fn eth_header(buffer: &[u8]) -> Result<([u8; 6], [u8; 6], u16), u8> {
    let (mut to, mut from, mut ether_type) = ([0; 6], [0; 6], 0);
    let cause = unsafe {
        powerlink_deserialize_eth_header(
            buffer.as_ptr(), buffer.len(), to.as_mut_ptr(), from.as_mut_ptr(), &mut ether_type,
        )
    };
    if cause == 0 { Ok((to, from, ether_type)) } else { Err(cause) }
}

/// The entry at an offset with the offset after it, or the end. At the end the values must stay.
pub fn step(payload: &[u8], offset: usize) -> Option<([u64; 8], usize)> {
    let (mut values, mut next) = ([many(0x5A); 8], 1);
    let cause =
        unsafe { powerlink_entry_step(payload.as_ptr(), payload.len(), offset, values.as_mut_ptr(), &mut next) };
    assert_eq!(cause, 0, "a step is never refused");
    assert!(next != 0 || values == [many(0x5A); 8], "the end changes no value");
    (next != 0).then_some((values, next))
}

/// What the box makes of a frame.
#[derive(Debug, PartialEq, Eq)]
pub enum Boxed {
    Refused(u8, u8),
    Known,
    Booked(Vec<[u64; 8]>),
}

/// A fresh box with one head reads a frame; then its book is taken to the end. A refusal must leave the box and `outcome`, and
/// what is known must book nothing.
pub fn boxed(id: u8, frame: &[u8]) -> Boxed {
    let mut state = [0u8; COLLECTOR_LEN];
    let (mut outcome, mut octet) = (0xFF, 0);
    unsafe {
        assert_eq!(powerlink_collector_new_v2(state.as_mut_ptr()), 0);
        assert_eq!(powerlink_collector_register(state.as_mut_ptr(), id), 0);
        let before = state;
        let cause = powerlink_collector_read_v2(
            state.as_mut_ptr(), SERVICES.as_ptr(), frame.as_ptr(), frame.len(), &mut outcome, &mut octet,
        );
        if cause != 0 {
            assert!(state == before && outcome == 0xFF, "a refusal changed the box or its outcome: {frame:02X?}");
            return Boxed::Refused(cause, octet);
        }
        let mut entries = Vec::new();
        let mut values = [0; 8];
        while powerlink_collector_take(state.as_mut_ptr(), id, values.as_mut_ptr()) == 0 {
            entries.push(values);
        }
        match outcome {
            0 if entries.is_empty() => Boxed::Known,
            1 => Boxed::Booked(entries),
            _ => panic!("outcome {outcome} with {} entries: {frame:02X?}", entries.len()),
        }
    }
}
