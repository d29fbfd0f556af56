//! The functions of libpowerlink.a, each in a safe one: the one file with `unsafe` code.
//! `tests/declarations.rs` compares the declarations with the library's source, of which nothing
//! else makes sure.
//!
//! Why the calls are safe: the library's source demands nothing of its callers but what their types
//! say. A pointer comes with the length of the slice that it is made of, or is a reference to a
//! place of the declared size; borrows see to it that nothing else reaches what is written during a
//! call. No function keeps a pointer, and none unwinds.
//!
//! The two `*_new` are linked by a name with the interface's number, [`VERSION`](crate::VERSION), and
//! a function whose parameters have changed by one with the number of that change: a program that
//! calls one of them does not link with an archive that takes others.
use crate::codes::MessageType;
use crate::collector::{RequestFields, COLLECTOR_LEN};
use crate::error::Error;
use crate::frame::{
    ASndFrame, ErrorEntry, EthernetHeader, MacAddress, NewFrame, PReqFrame, PResFrame, SoAFlags,
    SoAFrame, SocFrame, StaticErrorBitField, StatusFields,
};
use crate::reporter::{AnswerFields, REPORTER_LEN};
use crate::services::{ServiceId, Services, SERVICES_LEN};
use crate::types::NodeId;

extern "C" {
    fn powerlink_services_load(
        file: *const u8,
        file_len: usize,
        services: &mut [u8; SERVICES_LEN],
    ) -> u8;
    fn powerlink_services_contains(services: &[u8; SERVICES_LEN], id: u8, held: &mut bool) -> u8;

    #[link_name = "powerlink_deserialize_frame_v2"]
    fn powerlink_deserialize_frame(
        services: &[u8; SERVICES_LEN],
        buffer: *const u8,
        buffer_len: usize,
        values: &mut [u64; 16],
        octet: &mut u8,
    ) -> u8;
    fn powerlink_deserialize_eth_header(
        buffer: *const u8,
        buffer_len: usize,
        destination: &mut [u8; 6],
        source: &mut [u8; 6],
        ether_type: &mut u16,
    ) -> u8;
    fn powerlink_deserialize_pl_header(
        buffer: *const u8,
        buffer_len: usize,
        values: &mut [u64; 3],
        octet: &mut u8,
    ) -> u8;
    fn powerlink_deserialize_status(
        payload: *const u8,
        payload_len: usize,
        values: &mut [u64; 5],
        field: &mut [u8; 8],
        octet: &mut u8,
    ) -> u8;
    fn powerlink_deserialize_error_field(
        buffer: *const u8,
        buffer_len: usize,
        field: &mut [u8; 8],
    ) -> u8;
    fn powerlink_deserialize_entry(
        buffer: *const u8,
        buffer_len: usize,
        values: &mut [u64; 8],
    ) -> u8;
    fn powerlink_entry_step(
        payload: *const u8,
        payload_len: usize,
        offset: usize,
        values: &mut [u64; 8],
        next: &mut usize,
    ) -> u8;

    fn powerlink_serialize_soc(
        destination: u8,
        source: u8,
        mc: bool,
        ps: bool,
        seconds: u32,
        nanoseconds: u32,
        relative_time: u64,
        target: *mut u8,
        target_len: usize,
        written: &mut usize,
    ) -> u8;
    fn powerlink_serialize_preq(
        destination: u8,
        source: u8,
        ms: bool,
        ea: bool,
        rd: bool,
        pdo_version: u8,
        payload_size: u16,
        payload: *const u8,
        payload_len: usize,
        target: *mut u8,
        target_len: usize,
        written: &mut usize,
    ) -> u8;
    fn powerlink_serialize_pres(
        destination: u8,
        source: u8,
        state: u8,
        ms: bool,
        en: bool,
        rd: bool,
        pr: u8,
        rs: u8,
        pdo_version: u8,
        payload_size: u16,
        payload: *const u8,
        payload_len: usize,
        target: *mut u8,
        target_len: usize,
        written: &mut usize,
        octet: &mut u8,
    ) -> u8;
    fn powerlink_serialize_soa(
        destination: u8,
        source: u8,
        state: u8,
        ea: bool,
        er: bool,
        requested_service: u8,
        target_node: u8,
        epl_version: u8,
        target: *mut u8,
        target_len: usize,
        written: &mut usize,
        octet: &mut u8,
    ) -> u8;
    #[link_name = "powerlink_serialize_asnd_v2"]
    fn powerlink_serialize_asnd(
        services: &[u8; SERVICES_LEN],
        destination: u8,
        source: u8,
        service: u8,
        payload: *const u8,
        payload_len: usize,
        target: *mut u8,
        target_len: usize,
        written: &mut usize,
        octet: &mut u8,
    ) -> u8;
    fn powerlink_serialize_eth_header(
        destination: &[u8; 6],
        source: &[u8; 6],
        ether_type: u16,
        target: *mut u8,
        target_len: usize,
        written: &mut usize,
    ) -> u8;
    fn powerlink_serialize_pl_header(
        message_type: u8,
        destination: u8,
        source: u8,
        target: *mut u8,
        target_len: usize,
        written: &mut usize,
        octet: &mut u8,
    ) -> u8;
    fn powerlink_serialize_entry(
        status_entry: bool,
        send_to_queue: bool,
        mode: u8,
        profile: u16,
        code: u16,
        seconds: u32,
        nanoseconds: u32,
        information: u64,
        target: *mut u8,
        target_len: usize,
        written: &mut usize,
    ) -> u8;
    fn powerlink_serialize_error_field(
        field: &[u8; 8],
        target: *mut u8,
        target_len: usize,
        written: &mut usize,
    ) -> u8;
    fn powerlink_serialize_status(
        en: bool,
        ec: bool,
        pr: u8,
        rs: u8,
        state: u8,
        field: &[u8; 8],
        entries: *const u8,
        entries_len: usize,
        target: *mut u8,
        target_len: usize,
        written: &mut usize,
        octet: &mut u8,
    ) -> u8;

    fn powerlink_new_soc(
        source_mac: &[u8; 6],
        mc: bool,
        ps: bool,
        seconds: u32,
        nanoseconds: u32,
        relative_time: u64,
        target: *mut u8,
        target_len: usize,
        written: &mut usize,
    ) -> u8;
    fn powerlink_new_preq(
        source_mac: &[u8; 6],
        dest_mac: &[u8; 6],
        target_node: u8,
        ms: bool,
        ea: bool,
        rd: bool,
        pdo_version: u8,
        payload: *const u8,
        payload_len: usize,
        target: *mut u8,
        target_len: usize,
        written: &mut usize,
    ) -> u8;
    fn powerlink_new_pres(
        source_mac: &[u8; 6],
        source: u8,
        state: u8,
        ms: bool,
        en: bool,
        rd: bool,
        pr: u8,
        rs: u8,
        pdo_version: u8,
        payload: *const u8,
        payload_len: usize,
        target: *mut u8,
        target_len: usize,
        written: &mut usize,
        octet: &mut u8,
    ) -> u8;
    fn powerlink_new_soa(
        source_mac: &[u8; 6],
        state: u8,
        ea: bool,
        er: bool,
        requested_service: u8,
        target_node: u8,
        epl_version: u8,
        target: *mut u8,
        target_len: usize,
        written: &mut usize,
        octet: &mut u8,
    ) -> u8;
    #[link_name = "powerlink_new_asnd_v2"]
    fn powerlink_new_asnd(
        services: &[u8; SERVICES_LEN],
        source_mac: &[u8; 6],
        dest_mac: &[u8; 6],
        target_node: u8,
        source: u8,
        service: u8,
        payload: *const u8,
        payload_len: usize,
        target: *mut u8,
        target_len: usize,
        written: &mut usize,
        octet: &mut u8,
    ) -> u8;

    #[link_name = "powerlink_reporter_new_v2"]
    fn powerlink_reporter_new(state: &mut [u8; REPORTER_LEN], id: u8) -> u8;
    fn powerlink_reporter_raise(
        state: &mut [u8; REPORTER_LEN],
        status_entry: bool,
        send_to_queue: bool,
        mode: u8,
        profile: u16,
        code: u16,
        seconds: u32,
        nanoseconds: u32,
        information: u64,
    ) -> u8;
    #[link_name = "powerlink_reporter_answer_v2"]
    fn powerlink_reporter_answer(
        state: &mut [u8; REPORTER_LEN],
        services: &[u8; SERVICES_LEN],
        source_mac: &[u8; 6],
        dest_mac: &[u8; 6],
        ec: bool,
        pr: u8,
        rs: u8,
        nmt_state: u8,
        field: &[u8; 8],
        target: *mut u8,
        target_len: usize,
        written: &mut usize,
        octet: &mut u8,
    ) -> u8;
    #[link_name = "powerlink_reporter_read_v2"]
    fn powerlink_reporter_read(
        state: &mut [u8; REPORTER_LEN],
        services: &[u8; SERVICES_LEN],
        buffer: *const u8,
        buffer_len: usize,
        outcome: &mut u8,
        octet: &mut u8,
    ) -> u8;
    fn powerlink_reporter_en(state: &[u8; REPORTER_LEN], en: &mut bool) -> u8;

    #[link_name = "powerlink_collector_new_v2"]
    fn powerlink_collector_new(state: &mut [u8; COLLECTOR_LEN]) -> u8;
    fn powerlink_collector_register(state: &mut [u8; COLLECTOR_LEN], id: u8) -> u8;
    #[link_name = "powerlink_collector_read_v2"]
    fn powerlink_collector_read(
        state: &mut [u8; COLLECTOR_LEN],
        services: &[u8; SERVICES_LEN],
        buffer: *const u8,
        buffer_len: usize,
        outcome: &mut u8,
        octet: &mut u8,
    ) -> u8;
    fn powerlink_collector_flags(
        state: &[u8; COLLECTOR_LEN],
        id: u8,
        ea: &mut bool,
        er: &mut bool,
    ) -> u8;
    fn powerlink_collector_request(
        state: &[u8; COLLECTOR_LEN],
        id: u8,
        source_mac: &[u8; 6],
        nmt_state: u8,
        epl_version: u8,
        target: *mut u8,
        target_len: usize,
        written: &mut usize,
        octet: &mut u8,
    ) -> u8;
    fn powerlink_collector_take(
        state: &mut [u8; COLLECTOR_LEN],
        id: u8,
        values: &mut [u64; 8],
    ) -> u8;

    fn powerlink_journal_record(
        id: u8,
        status_entry: bool,
        send_to_queue: bool,
        mode: u8,
        profile: u16,
        code: u16,
        seconds: u32,
        nanoseconds: u32,
        information: u64,
        target: *mut u8,
        target_len: usize,
        written: &mut usize,
    ) -> u8;
    fn powerlink_journal_whole_len(version: u16, len: usize, whole: &mut usize) -> u8;
}

/// Makes a call that writes and gives an octet where it refuses.
fn writing(call: impl FnOnce(&mut usize, &mut u8) -> u8) -> Result<usize, Error> {
    let mut written = 0;
    let mut octet = 0;
    let cause = call(&mut written, &mut octet);
    Error::check(cause, octet)?;
    Ok(written)
}

/// Makes a call that gives a value, or an octet where it refuses.
fn reading<T>(mut value: T, call: impl FnOnce(&mut T, &mut u8) -> u8) -> Result<T, Error> {
    let mut octet = 0;
    let cause = call(&mut value, &mut octet);
    Error::check(cause, octet)?;
    Ok(value)
}

// Tables of services.

pub fn services_load(file: &[u8]) -> Result<[u8; SERVICES_LEN], Error> {
    reading([0; SERVICES_LEN], |services, _| unsafe {
        powerlink_services_load(file.as_ptr(), file.len(), services)
    })
}

pub fn services_contains(services: &Services, id: ServiceId) -> bool {
    let mut held = false;
    // It refuses nothing: the answer is always 0.
    unsafe {
        powerlink_services_contains(services.as_bytes(), id.0, &mut held);
    }
    held
}

// Reading.

pub fn deserialize_frame(services: &Services, buffer: &[u8]) -> Result<[u64; 16], Error> {
    reading([0; 16], |values, octet| unsafe {
        powerlink_deserialize_frame(
            services.as_bytes(),
            buffer.as_ptr(),
            buffer.len(),
            values,
            octet,
        )
    })
}

pub fn deserialize_eth_header(buffer: &[u8]) -> Result<EthernetHeader, Error> {
    let header = EthernetHeader {
        destination_mac: MacAddress([0; 6]),
        source_mac: MacAddress([0; 6]),
        ether_type: 0,
    };
    reading(header, |header, _| unsafe {
        powerlink_deserialize_eth_header(
            buffer.as_ptr(),
            buffer.len(),
            &mut header.destination_mac.0,
            &mut header.source_mac.0,
            &mut header.ether_type,
        )
    })
}

pub fn deserialize_pl_header(buffer: &[u8]) -> Result<[u64; 3], Error> {
    reading([0; 3], |values, octet| unsafe {
        powerlink_deserialize_pl_header(buffer.as_ptr(), buffer.len(), values, octet)
    })
}

pub fn deserialize_status(payload: &[u8]) -> Result<([u64; 5], [u8; 8]), Error> {
    reading(([0; 5], [0; 8]), |(values, field), octet| unsafe {
        powerlink_deserialize_status(payload.as_ptr(), payload.len(), values, field, octet)
    })
}

pub fn deserialize_error_field(buffer: &[u8]) -> Result<[u8; 8], Error> {
    reading([0; 8], |field, _| unsafe {
        powerlink_deserialize_error_field(buffer.as_ptr(), buffer.len(), field)
    })
}

pub fn deserialize_entry(buffer: &[u8]) -> Result<[u64; 8], Error> {
    reading([0; 8], |values, _| unsafe {
        powerlink_deserialize_entry(buffer.as_ptr(), buffer.len(), values)
    })
}

/// The values of the entry at an offset, and the offset after it, which is 0 at the end of the
/// list.
pub fn entry_step(payload: &[u8], offset: usize) -> ([u64; 8], usize) {
    let mut values = [0; 8];
    let mut next = 0;
    // It refuses nothing: the answer is always 0.
    unsafe {
        powerlink_entry_step(
            payload.as_ptr(),
            payload.len(),
            offset,
            &mut values,
            &mut next,
        );
    }
    (values, next)
}

// Writing without the Ethernet header.

pub fn serialize_soc(frame: &SocFrame, target: &mut [u8]) -> Result<usize, Error> {
    writing(|written, _| unsafe {
        powerlink_serialize_soc(
            frame.destination.0,
            frame.source.0,
            frame.flags.mc,
            frame.flags.ps,
            frame.net_time.seconds,
            frame.net_time.nanoseconds,
            frame.relative_time.0,
            target.as_mut_ptr(),
            target.len(),
            written,
        )
    })
}

pub fn serialize_preq(
    frame: &PReqFrame,
    payload: &[u8],
    target: &mut [u8],
) -> Result<usize, Error> {
    writing(|written, _| unsafe {
        powerlink_serialize_preq(
            frame.destination.0,
            frame.source.0,
            frame.flags.ms,
            frame.flags.ea,
            frame.flags.rd,
            frame.pdo_version.0,
            frame.payload_size,
            payload.as_ptr(),
            payload.len(),
            target.as_mut_ptr(),
            target.len(),
            written,
        )
    })
}

pub fn serialize_pres(
    frame: &PResFrame,
    payload: &[u8],
    target: &mut [u8],
) -> Result<usize, Error> {
    writing(|written, octet| unsafe {
        powerlink_serialize_pres(
            frame.destination.0,
            frame.source.0,
            frame.nmt_state as u8,
            frame.flags.ms,
            frame.flags.en,
            frame.flags.rd,
            frame.flags.pr as u8,
            frame.flags.rs.get(),
            frame.pdo_version.0,
            frame.payload_size,
            payload.as_ptr(),
            payload.len(),
            target.as_mut_ptr(),
            target.len(),
            written,
            octet,
        )
    })
}

pub fn serialize_soa(frame: &SoAFrame, target: &mut [u8]) -> Result<usize, Error> {
    writing(|written, octet| unsafe {
        powerlink_serialize_soa(
            frame.destination.0,
            frame.source.0,
            frame.nmt_state as u8,
            frame.flags.ea,
            frame.flags.er,
            frame.req_service_id as u8,
            frame.target_node_id.0,
            frame.epl_version.0,
            target.as_mut_ptr(),
            target.len(),
            written,
            octet,
        )
    })
}

pub fn serialize_asnd(
    services: &Services,
    frame: &ASndFrame,
    payload: &[u8],
    target: &mut [u8],
) -> Result<usize, Error> {
    writing(|written, octet| unsafe {
        powerlink_serialize_asnd(
            services.as_bytes(),
            frame.destination.0,
            frame.source.0,
            frame.service_id.0,
            payload.as_ptr(),
            payload.len(),
            target.as_mut_ptr(),
            target.len(),
            written,
            octet,
        )
    })
}

pub fn serialize_eth_header(header: &EthernetHeader, target: &mut [u8]) -> Result<usize, Error> {
    writing(|written, _| unsafe {
        powerlink_serialize_eth_header(
            &header.destination_mac.0,
            &header.source_mac.0,
            header.ether_type,
            target.as_mut_ptr(),
            target.len(),
            written,
        )
    })
}

pub fn serialize_pl_header(
    message_type: MessageType,
    destination: NodeId,
    source: NodeId,
    target: &mut [u8],
) -> Result<usize, Error> {
    writing(|written, octet| unsafe {
        powerlink_serialize_pl_header(
            message_type as u8,
            destination.0,
            source.0,
            target.as_mut_ptr(),
            target.len(),
            written,
            octet,
        )
    })
}

pub fn serialize_entry(entry: &ErrorEntry, target: &mut [u8]) -> Result<usize, Error> {
    writing(|written, _| unsafe {
        powerlink_serialize_entry(
            entry.entry_type.is_status_entry,
            entry.entry_type.send_to_queue,
            entry.entry_type.mode as u8,
            entry.entry_type.profile,
            entry.error_code,
            entry.timestamp.seconds,
            entry.timestamp.nanoseconds,
            entry.additional_information,
            target.as_mut_ptr(),
            target.len(),
            written,
        )
    })
}

pub fn serialize_error_field(
    field: &StaticErrorBitField,
    target: &mut [u8],
) -> Result<usize, Error> {
    writing(|written, _| unsafe {
        powerlink_serialize_error_field(
            &field.to_bytes(),
            target.as_mut_ptr(),
            target.len(),
            written,
        )
    })
}

/// `entries` are the octets of the entries, 20 each; a rest is refused with 1, as an entry that is too short.
pub fn serialize_status(
    fields: &StatusFields,
    entries: &[u8],
    target: &mut [u8],
) -> Result<usize, Error> {
    writing(|written, octet| unsafe {
        powerlink_serialize_status(
            fields.en_flag,
            fields.ec_flag,
            fields.pr as u8,
            fields.rs.get(),
            fields.nmt_state as u8,
            &fields.static_error_bit_field.to_bytes(),
            entries.as_ptr(),
            entries.len(),
            target.as_mut_ptr(),
            target.len(),
            written,
            octet,
        )
    })
}

// Writing whole frames, as each kind's `new` makes them.

pub fn new_soc(new: &NewFrame<'_, SocFrame>, target: &mut [u8]) -> Result<usize, Error> {
    writing(|written, _| unsafe {
        powerlink_new_soc(
            &new.eth_header.source_mac.0,
            new.frame.flags.mc,
            new.frame.flags.ps,
            new.frame.net_time.seconds,
            new.frame.net_time.nanoseconds,
            new.frame.relative_time.0,
            target.as_mut_ptr(),
            target.len(),
            written,
        )
    })
}

pub fn new_preq(new: &NewFrame<'_, PReqFrame>, target: &mut [u8]) -> Result<usize, Error> {
    writing(|written, _| unsafe {
        powerlink_new_preq(
            &new.eth_header.source_mac.0,
            &new.eth_header.destination_mac.0,
            new.frame.destination.0,
            new.frame.flags.ms,
            new.frame.flags.ea,
            new.frame.flags.rd,
            new.frame.pdo_version.0,
            new.payload.as_ptr(),
            new.payload.len(),
            target.as_mut_ptr(),
            target.len(),
            written,
        )
    })
}

pub fn new_pres(new: &NewFrame<'_, PResFrame>, target: &mut [u8]) -> Result<usize, Error> {
    writing(|written, octet| unsafe {
        powerlink_new_pres(
            &new.eth_header.source_mac.0,
            new.frame.source.0,
            new.frame.nmt_state as u8,
            new.frame.flags.ms,
            new.frame.flags.en,
            new.frame.flags.rd,
            new.frame.flags.pr as u8,
            new.frame.flags.rs.get(),
            new.frame.pdo_version.0,
            new.payload.as_ptr(),
            new.payload.len(),
            target.as_mut_ptr(),
            target.len(),
            written,
            octet,
        )
    })
}

pub fn new_soa(new: &NewFrame<'_, SoAFrame>, target: &mut [u8]) -> Result<usize, Error> {
    writing(|written, octet| unsafe {
        powerlink_new_soa(
            &new.eth_header.source_mac.0,
            new.frame.nmt_state as u8,
            new.frame.flags.ea,
            new.frame.flags.er,
            new.frame.req_service_id as u8,
            new.frame.target_node_id.0,
            new.frame.epl_version.0,
            target.as_mut_ptr(),
            target.len(),
            written,
            octet,
        )
    })
}

pub fn new_asnd(
    services: &Services,
    new: &NewFrame<'_, ASndFrame>,
    target: &mut [u8],
) -> Result<usize, Error> {
    writing(|written, octet| unsafe {
        powerlink_new_asnd(
            services.as_bytes(),
            &new.eth_header.source_mac.0,
            &new.eth_header.destination_mac.0,
            new.frame.destination.0,
            new.frame.source.0,
            new.frame.service_id.0,
            new.payload.as_ptr(),
            new.payload.len(),
            target.as_mut_ptr(),
            target.len(),
            written,
            octet,
        )
    })
}

// The exchange.

pub fn reporter_new(state: &mut [u8; REPORTER_LEN], id: NodeId) -> Result<(), Error> {
    let cause = unsafe { powerlink_reporter_new(state, id.0) };
    Error::check(cause, 0)
}

pub fn reporter_raise(state: &mut [u8; REPORTER_LEN], entry: &ErrorEntry) -> Result<(), Error> {
    let cause = unsafe {
        powerlink_reporter_raise(
            state,
            entry.entry_type.is_status_entry,
            entry.entry_type.send_to_queue,
            entry.entry_type.mode as u8,
            entry.entry_type.profile,
            entry.error_code,
            entry.timestamp.seconds,
            entry.timestamp.nanoseconds,
            entry.additional_information,
        )
    };
    Error::check(cause, 0)
}

pub fn reporter_answer(
    state: &mut [u8; REPORTER_LEN],
    services: &Services,
    fields: &AnswerFields,
    target: &mut [u8],
) -> Result<usize, Error> {
    writing(|written, octet| unsafe {
        powerlink_reporter_answer(
            state,
            services.as_bytes(),
            &fields.source_mac.0,
            &fields.dest_mac.0,
            fields.ec_flag,
            fields.pr as u8,
            fields.rs.get(),
            fields.nmt_state as u8,
            &fields.static_error_bit_field.to_bytes(),
            target.as_mut_ptr(),
            target.len(),
            written,
            octet,
        )
    })
}

/// 0 where the frame is ignored, 1 where its EA closes nothing, 2 where it closes the batch.
pub fn reporter_read(
    state: &mut [u8; REPORTER_LEN],
    services: &Services,
    buffer: &[u8],
) -> Result<u8, Error> {
    reading(0, |outcome, octet| unsafe {
        powerlink_reporter_read(
            state,
            services.as_bytes(),
            buffer.as_ptr(),
            buffer.len(),
            outcome,
            octet,
        )
    })
}

pub fn reporter_en(state: &[u8; REPORTER_LEN]) -> bool {
    let mut en = false;
    // It refuses nothing: the answer is always 0.
    unsafe {
        powerlink_reporter_en(state, &mut en);
    }
    en
}

pub fn collector_new(state: &mut [u8; COLLECTOR_LEN]) {
    // It refuses nothing: the answer is always 0.
    unsafe {
        powerlink_collector_new(state);
    }
}

pub fn collector_register(state: &mut [u8; COLLECTOR_LEN], id: NodeId) -> Result<(), Error> {
    let cause = unsafe { powerlink_collector_register(state, id.0) };
    Error::check(cause, 0)
}

/// 0 where the batch is known, 1 where it is booked.
pub fn collector_read(
    state: &mut [u8; COLLECTOR_LEN],
    services: &Services,
    buffer: &[u8],
) -> Result<u8, Error> {
    reading(0, |outcome, octet| unsafe {
        powerlink_collector_read(
            state,
            services.as_bytes(),
            buffer.as_ptr(),
            buffer.len(),
            outcome,
            octet,
        )
    })
}

pub fn collector_flags(state: &[u8; COLLECTOR_LEN], id: NodeId) -> Result<SoAFlags, Error> {
    reading(SoAFlags::default(), |flags, _| unsafe {
        powerlink_collector_flags(state, id.0, &mut flags.ea, &mut flags.er)
    })
}

pub fn collector_request(
    state: &[u8; COLLECTOR_LEN],
    id: NodeId,
    fields: &RequestFields,
    target: &mut [u8],
) -> Result<usize, Error> {
    writing(|written, octet| unsafe {
        powerlink_collector_request(
            state,
            id.0,
            &fields.source_mac.0,
            fields.nmt_state as u8,
            fields.epl_version.0,
            target.as_mut_ptr(),
            target.len(),
            written,
            octet,
        )
    })
}

pub fn collector_take(state: &mut [u8; COLLECTOR_LEN], id: NodeId) -> Result<[u64; 8], Error> {
    reading([0; 8], |values, _| unsafe {
        powerlink_collector_take(state, id.0, values)
    })
}

// The journal.

pub fn journal_record(id: NodeId, entry: &ErrorEntry, target: &mut [u8]) -> Result<usize, Error> {
    writing(|written, _| unsafe {
        powerlink_journal_record(
            id.0,
            entry.entry_type.is_status_entry,
            entry.entry_type.send_to_queue,
            entry.entry_type.mode as u8,
            entry.entry_type.profile,
            entry.error_code,
            entry.timestamp.seconds,
            entry.timestamp.nanoseconds,
            entry.additional_information,
            target.as_mut_ptr(),
            target.len(),
            written,
        )
    })
}

pub fn journal_whole_len(version: u16, len: usize) -> Result<usize, Error> {
    reading(0, |whole, _| unsafe {
        powerlink_journal_whole_len(version, len, whole)
    })
}
