//! The functions of libpowerlink.a that are timed, declared as include/powerlink.h has them. Slices go in as a pointer and a
//! length, states and small arrays as a pointer to their first element.
pub const REPORTER_LEN: usize = 408;
pub const COLLECTOR_LEN: usize = 5184;
pub type Mac = [u8; 6];
pub type ReporterState = [u8; REPORTER_LEN];
pub type CollectorState = [u8; COLLECTOR_LEN];
pub type Services = [u8; 256];

/// The header's table of DS 301: the services that powerlink-rs knows.
pub static DS301: Services = {
    let known = [0, 1, 1, 1, 1, 1, 0, 0, 0, 0, 0, 1, 0, 1, 1, 1, 1, 1, 1];
    let mut table = [0; 256];
    let mut id = 0;
    while id < known.len() {
        table[id] = known[id];
        id += 1;
    }
    table
};

#[rustfmt::skip]
unsafe extern "C" {
    pub fn powerlink_deserialize_frame_v2(services: &Services, buffer: *const u8, buffer_len: usize, values: &mut [u64; 16], octet: &mut u8) -> u8;
    pub fn powerlink_deserialize_status(payload: *const u8, payload_len: usize, values: &mut [u64; 5], field: &mut [u8; 8], octet: &mut u8) -> u8;
    pub fn powerlink_entry_step(payload: *const u8, payload_len: usize, offset: usize, values: &mut [u64; 8], next: &mut usize) -> u8;

    pub fn powerlink_serialize_soc(destination: u8, source: u8, mc: bool, ps: bool, seconds: u32, nanoseconds: u32, relative_time: u64,
        target: *mut u8, target_len: usize, written: &mut usize) -> u8;
    pub fn powerlink_serialize_preq(destination: u8, source: u8, ms: bool, ea: bool, rd: bool, pdo_version: u8, payload_size: u16,
        payload: *const u8, payload_len: usize, target: *mut u8, target_len: usize, written: &mut usize) -> u8;
    pub fn powerlink_serialize_pres(destination: u8, source: u8, state: u8, ms: bool, en: bool, rd: bool, pr: u8, rs: u8, pdo_version: u8,
        payload_size: u16, payload: *const u8, payload_len: usize, target: *mut u8, target_len: usize, written: &mut usize, octet: &mut u8) -> u8;
    pub fn powerlink_serialize_soa(destination: u8, source: u8, state: u8, ea: bool, er: bool, requested_service: u8, target_node: u8,
        epl_version: u8, target: *mut u8, target_len: usize, written: &mut usize, octet: &mut u8) -> u8;
    pub fn powerlink_serialize_asnd_v2(services: &Services, destination: u8, source: u8, service: u8, payload: *const u8, payload_len: usize,
        target: *mut u8, target_len: usize, written: &mut usize, octet: &mut u8) -> u8;
    pub fn powerlink_serialize_entry(status_entry: bool, send_to_queue: bool, mode: u8, profile: u16, code: u16, seconds: u32,
        nanoseconds: u32, information: u64, target: *mut u8, target_len: usize, written: &mut usize) -> u8;
    pub fn powerlink_serialize_status(en: bool, ec: bool, pr: u8, rs: u8, state: u8, field: &[u8; 8], entries: *const u8, entries_len: usize,
        target: *mut u8, target_len: usize, written: &mut usize, octet: &mut u8) -> u8;

    pub fn powerlink_new_soc(source_mac: &Mac, mc: bool, ps: bool, seconds: u32, nanoseconds: u32, relative_time: u64,
        target: *mut u8, target_len: usize, written: &mut usize) -> u8;
    pub fn powerlink_new_preq(source_mac: &Mac, dest_mac: &Mac, target_node: u8, ms: bool, ea: bool, rd: bool, pdo_version: u8,
        payload: *const u8, payload_len: usize, target: *mut u8, target_len: usize, written: &mut usize) -> u8;
    pub fn powerlink_new_pres(source_mac: &Mac, source: u8, state: u8, ms: bool, en: bool, rd: bool, pr: u8, rs: u8, pdo_version: u8,
        payload: *const u8, payload_len: usize, target: *mut u8, target_len: usize, written: &mut usize, octet: &mut u8) -> u8;
    pub fn powerlink_new_soa(source_mac: &Mac, state: u8, ea: bool, er: bool, requested_service: u8, target_node: u8, epl_version: u8,
        target: *mut u8, target_len: usize, written: &mut usize, octet: &mut u8) -> u8;
    pub fn powerlink_new_asnd_v2(services: &Services, source_mac: &Mac, dest_mac: &Mac, target_node: u8, source: u8, service: u8, payload: *const u8,
        payload_len: usize, target: *mut u8, target_len: usize, written: &mut usize, octet: &mut u8) -> u8;

    pub fn powerlink_reporter_new_v2(state: &mut ReporterState, id: u8) -> u8;
    pub fn powerlink_reporter_raise(state: &mut ReporterState, status_entry: bool, send_to_queue: bool, mode: u8, profile: u16, code: u16,
        seconds: u32, nanoseconds: u32, information: u64) -> u8;
    pub fn powerlink_reporter_answer_v2(state: &mut ReporterState, services: &Services, source_mac: &Mac, dest_mac: &Mac, ec: bool, pr: u8, rs: u8,
        nmt_state: u8, field: &[u8; 8], target: *mut u8, target_len: usize, written: &mut usize, octet: &mut u8) -> u8;
    pub fn powerlink_reporter_read_v2(state: &mut ReporterState, services: &Services, buffer: *const u8, buffer_len: usize, outcome: &mut u8, octet: &mut u8) -> u8;
    pub fn powerlink_collector_new_v2(state: &mut CollectorState) -> u8;
    pub fn powerlink_collector_register(state: &mut CollectorState, id: u8) -> u8;
    pub fn powerlink_collector_read_v2(state: &mut CollectorState, services: &Services, buffer: *const u8, buffer_len: usize, outcome: &mut u8, octet: &mut u8) -> u8;
    pub fn powerlink_collector_request(state: &CollectorState, id: u8, source_mac: &Mac, nmt_state: u8, epl_version: u8,
        target: *mut u8, target_len: usize, written: &mut usize, octet: &mut u8) -> u8;
    pub fn powerlink_collector_take(state: &mut CollectorState, id: u8, values: &mut [u64; 8]) -> u8;
}
