//! The entry points of include/befrolan.h, as they are. A slice is a pointer and a number of elements; what a caller owes is
//! listed there, and the calls of this crate's other files see to it.

#[repr(C)]
#[derive(Clone, Copy, Debug)]
pub struct Numbers {
    pub number: i64,
    pub place: i64,
    pub need: i64,
    pub used: i64,
}

#[repr(C)]
#[derive(Clone, Copy, Debug)]
pub struct ResponseNumbers {
    pub number: i64,
    pub place: i64,
    pub need: i64,
    pub used: i64,
    pub error: i64,
    pub items: i64,
    pub throttle_kind: i64,
    pub throttle: i64,
    pub tags: i64,
}

#[repr(C)]
#[derive(Clone, Copy, Debug)]
pub struct RequestNumbers {
    pub number: i64,
    pub place: i64,
    pub need: i64,
    pub used: i64,
    pub name_kind: i64,
    pub name_start: i64,
    pub name_length: i64,
    pub version_kind: i64,
    pub version_start: i64,
    pub version_length: i64,
    pub tags: i64,
}

#[repr(C)]
#[derive(Clone, Copy, Debug)]
pub struct MetadataNumbers {
    pub number: i64,
    pub place: i64,
    pub need: i64,
    pub used: i64,
    pub throttle_kind: i64,
    pub throttle: i64,
    pub brokers: i64,
    pub cluster_kind: i64,
    pub cluster_start: i64,
    pub cluster_length: i64,
    pub controller_kind: i64,
    pub controller: i64,
    pub topics: i64,
}

#[repr(C)]
#[derive(Clone, Copy, Debug)]
pub struct HostNumbers {
    pub number: i64,
    pub place: i64,
    pub need: i64,
    pub found: i64,
    pub start: i64,
    pub length: i64,
}

#[repr(C)]
#[derive(Clone, Copy, Debug)]
pub struct FetchNumbers {
    pub number: i64,
    pub place: i64,
    pub need: i64,
    pub used: i64,
    pub throttle_kind: i64,
    pub throttle: i64,
    pub topics: i64,
}

#[repr(C)]
#[derive(Clone, Copy, Debug)]
pub struct RequestFrameNumbers {
    pub number: i64,
    pub place: i64,
    pub need: i64,
    pub used: i64,
    pub request_api_key: i64,
    pub request_api_version: i64,
    pub correlation_id: i64,
    pub client_id_kind: i64,
    pub client_id_start: i64,
    pub client_id_length: i64,
    pub tags: i64,
    pub body_start: i64,
    pub body_length: i64,
}

#[repr(C)]
#[derive(Clone, Copy, Debug)]
pub struct ResponseFrameNumbers {
    pub number: i64,
    pub place: i64,
    pub need: i64,
    pub used: i64,
    pub correlation_id: i64,
    pub tags: i64,
    pub body_start: i64,
    pub body_length: i64,
}

extern "C" {
    pub fn befrolan_read_api_versions_response(
        msg: *const u8,
        msg_len: usize,
        version: i64,
        whole: u64,
        items: *mut i64,
        items_len: usize,
        tags: *mut i64,
        tags_len: usize,
    ) -> ResponseNumbers;
    pub fn befrolan_read_api_versions_request(
        msg: *const u8,
        msg_len: usize,
        version: i64,
        tags: *mut i64,
        tags_len: usize,
    ) -> RequestNumbers;
    pub fn befrolan_write_api_versions_response(
        out: *mut u8,
        out_len: usize,
        version: i64,
        lent: *const u8,
        lent_len: usize,
        body: *const i64,
        items: *const i64,
        items_len: usize,
        tags: *const i64,
        tags_len: usize,
    ) -> Numbers;
    pub fn befrolan_write_api_versions_request(
        out: *mut u8,
        out_len: usize,
        version: i64,
        lent: *const u8,
        lent_len: usize,
        body: *const i64,
        tags: *const i64,
        tags_len: usize,
    ) -> Numbers;
    pub fn befrolan_agree(items: *const i64, items_len: usize, rows: *mut i64);
    pub fn befrolan_read_metadata_response(
        msg: *const u8,
        msg_len: usize,
        version: i64,
        brokers: *mut i64,
        brokers_len: usize,
        topics: *mut i64,
        topics_len: usize,
        partitions: *mut i64,
        partitions_len: usize,
        replicas: *mut i64,
        replicas_len: usize,
        in_sync: *mut i64,
        in_sync_len: usize,
    ) -> MetadataNumbers;
    pub fn befrolan_write_metadata_request(
        out: *mut u8,
        out_len: usize,
        version: i64,
        lent: *const u8,
        lent_len: usize,
        body: *const i64,
        topics: *const i64,
        topics_len: usize,
    ) -> Numbers;
    pub fn befrolan_find_host(msg: *const u8, msg_len: usize, version: i64, node: i64) -> HostNumbers;
    pub fn befrolan_read_fetch_response(
        msg: *const u8,
        msg_len: usize,
        version: i64,
        topics: *mut i64,
        topics_len: usize,
        partitions: *mut i64,
        partitions_len: usize,
        aborted: *mut i64,
        aborted_len: usize,
    ) -> FetchNumbers;
    pub fn befrolan_write_fetch_request(
        out: *mut u8,
        out_len: usize,
        version: i64,
        lent: *const u8,
        lent_len: usize,
        body: *const i64,
        topics: *const i64,
        topics_len: usize,
        partitions: *const i64,
        partitions_len: usize,
    ) -> Numbers;
    pub fn befrolan_request_number(key: i64, version: i64) -> i64;
    pub fn befrolan_response_number(key: i64, version: i64) -> i64;
    pub fn befrolan_read_request_frame(
        msg: *const u8,
        msg_len: usize,
        header: i64,
        tags: *mut i64,
        tags_len: usize,
    ) -> RequestFrameNumbers;
    pub fn befrolan_read_response_frame(
        msg: *const u8,
        msg_len: usize,
        header: i64,
        tags: *mut i64,
        tags_len: usize,
    ) -> ResponseFrameNumbers;
    pub fn befrolan_write_request_frame(
        out: *mut u8,
        out_len: usize,
        header: i64,
        lent: *const u8,
        lent_len: usize,
        row: *const i64,
        tags: *const i64,
        tags_len: usize,
        body: *const u8,
        body_len: usize,
    ) -> Numbers;
    pub fn befrolan_write_response_frame(
        out: *mut u8,
        out_len: usize,
        header: i64,
        lent: *const u8,
        lent_len: usize,
        row: *const i64,
        tags: *const i64,
        tags_len: usize,
        body: *const u8,
        body_len: usize,
    ) -> Numbers;
    pub fn befrolan_well_formed(text: *const u8, text_len: usize) -> u64;
}
