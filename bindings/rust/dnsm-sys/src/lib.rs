//! The calls of `dnsm.h`, which says what each does. All offsets count octets from the start of the message.
#![allow(non_camel_case_types)]

use std::os::raw::{c_char, c_uint};

/// `DNSM_OK` or one of the numbers after it. It is no enum of Rust, because a later version of the library may return others.
pub type dnsm_status = c_uint;

pub const DNSM_OK: dnsm_status = 0;
pub const DNSM_END: dnsm_status = 1;
pub const DNSM_SHORT_INPUT: dnsm_status = 2;
pub const DNSM_BAD_LABEL: dnsm_status = 3;
pub const DNSM_BAD_POINTER: dnsm_status = 4;
pub const DNSM_LONG_NAME: dnsm_status = 5;
pub const DNSM_FORM: dnsm_status = 6;
pub const DNSM_NO_ROOM: dnsm_status = 7;
pub const DNSM_BAD_TEXT: dnsm_status = 8;
pub const DNSM_NO_QUESTION: dnsm_status = 9;
pub const DNSM_BAD_SECTION: dnsm_status = 10;
pub const DNSM_NO_MEMORY: dnsm_status = 11;
pub const DNSM_LONG_DATA: dnsm_status = 12;
pub const DNSM_TOO_MANY: dnsm_status = 13;
pub const DNSM_IS_RESPONSE: dnsm_status = 14;
pub const DNSM_OTHER_OPCODE: dnsm_status = 15;
pub const DNSM_OTHER_CLASS: dnsm_status = 16;
pub const DNSM_OTHER_TYPE: dnsm_status = 17;
pub const DNSM_NOT_OPT: dnsm_status = 18;
pub const DNSM_BAD_OPTION: dnsm_status = 19;
pub const DNSM_NO_NAME: dnsm_status = 20;
pub const DNSM_BAD_DATA: dnsm_status = 21;
pub const DNSM_NO_OPT: dnsm_status = 22;
pub const DNSM_TWO_OPTS: dnsm_status = 23;
pub const DNSM_BAD_OWNER: dnsm_status = 24;
pub const DNSM_NO_RESPONSE: dnsm_status = 25;
pub const DNSM_OTHER_QUERY: dnsm_status = 26;
pub const DNSM_BAD_RCODE: dnsm_status = 27;
pub const DNSM_TRUNCATED: dnsm_status = 28;
pub const DNSM_WRONG_CLASS: dnsm_status = 29;
pub const DNSM_OUTSIDE_ZONE: dnsm_status = 30;
pub const DNSM_NO_SOA: dnsm_status = 31;
pub const DNSM_WRONG_SOA: dnsm_status = 32;
pub const DNSM_AFTER_END: dnsm_status = 33;
pub const DNSM_INCOMPLETE: dnsm_status = 34;

pub const DNSM_QUESTION: u8 = 0;
pub const DNSM_ANSWER: u8 = 1;
pub const DNSM_AUTHORITY: u8 = 2;
pub const DNSM_ADDITIONAL: u8 = 3;

pub const DNSM_NAME_TEXT: usize = 1005;
pub const DNSM_NAME_OCTETS: usize = 255;
pub const DNSM_NAME_KEY: usize = 504;
pub const DNSM_MADE: usize = 512;

pub const DNSM_QR: u16 = 0x8000;
pub const DNSM_AA: u16 = 0x400;
pub const DNSM_TC: u16 = 0x200;
pub const DNSM_RD: u16 = 0x100;
pub const DNSM_RA: u16 = 0x80;
pub const DNSM_AD: u16 = 0x20;
pub const DNSM_CD: u16 = 0x10;

pub const DNSM_DO: u16 = 0x8000;

pub const DNSM_TYPE_A: u16 = 1;
pub const DNSM_TYPE_NS: u16 = 2;
pub const DNSM_TYPE_MD: u16 = 3;
pub const DNSM_TYPE_MF: u16 = 4;
pub const DNSM_TYPE_CNAME: u16 = 5;
pub const DNSM_TYPE_SOA: u16 = 6;
pub const DNSM_TYPE_MB: u16 = 7;
pub const DNSM_TYPE_MG: u16 = 8;
pub const DNSM_TYPE_MR: u16 = 9;
pub const DNSM_TYPE_NULL: u16 = 10;
pub const DNSM_TYPE_WKS: u16 = 11;
pub const DNSM_TYPE_PTR: u16 = 12;
pub const DNSM_TYPE_HINFO: u16 = 13;
pub const DNSM_TYPE_MINFO: u16 = 14;
pub const DNSM_TYPE_MX: u16 = 15;
pub const DNSM_TYPE_TXT: u16 = 16;
pub const DNSM_TYPE_RP: u16 = 17;
pub const DNSM_TYPE_AFSDB: u16 = 18;
pub const DNSM_TYPE_X25: u16 = 19;
pub const DNSM_TYPE_ISDN: u16 = 20;
pub const DNSM_TYPE_RT: u16 = 21;
pub const DNSM_TYPE_NSAP: u16 = 22;
pub const DNSM_TYPE_NSAP_PTR: u16 = 23;
pub const DNSM_TYPE_SIG: u16 = 24;
pub const DNSM_TYPE_KEY: u16 = 25;
pub const DNSM_TYPE_PX: u16 = 26;
pub const DNSM_TYPE_GPOS: u16 = 27;
pub const DNSM_TYPE_AAAA: u16 = 28;
pub const DNSM_TYPE_LOC: u16 = 29;
pub const DNSM_TYPE_NXT: u16 = 30;
pub const DNSM_TYPE_EID: u16 = 31;
pub const DNSM_TYPE_NIMLOC: u16 = 32;
pub const DNSM_TYPE_SRV: u16 = 33;
pub const DNSM_TYPE_ATMA: u16 = 34;
pub const DNSM_TYPE_NAPTR: u16 = 35;
pub const DNSM_TYPE_KX: u16 = 36;
pub const DNSM_TYPE_CERT: u16 = 37;
pub const DNSM_TYPE_A6: u16 = 38;
pub const DNSM_TYPE_DNAME: u16 = 39;
pub const DNSM_TYPE_SINK: u16 = 40;
pub const DNSM_TYPE_OPT: u16 = 41;
pub const DNSM_TYPE_APL: u16 = 42;
pub const DNSM_TYPE_DS: u16 = 43;
pub const DNSM_TYPE_SSHFP: u16 = 44;
pub const DNSM_TYPE_IPSECKEY: u16 = 45;
pub const DNSM_TYPE_RRSIG: u16 = 46;
pub const DNSM_TYPE_NSEC: u16 = 47;
pub const DNSM_TYPE_DNSKEY: u16 = 48;
pub const DNSM_TYPE_DHCID: u16 = 49;
pub const DNSM_TYPE_NSEC3: u16 = 50;
pub const DNSM_TYPE_NSEC3PARAM: u16 = 51;
pub const DNSM_TYPE_TLSA: u16 = 52;
pub const DNSM_TYPE_SMIMEA: u16 = 53;
pub const DNSM_TYPE_HIP: u16 = 55;
pub const DNSM_TYPE_NINFO: u16 = 56;
pub const DNSM_TYPE_RKEY: u16 = 57;
pub const DNSM_TYPE_TALINK: u16 = 58;
pub const DNSM_TYPE_CDS: u16 = 59;
pub const DNSM_TYPE_CDNSKEY: u16 = 60;
pub const DNSM_TYPE_OPENPGPKEY: u16 = 61;
pub const DNSM_TYPE_CSYNC: u16 = 62;
pub const DNSM_TYPE_ZONEMD: u16 = 63;
pub const DNSM_TYPE_SVCB: u16 = 64;
pub const DNSM_TYPE_HTTPS: u16 = 65;
pub const DNSM_TYPE_DSYNC: u16 = 66;
pub const DNSM_TYPE_HHIT: u16 = 67;
pub const DNSM_TYPE_BRID: u16 = 68;
pub const DNSM_TYPE_SPF: u16 = 99;
pub const DNSM_TYPE_UINFO: u16 = 100;
pub const DNSM_TYPE_UID: u16 = 101;
pub const DNSM_TYPE_GID: u16 = 102;
pub const DNSM_TYPE_UNSPEC: u16 = 103;
pub const DNSM_TYPE_NID: u16 = 104;
pub const DNSM_TYPE_L32: u16 = 105;
pub const DNSM_TYPE_L64: u16 = 106;
pub const DNSM_TYPE_LP: u16 = 107;
pub const DNSM_TYPE_EUI48: u16 = 108;
pub const DNSM_TYPE_EUI64: u16 = 109;
pub const DNSM_TYPE_NXNAME: u16 = 128;
pub const DNSM_TYPE_TKEY: u16 = 249;
pub const DNSM_TYPE_TSIG: u16 = 250;
pub const DNSM_TYPE_IXFR: u16 = 251;
pub const DNSM_TYPE_AXFR: u16 = 252;
pub const DNSM_TYPE_MAILB: u16 = 253;
pub const DNSM_TYPE_MAILA: u16 = 254;
pub const DNSM_TYPE_ANY: u16 = 255;
pub const DNSM_TYPE_URI: u16 = 256;
pub const DNSM_TYPE_CAA: u16 = 257;
pub const DNSM_TYPE_AVC: u16 = 258;
pub const DNSM_TYPE_DOA: u16 = 259;
pub const DNSM_TYPE_AMTRELAY: u16 = 260;
pub const DNSM_TYPE_RESINFO: u16 = 261;
pub const DNSM_TYPE_WALLET: u16 = 262;
pub const DNSM_TYPE_CLA: u16 = 263;
pub const DNSM_TYPE_IPN: u16 = 264;
pub const DNSM_TYPE_TA: u16 = 32768;
pub const DNSM_TYPE_DLV: u16 = 32769;

pub const DNSM_CLASS_IN: u16 = 1;
pub const DNSM_CLASS_CH: u16 = 3;
pub const DNSM_CLASS_HS: u16 = 4;
pub const DNSM_CLASS_NONE: u16 = 254;
pub const DNSM_CLASS_ANY: u16 = 255;

pub const DNSM_OPCODE_QUERY: u8 = 0;
pub const DNSM_OPCODE_IQUERY: u8 = 1;
pub const DNSM_OPCODE_STATUS: u8 = 2;
pub const DNSM_OPCODE_NOTIFY: u8 = 4;
pub const DNSM_OPCODE_UPDATE: u8 = 5;
pub const DNSM_OPCODE_DSO: u8 = 6;

pub const DNSM_RCODE_NOERROR: u16 = 0;
pub const DNSM_RCODE_FORMERR: u16 = 1;
pub const DNSM_RCODE_SERVFAIL: u16 = 2;
pub const DNSM_RCODE_NXDOMAIN: u16 = 3;
pub const DNSM_RCODE_NOTIMP: u16 = 4;
pub const DNSM_RCODE_REFUSED: u16 = 5;
pub const DNSM_RCODE_YXDOMAIN: u16 = 6;
pub const DNSM_RCODE_YXRRSET: u16 = 7;
pub const DNSM_RCODE_NXRRSET: u16 = 8;
pub const DNSM_RCODE_NOTAUTH: u16 = 9;
pub const DNSM_RCODE_NOTZONE: u16 = 10;
pub const DNSM_RCODE_DSOTYPENI: u16 = 11;
pub const DNSM_RCODE_BADVERS: u16 = 16;
pub const DNSM_RCODE_BADKEY: u16 = 17;
pub const DNSM_RCODE_BADTIME: u16 = 18;
pub const DNSM_RCODE_BADMODE: u16 = 19;
pub const DNSM_RCODE_BADNAME: u16 = 20;
pub const DNSM_RCODE_BADALG: u16 = 21;
pub const DNSM_RCODE_BADTRUNC: u16 = 22;
pub const DNSM_RCODE_BADCOOKIE: u16 = 23;

pub const DNSM_OPTION_LLQ: u16 = 1;
pub const DNSM_OPTION_UPDATE_LEASE: u16 = 2;
pub const DNSM_OPTION_NSID: u16 = 3;
pub const DNSM_OPTION_DAU: u16 = 5;
pub const DNSM_OPTION_DHU: u16 = 6;
pub const DNSM_OPTION_N3U: u16 = 7;
pub const DNSM_OPTION_EDNS_CLIENT_SUBNET: u16 = 8;
pub const DNSM_OPTION_EDNS_EXPIRE: u16 = 9;
pub const DNSM_OPTION_COOKIE: u16 = 10;
pub const DNSM_OPTION_EDNS_TCP_KEEPALIVE: u16 = 11;
pub const DNSM_OPTION_PADDING: u16 = 12;
pub const DNSM_OPTION_CHAIN: u16 = 13;
pub const DNSM_OPTION_EDNS_KEY_TAG: u16 = 14;
pub const DNSM_OPTION_EXTENDED_DNS_ERROR: u16 = 15;
pub const DNSM_OPTION_EDNS_CLIENT_TAG: u16 = 16;
pub const DNSM_OPTION_EDNS_SERVER_TAG: u16 = 17;
pub const DNSM_OPTION_REPORT_CHANNEL: u16 = 18;
pub const DNSM_OPTION_ZONEVERSION: u16 = 19;
pub const DNSM_OPTION_UMBRELLA_IDENT: u16 = 20292;
pub const DNSM_OPTION_DEVICEID: u16 = 26946;

pub const DNSM_EDE_OTHER_ERROR: u16 = 0;
pub const DNSM_EDE_UNSUPPORTED_DNSKEY_ALGORITHM: u16 = 1;
pub const DNSM_EDE_UNSUPPORTED_DS_DIGEST_TYPE: u16 = 2;
pub const DNSM_EDE_STALE_ANSWER: u16 = 3;
pub const DNSM_EDE_FORGED_ANSWER: u16 = 4;
pub const DNSM_EDE_DNSSEC_INDETERMINATE: u16 = 5;
pub const DNSM_EDE_DNSSEC_BOGUS: u16 = 6;
pub const DNSM_EDE_SIGNATURE_EXPIRED: u16 = 7;
pub const DNSM_EDE_SIGNATURE_NOT_YET_VALID: u16 = 8;
pub const DNSM_EDE_DNSKEY_MISSING: u16 = 9;
pub const DNSM_EDE_RRSIGS_MISSING: u16 = 10;
pub const DNSM_EDE_NO_ZONE_KEY_BIT_SET: u16 = 11;
pub const DNSM_EDE_NSEC_MISSING: u16 = 12;
pub const DNSM_EDE_CACHED_ERROR: u16 = 13;
pub const DNSM_EDE_NOT_READY: u16 = 14;
pub const DNSM_EDE_BLOCKED: u16 = 15;
pub const DNSM_EDE_CENSORED: u16 = 16;
pub const DNSM_EDE_FILTERED: u16 = 17;
pub const DNSM_EDE_PROHIBITED: u16 = 18;
pub const DNSM_EDE_STALE_NXDOMAIN_ANSWER: u16 = 19;
pub const DNSM_EDE_NOT_AUTHORITATIVE: u16 = 20;
pub const DNSM_EDE_NOT_SUPPORTED: u16 = 21;
pub const DNSM_EDE_NO_REACHABLE_AUTHORITY: u16 = 22;
pub const DNSM_EDE_NETWORK_ERROR: u16 = 23;
pub const DNSM_EDE_INVALID_DATA: u16 = 24;
pub const DNSM_EDE_SIGNATURE_EXPIRED_BEFORE_VALID: u16 = 25;
pub const DNSM_EDE_TOO_EARLY: u16 = 26;
pub const DNSM_EDE_UNSUPPORTED_NSEC3_ITERATIONS_VALUE: u16 = 27;
pub const DNSM_EDE_UNABLE_TO_CONFORM_TO_POLICY: u16 = 28;
pub const DNSM_EDE_SYNTHESIZED: u16 = 29;
pub const DNSM_EDE_INVALID_QUERY_TYPE: u16 = 30;

pub const DNSM_FIELD_NUMBER: u8 = 0;
pub const DNSM_FIELD_TYPE: u8 = 1;
pub const DNSM_FIELD_IPV4: u8 = 2;
pub const DNSM_FIELD_IPV6: u8 = 3;
pub const DNSM_FIELD_NAME: u8 = 4;
pub const DNSM_FIELD_STRING: u8 = 5;
pub const DNSM_FIELD_SIZED: u8 = 6;
pub const DNSM_FIELD_OCTETS: u8 = 7;

pub const DNSM_REPLY_ANSWER: u8 = 0;
pub const DNSM_REPLY_NO_DATA: u8 = 1;
pub const DNSM_REPLY_NO_NAME: u8 = 2;
pub const DNSM_REPLY_REFERRAL: u8 = 3;
pub const DNSM_REPLY_ALIAS: u8 = 4;
pub const DNSM_REPLY_DNAME: u8 = 5;
pub const DNSM_REPLY_TRUNCATED: u8 = 6;
pub const DNSM_REPLY_FAILED: u8 = 7;
pub const DNSM_REPLY_DONE: u8 = 8;
pub const DNSM_REPLY_UNREADABLE: u8 = 9;
pub const DNSM_REPLY_MANY_OPTS: u8 = 10;
pub const DNSM_REPLY_LOOP: u8 = 11;
pub const DNSM_REPLY_LAME: u8 = 12;

pub const DNSM_STEP_BEGIN: u8 = 0;
pub const DNSM_STEP_UP_TO_DATE: u8 = 1;
pub const DNSM_STEP_WHOLE: u8 = 2;
pub const DNSM_STEP_REMOVE: u8 = 3;
pub const DNSM_STEP_ADD: u8 = 4;
pub const DNSM_STEP_END: u8 = 5;

pub const DNSM_TRANSFER_WANTED: u8 = 0;
pub const DNSM_TRANSFER_FIRST: u8 = 1;
pub const DNSM_TRANSFER_WHOLE: u8 = 2;
pub const DNSM_TRANSFER_REMOVING: u8 = 3;
pub const DNSM_TRANSFER_ADDING: u8 = 4;
pub const DNSM_TRANSFER_ENDED: u8 = 5;

#[repr(C)]
#[derive(Debug, Default, Clone, Copy)]
pub struct dnsm_header {
    pub id: u16,
    pub flags: u16,
    pub counts: [u16; 4],
    pub opcode: u8,
    pub rcode: u8,
}

#[repr(C)]
#[derive(Debug, Default, Clone, Copy)]
pub struct dnsm_cursor {
    pub place: usize,
    pub left: u16,
    pub section: u8,
    pub status: dnsm_status,
    pub owner: u16,
}

#[repr(C)]
#[derive(Debug, Default, Clone, Copy)]
pub struct dnsm_item {
    pub place: usize,
    pub data: usize,
    pub ttl: u32,
    pub type_: u16,
    pub class_: u16,
    pub data_len: u16,
    pub section: u8,
}

#[repr(C)]
#[derive(Debug, Default, Clone, Copy)]
pub struct dnsm_opt {
    pub udp_size: u16,
    pub flags: u16,
    pub rcode_high: u8,
    pub version: u8,
}

#[repr(C)]
#[derive(Debug, Default, Clone, Copy)]
pub struct dnsm_opt_option {
    pub data: usize,
    pub code: u16,
    pub data_len: u16,
}

#[repr(C)]
#[derive(Debug, Default, Clone, Copy)]
pub struct dnsm_data_field {
    pub place: usize,
    pub len: usize,
    pub number: u64,
    pub kind: u8,
}

#[repr(C)]
#[derive(Debug, Clone, Copy)]
pub struct dnsm_new_item {
    pub name: *const c_char,
    pub name_len: usize,
    pub data: *const u8,
    pub data_len: usize,
    pub ttl: u32,
    pub type_: u16,
    pub class_: u16,
    pub section: u8,
}

#[repr(C)]
#[derive(Debug, Clone, Copy)]
pub struct dnsm_draft {
    pub len: usize,
    pub limit: usize,
    pub reserved: usize,
    pub id: u16,
    pub flags: u16,
    pub counts: [u16; 4],
    pub section: u8,
    pub unchecked: u8,
    pub hints: [u16; 64],
}

#[repr(C)]
#[derive(Debug, Clone, Copy)]
pub struct dnsm_put_item {
    pub name: *const u8,
    pub name_len: usize,
    pub data: *const u8,
    pub data_len: usize,
    pub ttl: u32,
    pub type_: u16,
    pub class_: u16,
    pub section: u8,
}

#[repr(C)]
#[derive(Debug, Clone, Copy)]
pub struct dnsm_saying {
    pub ttl: u32,
    pub alias_ttl: u32,
    pub rcode: u16,
    pub kind: u8,
    pub name_len: u8,
    pub owner_len: u8,
    pub target_len: u8,
    pub name: [u8; 255],
    pub owner: [u8; 255],
    pub target: [u8; 255],
}

#[repr(C)]
#[derive(Debug, Clone, Copy)]
pub struct dnsm_transfer {
    pub known: u32,
    pub version: u32,
    pub last: u32,
    pub status: dnsm_status,
    pub id: u16,
    pub class_: u16,
    pub state: u8,
    pub changes: u8,
    pub zone_len: u8,
    pub zone: [u8; 255],
}

#[repr(C)]
#[derive(Debug, Default, Clone, Copy)]
pub struct dnsm_step {
    pub item: dnsm_item,
    pub serial: u32,
    pub kind: u8,
}

extern "C" {
    pub fn dnsm_version() -> u32;
    pub fn dnsm_status_text(status: dnsm_status, out: *mut c_char, out_len: usize, len: *mut usize) -> dnsm_status;
    pub fn dnsm_open(message: *const u8, message_len: usize, header: *mut dnsm_header, cursor: *mut dnsm_cursor) -> dnsm_status;
    pub fn dnsm_next(message: *const u8, message_len: usize, cursor: *mut dnsm_cursor, item: *mut dnsm_item) -> dnsm_status;
    pub fn dnsm_name_text(
        message: *const u8,
        message_len: usize,
        place: usize,
        out: *mut c_char,
        out_len: usize,
        len: *mut usize,
    ) -> dnsm_status;
    pub fn dnsm_name_octets(
        message: *const u8,
        message_len: usize,
        place: usize,
        out: *mut u8,
        out_len: usize,
        len: *mut usize,
    ) -> dnsm_status;
    pub fn dnsm_name_end(message: *const u8, message_len: usize, place: usize, end: *mut usize) -> dnsm_status;
    pub fn dnsm_name_from_text(
        text: *const c_char,
        text_len: usize,
        out: *mut u8,
        out_len: usize,
        len: *mut usize,
    ) -> dnsm_status;
    pub fn dnsm_name_equal(
        message: *const u8,
        message_len: usize,
        place: usize,
        other: *const u8,
        other_len: usize,
        other_place: usize,
        equal: *mut u8,
    ) -> dnsm_status;
    pub fn dnsm_name_below(
        message: *const u8,
        message_len: usize,
        place: usize,
        other: *const u8,
        other_len: usize,
        other_place: usize,
        below: *mut u8,
    ) -> dnsm_status;
    pub fn dnsm_name_order(
        message: *const u8,
        message_len: usize,
        place: usize,
        other: *const u8,
        other_len: usize,
        other_place: usize,
        order: *mut u8,
    ) -> dnsm_status;
    pub fn dnsm_name_key(
        message: *const u8,
        message_len: usize,
        place: usize,
        out: *mut u8,
        out_len: usize,
        len: *mut usize,
    ) -> dnsm_status;
    pub fn dnsm_name_hash(
        message: *const u8,
        message_len: usize,
        place: usize,
        seed: *const u8,
        seed_len: usize,
        hash: *mut u32,
    ) -> dnsm_status;
    pub fn dnsm_data_text(
        message: *const u8,
        message_len: usize,
        item: *const dnsm_item,
        out: *mut c_char,
        out_len: usize,
        len: *mut usize,
    ) -> dnsm_status;
    pub fn dnsm_data_octets(
        message: *const u8,
        message_len: usize,
        item: *const dnsm_item,
        out: *mut u8,
        out_len: usize,
        len: *mut usize,
    ) -> dnsm_status;
    pub fn dnsm_check_data(message: *const u8, message_len: usize, item: *const dnsm_item) -> dnsm_status;
    pub fn dnsm_data_name(
        message: *const u8,
        message_len: usize,
        item: *const dnsm_item,
        index: usize,
        place: *mut usize,
    ) -> dnsm_status;
    pub fn dnsm_data_name_text(
        message: *const u8,
        message_len: usize,
        item: *const dnsm_item,
        index: usize,
        out: *mut c_char,
        out_len: usize,
        len: *mut usize,
    ) -> dnsm_status;
    pub fn dnsm_data_name_octets(
        message: *const u8,
        message_len: usize,
        item: *const dnsm_item,
        index: usize,
        out: *mut u8,
        out_len: usize,
        len: *mut usize,
    ) -> dnsm_status;
    pub fn dnsm_next_field(
        message: *const u8,
        message_len: usize,
        item: *const dnsm_item,
        index: *mut usize,
        field: *mut dnsm_data_field,
    ) -> dnsm_status;
    pub fn dnsm_data_from_text(
        type_: u16,
        text: *const c_char,
        text_len: usize,
        out: *mut u8,
        out_len: usize,
        len: *mut usize,
    ) -> dnsm_status;
    pub fn dnsm_record_from_text(
        text: *const c_char,
        text_len: usize,
        out: *mut u8,
        out_len: usize,
        len: *mut usize,
        item: *mut dnsm_item,
    ) -> dnsm_status;
    pub fn dnsm_type_text(type_: u16, out: *mut c_char, out_len: usize, len: *mut usize) -> dnsm_status;
    pub fn dnsm_class_text(class_: u16, out: *mut c_char, out_len: usize, len: *mut usize) -> dnsm_status;
    pub fn dnsm_opcode_text(opcode: u8, out: *mut c_char, out_len: usize, len: *mut usize) -> dnsm_status;
    pub fn dnsm_rcode_text(rcode: u16, out: *mut c_char, out_len: usize, len: *mut usize) -> dnsm_status;
    pub fn dnsm_option_text(code: u16, out: *mut c_char, out_len: usize, len: *mut usize) -> dnsm_status;
    pub fn dnsm_extended_error_text(code: u16, out: *mut c_char, out_len: usize, len: *mut usize) -> dnsm_status;
    pub fn dnsm_type_from_text(text: *const c_char, text_len: usize, type_: *mut u16) -> dnsm_status;
    pub fn dnsm_class_from_text(text: *const c_char, text_len: usize, class_: *mut u16) -> dnsm_status;
    pub fn dnsm_opcode_from_text(text: *const c_char, text_len: usize, opcode: *mut u8) -> dnsm_status;
    pub fn dnsm_rcode_from_text(text: *const c_char, text_len: usize, rcode: *mut u16) -> dnsm_status;
    pub fn dnsm_option_from_text(text: *const c_char, text_len: usize, code: *mut u16) -> dnsm_status;
    pub fn dnsm_extended_error_from_text(text: *const c_char, text_len: usize, code: *mut u16) -> dnsm_status;
    pub fn dnsm_opt_fields(item: *const dnsm_item, opt: *mut dnsm_opt) -> dnsm_status;
    pub fn dnsm_find_opt(
        message: *const u8,
        message_len: usize,
        opt: *mut dnsm_opt,
        item: *mut dnsm_item,
        rcode: *mut u16,
    ) -> dnsm_status;
    pub fn dnsm_opt_ttl(opt: *const dnsm_opt) -> u32;
    pub fn dnsm_next_option(
        message: *const u8,
        message_len: usize,
        item: *const dnsm_item,
        place: *mut usize,
        option: *mut dnsm_opt_option,
    ) -> dnsm_status;
    pub fn dnsm_option_octets(
        code: u16,
        data: *const u8,
        data_len: usize,
        out: *mut u8,
        out_len: usize,
        len: *mut usize,
    ) -> dnsm_status;
    pub fn dnsm_query(
        id: u16,
        recursion: bool,
        name: *const c_char,
        name_len: usize,
        type_: u16,
        class_: u16,
        out: *mut u8,
        out_len: usize,
        len: *mut usize,
    ) -> dnsm_status;
    pub fn dnsm_query_opt(
        id: u16,
        recursion: bool,
        name: *const c_char,
        name_len: usize,
        type_: u16,
        class_: u16,
        opt: *const dnsm_opt,
        options: *const u8,
        options_len: usize,
        out: *mut u8,
        out_len: usize,
        len: *mut usize,
    ) -> dnsm_status;
    pub fn dnsm_respond_a(
        query: *const u8,
        query_len: usize,
        authoritative: bool,
        ttl: u32,
        address: *const u8,
        out: *mut u8,
        out_len: usize,
        len: *mut usize,
    ) -> dnsm_status;
    pub fn dnsm_answers(query: *const u8, query_len: usize, response: *const u8, response_len: usize) -> dnsm_status;
    pub fn dnsm_build(
        id: u16,
        flags: u16,
        items: *const dnsm_new_item,
        items_len: usize,
        out: *mut u8,
        out_len: usize,
        len: *mut usize,
    ) -> dnsm_status;
    pub fn dnsm_begin(draft: *mut dnsm_draft, out: *mut u8, out_len: usize, id: u16, flags: u16) -> dnsm_status;
    pub fn dnsm_put(draft: *mut dnsm_draft, out: *mut u8, out_len: usize, item: *const dnsm_put_item) -> dnsm_status;
    pub fn dnsm_put_set(
        draft: *mut dnsm_draft,
        out: *mut u8,
        out_len: usize,
        items: *const dnsm_put_item,
        items_len: usize,
        required: bool,
    ) -> dnsm_status;
    pub fn dnsm_respond(
        draft: *mut dnsm_draft,
        out: *mut u8,
        out_len: usize,
        query: *const u8,
        query_len: usize,
        rcode: *mut u16,
        opt: *mut dnsm_opt,
    ) -> dnsm_status;
    pub fn dnsm_begin_response(
        draft: *mut dnsm_draft,
        out: *mut u8,
        out_len: usize,
        query: *const u8,
        query_len: usize,
        rcode: u16,
    ) -> dnsm_status;
    pub fn dnsm_put_from(
        draft: *mut dnsm_draft,
        out: *mut u8,
        out_len: usize,
        message: *const u8,
        message_len: usize,
        item: *const dnsm_item,
    ) -> dnsm_status;
    pub fn dnsm_finish(draft: *const dnsm_draft, out: *mut u8, out_len: usize, len: *mut usize) -> dnsm_status;
    pub fn dnsm_reply(
        query: *const u8,
        query_len: usize,
        received: *const u8,
        received_len: usize,
        zone: *const u8,
        zone_len: usize,
        saying: *mut dnsm_saying,
    ) -> dnsm_status;
    pub fn dnsm_is_regular(message: *const u8, message_len: usize, regular: *mut u8) -> dnsm_status;
    pub fn dnsm_min_ttl(message: *const u8, message_len: usize, ttl: *mut u32) -> dnsm_status;
    pub fn dnsm_records_end(message: *const u8, message_len: usize, end: *mut usize) -> dnsm_status;
    pub fn dnsm_age(message: *mut u8, message_len: usize, seconds: u32) -> dnsm_status;
    pub fn dnsm_first_message(stream: *const u8, stream_len: usize, len: *mut usize, missing: *mut usize) -> dnsm_status;
    pub fn dnsm_begin_transfer(
        transfer: *mut dnsm_transfer,
        id: u16,
        zone: *const u8,
        zone_len: usize,
        class_: u16,
        changes: bool,
        known: u32,
    ) -> dnsm_status;
    pub fn dnsm_open_transfer(
        transfer: *mut dnsm_transfer,
        message: *const u8,
        message_len: usize,
        cursor: *mut dnsm_cursor,
    ) -> dnsm_status;
    pub fn dnsm_next_step(
        transfer: *mut dnsm_transfer,
        message: *const u8,
        message_len: usize,
        cursor: *mut dnsm_cursor,
        step: *mut dnsm_step,
    ) -> dnsm_status;
    pub fn dnsm_end_transfer(transfer: *const dnsm_transfer) -> dnsm_status;
}
