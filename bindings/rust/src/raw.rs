//! The C header's declarations: their duties are those that the header tells.
#![allow(non_camel_case_types)]

pub const STATE_SIZE: usize = 428;
pub const STORE_SIZE: usize = 65_536;
pub const OUTGOING_MIN: usize = 256;

pub const HB_DONE: u16 = 0;
pub const HB_DEPARTURE: u16 = 1;
pub const HB_IDLE: u16 = 2;
pub const HB_REFUSED: u16 = 3;
pub const HB_COUNT: u16 = 4;

#[repr(C)]
#[derive(Clone, Copy, Debug, Default, PartialEq, Eq)]
pub struct hb_reply {
    pub kind: u16,
    pub refusal: u16,
    pub flow: u16,
    pub size: u16,
    pub mark: u16,
    pub allowance: u16,
    pub count: u16,
    pub slot: u16,
    pub later: [u16; 8],
}

#[repr(C)]
pub struct hb_scheduler {
    opaque: [u8; STATE_SIZE],
}

#[repr(C)]
pub struct hb_site {
    opaque: [u8; STATE_SIZE],
}

impl hb_scheduler {
    pub const NEW: Self = hb_scheduler {
        opaque: [0; STATE_SIZE],
    };
}

impl hb_site {
    pub const NEW: Self = hb_site {
        opaque: [0; STATE_SIZE],
    };
}

#[link(name = "houghbreeze", kind = "static")]
extern "C" {
    pub fn hb_reset(s: *mut hb_scheduler);
    pub fn hb_open(s: *mut hb_scheduler, flow: usize, weight: usize) -> hb_reply;
    pub fn hb_offer(s: *mut hb_scheduler, flow: usize, size: usize) -> hb_reply;
    pub fn hb_depart(s: *mut hb_scheduler) -> hb_reply;
    pub fn hb_burst(s: *mut hb_scheduler, n: usize, list: *mut u8, list_length: usize) -> hb_reply;

    pub fn hb_site_reset(s: *mut hb_site);
    pub fn hb_site_open(s: *mut hb_site, flow: usize, weight: usize) -> hb_reply;
    pub fn hb_site_offer(
        s: *mut hb_site,
        flow: usize,
        packet: *const u8,
        packet_length: usize,
        store: *mut u8,
        store_length: usize,
    ) -> hb_reply;
    pub fn hb_site_depart(
        s: *mut hb_site,
        store: *const u8,
        store_length: usize,
        outgoing: *mut u8,
        outgoing_length: usize,
    ) -> hb_reply;
}
