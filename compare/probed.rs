//! What the exports of the proved crates give back, as the drivers see it.

#[allow(dead_code)]
#[repr(C)]
pub struct ProbeContext {
    pub pred_scale: u16,
    pub history0: i16,
    pub history1: i16,
}

#[allow(dead_code)]
#[repr(C)]
pub struct ProbeDecoded {
    pub number: u32,
    pub done: u64,
    pub pred_scale: u16,
    pub history0: i16,
    pub history1: i16,
}
