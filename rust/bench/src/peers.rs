//! The jitter buffers of libre and speexdsp, through peers.c.

use reference::DRAW_AREA;
use std::ffi::c_void;

#[allow(dead_code)]
mod c {
    use super::*;

    unsafe extern "C" {
        pub fn peer_libre_new() -> *mut c_void;
        pub fn peer_libre_put(peer: *mut c_void, sequence: u16, time: u32, bytes: *const u8, length: usize);
        pub fn peer_libre_get(peer: *mut c_void, area: *mut u8) -> usize;
        pub fn peer_libre_free(peer: *mut c_void);
        pub fn peer_speexdsp_new() -> *mut c_void;
        pub fn peer_speexdsp_put(peer: *mut c_void, sequence: u16, time: u32, bytes: *const u8, length: usize);
        pub fn peer_speexdsp_get(peer: *mut c_void, area: *mut u8) -> usize;
        pub fn peer_speexdsp_free(peer: *mut c_void);
    }
}

/// The four calls of a jitter buffer.
#[derive(Clone, Copy)]
pub struct Calls {
    new: unsafe extern "C" fn() -> *mut c_void,
    put: unsafe extern "C" fn(*mut c_void, u16, u32, *const u8, usize),
    get: unsafe extern "C" fn(*mut c_void, *mut u8) -> usize,
    free: unsafe extern "C" fn(*mut c_void),
}

#[cfg(feature = "libre")]
pub const LIBRE: Calls = Calls { new: c::peer_libre_new, put: c::peer_libre_put, get: c::peer_libre_get, free: c::peer_libre_free };

#[cfg(feature = "speexdsp")]
pub const SPEEXDSP: Calls =
    Calls { new: c::peer_speexdsp_new, put: c::peer_speexdsp_put, get: c::peer_speexdsp_get, free: c::peer_speexdsp_free };

/// A jitter buffer in C.
pub struct Peer {
    calls: Calls,
    state: *mut c_void,
}

impl Peer {
    pub fn new(calls: Calls) -> Peer {
        let state = unsafe { (calls.new)() };
        assert!(!state.is_null());
        Peer { calls, state }
    }

    pub fn put(&mut self, sequence: u16, time: u32, frame: &[u8]) {
        unsafe { (self.calls.put)(self.state, sequence, time, frame.as_ptr(), frame.len()) }
    }

    /// Gets the next frame, if there is one.
    pub fn get(&mut self, area: &mut [u8; DRAW_AREA]) -> bool {
        unsafe { (self.calls.get)(self.state, area.as_mut_ptr()) != 0 }
    }
}

impl Drop for Peer {
    fn drop(&mut self) {
        unsafe { (self.calls.free)(self.state) }
    }
}
