//! The peers, each a shared library behind peers/peer.h that is loaded where `run` could build it.

use std::ffi::{c_char, c_int, c_void, CStr, CString};
use std::mem::transmute_copy;
use std::path::Path;

/// peers/peer.h, `struct found`.
#[repr(C)]
#[derive(Clone, Copy, Default, PartialEq, Debug)]
pub struct Found {
    pub units: u64,
    pub lengths: u64,
    pub slices: u64,
    pub fields: u64,
    pub bodies: u64,
}

impl Found {
    /// peers/peer.h, `fields_of`.
    pub fn slice(&mut self, first_mb_in_slice: u32, frame_num: u32, slice_qp_delta: i32) {
        self.slices += 1;
        self.fields += u64::from(first_mb_in_slice)
            + 7 * u64::from(frame_num)
            + 11 * (i64::from(slice_qp_delta) + 128) as u64;
    }
}

/// peers/peer.h, `struct span`.
#[repr(C)]
pub struct Span {
    pub bytes: *const u8,
    pub length: usize,
}

impl Span {
    pub fn new(bytes: &[u8]) -> Span {
        Span {
            bytes: bytes.as_ptr(),
            length: bytes.len(),
        }
    }
}

extern "C" {
    fn dlopen(file: *const c_char, flags: c_int) -> *mut c_void;
    fn dlsym(library: *mut c_void, name: *const c_char) -> *mut c_void;
    fn dlerror() -> *const c_char;
}

/// What a peer does with a recording.
#[derive(Clone, Copy)]
pub enum Job {
    /// Split and headers.
    Lazy = 0,
    /// And every slice's body unescaped, after its header or before.
    HeaderThenBody = 1,
    BodyThenHeader = 2,
}

/// A peer's library, opened.
pub struct Peer {
    library: *mut c_void,
}

/// A peer that knows the sets of a recording.
pub struct Opened<'a> {
    peer: &'a Peer,
    state: *mut c_void,
}

impl Peer {
    /// The library of that name in a folder, or why it cannot be had.
    pub fn load(folder: &Path, name: &str) -> Result<Peer, String> {
        let file = folder.join(name).with_extension("so");
        if !file.exists() {
            let why = std::fs::read_to_string(file.with_extension("skipped"));
            return Err(why.map_or("not built".to_string(), |w| w.trim().to_string()));
        }
        const RTLD_NOW: c_int = 2;
        let file = CString::new(file.to_str().unwrap()).unwrap();
        // SAFETY: a library that `run` built; the C library's functions as they are declared.
        unsafe {
            let library = dlopen(file.as_ptr(), RTLD_NOW);
            if library.is_null() {
                return Err(CStr::from_ptr(dlerror()).to_string_lossy().into_owned());
            }
            Ok(Peer { library })
        }
    }

    /// A function of the library.
    ///
    /// # Safety
    ///
    /// F is the type of a pointer to that function.
    unsafe fn function<F>(&self, name: &str) -> F {
        let name = CString::new(name).unwrap();
        let found = dlsym(self.library, name.as_ptr());
        assert!(!found.is_null(), "the peer has no {name:?}");
        transmute_copy(&found)
    }

    pub fn open(&self, sets: &[u8]) -> Opened<'_> {
        // SAFETY: peers/peer.h, `peer_open`.
        let open: extern "C" fn(*const u8, usize) -> *mut c_void =
            unsafe { self.function("peer_open") };
        Opened {
            peer: self,
            state: open(sets.as_ptr(), sets.len()),
        }
    }
}

impl<'a> Opened<'a> {
    pub fn walk(&self, recording: &'a [u8], job: Job) -> impl FnMut() -> Found + 'a {
        // SAFETY: the peers' `peer_walk`.
        let walk: extern "C" fn(*mut c_void, *const u8, usize, c_int, &mut Found) =
            unsafe { self.peer.function("peer_walk") };
        let state = self.state;
        move || {
            let mut found = Found::default();
            walk(
                state,
                recording.as_ptr(),
                recording.len(),
                job as c_int,
                &mut found,
            );
            found
        }
    }

    pub fn heads(&self, units: &'a [Span]) -> impl FnMut() -> Found + 'a {
        // SAFETY: the peers' `peer_heads`.
        let heads: extern "C" fn(*mut c_void, *const Span, usize, &mut Found) =
            unsafe { self.peer.function("peer_heads") };
        let state = self.state;
        move || {
            let mut found = Found::default();
            heads(state, units.as_ptr(), units.len(), &mut found);
            found
        }
    }

    /// Rewrites runs of units; gives how many bytes were written, which go to `out` as far as they fit.
    pub fn rewrite(&self, runs: &[Span]) -> impl FnMut(&mut [u8]) -> usize + 'a {
        // SAFETY: peers/ffmpeg.c, `peer_packets` and `peer_rewrite`.
        let (packets, rewrite): (
            extern "C" fn(*const Span, usize) -> *mut c_void,
            extern "C" fn(*mut c_void, *mut c_void, usize, *mut u8, usize) -> usize,
        ) = unsafe {
            (
                self.peer.function("peer_packets"),
                self.peer.function("peer_rewrite"),
            )
        };
        let (state, count, packets) = (self.state, runs.len(), packets(runs.as_ptr(), runs.len()));
        move |out| rewrite(state, packets, count, out.as_mut_ptr(), out.len())
    }
}
