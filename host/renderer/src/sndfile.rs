//! Sound files through libsndfile, over files that Rust opens and whose errors it keeps.

#![allow(unsafe_code)]

use crate::format::Format;
use std::ffi::{CStr, CString, c_char, c_int, c_void};
use std::fs::File;
use std::io::{self, Read, Seek, SeekFrom, Write};
use std::ptr;

/// What a file says of itself beside its samples.
pub struct Tags {
    pub title: String,
    pub comment: String,
    /// The key that a note is, and the hundredths of a semitone that it is higher; a piece has none.
    pub key: Option<(u8, u8)>,
}

#[repr(C)]
#[derive(Default)]
struct Info {
    frames: i64,
    rate: c_int,
    channels: c_int,
    format: c_int,
    sections: c_int,
    seekable: c_int,
}

#[repr(C)]
struct Virtual {
    length: extern "C" fn(*mut c_void) -> i64,
    seek: extern "C" fn(i64, c_int, *mut c_void) -> i64,
    read: extern "C" fn(*mut c_void, i64, *mut c_void) -> i64,
    write: extern "C" fn(*const c_void, i64, *mut c_void) -> i64,
    tell: extern "C" fn(*mut c_void) -> i64,
}

#[repr(C)]
struct Instrument {
    gain: c_int,
    key: u8,
    detune: u8,
    velocities: [u8; 2],
    keys: [u8; 2],
    loops: c_int,
    no_loops: [[u32; 4]; 16],
}

#[repr(C)]
struct Broadcast {
    description: [u8; 256],
    originator: [u8; 32],
    reference: [u8; 32],
    date: [u8; 10],
    time: [u8; 8],
    time_reference: [u32; 2],
    version: i16,
    umid: [u8; 64],
    loudness: [i16; 5],
    reserved: [u8; 180],
    history_bytes: u32,
    history: [u8; 256],
}

#[link(name = "sndfile")]
unsafe extern "C" {
    fn sf_open_virtual(
        io: *mut Virtual,
        mode: c_int,
        info: *mut Info,
        user: *mut c_void,
    ) -> *mut c_void;
    fn sf_close(file: *mut c_void) -> c_int;
    fn sf_command(file: *mut c_void, command: c_int, data: *mut c_void, bytes: c_int) -> c_int;
    fn sf_set_string(file: *mut c_void, kind: c_int, text: *const c_char) -> c_int;
    fn sf_strerror(file: *mut c_void) -> *const c_char;
    fn sf_version_string() -> *const c_char;
    fn sf_writef_float(file: *mut c_void, samples: *const f32, frames: i64) -> i64;
    fn sf_writef_int(file: *mut c_void, samples: *const i32, frames: i64) -> i64;
    fn sf_readf_float(file: *mut c_void, samples: *mut f32, frames: i64) -> i64;
    fn sf_readf_int(file: *mut c_void, samples: *mut i32, frames: i64) -> i64;
}

const READ: c_int = 0x10;
const WRITE: c_int = 0x20;
const ADD_PEAK_CHUNK: c_int = 0x1050;
const UPDATE_HEADER: c_int = 0x1060;
const SET_INSTRUMENT: c_int = 0x10d1;
const SET_BROADCAST: c_int = 0x10f1;
const TITLE: c_int = 1;
const SOFTWARE: c_int = 3;
const COMMENT: c_int = 5;

/// A file that libsndfile reads or writes, and the first error of it.
struct Stream {
    file: File,
    error: Option<io::Error>,
}

impl Stream {
    /// Does something with the stream that libsndfile hands back, and keeps its error.
    fn with(user: *mut c_void, act: impl FnOnce(&mut File) -> io::Result<u64>) -> i64 {
        // SAFETY: it is the stream that `Sound::open` gave, which lives longer than the handle, and no other call has it now.
        let stream = unsafe { &mut *user.cast::<Stream>() };
        match act(&mut stream.file) {
            Ok(n) => n as i64,
            Err(error) => {
                stream.error.get_or_insert(error);
                0
            }
        }
    }
}

extern "C" fn length(user: *mut c_void) -> i64 {
    Stream::with(user, |file| Ok(file.metadata()?.len()))
}

extern "C" fn seek(offset: i64, whence: c_int, user: *mut c_void) -> i64 {
    let place = match whence {
        0 => SeekFrom::Start(offset as u64),
        1 => SeekFrom::Current(offset),
        _ => SeekFrom::End(offset),
    };
    Stream::with(user, |file| file.seek(place))
}

extern "C" fn read(bytes: *mut c_void, n: i64, user: *mut c_void) -> i64 {
    // SAFETY: libsndfile lends so many bytes.
    let bytes = unsafe { std::slice::from_raw_parts_mut(bytes.cast::<u8>(), n as usize) };
    Stream::with(user, |file| {
        let mut done = 0;
        while done < bytes.len() {
            match file.read(&mut bytes[done..])? {
                0 => break,
                more => done += more,
            }
        }
        Ok(done as u64)
    })
}

extern "C" fn write(bytes: *const c_void, n: i64, user: *mut c_void) -> i64 {
    // SAFETY: libsndfile lends so many bytes.
    let bytes = unsafe { std::slice::from_raw_parts(bytes.cast::<u8>(), n as usize) };
    Stream::with(user, |file| file.write_all(bytes).map(|()| n as u64))
}

extern "C" fn tell(user: *mut c_void) -> i64 {
    Stream::with(user, |file| file.stream_position())
}

/// A sound file that is open.
pub struct Sound {
    handle: *mut c_void,
    /// A box, which the handle shares.
    stream: *mut Stream,
    format: Format,
    channels: usize,
}

impl Sound {
    /// Begins a file.
    pub fn create(
        file: File,
        format: Format,
        channels: usize,
        rate: u32,
        tags: &Tags,
    ) -> io::Result<Self> {
        let kind = if format.is_flac() { 0x170000 } else { 0x10000 };
        let samples = match format.bits() {
            None => 6,
            Some(24) => 3,
            Some(_) => 2,
        };
        let info = Info {
            rate: rate as c_int,
            channels: channels as c_int,
            format: kind | samples,
            ..Info::default()
        };
        let mut sound = Sound::open(file, WRITE, info, format, channels)?;
        sound.tag(tags)?;
        Ok(sound)
    }

    /// Opens a file of that format to read it; none where it is another.
    pub fn read(file: File, format: Format, channels: usize) -> io::Result<Self> {
        Sound::open(file, READ, Info::default(), format, channels)
    }

    fn open(
        file: File,
        mode: c_int,
        mut info: Info,
        format: Format,
        channels: usize,
    ) -> io::Result<Self> {
        let mut io = Virtual { length, seek, read, write, tell };
        let stream = Box::into_raw(Box::new(Stream { file, error: None }));
        let user = stream.cast();
        // SAFETY: all that is lent lives as long as the call, and the stream as long as the handle.
        let handle = unsafe { sf_open_virtual(&mut io, mode, &mut info, user) };
        let mut sound = Sound { handle, stream, format, channels };
        if handle.is_null() || info.channels != channels as c_int {
            return Err(sound.error());
        }
        Ok(sound)
    }

    /// What went wrong.
    fn error(&mut self) -> io::Error {
        let said = || {
            // SAFETY: libsndfile takes a null handle too, and its texts end in 0 and stay.
            let text = unsafe { CStr::from_ptr(sf_strerror(self.handle)) };
            io::Error::other(text.to_string_lossy().trim().to_string())
        };
        self.stream_error().unwrap_or_else(said)
    }

    /// The error of the stream, if it has one.
    fn stream_error(&self) -> Option<io::Error> {
        // SAFETY: the box lives as long as this, and no call of libsndfile has it now.
        unsafe { &mut *self.stream }.error.take()
    }

    /// Writes the tags, and no chunk that has a time stamp.
    fn tag(&mut self, tags: &Tags) -> io::Result<()> {
        // SAFETY: the handle is open, and the command has no data.
        unsafe { sf_command(self.handle, ADD_PEAK_CHUNK, ptr::null_mut(), 0) };
        let software = format!("bleidhvan {}", env!("CARGO_PKG_VERSION"));
        for (kind, text) in [(TITLE, &tags.title), (SOFTWARE, &software), (COMMENT, &tags.comment)]
        {
            let text = CString::new(text.as_str())?;
            // SAFETY: the handle is open, and the text is copied.
            unsafe { sf_set_string(self.handle, kind, text.as_ptr()) };
        }
        if self.format.is_flac() {
            return Ok(());
        }
        if let Some(key) = tags.key {
            self.command(SET_INSTRUMENT, &mut instrument(key))?;
        }
        self.command(SET_BROADCAST, &mut broadcast(&tags.comment))
    }

    fn command<T>(&mut self, command: c_int, data: &mut T) -> io::Result<()> {
        let bytes = size_of::<T>() as c_int;
        // SAFETY: the handle is open, and the data is the struct that the command takes, which is copied.
        match unsafe { sf_command(self.handle, command, ptr::from_mut(data).cast(), bytes) } {
            0 => Err(self.error()),
            _ => Ok(()),
        }
    }

    /// Adds frames of floats.
    pub fn floats(&mut self, samples: &[f32]) -> io::Result<()> {
        let frames = (samples.len() / self.channels) as i64;
        // SAFETY: the handle is open for writing, and there are so many frames.
        let written = unsafe { sf_writef_float(self.handle, samples.as_ptr(), frames) };
        self.all(written == frames)
    }

    /// Adds frames of whole samples, of 32 bits, the highest of which are the file's.
    pub fn wholes(&mut self, samples: &[i32]) -> io::Result<()> {
        let frames = (samples.len() / self.channels) as i64;
        // SAFETY: the handle is open for writing, and there are so many frames.
        let written = unsafe { sf_writef_int(self.handle, samples.as_ptr(), frames) };
        self.all(written == frames)
    }

    fn all(&mut self, is_all: bool) -> io::Result<()> {
        match self.stream_error() {
            Some(error) => Err(error),
            None if !is_all => Err(self.error()),
            None => Ok(()),
        }
    }

    /// Reads the next frames, as they are heard.
    pub fn next(&mut self, frames: usize) -> Vec<f32> {
        let mut samples = vec![0.0; frames * self.channels];
        let read = match self.format.bits() {
            // SAFETY: the handle is open for reading, and there is room for so many frames.
            None => unsafe { sf_readf_float(self.handle, samples.as_mut_ptr(), frames as i64) },
            Some(bits) => {
                let mut wholes = vec![0; samples.len()];
                // SAFETY: as above.
                let read = unsafe { sf_readf_int(self.handle, wholes.as_mut_ptr(), frames as i64) };
                let steps = self.format.steps();
                for (sample, whole) in samples.iter_mut().zip(wholes) {
                    *sample = (whole >> (32 - bits)) as f32 / steps;
                }
                read
            }
        };
        samples.truncate(read.max(0) as usize * self.channels);
        samples
    }

    /// Writes what is left of the file, and closes it. A file of no frames has its header only by this.
    pub fn close(mut self) -> io::Result<()> {
        // SAFETY: the handle is open, and the command has no data.
        unsafe { sf_command(self.handle, UPDATE_HEADER, ptr::null_mut(), 0) };
        let handle = std::mem::replace(&mut self.handle, ptr::null_mut());
        // SAFETY: the handle is open, and nothing uses it behind this.
        let is_closed = unsafe { sf_close(handle) } == 0;
        self.all(is_closed)
    }
}

impl Drop for Sound {
    fn drop(&mut self) {
        if !self.handle.is_null() {
            // SAFETY: the handle is open, and nothing uses it behind this.
            unsafe { sf_close(self.handle) };
        }
        // SAFETY: it came from a box, and the handle that shared it is closed.
        drop(unsafe { Box::from_raw(self.stream) });
    }
}

/// The instrument chunk of a key, which has no loop.
fn instrument((key, detune): (u8, u8)) -> Instrument {
    let no_loops = [[0; 4]; 16];
    let (velocities, keys) = ([0, 127], [0, 127]);
    Instrument { gain: 1, key, detune, velocities, keys, loops: 0, no_loops }
}

/// The broadcast chunk, without a date.
fn broadcast(text: &str) -> Broadcast {
    let mut broadcast = Broadcast {
        description: [0; 256],
        originator: [0; 32],
        reference: [0; 32],
        date: [0; 10],
        time: [0; 8],
        time_reference: [0; 2],
        version: 1,
        umid: [0; 64],
        loudness: [0; 5],
        reserved: [0; 180],
        history_bytes: 0,
        history: [0; 256],
    };
    let description = text.bytes().take(255);
    broadcast.description.iter_mut().zip(description).for_each(|(to, byte)| *to = byte);
    broadcast.originator.iter_mut().zip(b"bleidhvan").for_each(|(to, byte)| *to = *byte);
    broadcast
}

/// The name and the version of the library.
pub fn version() -> String {
    // SAFETY: the library's text ends in 0 and stays.
    unsafe { CStr::from_ptr(sf_version_string()) }.to_string_lossy().into_owned()
}
