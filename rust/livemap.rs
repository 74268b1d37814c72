//! Livemap for Rust, over the library of C: `mod livemap;` in a crate that is linked with `liblivemap`.
//!
//! A map has layers of points or of segments, whose items come and go by their identifiers. It takes lines of the program's language, and gives
//! their answers as text. `include/livemap.h` says what each call does; these keep to what it asks of memory, so they are safe.

/// What became of a line, or of all lines of a script.
#[derive(Clone, Copy, Debug, PartialEq, Eq)]
pub enum Status {
    /// Answered, and nothing refused.
    Answered,
    /// Answered, and a line was refused: the map is as it was before that line.
    Refused,
    /// The line is empty or a comment, and has no answer.
    Silent,
    /// No memory for the text of an answer: the line was executed, and a script stopped behind it.
    NoText,
    /// The map had 2^40 lines: nothing was executed.
    WornOut,
}

/// A piece of the memory that a map lies in.
#[derive(Clone, Copy)]
#[repr(C, align(16))]
struct Piece([u8; 16]);

/// A map. It may go to another thread.
pub struct Map {
    block: Box<[Piece]>,
}

// The type that lies in the block is proved to be `Send` (`may_change_thread` of crates/livemap_c).
unsafe impl Send for Map {}

#[link(name = "livemap")]
unsafe extern "C" {
    safe fn livemap_size() -> usize;
    fn livemap_init(at: *mut Piece);
    fn livemap_drop(at: *mut Piece);
    fn livemap_line(at: *mut Piece, line: *const u8, size: usize) -> u32;
    fn livemap_script(at: *mut Piece, script: *const u8, size: usize) -> u32;
    fn livemap_text(at: *mut Piece, out: *mut u8, room: usize) -> usize;
}

impl Map {
    /// A map without layers.
    pub fn new() -> Map {
        let mut block = vec![Piece([0; 16]); livemap_size().div_ceil(16)].into_boxed_slice();
        unsafe { livemap_init(block.as_mut_ptr()) };
        Map { block }
    }

    /// Executes a line without its line feed, and keeps its answer.
    pub fn line(&mut self, line: impl AsRef<[u8]>) -> Status {
        let line = line.as_ref();
        status(unsafe { livemap_line(self.block.as_mut_ptr(), line.as_ptr(), line.len()) })
    }

    /// Executes the lines of a script, and keeps their answers, one after another.
    pub fn script(&mut self, script: impl AsRef<[u8]>) -> Status {
        let script = script.as_ref();
        status(unsafe { livemap_script(self.block.as_mut_ptr(), script.as_ptr(), script.len()) })
    }

    /// The text of the last answer.
    pub fn text(&mut self) -> String {
        let at = self.block.as_mut_ptr();
        let mut text = vec![0; unsafe { livemap_text(at, [].as_mut_ptr(), 0) }];
        unsafe { livemap_text(at, text.as_mut_ptr(), text.len()) };
        String::from_utf8(text).unwrap_or_default()
    }
}

impl Default for Map {
    fn default() -> Map {
        Map::new()
    }
}

impl Drop for Map {
    fn drop(&mut self) {
        unsafe { livemap_drop(self.block.as_mut_ptr()) }
    }
}

fn status(code: u32) -> Status {
    match code {
        0 => Status::Answered,
        1 => Status::Refused,
        2 => Status::Silent,
        3 => Status::NoText,
        _ => Status::WornOut,
    }
}
