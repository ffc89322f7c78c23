//! Replicas of designs whose proof was accepted, over the C interface of libkatara.
//!
//! katara.h and docs/EMBEDDING.md say what a caller must keep. A [`Replica`] takes care of pointers and threads; it may be moved to
//! another thread, and frees its memory when it is dropped.
//!
//! ```
//! use katara::{Replica, Value};
//!
//! let ty = b"type alarm
//! state on: bool = false
//! op raise() rank 0: on := true
//! query raised(): bool = on
//! ";
//! // what `katara find` wrote for this type: a design with its proof
//! let design = br#"["katara",2,[[["raise",[]]],[["raised",[],"bool"]]],[[["cell","or",[false],[[true]]]],[["leaf",0,0]]],[["q",0],["e",0,[0,0]]],[[["r",[],[1]]],[["r",[],[1]]],[["r",[],[21]]],[["r",[],[21]]],[["r",[-11],[14,10,15]],["r",[11],[18,16,11,17]],["r",[],[19,20]]]],[]]"#;
//! let mut here = Replica::open(ty, design, 1)?;
//! let mut there = Replica::open(ty, design, 2)?;
//! here.act("raise", &[])?;
//! assert_eq!(there.ask("raised", &[])?, Value::Truth(false));
//! assert!(there.merge(&here.state()?)?); // bytes: send them as you like; something changed
//! assert_eq!(there.ask("raised", &[])?, true.into());
//! # Ok::<(), katara::Error>(())
//! ```
#[cfg(feature = "serde")]
mod serialize;
#[cfg(feature = "serde")]
pub use serialize::as_text;

use std::fmt;
use std::mem;
use std::ptr;
use std::sync::atomic::{AtomicUsize, Ordering};

#[repr(C)]
struct Handle {
    at: *mut u8,
}

unsafe extern "C" {
    fn katara_open(
        handle: *mut Handle,
        ty: *const u8,
        ty_length: usize,
        design: *const u8,
        design_length: usize,
        number: u32,
        condition: *mut u64,
        line: *mut u64,
    ) -> u32;
    fn katara_do(handle: *mut Handle, call: *const u8, length: usize, time: *mut u64) -> u32;
    fn katara_ask(
        handle: *mut Handle,
        call: *const u8,
        call_length: usize,
        out: *mut u8,
        room: usize,
        length: *mut usize,
    ) -> u32;
    fn katara_operation(
        handle: *mut Handle,
        name: *const u8,
        length: usize,
        number: *mut u32,
    ) -> u32;
    fn katara_query(handle: *mut Handle, name: *const u8, length: usize, number: *mut u32) -> u32;
    fn katara_do_numbered(
        handle: *mut Handle,
        number: u32,
        passed: *const Passed,
        count: usize,
        time: *mut u64,
    ) -> u32;
    fn katara_ask_numbered(
        handle: *mut Handle,
        number: u32,
        passed: *const Passed,
        count: usize,
        answer: *mut Passed,
    ) -> u32;
    fn katara_state(handle: *mut Handle, out: *mut u8, room: usize, length: *mut usize) -> u32;
    fn katara_keys(
        handle: *mut Handle,
        query: u32,
        out: *mut u8,
        room: usize,
        length: *mut usize,
    ) -> u32;
    fn katara_keys_beyond(
        handle: *mut Handle,
        query: u32,
        known: *const u8,
        known_length: usize,
        out: *mut u8,
        room: usize,
        length: *mut usize,
    ) -> u32;
    fn katara_merge(handle: *mut Handle, state: *const u8, length: usize, changed: *mut u32)
    -> u32;
    fn katara_merge_from(handle: *mut Handle, other: *mut Handle, changed: *mut u32) -> u32;
    fn katara_restore(handle: *mut Handle, state: *const u8, length: usize) -> u32;
    fn katara_share(handle: *mut Handle, out: *mut u8, room: usize, length: *mut usize) -> u32;
    fn katara_difference(
        handle: *mut Handle,
        known: *const u8,
        known_length: usize,
        out: *mut u8,
        room: usize,
        length: *mut usize,
    ) -> u32;
    fn katara_merge_difference(
        handle: *mut Handle,
        packet: *const u8,
        length: usize,
        changed: *mut u32,
    ) -> u32;
    fn katara_marks(handle: *mut Handle, out: *mut u8, room: usize, length: *mut usize) -> u32;
    fn katara_restore_share(handle: *mut Handle, share: *const u8, length: usize) -> u32;
    fn katara_replica_new(other: *mut Handle, handle: *mut Handle, number: u32) -> u32;
    fn katara_message(code: u32, out: *mut u8, room: usize, length: *mut usize) -> u32;
    fn katara_version(out: *mut u8, room: usize, length: *mut usize) -> u32;
    fn katara_free(handle: *mut Handle);
    fn katara_run(
        ty: *const u8,
        ty_length: usize,
        design: *const u8,
        design_length: usize,
        script: *const u8,
        script_length: usize,
        out: *mut u8,
        room: usize,
        length: *mut usize,
    ) -> u32;
}

/// An argument of a call, and the answer to a query.
///
/// ```
/// use katara::Value;
///
/// assert_eq!(Value::from("milk").to_string(), "\"milk\"");
/// assert_eq!(Value::from(2), Value::Number(2));
/// ```
#[derive(Clone, PartialEq, Eq, Debug)]
pub enum Value {
    Truth(bool),
    Number(i128),
    Name(String),
}

impl From<bool> for Value {
    fn from(truth: bool) -> Value {
        Value::Truth(truth)
    }
}

macro_rules! from_numbers {
    ($($number:ty)*) => {
        $(impl From<$number> for Value {
            fn from(number: $number) -> Value {
                Value::Number(number.into())
            }
        })*
    };
}
from_numbers!(i8 i16 i32 i64 i128 u8 u16 u32 u64);

impl From<&str> for Value {
    fn from(name: &str) -> Value {
        Value::Name(name.to_owned())
    }
}

impl From<String> for Value {
    fn from(name: String) -> Value {
        Value::Name(name)
    }
}

/// As a script has it.
impl fmt::Display for Value {
    fn fmt(&self, f: &mut fmt::Formatter) -> fmt::Result {
        match self {
            Value::Truth(truth) => write!(f, "{truth}"),
            Value::Number(number) => write!(f, "{number}"),
            Value::Name(name) => write!(f, "\"{name}\""),
        }
    }
}

const TRUTH: u64 = 0;
const NUMBER: u64 = 1;
const NAME: u64 = 2;
/// A kind that no call takes.
const NONE: u64 = 3;

/// `katara_value` of katara.h.
#[repr(C)]
struct Passed {
    kind: u64,
    high: i64,
    low: u64,
    name: [u8; 16],
}

impl Passed {
    fn new(kind: u64, number: i128) -> Passed {
        let (high, low) = ((number >> 64) as i64, number as u64);
        Passed {
            kind,
            high,
            low,
            name: [0; 16],
        }
    }

    fn of(value: &Value) -> Passed {
        match value {
            Value::Truth(truth) => Passed::new(TRUTH, i128::from(*truth)),
            Value::Number(number) => Passed::new(NUMBER, *number),
            Value::Name(name) => {
                // a zero byte within would end the name before its end
                let kind = if name.len() > 15 || name.contains('\0') {
                    NONE
                } else {
                    NAME
                };
                let mut passed = Passed::new(kind, 0);
                let places = passed.name.iter_mut();
                places.zip(name.bytes()).for_each(|(to, byte)| *to = byte);
                passed
            }
        }
    }

    fn said(&self) -> Value {
        match self.kind {
            TRUTH => Value::Truth(self.low != 0),
            NUMBER => Value::Number((i128::from(self.high) << 64) + i128::from(self.low)),
            _ => Value::Name(text(
                self.name
                    .iter()
                    .copied()
                    .take_while(|byte| *byte != 0)
                    .collect(),
            )),
        }
    }
}

/// Why a call did nothing.
#[derive(Clone, Copy, PartialEq, Eq, Debug)]
pub enum Error {
    NoMemory,
    Handle,
    BadType,
    BadDesign,
    OtherSignature,
    /// The first fault of the proof, as `katara check` tells it.
    BadProof {
        condition: u64,
        line: u64,
    },
    NoCall,
    Limit,
    BadState,
    BadScript,
    OtherDesign,
    /// Operations are missing that come before those of a packet: ask its sender for what lies beyond your own share or marks.
    Gap,
    /// The replica merged or restored a state that came without marks.
    NoMarks,
    /// The bytes are no share file, or no packet, of the design.
    BadShare,
}

impl Error {
    /// The number of the code, as in C and the other languages.
    ///
    /// ```
    /// assert_eq!(katara::Error::Gap.code(), 13);
    /// ```
    pub fn code(&self) -> u32 {
        let same = |code: &u32| {
            judged(*code).is_err_and(|it| mem::discriminant(&it) == mem::discriminant(self))
        };
        (1..=MOST)
            .filter(|code| *code != ROOM)
            .find(same)
            .expect("each error has a code")
    }
}

impl fmt::Display for Error {
    fn fmt(&self, f: &mut fmt::Formatter) -> fmt::Result {
        match self {
            Error::NoMemory => f.write_str("out of memory"),
            Error::Handle => f.write_str("the handle has no replica, or has one already"),
            Error::BadType => f.write_str("the type file is refused"),
            Error::BadDesign => f.write_str("the design file is refused"),
            Error::OtherSignature => {
                f.write_str("the design file has another signature than the type")
            }
            Error::BadProof { condition, line } => {
                write!(
                    f,
                    "the proof isn't accepted: condition {condition}, line {line}"
                )
            }
            Error::NoCall => f.write_str("the call is none that the design has"),
            Error::Limit => f.write_str("a number is past its limit"),
            Error::BadState => f.write_str("the text is no state file of the design"),
            Error::BadScript => f.write_str("the script is refused"),
            Error::OtherDesign => f.write_str("the other replica has another design"),
            Error::Gap => {
                f.write_str("operations are missing that come before those of the packet")
            }
            Error::NoMarks => f.write_str("the replica doesn't know its marks"),
            Error::BadShare => f.write_str("the text is no share file or packet of the design"),
        }
    }
}

impl std::error::Error for Error {}

const DONE: u32 = 0;
const ROOM: u32 = 2;
const MOST: u32 = 15;

fn judged(code: u32) -> Result<(), Error> {
    Err(match code {
        DONE => return Ok(()),
        1 => Error::NoMemory,
        3 => Error::Handle,
        4 => Error::BadType,
        5 => Error::BadDesign,
        6 => Error::OtherSignature,
        7 => Error::BadProof {
            condition: 0,
            line: 0,
        },
        8 => Error::NoCall,
        9 => Error::Limit,
        10 => Error::BadState,
        11 => Error::BadScript,
        12 => Error::OtherDesign,
        13 => Error::Gap,
        14 => Error::NoMarks,
        15 => Error::BadShare,
        code => unreachable!("libkatara has no code {code}"),
    })
}

/// As long as the longest answer so far, so that an answer is made twice only if none was as long.
static LONGEST: AtomicUsize = AtomicUsize::new(256);

/// What a call writes to a room, which grows until it fits.
fn answer(mut call: impl FnMut(*mut u8, usize, *mut usize) -> u32) -> Result<Vec<u8>, Error> {
    let mut out: Vec<u8> = Vec::with_capacity(LONGEST.load(Ordering::Relaxed));
    loop {
        let mut length = 0;
        let code = call(out.as_mut_ptr(), out.capacity(), &mut length);
        if code == ROOM {
            // (a little more, since states grow)
            let longest = length + length / 8;
            LONGEST.fetch_max(longest, Ordering::Relaxed);
            out.reserve_exact(longest);
            continue;
        }
        judged(code)?;
        // (so many bytes were written; the room isn't filled with zeros before, since that would cost as much as the longest answer)
        unsafe { out.set_len(length) };
        out.shrink_to_fit();
        return Ok(out);
    }
}

/// The keys of a list as the library writes it: names between double quotes, and whole numbers.
fn keys(list: &str) -> Vec<Value> {
    let key = |word: &str| match word.strip_prefix('"') {
        Some(name) => Value::Name(name.trim_end_matches('"').to_owned()),
        None => Value::Number(word.parse().expect("libkatara writes whole numbers")),
    };
    // (names have no commas)
    let words = list.trim_matches(['[', ']']).split(',');
    words.filter(|word| !word.is_empty()).map(key).collect()
}

/// What a code says, in a few words.
///
/// ```
/// assert_eq!(katara::message(katara::Error::Limit.code()), katara::Error::Limit.to_string());
/// ```
pub fn message(code: u32) -> String {
    text(
        answer(|out, room, length| unsafe { katara_message(code, out, room, length) })
            .expect("each code is told"),
    )
}

/// The version of the library.
///
/// ```
/// assert_eq!(katara::version(), env!("CARGO_PKG_VERSION"));
/// ```
pub fn version() -> String {
    let version = answer(|out, room, length| unsafe { katara_version(out, room, length) });
    text(version.expect("a version is always told"))
}

/// A type with its design, whose proof is checked once; replicas are made of it.
///
/// ```no_run
/// # fn main() -> Result<(), Box<dyn std::error::Error>> {
/// let mut cart = katara::Type::open(&std::fs::read("cart.type")?, &std::fs::read("cart.design")?)?;
/// let here = cart.replica(1)?;
/// let there = cart.replica(2)?;
/// # Ok(())
/// # }
/// ```
pub struct Type(Replica);

impl Type {
    /// The type and the design in two files. The file's proof is checked here.
    pub fn open(ty: &[u8], design: &[u8]) -> Result<Type, Error> {
        Replica::open(ty, design, 1).map(Type)
    }

    /// A new replica with this number, from 1 to 32.
    pub fn replica(&mut self, number: u32) -> Result<Replica, Error> {
        let mut replica = Replica(Handle {
            at: ptr::null_mut(),
        });
        judged(unsafe { katara_replica_new(&mut self.0.0, &mut replica.0, number) })?;
        Ok(replica)
    }
}

fn text(bytes: Vec<u8>) -> String {
    String::from_utf8(bytes).expect("libkatara writes ASCII")
}

/// A replica with a number, of the design in a file whose proof is accepted for a type.
pub struct Replica(Handle);

// One call at a time uses a handle, from whichever thread: `&mut self` sees to that. The library keeps nothing outside of handles, and
// what two replicas share after `merge_from` never changes, and is counted atomically.
unsafe impl Send for Replica {}

impl Replica {
    /// A new replica with this number, from 1 to 32, of the design in a file. The file's proof is checked here.
    ///
    /// ```
    /// use katara::{Error, Replica};
    ///
    /// assert_eq!(Replica::open(b"no type", b"", 1).err(), Some(Error::BadType));
    /// ```
    pub fn open(ty: &[u8], design: &[u8], number: u32) -> Result<Replica, Error> {
        let mut replica = Replica(Handle {
            at: ptr::null_mut(),
        });
        let (mut condition, mut line) = (0, 0);
        let code = unsafe {
            katara_open(
                &mut replica.0,
                ty.as_ptr(),
                ty.len(),
                design.as_ptr(),
                design.len(),
                number,
                &mut condition,
                &mut line,
            )
        };
        match judged(code) {
            Err(Error::BadProof { .. }) => Err(Error::BadProof { condition, line }),
            other => other.map(|()| replica),
        }
    }

    /// Does the operation with this name and these arguments, and returns its time.
    pub fn act(&mut self, name: &str, values: &[Value]) -> Result<u64, Error> {
        let passed: Vec<Passed> = values.iter().map(Passed::of).collect();
        let (mut number, mut time) = (0, 0);
        judged(unsafe { katara_operation(&mut self.0, name.as_ptr(), name.len(), &mut number) })?;
        judged(unsafe {
            katara_do_numbered(
                &mut self.0,
                number,
                passed.as_ptr(),
                passed.len(),
                &mut time,
            )
        })?;
        Ok(time)
    }

    /// The answer to the query with this name and these arguments.
    pub fn ask(&mut self, name: &str, values: &[Value]) -> Result<Value, Error> {
        let passed: Vec<Passed> = values.iter().map(Passed::of).collect();
        let (mut number, mut answer) = (0, Passed::new(NONE, 0));
        judged(unsafe { katara_query(&mut self.0, name.as_ptr(), name.len(), &mut number) })?;
        judged(unsafe {
            katara_ask_numbered(
                &mut self.0,
                number,
                passed.as_ptr(),
                passed.len(),
                &mut answer,
            )
        })?;
        Ok(answer.said())
    }

    /// Does an operation that is a text as in a script, `add "milk" 2`, and returns its time. This is for texts of logs and scripts:
    /// never build one from user input, since `milk" 1000000 #` between quotes is another call.
    pub fn act_text(&mut self, call: &str) -> Result<u64, Error> {
        let mut time = 0;
        judged(unsafe { katara_do(&mut self.0, call.as_ptr(), call.len(), &mut time) })?;
        Ok(time)
    }

    /// The text of the answer to a query that is a text as in a script, `count "milk"`; see [`Replica::act_text`].
    pub fn ask_text(&mut self, call: &str) -> Result<String, Error> {
        answer(|out, room, length| unsafe {
            katara_ask(&mut self.0, call.as_ptr(), call.len(), out, room, length)
        })
        .map(text)
    }

    /// The text of the state file.
    pub fn state(&mut self) -> Result<Vec<u8>, Error> {
        answer(|out, room, length| unsafe { katara_state(&mut self.0, out, room, length) })
    }

    /// The keys at which the query with this name may find something, ascending: those that one of the tables, sets and sums by key has
    /// which it reads, also those of things that were removed.
    pub fn keys(&mut self, query: &str) -> Result<Vec<Value>, Error> {
        let mut number = 0;
        judged(unsafe { katara_query(&mut self.0, query.as_ptr(), query.len(), &mut number) })?;
        let list = answer(|out, room, length| unsafe {
            katara_keys(&mut self.0, number, out, room, length)
        })?;
        Ok(keys(&text(list)))
    }

    /// Those of these keys at which there is something that a state file lacks: with an earlier one of this replica, the keys at which it
    /// has changed since. What the query reads without a key (the time at which a table was emptied) isn't looked at.
    pub fn keys_beyond(&mut self, query: &str, known: &[u8]) -> Result<Vec<Value>, Error> {
        let mut number = 0;
        judged(unsafe { katara_query(&mut self.0, query.as_ptr(), query.len(), &mut number) })?;
        let (at, count) = (known.as_ptr(), known.len());
        let list = answer(|out, room, length| unsafe {
            katara_keys_beyond(&mut self.0, number, at, count, out, room, length)
        })?;
        Ok(keys(&text(list)))
    }

    /// Merges the state of another replica of the design, late, twice, and in any order, and returns whether that changed anything. The
    /// replica doesn't know its marks any more: see [`Replica::share`].
    pub fn merge(&mut self, state: &[u8]) -> Result<bool, Error> {
        let mut changed = 0;
        judged(unsafe { katara_merge(&mut self.0, state.as_ptr(), state.len(), &mut changed) })?;
        Ok(changed != 0)
    }

    /// Merges the state of another replica directly, without a text.
    pub fn merge_from(&mut self, other: &mut Replica) -> Result<bool, Error> {
        let mut changed = 0;
        judged(unsafe { katara_merge_from(&mut self.0, &mut other.0, &mut changed) })?;
        Ok(changed != 0)
    }

    /// Becomes the replica in a state file, without marks.
    pub fn restore(&mut self, state: &[u8]) -> Result<(), Error> {
        judged(unsafe { katara_restore(&mut self.0, state.as_ptr(), state.len()) })
    }

    /// The share file: what a peer has once it merged this replica's packets, and from which it can be set up again. A replica has one as
    /// long as it knows its marks: until it merges or restores a state that came without any.
    pub fn share(&mut self) -> Result<Vec<u8>, Error> {
        answer(|out, room, length| unsafe { katara_share(&mut self.0, out, room, length) })
    }

    /// A packet of what the replica has beyond a share file that the peer is known to have; with no bytes, of all that it has.
    pub fn difference(&mut self, known: &[u8]) -> Result<Vec<u8>, Error> {
        answer(|out, room, length| unsafe {
            katara_difference(&mut self.0, known.as_ptr(), known.len(), out, room, length)
        })
    }

    /// Merges a packet, late, again or from a third replica, and returns whether that changed anything; [`Error::Gap`] if operations are
    /// missing that come before those of the packet.
    pub fn merge_difference(&mut self, packet: &[u8]) -> Result<bool, Error> {
        let (at, count, mut changed) = (packet.as_ptr(), packet.len(), 0);
        judged(unsafe { katara_merge_difference(&mut self.0, at, count, &mut changed) })?;
        Ok(changed != 0)
    }

    /// The text of its marks: for each replica the time of its latest operation in the state.
    pub fn marks(&mut self) -> Result<Vec<u8>, Error> {
        answer(|out, room, length| unsafe { katara_marks(&mut self.0, out, room, length) })
    }

    /// Becomes the replica in a share file, with its number, its clock and its marks.
    pub fn restore_share(&mut self, share: &[u8]) -> Result<(), Error> {
        judged(unsafe { katara_restore_share(&mut self.0, share.as_ptr(), share.len()) })
    }
}

impl Drop for Replica {
    fn drop(&mut self) {
        unsafe { katara_free(&mut self.0) }
    }
}

/// What a design writes on a script, as `katara run` does.
pub fn run(ty: &[u8], design: &[u8], script: &[u8]) -> Result<String, Error> {
    answer(|out, room, length| unsafe {
        katara_run(
            ty.as_ptr(),
            ty.len(),
            design.as_ptr(),
            design.len(),
            script.as_ptr(),
            script.len(),
            out,
            room,
            length,
        )
    })
    .map(text)
}
