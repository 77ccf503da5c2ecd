//! An earlier library, opened as a shared object: the present one is linked, and its functions have the same names.
//!
//! Why every call here is sound:
//! - The script `measure` makes the shared object of an archive whose functions are those of `include/bushingowl.h`, as it is or as it was before
//!   Order 7, 6, 4 or 3. Which of these it is, is told before any function is called that has other parameters in one of them: by whether there is a
//!   reader of ASCII, which Order 4 added, and by calls of the two readers, whose parameters have always been the same. Since Order 3 the reader sets
//!   a seventh number, for which there is room; since Order 6 the reader of ASCII takes channel 0, and since Order 7 it marks a step back. So the
//!   export and the writer are called with the parameters of the header that the library was made with. Order 7 changed only those of packing and
//!   unpacking, which are not called here.
//! - For a library before the present one a variable must name the same header. Where it names another, or none, nothing more is called.
//! - It is never closed, so that its functions stay where they are.
//! - A slice goes over as its pointer and its length, and the library reads and writes only within the lengths given.
//! - `&mut` makes sure that the output and the answer overlap with nothing else in the call. No pointer is kept.

use crate::inputs::marks::first_mark;
use bushingowl::RECORD;
use std::env::{self, VarError::NotUnicode};
use std::ffi::{c_char, c_int, c_void, CStr, CString, OsString};
use std::mem::transmute;
use std::ptr::NonNull;

type Read = unsafe extern "C" fn(*const u8, usize, *mut u8, usize, *mut u64);
type Write = unsafe extern "C" fn(u32, u64, u64, *const u8, usize, *mut u8, usize, *mut u64);
/// The writer before Order 3, which gave it a first number.
type WriteFromOne = unsafe extern "C" fn(u32, u64, *const u8, usize, *mut u8, usize, *mut u64);
type Export = unsafe extern "C" fn(u64, u64, *const u8, usize, *mut u8, usize, *mut u64);
/// The export before Order 6, which gave it a channel.
type ExportAsOne = unsafe extern "C" fn(u64, *const u8, usize, *mut u8, usize, *mut u64);

extern "C" {
    fn dlopen(path: *const c_char, mode: c_int) -> *mut c_void;
    fn dlsym(object: *mut c_void, name: *const c_char) -> *mut c_void;
    fn dlerror() -> *const c_char;
}

/// The C library's mode in which all that the object needs is found when it is opened, not during its first call.
const RTLD_NOW: c_int = 2;
/// The variable in which the script hands over the path.
const VARIABLE: &str = "BUSHINGOWL_BEFORE_SHARED";
/// The variable that says by which header the library is called: the number that `BUSHINGOWL_API` has there.
const API: &str = "BUSHINGOWL_BEFORE_API";
/// The header as it is, as it was before Order 7, before Order 6, before Order 4, and before Order 3.
const PRESENT: u64 = 6;
const WITHOUT_MARKS: u64 = 5;
const AS_ONE: u64 = 4;
const WITHOUT_ASCII: u64 = 3;
const FROM_ONE: u64 = 2;
/// What an answer holds before the call. Every call sets every number.
const UNSET: u64 = u64::MAX;
/// Two lines of channel 0, so that they are none before Order 6. The second is a step back, which has no mark before Order 7.
const STEP_BACK: &[u8] =
    b"30.12.1899 00:00:00.0001 CAN #0 | Rx 123 0\n30.12.1899 00:00:00.0000 CAN #0 | Rx 123 0\n";

/// Its functions are those of `bushingowl::numbers`. Before Order 7 they know no marks: what is read has none, and what has one is neither written
/// nor exported. So all libraries do the same only with records of which none steps back.
pub struct Before {
    read: Read,
    write: Writer,
    export: Exporter,
    /// Since Order 4. It has the parameters of the reader.
    read_ascii: Option<Read>,
}

enum Writer {
    Numbered(Write),
    /// Before Order 3: all rows are numbered from 1 on, and the reader says nothing of it.
    FromOne(WriteFromOne),
}

enum Exporter {
    Given(Export),
    /// Before Order 6: bus 0 is written as channel 1.
    AsOne(ExportAsOne),
}

impl Before {
    /// The library whose path was handed over, if one was; or why it can't be opened.
    pub fn named() -> Result<Option<Before>, String> {
        match env::var_os(VARIABLE) {
            Some(path) if !path.is_empty() => Before::open(path).map(Some),
            _ => Ok(None),
        }
    }

    fn open(path: OsString) -> Result<Before, String> {
        let object = open(path)?;
        let read = function(object, c"bo_read")?;
        let write = function(object, c"bo_write")?;
        let export = function(object, c"bo_export")?;
        let read_ascii = function(object, c"bo_read_ascii").ok();
        // SAFETY: see above; both readers have these parameters in every header that has them.
        let (read, read_ascii) = unsafe {
            let of_type = |function| transmute::<NonNull<c_void>, Read>(function);
            (of_type(read), read_ascii.map(of_type))
        };
        let told = told(read, read_ascii)?;
        match named_api()? {
            Some(named) if named != told => {
                return Err(format!("{API}={named} is for another, it needs {told}"));
            }
            None if told != PRESENT => {
                return Err(format!("made before Order 7, it needs {API}={told}"));
            }
            _ => {}
        }
        // SAFETY: see above; writer and export have the parameters of the header that was told.
        let before = unsafe {
            Before {
                read,
                write: match told {
                    FROM_ONE => Writer::FromOne(transmute::<NonNull<c_void>, WriteFromOne>(write)),
                    _ => Writer::Numbered(transmute::<NonNull<c_void>, Write>(write)),
                },
                export: match told {
                    PRESENT | WITHOUT_MARKS => {
                        Exporter::Given(transmute::<NonNull<c_void>, Export>(export))
                    }
                    _ => Exporter::AsOne(transmute::<NonNull<c_void>, ExportAsOne>(export)),
                },
                read_ascii,
            }
        };
        Ok(before)
    }

    pub fn read(&self, text: &[u8], out: &mut [u8]) -> [u64; 7] {
        let mut answer = numbers_read(self.read, text, out);
        if let Writer::FromOne(_) = self.write {
            answer[6] = answer[4].min(1);
        }
        answer
    }

    pub fn write(
        &self,
        version: u32,
        start: u64,
        first: u64,
        records: &[u8],
        out: &mut [u8],
    ) -> [u64; 3] {
        let mut answer = [UNSET; 3];
        let (list, list_len) = (records.as_ptr(), records.len());
        let (text, room, said) = (out.as_mut_ptr(), out.len(), answer.as_mut_ptr());
        // SAFETY: see above; the answer has room for the three numbers of the header.
        unsafe {
            match self.write {
                Writer::Numbered(write) => {
                    write(version, start, first, list, list_len, text, room, said)
                }
                Writer::FromOne(write) => write(version, start, list, list_len, text, room, said),
            }
        }
        answer
    }

    /// Before Order 6 the channel is 1, whatever is given.
    pub fn export(&self, start: u64, channel: u64, records: &[u8], out: &mut [u8]) -> [u64; 5] {
        let mut answer = [UNSET; 5];
        let (list, list_len) = (records.as_ptr(), records.len());
        let (text, room, said) = (out.as_mut_ptr(), out.len(), answer.as_mut_ptr());
        // SAFETY: see above; the answer has room for the five numbers of the header.
        unsafe {
            match self.export {
                Exporter::Given(export) => export(start, channel, list, list_len, text, room, said),
                Exporter::AsOne(export) => export(start, list, list_len, text, room, said),
            }
        }
        answer
    }

    /// Whether it reads ASCII, as it does since Order 4.
    pub fn reads_ascii(&self) -> bool {
        self.read_ascii.is_some()
    }

    /// Nothing if it is from before Order 4.
    pub fn read_ascii(&self, text: &[u8], out: &mut [u8]) -> Option<[u64; 4]> {
        let read_ascii = self.read_ascii?;
        Some(ascii_read(read_ascii, text, out))
    }
}

/// The numbers that a reader sets: of traces seven, before Order 3 all but the last of them, which is the first number; of ASCII four.
fn numbers_read(read: Read, text: &[u8], out: &mut [u8]) -> [u64; 7] {
    let mut answer = [UNSET; 7];
    let (from, len) = (text.as_ptr(), text.len());
    let (to, room, said) = (out.as_mut_ptr(), out.len(), answer.as_mut_ptr());
    // SAFETY: see above; the answer has room for the numbers of either reader in every header.
    unsafe { read(from, len, to, room, said) }
    answer
}

fn ascii_read(read_ascii: Read, text: &[u8], out: &mut [u8]) -> [u64; 4] {
    let [number, place, start, records, ..] = numbers_read(read_ascii, text, out);
    [number, place, start, records]
}

/// The header that a library was made with, as its readers tell.
fn told(read: Read, read_ascii: Option<Read>) -> Result<u64, String> {
    let Some(read_ascii) = read_ascii else {
        return match numbers_read(read, b"", &mut []) {
            [.., UNSET] => Ok(FROM_ONE),
            _ => Ok(WITHOUT_ASCII),
        };
    };
    let mut records = [0; 2 * RECORD];
    match ascii_read(read_ascii, STEP_BACK, &mut records) {
        [31, 1, 0, 0] => Ok(AS_ONE),
        [0, 0, 0, 2] if first_mark(&records) == 0 => Ok(WITHOUT_MARKS),
        [0, 0, 0, 2] if first_mark(&records) == 2 => Ok(PRESENT),
        other => Err(format!("a step back on channel 0 is answered by {other:?}")),
    }
}

/// The header that the variable names, if it names one.
fn named_api() -> Result<Option<u64>, String> {
    let named = match env::var(API) {
        Ok(named) if !named.is_empty() => named,
        Err(NotUnicode(_)) => "no number".to_string(),
        _ => return Ok(None),
    };
    let known = [FROM_ONE, WITHOUT_ASCII, AS_ONE, WITHOUT_MARKS, PRESENT];
    match known.iter().find(|number| number.to_string() == named) {
        Some(&number) => Ok(Some(number)),
        None => Err(format!("{API} is one of {known:?}, not {named}")),
    }
}

fn open(path: OsString) -> Result<NonNull<c_void>, String> {
    let path = CString::new(path.into_encoded_bytes()).expect("a variable holds no NUL");
    // SAFETY: the path ends in NUL and is lent for this call only; the library has nothing that runs when it is opened.
    let object = unsafe { dlopen(path.as_ptr(), RTLD_NOW) };
    NonNull::new(object).ok_or_else(failure)
}

fn function(object: NonNull<c_void>, name: &CStr) -> Result<NonNull<c_void>, String> {
    // SAFETY: the object is open; the name ends in NUL and is lent for this call only.
    let function = unsafe { dlsym(object.as_ptr(), name.as_ptr()) };
    NonNull::new(function).ok_or_else(failure)
}

/// What the C library says of the call that has just failed.
fn failure() -> String {
    // SAFETY: the text, if there is one, ends in NUL and stays until the next of these calls; it is copied here.
    unsafe {
        match dlerror() {
            said if said.is_null() => "no reason is given".to_string(),
            said => CStr::from_ptr(said).to_string_lossy().into_owned(),
        }
    }
}
