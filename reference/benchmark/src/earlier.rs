//! An earlier build of the proved checker and today's, loaded side by side, so that one run times both. Both have the same
//! C names, and code that is put elsewhere takes other times: so both come as shared objects, each at several places
//! (`reference/bench` makes them).

use std::ffi::{c_char, c_int, c_void, CStr, CString};

use crate::files::Timed;

extern "C" {
    fn dlopen(name: *const c_char, flags: c_int) -> *mut c_void;
    fn dlsym(handle: *mut c_void, name: *const c_char) -> *mut c_void;
}

/// Resolve every symbol at once, and show none to other objects.
const NOW: c_int = 2;

/// The two builds, each at the places where it is timed, one at least.
pub struct Builds {
    pub before: Vec<Build>,
    pub today: Vec<Build>,
}

impl Builds {
    pub fn load(before: &[&str], today: &[&str]) -> Result<Builds, String> {
        let all = |paths: &[&str]| {
            paths.iter().map(|path| Build::load(path)).collect::<Result<Vec<Build>, String>>()
        };
        let builds = Builds { before: all(before)?, today: all(today)? };
        if builds.before.is_empty() || builds.today.is_empty() {
            return Err("no shared objects".to_string());
        }
        match builds.today.iter().position(|build| build.check_numbered.is_none()) {
            None => Ok(builds),
            Some(at) => Err(format!("{}: no certificate_check_numbered", today[at])),
        }
    }
}

type Check = unsafe extern "C" fn(*const u8, usize) -> u64;
type CheckNumbered = unsafe extern "C" fn(*const u8, usize, *const u8, usize) -> u64;

/// A build's functions, as `certificate.h` declares them; an early build has no lists of rule numbers, takes explicit states that ascend
/// alone, and reads version 1 alone or 1 and 2. The object stays loaded.
pub struct Build {
    check: Check,
    check_numbered: Option<CheckNumbered>,
}

impl Build {
    pub fn load(path: &str) -> Result<Build, String> {
        let name = CString::new(path).map_err(|_| format!("{path}: not a file's name"))?;
        // Safe: the string ends with a zero byte, and what is loaded runs no code by itself.
        let object = unsafe { dlopen(name.as_ptr(), NOW) };
        let Some(check) = found(object, c"certificate_check") else {
            return Err(format!("{path}: no shared object with certificate_check"));
        };
        let numbered = found(object, c"certificate_check_numbered");
        // Each name has this type in every build that has it.
        unsafe {
            Ok(Build {
                check: std::mem::transmute::<*mut c_void, Check>(check),
                check_numbered: numbered.map(|name| std::mem::transmute::<*mut c_void, CheckNumbered>(name)),
            })
        }
    }

    /// The code of its reply; none where the file has a list and the build takes none, or where it says 2 or 7: no timed file is to get
    /// these, and an early build says them of later versions and of explicit states that do not ascend.
    pub fn check(&self, file: &Timed) -> Option<u64> {
        let bytes = &file.bytes;
        // They require nothing of the bytes, read no others and keep nothing.
        let code = match &file.numbers {
            None => Some(unsafe { (self.check)(bytes.as_ptr(), bytes.len()) }),
            Some(numbers) => self
                .check_numbered
                .map(|check| unsafe { check(bytes.as_ptr(), bytes.len(), numbers.as_ptr(), numbers.len()) }),
        };
        code.filter(|code| ![2, 7].contains(&(code >> 32)))
    }
}

/// What a loaded object has by a name, where it was loaded and has it.
fn found(object: *mut c_void, name: &CStr) -> Option<*mut c_void> {
    // Safe: the object is loaded, and the name ends with a zero byte.
    let place = if object.is_null() { object } else { unsafe { dlsym(object, name.as_ptr()) } };
    (!place.is_null()).then_some(place)
}
