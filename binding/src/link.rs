//! What a program that uses this crate has to be linked with.

use crate::ffi;

/// The number of the library's interface that this crate is for.
///
/// A library of another interface does not link: the number is in the name of a function that a static of this crate
/// needs. A linker that drops unused sections may drop the static. A program that reads packets does not link with a
/// library of tables of another size even then: the functions that take a table have the number of entries in
/// their names.
pub const INTERFACE: u32 = 2;

const _: () = assert!(
    size_of::<usize>() == 8,
    "the library has numbers of 64 bits"
);

/// Needs `ntp_interface_2`, whatever else a program calls. `rustc` asks the linker to drop unused sections; rustc 1.95
/// marks this one as one to retain. Earlier compilers were not tried.
#[used]
static INTERFACE_GUARD: unsafe extern "C" fn() -> u32 = ffi::ntp_interface_2;

/// The number of the interface that the linked library states.
#[must_use]
pub fn interface_of_library() -> u32 {
    // SAFETY: it takes nothing and returns a number.
    unsafe { ffi::ntp_interface_2() }
}

/// Stops a build, but not a check: constants of a generic function are worked out when code is made of it.
#[cfg(library_missing)]
mod missing {
    #[expect(
        dead_code,
        reason = "nothing calls it: code is made of it all the same, since it is exported"
    )]
    #[unsafe(no_mangle)]
    extern "C" fn lobzhinar_library_missing() {
        stop::<()>();
    }

    fn stop<T>() {
        const {
            assert!(
                size_of::<T>() != 0,
                "The variable LOBZHINAR_LIBRARY is not set. Let it name the folder that has libpump.a: `tools/library` \
                 makes target/library/MACHINE/libpump.a."
            );
        }
    }
}
