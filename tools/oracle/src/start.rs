//! Where a program begins that may run in an emulator: as one of C does, with the exit status of its own `run`. Rust's own beginning asks the
//! system for the map of the memory, and there the emulator of an older Rattle kit (qemu 8.2.2) ends by a fault of its own.

#[no_mangle]
extern "C" fn main() -> i32 {
    crate::run()
}
