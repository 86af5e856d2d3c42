//! The C functions of the portable crate, with a panic handler that tells where: the programs of this folder say it and fail.
#![no_std]

extern crate hub_c;

unsafe extern "C" {
    fn panicked(file: *const u8, length: usize, line: u32);
}

#[panic_handler]
fn stop(info: &core::panic::PanicInfo) -> ! {
    let (file, line) = info.location().map_or(("", 0), |place| (place.file(), place.line()));
    unsafe { panicked(file.as_ptr(), file.len(), line) };
    loop {}
}
