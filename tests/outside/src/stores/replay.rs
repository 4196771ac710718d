//! Makes the prepared calls on the proved library, between marks.

use super::prepare::Prepared;
use super::{image_address, BEGINS, ENDS, REGION, REGION_END};
use crate::boundary::Library;
use crate::rules::header::HEADER;
use std::ffi::{c_int, c_void};

extern "C" {
    fn mmap(
        address: *mut c_void,
        length: usize,
        protection: c_int,
        flags: c_int,
        file: c_int,
        offset: i64,
    ) -> *mut c_void;
}

const READ_AND_WRITE: c_int = 1 | 2;
const PRIVATE_AND_ANONYMOUS: c_int = 2 | 0x20;

/// Maps the region at its address.
fn map_region() -> Result<(), String> {
    let length = (REGION_END - REGION) as usize;
    let mapped = unsafe { mmap(REGION as *mut c_void, length, READ_AND_WRITE, PRIVATE_AND_ANONYMOUS, -1, 0) };
    if mapped as u64 == REGION {
        Ok(())
    } else {
        Err(format!("the system has no room at {REGION:#x}"))
    }
}

/// A store that the trace shows.
fn mark(address: u64) {
    unsafe { (address as *mut u64).write_volatile(1) }
}

/// Makes the calls; with a fault, each call whose image reaches into the header also stores the header's first byte again, the same as it was.
pub fn replay(calls: &[Prepared], fault: bool) -> Result<(), String> {
    map_region()?;
    for (number, prepared) in calls.iter().enumerate() {
        let mut session = prepared.session;
        let place = image_address(number) as *mut u8;
        // The region is mapped, has room for the image, and nothing else refers to it.
        let image = unsafe { std::slice::from_raw_parts_mut(place, prepared.image.len()) };
        image.copy_from_slice(&prepared.image);
        mark(BEGINS);
        prepared.call.perform(&Library, image, &mut session);
        if fault && image.len() > HEADER {
            unsafe { place.add(HEADER).write_volatile(image[HEADER]) }
        }
        mark(ENDS);
    }
    Ok(())
}
