//! The one call of the library.
use crate::error::{Error, Result};
use std::thread;

// The deepest tables that the reader allows need some 5 MB of it; a thread has 2 MB unless it gets more.
const STACK: usize = 8 << 20;

// The first room for a reply: so many times the request, but no less and no more than this, and less where memory is short. A reply
// that doesn't fit is computed twice: the whole load runs again. Short values of long tables give the longest cells beside their
// files, which are in the request.
const TIMES: usize = 8;
const LEAST: usize = 64 << 10;
const MOST: usize = 16 << 20;

extern "C" {
    fn cc2_ask(request: *const u8, length: usize, reply: *mut u8, room: usize) -> usize;
}

/// The reply to a request. The call runs on its own thread, whose stack is large enough for any request.
///
/// # Errors
/// Where memory ran out, or no thread can be started.
pub(crate) fn ask(request: &[u8]) -> Result<Vec<u8>> {
    let mut reply = first_room(request).ok_or_else(Error::out_of_memory)?;
    let thread = thread::Builder::new().stack_size(STACK);
    let length = thread::scope(|scope| {
        let asking = thread.spawn_scoped(scope, || whole_reply(request, &mut reply));
        asking.map(|asking| asking.join().unwrap_or(0))
    });
    match length {
        Ok(0) => Err(Error::out_of_memory()),
        Ok(_) => Ok(reply),
        Err(error) => Err(Error::because("the library cannot be asked", &error)),
    }
}

// A vector with the first room; none where there is no memory even for the least.
fn first_room(request: &[u8]) -> Option<Vec<u8>> {
    let mut reply = Vec::new();
    let mut room = request.len().saturating_mul(TIMES).clamp(LEAST, MOST);
    while reply.try_reserve_exact(room).is_err() {
        room = Some(room / 2).filter(|half| *half >= LEAST)?;
    }
    Some(reply)
}

// The length of the reply, which gets as much room as it takes. It is 0 where memory ran out.
fn whole_reply(request: &[u8], reply: &mut Vec<u8>) -> usize {
    loop {
        let length = call(request, reply);
        if length <= reply.capacity() {
            return length;
        }
        if reply.try_reserve_exact(length).is_err() {
            return 0;
        }
    }
}

// The length of the reply, which is written into the vector if it has the capacity.
#[allow(unsafe_code)]
fn call(request: &[u8], reply: &mut Vec<u8>) -> usize {
    // SAFETY: the request is valid for its length, and the vector's buffer for its capacity, and they don't overlap. The function
    // keeps neither, and takes whatever bytes the request has. It has written the whole reply where that is no longer than
    // the capacity; where memory ran out the length is 0.
    unsafe {
        let length = cc2_ask(request.as_ptr(), request.len(), reply.as_mut_ptr(), reply.capacity());
        if length <= reply.capacity() {
            reply.set_len(length);
        }
        length
    }
}
