//! Says which call was under way when the library touched a byte it was not lent.

use std::ptr;
use std::sync::atomic::{AtomicPtr, Ordering};

use model::call::{Call, Lengths};

extern "C" {
    fn signal(number: i32, handler: extern "C" fn(i32)) -> usize;
    fn _exit(status: i32) -> !;
}

const BUS_ERROR: i32 = 7;
const SEGMENTATION_FAULT: i32 = 11;

/// The exit status of a run stopped in this way.
pub const STOPPED: i32 = 3;

struct UnderWay {
    call: Call,
    lengths: Lengths,
}

static UNDER_WAY: AtomicPtr<UnderWay> = AtomicPtr::new(ptr::null_mut());

pub fn install() {
    unsafe {
        signal(BUS_ERROR, report);
        signal(SEGMENTATION_FAULT, report);
    }
}

/// Makes a call known for as long as it runs.
pub fn during<T>(call: &Call, lengths: Lengths, run: impl FnOnce() -> T) -> T {
    let call = *call;
    let mut under_way = UnderWay { call, lengths };
    UNDER_WAY.store(&mut under_way, Ordering::SeqCst);
    let result = run();
    UNDER_WAY.store(ptr::null_mut(), Ordering::SeqCst);
    result
}

extern "C" fn report(_signal: i32) {
    let under_way = UNDER_WAY.load(Ordering::SeqCst);
    unsafe {
        match under_way.as_ref() {
            None => eprintln!("stopped: a byte outside of what was lent, in no call"),
            Some(UnderWay { call, lengths }) => {
                eprintln!(
                    "stopped: a byte outside of what was lent\n  call  {call:x?}\n  {lengths:?}"
                )
            }
        }
        _exit(STOPPED)
    }
}
