//! Two threads on one lane, from Rust: each pass is moved into the thread that uses it.
use std::ffi::c_void;
use std::thread;

const DONE: u32 = 0;
const SEVERAL: u32 = 8;

#[repr(C)]
struct RawPass {
    seat: *mut c_void,
    state: u32,
}

#[repr(C)]
#[derive(Clone, Copy)]
struct Op {
    kind: u32,
    value: u64,
}

#[repr(C)]
#[derive(Clone, Copy, Default)]
struct Answer {
    kind: u32,
    value: u64,
}

unsafe extern "C" {
    fn bq_make(passes: *mut RawPass, callers: usize, batch: u32, room: u32, allowance: u64) -> u32;
    fn bq_dequeue(pass: *mut RawPass, value: *mut u64) -> u32;
    fn bq_apply(pass: *mut RawPass, ops: *const Op, count: usize, answers: *mut Answer, places: usize) -> u32;
    fn bq_gather(pass: *mut RawPass, other: *mut RawPass) -> u32;
    fn bq_close(pass: *mut RawPass) -> u32;
}

/// A pass of a lane. It may go to another thread, and is used by one at a time.
#[repr(transparent)]
struct Pass(RawPass);

unsafe impl Send for Pass {}

impl Pass {
    /// The passes of a new lane.
    fn of_new_lane<const CALLERS: usize>(batch: u32, room: u32, allowance: u64) -> Option<[Pass; CALLERS]> {
        let mut passes = [const { Pass(RawPass { seat: std::ptr::null_mut(), state: 0 }) }; CALLERS];
        // A `Pass` is laid out as its `RawPass`.
        let status = unsafe { bq_make(passes.as_mut_ptr().cast(), CALLERS, batch, room, allowance) };
        (status == DONE).then_some(passes)
    }

    fn dequeue(&mut self) -> Option<u64> {
        let mut value = 0;
        let status = unsafe { bq_dequeue(&mut self.0, &mut value) };
        (status == DONE).then_some(value)
    }

    fn apply(&mut self, ops: &[Op]) -> Result<Vec<Answer>, u32> {
        let mut answers = vec![Answer::default(); ops.len()];
        match unsafe { bq_apply(&mut self.0, ops.as_ptr(), ops.len(), answers.as_mut_ptr(), answers.len()) } {
            DONE => Ok(answers),
            status => Err(status),
        }
    }

    /// Joins the callers of another pass of the same lane to those of this one.
    fn gather(&mut self, mut other: Pass) -> bool {
        let status = unsafe { bq_gather(&mut self.0, &mut other.0) };
        status == DONE
    }
}

impl Drop for Pass {
    fn drop(&mut self) {
        unsafe { bq_close(&mut self.0) };
    }
}

fn main() {
    let [mut first, mut second] = Pass::of_new_lane::<2>(4, 8, 1000).expect("a lane");
    let ops = [Op { kind: 2, value: 0 }, Op { kind: 1, value: 5 }, Op { kind: 1, value: 6 }];
    let answers = first.apply(&ops).expect("no refusal");
    assert_eq!(answers.iter().map(|answer| answer.kind).collect::<Vec<_>>(), [2, 0, 0]);
    let taken = thread::spawn(move || ([second.dequeue(), second.dequeue(), second.dequeue()], second));
    let (values, second) = taken.join().expect("no panic");
    assert_eq!(values, [Some(5), Some(6), None]);
    assert_eq!(first.apply(&[]).err(), Some(5));
    assert!(first.gather(second));
    assert_eq!(first.apply(&ops).err(), Some(SEVERAL));
    println!("taken: 5 6");
}
