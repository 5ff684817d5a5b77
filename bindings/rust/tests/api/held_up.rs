//! A call of a thread that a signal holds up, as Linux sends them: another thread doesn't wait for it.

use std::ffi::c_int;
use std::sync::atomic::{AtomicBool, Ordering};
use std::sync::mpsc;
use std::thread;
use std::time::Duration;
use yurewha::merklehash::compute_data_hash;
use yurewha::own::RangeProof;

const SIGUSR1: c_int = 10;

extern "C" {
    fn signal(number: c_int, handler: extern "C" fn(c_int)) -> usize;
    fn pthread_self() -> usize;
    fn pthread_kill(thread: usize, number: c_int) -> c_int;
}

static MAY_GO_ON: AtomicBool = AtomicBool::new(false);
static GAVE_UP: AtomicBool = AtomicBool::new(false);

// Holds a thread up, wherever it is, until it may go on. It gives up if that never comes.
extern "C" fn hold_up(_: c_int) {
    for _ in 0..10_000 {
        if MAY_GO_ON.load(Ordering::SeqCst) {
            return;
        }
        thread::sleep(Duration::from_millis(1));
    }
    GAVE_UP.store(true, Ordering::SeqCst);
}

#[test]
fn a_range_tells_its_place_while_a_check_is_held_up() {
    let data = vec![7; 64 << 20];
    let chunk = (compute_data_hash(&data), data.len() as u64);
    let range = RangeProof::from_chunks(&[chunk], 0..1).unwrap();
    let range = range.open_root(&chunk.0).unwrap();
    // SAFETY: the handler calls nothing that a handler may not.
    unsafe { signal(SIGUSR1, hold_up) };
    for _ in 0..5 {
        MAY_GO_ON.store(false, Ordering::SeqCst);
        thread::scope(|scope| {
            let (sender, receiver) = mpsc::channel();
            let (range, data) = (&range, &data);
            let check = scope.spawn(move || {
                // SAFETY: it has no arguments.
                sender.send(unsafe { pthread_self() }).unwrap();
                assert_eq!(range.check(0, data), Some(0));
            });
            let checker = receiver.recv().unwrap();
            // Mostly the thread is in its call by then.
            thread::sleep(Duration::from_millis(5));
            // SAFETY: the thread is joined only below.
            assert_eq!(unsafe { pthread_kill(checker, SIGUSR1) }, 0);
            assert_eq!(range.begins(0), Some(0));
            MAY_GO_ON.store(true, Ordering::SeqCst);
            check.join().unwrap();
        });
    }
    assert!(!GAVE_UP.load(Ordering::SeqCst));
}
