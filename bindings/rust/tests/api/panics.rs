//! Where a call without a `Result` is refused, its panic names the line of the call.

use std::cell::RefCell;
use std::panic::{self, AssertUnwindSafe};
use std::sync::Once;
use yurewha::merklehash::{file_hash, file_hash_with_salt, xorb_hash, DataHash, MerkleHashSubtree};

thread_local! {
    // Where the last panic of this thread was.
    static PLACE: RefCell<String> = const { RefCell::new(String::new()) };
}

// The file of the panic of a call.
fn place_of(call: impl FnOnce()) -> String {
    static HOOK: Once = Once::new();
    HOOK.call_once(|| {
        let before = panic::take_hook();
        panic::set_hook(Box::new(move |info| {
            let place = info.location().map(|place| place.file().to_owned());
            PLACE.set(place.unwrap_or_default());
            before(info);
        }));
    });
    panic::catch_unwind(AssertUnwindSafe(call)).unwrap_err();
    PLACE.take()
}

#[test]
fn a_refusal_names_the_line_of_the_call() {
    let chunks = [(DataHash::default(), u64::MAX); 2];
    let calls: [&dyn Fn(); 5] = [
        &|| _ = xorb_hash(&chunks),
        &|| _ = file_hash(&chunks),
        &|| _ = file_hash_with_salt(&chunks, &[0; 32]),
        &|| _ = MerkleHashSubtree::from_chunks(false, &chunks, false),
        &|| _ = DataHash::marker() % 0,
    ];
    for (index, call) in calls.iter().enumerate() {
        assert_eq!(place_of(call), file!(), "call {index}");
    }
}
