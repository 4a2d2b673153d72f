//! Panics of the original, caught as values.

use std::cell::{Cell, RefCell};
use std::panic::{self, AssertUnwindSafe, PanicHookInfo};
use std::path::Path;
use std::sync::Once;

#[derive(Clone, Debug, Default, PartialEq, Eq)]
pub struct Panic {
    /// The name of the source file that panicked, without its folder.
    pub file: String,
    pub message: String,
}

impl Panic {
    fn new(info: &PanicHookInfo) -> Self {
        let path = info.location().map_or("", |location| location.file());
        let file = Path::new(path).file_name().unwrap_or_default();
        Self {
            file: file.to_string_lossy().into_owned(),
            message: info.payload_as_str().unwrap_or_default().to_owned(),
        }
    }
}

thread_local! {
    static CATCHING: Cell<bool> = const { Cell::new(false) };
    static CAUGHT: RefCell<Panic> = RefCell::default();
}

/// Makes the call; a panic in it prints nothing. What the call borrows may be left half changed.
pub fn catch<T>(call: impl FnOnce() -> T) -> Result<T, Panic> {
    static HOOK: Once = Once::new();
    HOOK.call_once(|| {
        let usual = panic::take_hook();
        panic::set_hook(Box::new(move |info| {
            if CATCHING.get() {
                CAUGHT.replace(Panic::new(info));
            } else {
                usual(info);
            }
        }));
    });

    CATCHING.set(true);
    let result = panic::catch_unwind(AssertUnwindSafe(call));
    CATCHING.set(false);
    result.map_err(|_| CAUGHT.take())
}
