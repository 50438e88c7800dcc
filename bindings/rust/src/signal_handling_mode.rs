//! Whether waits end at signals, and which signals came.
use std::sync::Once;
use std::sync::atomic::{AtomicBool, Ordering};
use std::time::Duration;

/// Whether the waits of a node or a wait set end when SIGINT or SIGTERM comes.
///
/// iceoryx2's `signal_handling_mode::SignalHandlingMode`.
#[derive(Debug, Clone, Copy, PartialEq, Eq, Default)]
pub enum SignalHandlingMode {
    /// The first wait installs handlers of both signals for the process. From then on they end waits, not the process.
    #[default]
    HandleTerminationRequests,
    /// Waits take no notice of signals.
    Disabled,
}

/// A signal that ends waits.
#[derive(Debug, Clone, Copy, PartialEq, Eq)]
pub(crate) enum Signal {
    Interrupt,
    Termination,
}

/// How long a wait sleeps before it looks whether a signal came.
pub(crate) const SLICE: Duration = Duration::from_millis(20);

const SIGINT: i32 = 2;
const SIGTERM: i32 = 15;

static INTERRUPTED: AtomicBool = AtomicBool::new(false);
static TERMINATED: AtomicBool = AtomicBool::new(false);

extern "C" fn note_interrupt(_: i32) {
    INTERRUPTED.store(true, Ordering::Relaxed);
}

extern "C" fn note_termination(_: i32) {
    TERMINATED.store(true, Ordering::Relaxed);
}

unsafe extern "C" {
    fn signal(signal: i32, handler: extern "C" fn(i32)) -> usize;
}

impl SignalHandlingMode {
    pub(crate) fn handles_signals(self) -> bool {
        self == SignalHandlingMode::HandleTerminationRequests
    }

    /// Returns the signal that came since the first call, if the mode handles signals. It stays.
    pub(crate) fn received(self) -> Option<Signal> {
        static INSTALL: Once = Once::new();
        if !self.handles_signals() {
            return None;
        }
        // SAFETY: both handlers store to an atomic, which a signal handler may.
        INSTALL.call_once(|| unsafe {
            signal(SIGINT, note_interrupt);
            signal(SIGTERM, note_termination);
        });
        if TERMINATED.load(Ordering::Relaxed) {
            Some(Signal::Termination)
        } else {
            INTERRUPTED.load(Ordering::Relaxed).then_some(Signal::Interrupt)
        }
    }
}
