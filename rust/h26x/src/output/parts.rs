//! Files that are written and not whole yet, which a signal that ends the program removes.

use signal_hook::consts::{SIGHUP, SIGINT, SIGTERM, SIGXFSZ};
use signal_hook::flag;
use signal_hook::iterator::Signals;
use signal_hook::low_level::emulate_default_handler;
use std::fs;
use std::path::{Path, PathBuf};
use std::sync::atomic::{AtomicBool, Ordering};
use std::sync::{Arc, Mutex, MutexGuard, OnceLock};
use std::thread;

static PARTS: Mutex<Vec<PathBuf>> = Mutex::new(Vec::new());
/// Whether somebody waits for signals.
static WATCH: OnceLock<()> = OnceLock::new();
/// What the first signal sets, where it ends work that is to be finished.
static FIRST: OnceLock<Arc<AtomicBool>> = OnceLock::new();

fn parts() -> MutexGuard<'static, Vec<PathBuf>> {
    PARTS.lock().unwrap_or_else(|it| it.into_inner())
}

/// From now on the first signal sets what is answered, and only the next one ends the program.
pub fn first_signal() -> Arc<AtomicBool> {
    let first = FIRST.get_or_init(Arc::default);
    start();
    first.clone()
}

fn start() {
    WATCH.get_or_init(|| {
        refuse_long_files();
        watch();
    });
}

/// Makes a file by `create`, which is removed where a signal ends the program before `forget`.
pub fn remember<T, E>(path: &Path, create: impl FnOnce() -> Result<T, E>) -> Result<T, E> {
    start();
    // A signal that comes meanwhile waits for the lock.
    let mut parts = parts();
    let made = create()?;
    parts.push(path.into());
    Ok(made)
}

/// A file got its name, or is removed.
pub fn forget(path: &Path) {
    parts().retain(|it| it != path);
}

/// Where a file may be no longer (ulimit -f), writing it fails, and the program isn't ended by a signal.
fn refuse_long_files() {
    let _ = flag::register(SIGXFSZ, Arc::new(AtomicBool::new(false)));
}

/// Waits for signals in a thread of its own. Where there can be none, files stay after a signal.
fn watch() {
    let wanted: Vec<i32> = [SIGINT, SIGTERM, SIGHUP]
        .into_iter()
        .filter(|it| !is_ignored(*it))
        .collect();
    let Ok(mut signals) = Signals::new(wanted) else {
        return;
    };
    let _ = thread::Builder::new().spawn(move || {
        for signal in signals.forever() {
            let is_first = FIRST
                .get()
                .is_some_and(|it| !it.swap(true, Ordering::Relaxed));
            if is_first {
                continue;
            }
            let parts = parts();
            for part in parts.iter() {
                let _ = fs::remove_file(part);
            }
            // The program ends as by the signal alone, and nobody makes another file before.
            let _ = emulate_default_handler(signal);
            drop(parts);
        }
    });
}

/// Whether who started the program has it ignore a signal, as `nohup` does.
fn is_ignored(signal: i32) -> bool {
    let status = fs::read_to_string("/proc/self/status").unwrap_or_default();
    let ignored = status.lines().find_map(|line| line.strip_prefix("SigIgn:"));
    let bits = ignored.and_then(|it| u64::from_str_radix(it.trim(), 16).ok());
    bits.is_some_and(|bits| bits >> (signal - 1) & 1 != 0)
}
