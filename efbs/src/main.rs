use efbs::files::{partial, standard};
use std::process::ExitCode;

/// Called by the system's loader. Rust puts the null device in the place of a closed standard output before main
/// begins, and from then on nothing tells the two apart.
#[used]
#[link_section = ".init_array"]
static BEFORE_MAIN: extern "C" fn() = standard::note_if_closed;

fn main() -> ExitCode {
    let words: Vec<_> = std::env::args_os().skip(1).collect();
    match words.as_slice() {
        [first, path, mode] if first == partial::GUARD => {
            partial::guard(path, mode);
            ExitCode::SUCCESS
        }
        words => ExitCode::from(efbs::cli::run(words)),
    }
}
