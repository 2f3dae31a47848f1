//! The library's C functions beside `chirpsteeple_tests::host`, which is written from document 01 and the C interface alone: after every call, every number and every byte of the two are compared.
//!
//! Beside that, demand 3 is run on the library: `watcher` follows random histories of small guests (`guests`) by calls and answers alone, `replay` replays what was exported when a token is granted, and `earn` earns tokens from paused states.
//!
//! The tests run with fixed seeds; `cargo run --release -- SEED COUNT` runs with others, as many as are asked for. A difference is told with its seed, so that `-- SEED 1` comes to it again. `--bin replay` does the same for demand 3. CHIRPSTEEPLE_ARCHIVE names another archive than the repository's own.

pub mod calls;
pub mod comparison;
pub mod damage;
pub mod driver;
pub mod earn;
pub mod guests;
pub mod handed;
pub mod interface;
pub mod large;
pub mod library;
pub mod lines;
pub mod lists;
pub mod memory;
pub mod play;
pub mod reached;
pub mod replay;
pub mod run;
pub mod seen;
pub mod strays;
pub mod watcher;
