//! Blocks of a pool, taken and returned, and what came of it. From the repository's root:
//!
//!     (cd crates/okrozumba && rt lib --cpu x86-64)
//!     cargo run --offline --manifest-path bindings/rust/Cargo.toml --example blocks
//!
//! It prints:
//!
//!     pget_blk(1): E_OK, w1 1, w2 0, runs 1, released 0
//!     pget_blk(1): E_OK, w1 2, w2 0, runs 1, released 0
//!     pget_blk(1): H_POLL, w1 0, w2 0, runs 1, released 0
//!     rel_blk(1, 1): E_OK, w1 0, w2 0, runs 1, released 0
//!     pget_blk(1): E_OK, w1 1, w2 0, runs 1, released 0
//!     get_blk(1): WAITS, w1 0, w2 0, runs 2, released 0
//!     rel_blk(1, 2): E_OK, w1 0, w2 0, runs 2, released 1
//!     cell of task 1: E_OK, word 2
//!     task 1: READY
//!     task 2: RUN
//!     task 3: DORMANT
//!     six event words: Err(Ragged)
//!     a setup of 4 bytes: Err(BadSetup { fault: S1, place: 4 })

use okrozumba::Context::Task;
use okrozumba::State;

/// The bench sheet's setup: two ready tasks, a dormant one, and one of each object; the pool has two blocks.
const SETUP: [u32; 16] = [4, 3, 2, 1, 2, 1, 1, 0, 1, 0, 1, 0, 1, 2, 1, 2];

fn main() {
    let setup: Vec<u8> = SETUP.iter().flat_map(|word| word.to_le_bytes()).collect();
    let mut kernel = State::start(&setup).expect("the bench sheet's setup has no fault");

    println!("pget_blk(1): {}", kernel.pget_blk(Task, 1));
    println!("pget_blk(1): {}", kernel.pget_blk(Task, 1));
    println!("pget_blk(1): {}", kernel.pget_blk(Task, 1));
    println!("rel_blk(1, 1): {}", kernel.rel_blk(Task, 1, 1));
    println!("pget_blk(1): {}", kernel.pget_blk(Task, 1));
    println!("get_blk(1): {}", kernel.get_blk(Task, 1));
    println!("rel_blk(1, 2): {}", kernel.rel_blk(Task, 1, 2));
    println!("cell of task 1: {}", kernel.cell(1));
    for (task, state) in kernel.states().expect("no state is damaged").iter() {
        println!("task {task}: {state}");
    }

    let ragged = kernel.events(&[0; 6], &mut [0; 2], &mut [0; 8]);
    println!("six event words: {ragged:?}");
    let short = kernel.restart(&setup[..4]);
    println!("a setup of 4 bytes: {short:?}");
}
