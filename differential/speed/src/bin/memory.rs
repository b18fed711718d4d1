//! What a placement takes: what ours is lent and the stack that it uses, and the original's heap at its fullest and stack.
//! A program of its own, since counting what the original allocates would slow it where it is timed.
#[path = "../boards.rs"]
#[allow(dead_code)]
mod boards;
#[path = "../../../compare/src/random.rs"]
#[allow(dead_code)]
mod random;
#[path = "../sides.rs"]
#[allow(dead_code)]
mod sides;

use sides::{measured_original, measured_ours, prepared, Lent};
use std::alloc::{GlobalAlloc, Layout, System};
use std::hint::black_box;
use std::sync::atomic::{AtomicUsize, Ordering::Relaxed};

struct Counting;

static NOW: AtomicUsize = AtomicUsize::new(0);
static MOST: AtomicUsize = AtomicUsize::new(0);

unsafe impl GlobalAlloc for Counting {
    unsafe fn alloc(&self, layout: Layout) -> *mut u8 {
        MOST.fetch_max(NOW.fetch_add(layout.size(), Relaxed) + layout.size(), Relaxed);
        System.alloc(layout)
    }

    unsafe fn dealloc(&self, at: *mut u8, layout: Layout) {
        NOW.fetch_sub(layout.size(), Relaxed);
        System.dealloc(at, layout)
    }
}

#[global_allocator]
static COUNTING: Counting = Counting;

/// The heap at its fullest during a call, beyond what was there before.
fn heap(call: impl FnOnce()) -> usize {
    let before = NOW.load(Relaxed);
    MOST.store(before, Relaxed);
    call();
    MOST.load(Relaxed) - before
}

const DEEP: usize = 1 << 16;
const MARK: u8 = 0xA5;

/// An address in a frame that stands where a call's frame will stand.
#[inline(never)]
fn below() -> *mut u8 {
    let mut here = 0u8;
    black_box(&mut here as *mut u8)
}

/// How far down a call has written over a mark that was put below this frame. A large local would not do: the compiler
/// touches each of its pages.
#[inline(never)]
fn reached(call: &mut dyn FnMut()) -> usize {
    let top = below();
    for at in 0..DEEP {
        unsafe { top.sub(at).write_volatile(MARK) };
    }
    call();
    for at in (0..DEEP).rev() {
        if unsafe { top.sub(at).read_volatile() } != MARK {
            return at + 1;
        }
    }
    0
}

fn stack(call: &mut dyn FnMut()) -> usize {
    reached(call)
        - reached(&mut || {
            black_box(());
        })
}

fn main() {
    println!("seed 1; the most over the four flows; bytes\n");
    println!("| board | lent to ours | in records | ours: stack | original: heap | original: stack |");
    println!("|---|---:|---:|---:|---:|---:|");
    for board in &boards::boards(1) {
        let (mut most, mut places) = ([0; 4], [0; 2]);
        for flow in 0..4 {
            let (mut lent, mut items) = (Lent::new(board, flow), prepared(board));
            let (bytes, records) = (lent.bytes(), lent.records());
            let mut ours = || {
                measured_ours(flow, board, &mut lent);
            };
            let our_stack = stack(&mut ours);
            assert_eq!(heap(ours), 0, "ours allocates nothing");
            let mut original = || {
                measured_original(flow, board, &mut items);
            };
            let original_stack = stack(&mut original);
            let found = [bytes, our_stack, heap(original), original_stack];
            most = std::array::from_fn(|at| most[at].max(found[at]));
            places = std::array::from_fn(|at| places[at].max(records[at]));
        }
        let [lent, our_stack, heap, original_stack] = most;
        let [rows, columns] = places;
        println!("| {} | {lent} | {rows} + {columns} | {our_stack} | {heap} | {original_stack} |", board.name);
    }
}
