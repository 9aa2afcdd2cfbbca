//! The worked run of docs/HEAP.md, by offset and by pointer.

use core::alloc::Layout;

use firmheap::{lists_length, live_length, regions_length, Heap, Refusal};

const ARENA: usize = 65_536;

/// A payload's name, its call, and what is answered. A resize has a size, a return none.
enum Call {
    Take(char, usize, usize, Result<usize, Refusal>),
    Return(char),
    Resize(char, usize, usize),
}

use Call::{Resize, Return, Take};

const RUN: [Call; 18] = [
    Take('A', 100, 8, Ok(16)),
    Take('B', 1_000, 8, Ok(144)),
    Take('C', 24, 64, Ok(1_216)),
    Take('D', 0, 1, Ok(1_264)),
    Take('E', 2_000, 16, Ok(1_296)),
    Return('B'),
    Take('F', 900, 8, Ok(144)),
    Return('A'),
    Return('F'),
    Take('J', 1_008, 8, Ok(16)),
    Resize('E', 3_000, 1_296),
    Return('C'),
    Resize('D', 40, 1_040),
    Return('J'),
    Resize('E', 20_000, 1_296),
    Take('K', 65_000, 8, Err(Refusal::NoList)),
    Return('D'),
    Return('E'),
];

/// The arena's address is a multiple of every alignment.
#[repr(C, align(4096))]
struct Aligned([u8; ARENA]);

/// The live payloads by name, with offset and alignment.
type Live = Vec<(char, usize, usize)>;

fn find(live: &Live, name: char) -> usize {
    live.iter().position(|entry| entry.0 == name).expect("a live payload")
}

#[test]
fn by_offset() {
    let (mut arena, mut lists) = ([0u8; ARENA], [0u64; lists_length()]);
    let (mut bits, mut regions) = ([0u64; live_length(ARENA)], [0u64; regions_length(1)]);
    let mut heap = Heap::new(&mut arena, &mut lists, &mut bits, &mut regions).unwrap();
    assert_eq!(heap.insert_free_block_at(0, ARENA), Ok(65_536));
    let mut live = Live::new();
    for call in RUN {
        match call {
            Take(name, size, align, due) => {
                assert_eq!(heap.allocate_at(size, align), due, "take {name}");
                live.extend(due.map(|offset| (name, offset, align)));
            }
            Return(name) => {
                let (_, offset, align) = live.swap_remove(find(&live, name));
                assert_eq!(heap.deallocate_at(offset, align), Ok(()), "return {name}");
            }
            Resize(name, size, due) => {
                let entry = find(&live, name);
                assert_eq!(
                    heap.reallocate_at(live[entry].1, size, live[entry].2),
                    Ok(due),
                    "resize {name}"
                );
                live[entry].1 = due;
            }
        }
    }
}

#[test]
fn by_pointer() {
    let (mut arena, mut lists) = (Box::new(Aligned([0; ARENA])), [0u64; lists_length()]);
    let (mut bits, mut regions) = ([0u64; live_length(ARENA)], [0u64; regions_length(1)]);
    let mut heap = Heap::new(&mut arena.0, &mut lists, &mut bits, &mut regions).unwrap();
    let whole = core::ptr::NonNull::slice_from_raw_parts(heap.pointer_at(0).unwrap(), ARENA);
    assert_eq!(heap.insert_free_block_ptr(whole).unwrap().get(), 65_536);
    let mut live = Live::new();
    for call in RUN {
        match call {
            Take(name, size, align, due) => {
                let layout = Layout::from_size_align(size, align).unwrap();
                let answer = heap.allocate(layout).map(|pointer| heap.offset_of(pointer).unwrap());
                assert_eq!(answer, due.ok(), "take {name}");
                live.extend(due.map(|offset| (name, offset, align)));
            }
            Return(name) => {
                let (_, offset, align) = live.swap_remove(find(&live, name));
                let pointer = heap.pointer_at(offset).unwrap();
                heap.deallocate(pointer, align);
                assert_eq!(
                    heap.try_deallocate(pointer, align),
                    Err(Refusal::NotLive),
                    "return {name} again"
                );
            }
            Resize(name, size, due) => {
                let entry = find(&live, name);
                let layout = Layout::from_size_align(size, live[entry].2).unwrap();
                let pointer = heap
                    .reallocate(heap.pointer_at(live[entry].1).unwrap(), layout)
                    .unwrap();
                assert_eq!(heap.offset_of(pointer), Some(due), "resize {name}");
                live[entry].1 = due;
            }
        }
    }
}
