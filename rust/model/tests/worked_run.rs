//! The worked run of `docs/HEAP.md`: answers, and the free blocks after each call.

use model::{Heap, Lent, Refusal};

/// The free blocks as offset:size.
fn free(heap: &Heap) -> String {
    let free = heap.blocks().iter().filter(|block| block.is_free());
    let shown: Vec<_> = free.map(|block| format!("{}:{}", block.offset, block.size)).collect();
    shown.join(" ")
}

#[test]
fn worked_run() {
    let mut heap = Heap::new(Lent::for_arena(65_536, 4)).unwrap();
    assert_eq!(heap.insert_free_block(0, 65_536), Ok(65_536));
    assert_eq!(free(&heap), "0:65504");
    let a = heap.allocate(100, 8).unwrap();
    assert_eq!((a, free(&heap).as_str()), (16, "128:65376"));
    let b = heap.allocate(1_000, 8).unwrap();
    assert_eq!((b, free(&heap).as_str()), (144, "1152:64352"));
    let c = heap.allocate(24, 64).unwrap();
    assert_eq!((c, free(&heap).as_str()), (1_216, "1248:64256"));
    let d = heap.allocate(0, 1).unwrap();
    assert_eq!((d, free(&heap).as_str()), (1_264, "1280:64224"));
    let e = heap.allocate(2_000, 16).unwrap();
    assert_eq!((e, free(&heap).as_str()), (1_296, "3296:62208"));
    heap.deallocate(b, 8).unwrap();
    assert_eq!(free(&heap), "128:1024 3296:62208");
    let f = heap.allocate(900, 8).unwrap();
    assert_eq!((f, free(&heap).as_str()), (144, "1056:96 3296:62208"));
    heap.deallocate(a, 8).unwrap();
    assert_eq!(free(&heap), "0:128 1056:96 3296:62208");
    heap.deallocate(f, 8).unwrap();
    assert_eq!(free(&heap), "0:1152 3296:62208");
    let j = heap.allocate(1_008, 8).unwrap();
    assert_eq!((j, free(&heap).as_str()), (16, "1024:128 3296:62208"));
    assert_eq!(heap.reallocate(e, 3_000, 16), Ok(1_296));
    assert_eq!(free(&heap), "1024:128 4320:61184");
    heap.deallocate(c, 64).unwrap();
    assert_eq!(free(&heap), "1024:224 4320:61184");
    let d = heap.reallocate(d, 40, 1).unwrap();
    assert_eq!((d, free(&heap).as_str()), (1_040, "1088:192 4320:61184"));
    heap.deallocate(j, 8).unwrap();
    assert_eq!(free(&heap), "0:1024 1088:192 4320:61184");
    assert_eq!(heap.reallocate(e, 20_000, 16), Ok(1_296));
    assert_eq!(free(&heap), "0:1024 1088:192 21312:44192");
    assert_eq!(heap.allocate(65_000, 8), Err(Refusal::NoList));
    assert_eq!(free(&heap), "0:1024 1088:192 21312:44192");
    heap.deallocate(d, 1).unwrap();
    assert_eq!(free(&heap), "0:1280 21312:44192");
    heap.deallocate(e, 16).unwrap();
    assert_eq!(free(&heap), "0:65504");
}
