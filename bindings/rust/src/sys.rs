//! The library's calls, as `bindings/c/plumtree.h` declares them, and the three functions by which it gets memory.
use std::ffi::c_void;

/// A node's room.
#[repr(C)]
pub(crate) struct Slot {
    live: u64,
    turn: u64,
    at: *mut u8,
}

impl Slot {
    /// A room without a node.
    pub(crate) const EMPTY: Slot = Slot {
        live: 0,
        turn: 0,
        at: std::ptr::null_mut(),
    };
}

#[repr(C)]
#[derive(Clone, Copy)]
pub(crate) struct Name {
    pub(crate) text: [u8; 33],
    pub(crate) length: u8,
}

impl Name {
    pub(crate) const EMPTY: Name = Name {
        text: [0; 33],
        length: 0,
    };
}

#[repr(C)]
#[derive(Clone, Copy)]
pub(crate) struct Id {
    pub(crate) name: Name,
    pub(crate) incarnation: u64,
    pub(crate) number: u64,
}

impl Id {
    pub(crate) const EMPTY: Id = Id {
        name: Name::EMPTY,
        incarnation: 0,
        number: 0,
    };
}

#[repr(C)]
#[derive(Clone, Copy)]
pub(crate) struct Sizes {
    pub(crate) active: u8,
    pub(crate) passive: u8,
    pub(crate) arwl: u8,
    pub(crate) prwl: u8,
    pub(crate) ka: u8,
    pub(crate) kp: u8,
    pub(crate) threshold: u32,
    pub(crate) keep: u32,
}

#[repr(C)]
#[derive(Clone, Copy, Default)]
pub(crate) struct Counts {
    pub(crate) known: u64,
    pub(crate) held: u64,
    pub(crate) missing: u64,
    pub(crate) wants: u64,
    pub(crate) queued: u64,
    pub(crate) sends: u64,
    pub(crate) deliveries: u64,
}

#[repr(C)]
#[derive(Clone, Copy, Default)]
pub(crate) struct WireCounts {
    pub(crate) held: u64,
    pub(crate) missing: u64,
    pub(crate) wants: u64,
    pub(crate) queued: u64,
    pub(crate) ticks: u64,
}

#[repr(C)]
#[derive(Clone, Copy)]
pub(crate) struct News {
    pub(crate) kind: u8,
    pub(crate) why: u8,
    pub(crate) name: Name,
}

impl News {
    pub(crate) const EMPTY: News = News {
        kind: 0,
        why: 0,
        name: Name::EMPTY,
    };
}

/// Bytes that a node lends.
#[repr(C)]
#[derive(Clone, Copy)]
pub(crate) struct Piece {
    pub(crate) at: *const u8,
    pub(crate) length: usize,
}

// the layout that plumtree.h asserts
const _: () = {
    assert!(std::mem::size_of::<WireCounts>() == 40 && std::mem::size_of::<Piece>() == 16);
    assert!(std::mem::size_of::<News>() == 36 && std::mem::offset_of!(News, name) == 2);
    assert!(std::mem::size_of::<Slot>() == 24);
    assert!(std::mem::size_of::<Name>() == 34);
    assert!(std::mem::size_of::<Id>() == 56 && std::mem::offset_of!(Id, number) == 48);
    assert!(std::mem::size_of::<Sizes>() == 16 && std::mem::offset_of!(Sizes, keep) == 12);
    assert!(std::mem::size_of::<Counts>() == 56);
};

pub(crate) type Dice = [u64; 16];
pub(crate) type ReadNames = unsafe extern "C" fn(*mut Slot, *mut Name, usize, *mut usize) -> i32;

extern "C" {
    pub(crate) fn plumtree_version() -> u32;
    pub(crate) fn plumtree_limits_default(limits: *mut Sizes);
    pub(crate) fn plumtree_name_of(bytes: *const u8, length: usize, name: *mut Name) -> i32;
    pub(crate) fn plumtree_start(
        slot: *mut Slot,
        name: *const u8,
        name_length: usize,
        incarnation: u64,
        limits: *const Sizes,
        peers: *const Name,
        peers_length: usize,
        contact: *const u8,
        contact_length: usize,
    ) -> i32;
    pub(crate) fn plumtree_free(slot: *mut Slot) -> i32;
    pub(crate) fn plumtree_broadcast(
        slot: *mut Slot,
        payload: *const u8,
        length: usize,
        number: *mut u64,
    ) -> i32;
    pub(crate) fn plumtree_receive(
        slot: *mut Slot,
        bytes: *const u8,
        length: usize,
        dice: *const Dice,
        taken: *mut usize,
    ) -> i32;
    pub(crate) fn plumtree_tick(slot: *mut Slot, dice: *const Dice) -> i32;
    pub(crate) fn plumtree_flush(slot: *mut Slot) -> i32;
    pub(crate) fn plumtree_fire(slot: *mut Slot, id: *const Id) -> i32;
    pub(crate) fn plumtree_shuffle(slot: *mut Slot, dice: *const Dice) -> i32;
    pub(crate) fn plumtree_link_down(
        slot: *mut Slot,
        peer: *const u8,
        length: usize,
        dice: *const Dice,
    ) -> i32;
    pub(crate) fn plumtree_join(slot: *mut Slot, contact: *const u8, length: usize) -> i32;
    pub(crate) fn plumtree_next_send(
        slot: *mut Slot,
        to: *mut Name,
        room: *mut u8,
        size: usize,
        length: *mut usize,
    ) -> i32;
    pub(crate) fn plumtree_next_delivery(
        slot: *mut Slot,
        id: *mut Id,
        room: *mut u8,
        size: usize,
        length: *mut usize,
    ) -> i32;
    pub(crate) fn plumtree_active(s: *mut Slot, r: *mut Name, n: usize, l: *mut usize) -> i32;
    pub(crate) fn plumtree_passive(s: *mut Slot, r: *mut Name, n: usize, l: *mut usize) -> i32;
    pub(crate) fn plumtree_eager(s: *mut Slot, r: *mut Name, n: usize, l: *mut usize) -> i32;
    pub(crate) fn plumtree_lazy(s: *mut Slot, r: *mut Name, n: usize, l: *mut usize) -> i32;
    pub(crate) fn plumtree_counts_of(slot: *mut Slot, counts: *mut Counts) -> i32;
    pub(crate) fn plumtree_knows(slot: *mut Slot, id: *const Id) -> i32;
    pub(crate) fn plumtree_timer(slot: *mut Slot, place: usize, id: *mut Id) -> i32;
    pub(crate) fn plumtree_wire_start(
        slot: *mut Slot,
        name: *const u8,
        name_length: usize,
        incarnation: u64,
        limits: *const Sizes,
        waiting: usize,
        peers: *const Name,
        peers_length: usize,
        contact: *const u8,
        contact_length: usize,
    ) -> i32;
    pub(crate) fn plumtree_wire_broadcast(
        slot: *mut Slot,
        payload: *const u8,
        length: usize,
        number: *mut u64,
    ) -> i32;
    pub(crate) fn plumtree_wire_tick(slot: *mut Slot, dice: *const Dice) -> i32;
    pub(crate) fn plumtree_wire_accept(slot: *mut Slot, number: *mut u64) -> i32;
    pub(crate) fn plumtree_wire_receive(
        slot: *mut Slot,
        number: u64,
        bytes: *const u8,
        length: usize,
        dice: *const Dice,
    ) -> i32;
    pub(crate) fn plumtree_wire_ended(slot: *mut Slot, number: u64, dice: *const Dice) -> i32;
    pub(crate) fn plumtree_wire_unreachable(
        slot: *mut Slot,
        name: *const u8,
        length: usize,
        dice: *const Dice,
    ) -> i32;
    pub(crate) fn plumtree_wire_join(
        slot: *mut Slot,
        contact: *const u8,
        length: usize,
        dice: *const Dice,
    ) -> i32;
    pub(crate) fn plumtree_wire_receivers(
        slot: *mut Slot,
        room: *mut Name,
        size: usize,
        length: *mut usize,
    ) -> i32;
    pub(crate) fn plumtree_wire_waiting(
        slot: *mut Slot,
        name: *const u8,
        length: usize,
        count: *mut usize,
    ) -> i32;
    pub(crate) fn plumtree_wire_transmit(
        slot: *mut Slot,
        name: *const u8,
        length: usize,
        pieces: *mut [Piece; 4],
    ) -> i32;
    pub(crate) fn plumtree_wire_transmitted(
        slot: *mut Slot,
        name: *const u8,
        length: usize,
        count: usize,
    ) -> i32;
    pub(crate) fn plumtree_wire_next_delivery(
        slot: *mut Slot,
        id: *mut Id,
        room: *mut u8,
        size: usize,
        length: *mut usize,
    ) -> i32;
    pub(crate) fn plumtree_wire_next_lost(slot: *mut Slot, name: *mut Name) -> i32;
    pub(crate) fn plumtree_wire_tell_news(slot: *mut Slot, tells: bool) -> i32;
    pub(crate) fn plumtree_wire_next_news(slot: *mut Slot, news: *mut News) -> i32;
    pub(crate) fn plumtree_wire_counts_of(slot: *mut Slot, counts: *mut WireCounts) -> i32;
    pub(crate) fn plumtree_words(
        answer: i32,
        room: *mut u8,
        size: usize,
        length: *mut usize,
    ) -> i32;
}

/// What a request for memory answers.
#[repr(C)]
struct Tried {
    ok: bool,
    block: *mut c_void,
}

extern "C" {
    fn malloc(size: usize) -> *mut c_void;
    fn realloc(block: *mut c_void, size: usize) -> *mut c_void;
    fn free(block: *mut c_void);
}

fn tried(block: *mut c_void) -> Tried {
    match std::ptr::NonNull::new(block) {
        Some(block) => Tried {
            ok: true,
            block: block.as_ptr(),
        },
        None => Tried {
            ok: false,
            block: std::ptr::NonNull::<u128>::dangling().as_ptr().cast(),
        },
    }
}

/// Memory for the library, by malloc, which aligns each block for every type of its size.
#[no_mangle]
extern "C" fn rattle_alloc(size: usize, align: usize) -> Tried {
    // SAFETY: malloc takes every size.
    tried(unsafe { malloc(if size == 0 { align } else { size }) })
}

/// A block made larger or smaller.
///
/// # Safety
///
/// The library passes a block that one of these functions gave, and that was not freed since.
#[no_mangle]
unsafe extern "C" fn rattle_realloc(
    block: *mut c_void,
    _kept: usize,
    size: usize,
    align: usize,
) -> Tried {
    // SAFETY: the block is malloc's, by the contract above.
    tried(unsafe { realloc(block, if size == 0 { align } else { size }) })
}

/// A block given back.
///
/// # Safety
///
/// As for `rattle_realloc`.
#[no_mangle]
unsafe extern "C" fn rattle_dealloc(block: *mut c_void) {
    // SAFETY: the block is malloc's, by the contract above.
    unsafe { free(block) }
}
