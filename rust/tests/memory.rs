//! How much memory a request takes, and that a view takes none.

use linkwire::view::{IfName, LinkInfo, LinkView, Mtu, OperState};
use linkwire::{HEADER_SIZE, LinkAttribute, request};
use std::alloc::{GlobalAlloc, Layout, System};
use std::cell::Cell;
use std::fmt::{self, Write};
use std::mem::size_of;

/// The system's allocator, and how many bytes a thread asked of it.
struct Counting;

thread_local! {
    static ASKED: Cell<usize> = const { Cell::new(0) };
}

unsafe impl GlobalAlloc for Counting {
    unsafe fn alloc(&self, layout: Layout) -> *mut u8 {
        let _ = ASKED.try_with(|it| it.set(it.get() + layout.size()));
        System.alloc(layout)
    }

    unsafe fn dealloc(&self, at: *mut u8, layout: Layout) {
        System.dealloc(at, layout)
    }
}

#[global_allocator]
static ALLOCATOR: Counting = Counting;

fn asked<T>(makes: impl FnOnce() -> T) -> usize {
    let before = ASKED.with(Cell::get);
    let made = makes();
    let after = ASKED.with(Cell::get);
    drop(made);
    after - before
}

#[test]
fn of_a_request() {
    let by_index = asked(|| request::mtu(7, 1400).unwrap().packet(1).unwrap());
    assert_eq!(by_index, 16 + HEADER_SIZE + 8);
    let by_name = asked(|| request::mtu("eth0", 1400).unwrap().packet(1).unwrap());
    assert_eq!(by_name, 16 + HEADER_SIZE + 12 + 8);
    assert_eq!(asked(|| request::up(7).unwrap().packet(1).unwrap()), 16 + HEADER_SIZE);
    assert!(asked(|| request::mtu("eth0", 1400).unwrap().into_message()) >= 2 * size_of::<LinkAttribute>());
}

/// What takes the letters of a view, and no memory.
struct Counted(usize);

impl Write for Counted {
    fn write_str(&mut self, text: &str) -> fmt::Result {
        self.0 += text.len();
        Ok(())
    }
}

/// Everything in a message is read, lists in lists too.
#[test]
#[cfg_attr(target_endian = "big", ignore = "they were recorded on little-endian machines")]
fn of_a_view() {
    let path = format!("{}/../tests/kernels/messages.txt", env!("CARGO_MANIFEST_DIR"));
    let lines = std::fs::read_to_string(path).unwrap();
    let mut letters = Counted(0);
    for line in lines.lines().filter(|it| !it.starts_with('#')) {
        let digit = |at| u8::from_str_radix(&line[at..at + 2], 16).unwrap();
        let bytes: Vec<u8> = (0..line.len()).step_by(2).map(digit).collect();
        let memory = asked(|| {
            let view = LinkView::peek(&bytes).unwrap();
            assert_eq!(LinkView::new(&bytes).is_ok(), linkwire::check(&bytes).is_ok());
            let _ = view.get((IfName, Mtu, OperState));
            view.iter().for_each(|it| write!(letters, "{it:?}").unwrap());
            if let Ok(Some(info)) = view.get(LinkInfo) {
                write!(letters, "{:?} {:?}", info.data(), info.port_data()).unwrap();
            }
        });
        assert_eq!(memory, 0, "{line}");
    }
    assert!(letters.0 > 10_000, "{} letters", letters.0);
}
