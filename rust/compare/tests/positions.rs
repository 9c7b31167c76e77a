//! Where buffers stand when a call of the library's is made.

use compare::buffers::compared;
use compare::pages::Pages;
use std::cell::RefCell;
use std::ops::Range;

/// What may be done at an address, as the system tells it.
fn rights(address: usize) -> String {
    let maps = std::fs::read_to_string("/proc/self/maps").unwrap();
    let number = |digits: &str| usize::from_str_radix(digits, 16).unwrap();
    let holds = |line: &&str| {
        let (start, end) = line.split_once(' ').unwrap().0.split_once('-').unwrap();
        (number(start)..number(end)).contains(&address)
    };
    let line = maps.lines().find(holds).expect("nothing is mapped there");
    line.split_whitespace().nth(1).unwrap().to_string()
}

/// The addresses of a slice.
fn addresses(slice: &[u8]) -> Range<usize> {
    let start = slice.as_ptr() as usize;
    start..start + slice.len()
}

#[test]
fn nobody_may_touch_the_pages_beside() {
    for least in [1, 4_096, 4_097, 1_000_000] {
        let pages = Pages::holding(least);
        let Range { start, end } = addresses(pages.bytes());
        assert!(end - start >= least);
        let beside = [start - 4_096, start - 1, end, end + 4_095];
        assert_eq!(beside.map(rights), ["---p"; 4]);
        assert_eq!([start, end - 1].map(rights), ["rw-p"; 2]);
    }
}

/// Every buffer of a call ends before such a page, begins after one, and has an odd address.
#[test]
fn every_call_is_made_in_each_position() {
    for length in [0, 1, 2, 200, 4_096, 10_001] {
        let (bytes, seen) = (vec![1; length], RefCell::new(Vec::new()));
        let library = |image: &mut [u8], lent: &mut [u8], [string]: [&[u8]; 1]| {
            let three = [&*image, &*lent, string];
            seen.borrow_mut().push(three.map(addresses));
        };
        compared(&bytes, &bytes, [&bytes], library, |_, _| ());
        let [before, after, odd] = seen.into_inner().try_into().unwrap();
        assert!(before.iter().all(|buffer| buffer.end % 4_096 == 0));
        assert!(after.iter().all(|buffer| buffer.start % 4_096 == 0));
        assert!(odd.iter().all(|buffer| buffer.start % 2 == 1));
    }
}

/// A byte written next to a buffer, or in a string that is lent to be read, is noticed.
#[test]
fn what_is_written_beside_a_buffer_is_noticed() {
    let noticed = |at: isize| {
        let write = |_: &mut [u8], lent: &mut [u8], []: [&[u8]; 0]| {
            let start = lent.as_mut_ptr();
            if start as usize % 2 == 1 {
                // SAFETY: the buffer at an odd address has 65 bytes of its pages on each side.
                unsafe { *start.offset(at) ^= 1 };
            }
        };
        let call = || compared(&[], &[7; 10], [], write, |_, _| ());
        std::panic::catch_unwind(call).is_err()
    };
    assert!([-65, -1, 0, 9, 10, 74].into_iter().all(noticed));
}
