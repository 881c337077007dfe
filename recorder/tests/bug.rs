//! Bugs of unsafe code, by name, and code that has none.
use std::alloc::{alloc, dealloc, Layout};
use std::hint::black_box;

#[inline(never)]
fn past_a_vector(at: usize) -> u8 {
    let bytes: Vec<u8> = vec![1; 5];
    unsafe { *bytes.as_ptr().add(at) }
}

#[inline(never)]
fn after_its_end() -> u32 {
    unsafe {
        let layout = Layout::array::<u32>(10).unwrap();
        let block = alloc(layout) as *mut u32;
        *block = 7;
        dealloc(block as *mut u8, layout);
        *block
    }
}

#[inline(never)]
fn past_an_array(at: usize) -> i32 {
    let array = [1i32, 2, 3, 4, 5];
    let start = black_box(array.as_ptr());
    unsafe { *start.add(at) }
}

static TABLE: [i32; 7] = [1, 2, 3, 4, 5, 6, 7];

#[inline(never)]
fn past_a_table(at: usize) -> i32 {
    let start = black_box(TABLE.as_ptr());
    unsafe { *start.add(at) }
}

#[inline(never)]
fn past_a_scope() -> i32 {
    let kept: *const i32;
    {
        let inner = [42i32; 8];
        kept = black_box(inner.as_ptr());
    }
    unsafe { *black_box(kept) }
}

#[inline(never)]
fn copied_past(count: usize) -> u8 {
    let from = vec![1u8; 16];
    let mut to = vec![0u8; 10].into_boxed_slice();
    unsafe { std::ptr::copy_nonoverlapping(black_box(from.as_ptr()), to.as_mut_ptr(), count) };
    to[0]
}

mod inner {
    pub struct Row<T>(pub Vec<T>);
    impl<T: Copy> Row<T> {
        #[inline(never)]
        pub fn read(&self, at: usize) -> T {
            unsafe { *self.0.as_ptr().add(at) }
        }
    }
}

fn caught() -> i32 {
    let caught = std::panic::catch_unwind(|| {
        let array = black_box([1u8; 40]);
        if array[3] == 1 {
            panic!("as it should");
        }
        array[0]
    });
    caught.is_err() as i32 + past_an_array(2)
}

fn good() -> i32 {
    let threads: Vec<_> = (0..4).map(|it| std::thread::spawn(move || past_a_table(it))).collect();
    threads.into_iter().map(|it| it.join().unwrap()).sum::<i32>() + copied_past(10) as i32
}

fn main() {
    let wanted = std::env::args().nth(1).unwrap_or_default();
    match wanted.as_str() {
        "vector" => println!("{}", past_a_vector(5) == 0),
        "freed" => println!("{}", after_its_end() == 0),
        "array" => println!("{}", past_an_array(5) == 0),
        "table" => println!("{}", past_a_table(7) == 0),
        "scope" => println!("{}", past_a_scope() == 0),
        "copy" => println!("{}", copied_past(12) == 0),
        "generic" => println!("{}", inner::Row(vec![1u16, 2]).read(2) == 0),
        "thread" => {
            let thread = std::thread::spawn(|| past_a_vector(5));
            println!("{}", thread.join().unwrap() == 0)
        }
        "panic" => println!("{}", caught()),
        _ => println!("{}", good()),
    }
}
