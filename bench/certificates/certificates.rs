//! How long webpki takes to read certificates: for bench/certificates/certificates.py.
//!
//! ```text
//! certificates FILE TIMES
//! ```
//!
//! FILE has certificates one after another. A line is printed: a name, for each certificate 1 where
//! it is read and 0 where it isn't, the nanoseconds that all took together, and how many were read.

use std::hint::black_box;
use std::{env, error::Error, fs};

fn is_read(octets: &[u8]) -> bool {
    black_box(webpki::EndEntityCert::try_from(black_box(octets))).is_ok()
}

/// The length of the element that octets begin with; they are well formed.
fn whole(octets: &[u8]) -> usize {
    let count = usize::from(octets[1] & 0x7F);
    if octets[1] < 0x80 {
        return 2 + count;
    }
    let length = octets[2..2 + count].iter().fold(0, |sum, octet| sum << 8 | usize::from(*octet));
    2 + count + length
}

fn now() -> u128 {
    let mut at = libc::timespec { tv_sec: 0, tv_nsec: 0 };
    unsafe { libc::clock_gettime(libc::CLOCK_THREAD_CPUTIME_ID, &mut at) };
    at.tv_sec as u128 * 1_000_000_000 + at.tv_nsec as u128
}

fn main() -> Result<(), Box<dyn Error>> {
    let words: Vec<String> = env::args().collect();
    let file = fs::read(&words[1])?;
    let times: u64 = words[2].parse()?;
    let (mut all, mut rest) = (Vec::new(), &file[..]);
    while !rest.is_empty() {
        let (one, behind) = rest.split_at(whole(rest));
        all.push(one);
        rest = behind;
    }
    let which: String = all.iter().map(|one| if is_read(one) { '1' } else { '0' }).collect();
    let (mut sum, start) = (0, now());
    for _ in 0..times {
        sum += all.iter().filter(|one| is_read(one)).count();
    }
    println!("webpki {which} {} {sum}", now() - start);
    Ok(())
}
