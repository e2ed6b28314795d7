//! How long webpki takes to judge a chain, where every signature is accepted at once: for
//! bench/issuing/issuing.py.
//!
//! ```text
//! issuing FILE TIMES MOMENT
//! ```
//!
//! FILE has a certificate, that of its issuer and a root, one after another; MOMENT is in seconds. For
//! each job a line is printed: its name, 1 where it is done and 0 where it isn't, the nanoseconds that
//! all took together, and a sum. An issuer between is read whenever a chain is judged.

use std::hint::black_box;
use std::{env, error::Error, fs};
use webpki::{EndEntityCert, Time, TlsServerTrustAnchors, TrustAnchor};

/// The length of the element that octets begin with; they are well formed.
fn whole(octets: &[u8]) -> usize {
    let count = usize::from(octets[1] & 0x7F);
    if octets[1] < 0x80 {
        return 2 + count;
    }
    let length = octets[2..2 + count].iter().fold(0, |sum, octet| sum << 8 | usize::from(*octet));
    2 + count + length
}

fn now() -> u128 {
    let mut at = libc::timespec { tv_sec: 0, tv_nsec: 0 };
    unsafe { libc::clock_gettime(libc::CLOCK_THREAD_CPUTIME_ID, &mut at) };
    at.tv_sec as u128 * 1_000_000_000 + at.tv_nsec as u128
}

fn judged(end: &EndEntityCert, between: &[u8], anchors: &[TrustAnchor], moment: Time) -> usize {
    let anchors = TlsServerTrustAnchors(anchors);
    let algorithms = &[&webpki::RSA_PKCS1_2048_8192_SHA256];
    match black_box(end).verify_is_valid_tls_server_cert(algorithms, &anchors, &[between], moment) {
        Ok(()) => 3,
        Err(_) => 0,
    }
}

fn read(octets: &[&[u8]], moment: Time) -> Option<usize> {
    let end = EndEntityCert::try_from(black_box(octets[0])).ok()?;
    let anchor = TrustAnchor::try_from_cert_der(black_box(octets[2])).ok()?;
    Some(judged(&end, octets[1], &[anchor], moment))
}

fn print_job(name: &str, times: u64, job: impl Fn() -> usize) {
    let is_done = usize::from(job() > 0);
    let (mut sum, start) = (0, now());
    for _ in 0..times {
        sum += job();
    }
    println!("{name} {is_done} {} {sum}", now() - start);
}

fn main() -> Result<(), Box<dyn Error>> {
    let words: Vec<String> = env::args().collect();
    let file = fs::read(&words[1])?;
    let times: u64 = words[2].parse()?;
    let moment = Time::from_seconds_since_unix_epoch(words[3].parse()?);
    let (mut all, mut rest) = (Vec::new(), &file[..]);
    while !rest.is_empty() {
        let (one, behind) = rest.split_at(whole(rest));
        all.push(one);
        rest = behind;
    }
    let end = EndEntityCert::try_from(all[0]).map_err(|error| error.to_string())?;
    let anchors = [TrustAnchor::try_from_cert_der(all[2]).map_err(|error| error.to_string())?];
    print_job("judged", times, || judged(&end, all[1], &anchors, moment));
    print_job("read", times, || read(&all, moment).unwrap_or(0));
    Ok(())
}
