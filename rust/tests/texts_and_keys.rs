//! Texts and keys of the compiled library against an independent implementation of the specification.
mod common;
use common::{calls, reference_keys, some_key, Random};
use pannuqreik::raw;

/// A capture text, mostly near one of the forms.
fn made_text(r: &mut Random) -> Vec<u8> {
    let year = if r.one_in(6) { r.below(10000) } else { 1980 + r.below(1030) };
    let date = format!("{:04}:{:02}:{:02}", year, r.below(14), r.below(33));
    let hour = match r.below(4) {
        0 => format!("{}", r.below(10)),
        1 => format!(" {}", r.below(10)),
        _ => format!("{:02}", r.below(26)),
    };
    let mut t = format!("{date} {hour}:{:02}:{:02}\0", r.below(61), r.below(61)).into_bytes();
    if r.one_in(12) {
        t = match r.below(2) {
            0 => b"                   \0".to_vec(),
            _ => b"    :  :     :  :  \0".to_vec(),
        };
    }
    if r.one_in(6) {
        t.push(0);
    }
    if r.one_in(4) {
        let i = r.below(t.len() as u64) as usize;
        t[i] = *r.pick(b" :0159\0\tax/");
    }
    if r.one_in(10) {
        t.truncate(r.below(22) as usize);
    }
    t
}

#[test]
fn texts() {
    let most = calls(150_000);
    let mut r = Random(3);
    let mut seen = [0u64; 14];
    for _ in 0..most / 3 {
        let text = made_text(&mut r);
        let place = r.below(9) as usize;
        let mut block = vec![b'#'; place];
        block.extend(&text);
        block.extend(vec![b'#'; r.below(4) as usize]);
        let (place, length) = match r.below(12) {
            0 => (place, text.len() + r.below(3) as usize),
            1 => (r.next() as usize, text.len()),
            2 => (place, usize::MAX - r.below(9) as usize),
            _ => (place, text.len()),
        };
        let (mut f, mut g) = ([7; 6], [7; 6]);
        let said = raw::read_text(&block, place, length, &mut f);
        assert_eq!((said, f), (reference_keys::read_text(&block, place, length, &mut g), g), "{block:?} {place} {length}");
        seen[said as usize] += 1;
        let sub = &b"7\x0042\0\x00123\0x5"[..];
        let (p, l) = (r.below(14) as usize, r.below(5) as usize);
        let (mut h, mut k) = (7, 7);
        let said = raw::read_sub_second(sub, p, l, &mut h);
        assert_eq!((said, h), (reference_keys::read_sub_second(sub, p, l, &mut k), k), "{p} {l}");
        let key = if r.one_in(4) { r.next() } else { some_key(&mut r, 86400) ^ (r.below(2) << r.below(64)) };
        let (mut b, mut c) = (block.clone(), block.clone());
        let said = raw::write_text(&mut b, place, key);
        assert_eq!(said, reference_keys::write_text(&mut c, place, key), "{key:x} {place}");
        assert_eq!(b, c);
    }
    assert!([0, 10, 11, 12].iter().all(|n| seen[*n] > 0), "{seen:?}");
    println!("texts: {most} calls");
}

#[test]
fn keys() {
    let most = calls(150_000);
    let mut r = Random(4);
    let limits = [3000, 14, 33, 25, 61, 61, 101, 33, 10001];
    for _ in 0..most / 3 {
        let mut f: [u64; 9] = std::array::from_fn(|i| r.below(limits[i]));
        if !r.one_in(8) {
            f[0] = 1985 + r.below(1020);
        }
        if r.one_in(20) {
            f[r.below(9) as usize] = r.next();
        }
        let (mut k, mut l) = (7, 7);
        let said = raw::pack(&f, &mut k);
        assert_eq!((said, k), (reference_keys::pack(&f, &mut l), l), "{f:?}");
        let key = if r.one_in(2) { r.next() } else { k ^ (r.below(2) << r.below(64)) };
        let mut g = [0; 9];
        raw::unpack(key, &mut g);
        assert_eq!(g, reference_keys::unpack(key), "{key:x}");
        assert_eq!(raw::legal(key), reference_keys::legal(key), "{key:x}");
    }
    println!("keys: {most} calls");
}
