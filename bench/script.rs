//! The script program by hand over the twin: the grammar and the output of docs/SCOPE.md.
#[allow(dead_code)]
mod twin;
use std::io::{Read, Write};
fn number(f: &[u8]) -> Option<u32> {
    if f.is_empty() || f.len() > 10 || (f[0] == b'0' && f.len() > 1) {
        return None;
    }
    let mut n: u64 = 0;
    for &b in f {
        if !b.is_ascii_digit() {
            return None;
        }
        n = n * 10 + (b - b'0') as u64;
    }
    u32::try_from(n).ok()
}
fn put(out: &mut Vec<u8>, mut n: u64) {
    let mut b = [0u8; 20];
    let mut i = 20;
    loop {
        i -= 1;
        b[i] = b'0' + (n % 10) as u8;
        n /= 10;
        if n == 0 {
            break;
        }
    }
    out.extend_from_slice(&b[i..]);
}
fn line(d: &mut twin::Deck, l: &[u8], n: u64, list: &mut [u32], out: &mut Vec<u8>) {
    let mut f = [0u32; 5];
    let mut k = 0;
    let mut ok = l.len() <= 60 && l.len() >= 3 && l[1] == b',';
    if ok {
        for p in l[2..].split(|&b| b == b',') {
            if k == 5 {
                ok = false;
                break;
            }
            match number(p) {
                Some(v) => {
                    f[k] = v;
                    k += 1;
                }
                None => {
                    ok = false;
                    break;
                }
            }
        }
    }
    put(out, n);
    out.push(b',');
    let (mut steps, mut filled) = (0u32, 0usize);
    let a = unsafe {
        match (ok, l.first(), k) {
            (true, Some(b'R'), 4) => d.update_start(f[0], f[1], f[2], f[3], 0),
            (true, Some(b'R'), 5) => d.update_start(f[0], f[1], f[2], f[3], f[4]),
            (true, Some(b'U'), 1) => d.update_step(f[0]),
            (true, Some(b'Q'), 5) => d.query_start(f[0], f[1], f[2], f[3], f[4]),
            (true, Some(b'S'), 1) => d.query_step(f[0]),
            (true, Some(b'C'), 1) => d.collect(f[0], list, &mut steps, &mut filled),
            _ => 13,
        }
    };
    put(out, a as u64);
    if ok && l[0] == b'C' && k == 1 && a == 0 {
        out.push(b',');
        put(out, steps as u64);
        out.push(b',');
        put(out, filled as u64 / 4);
        out.push(b'\n');
        for e in list[..filled].chunks_exact(4) {
            put(out, e[0] as u64);
            out.push(b',');
            put(out, e[1] as u64);
            out.push(b',');
            put(out, e[2] as u64);
            out.push(b',');
            put(out, e[3] as u64);
            out.push(b'\n');
        }
    } else {
        out.push(b'\n');
    }
}
fn main() {
    let mut d = Box::new(twin::Deck::new());
    d.reset();
    let mut list = [0u32; 1024];
    let mut block = [0u8; 4096];
    let mut rest: Vec<u8> = Vec::new();
    let mut out: Vec<u8> = Vec::with_capacity(32768);
    let (mut i, mut o) = (std::io::stdin().lock(), std::io::stdout().lock());
    let mut n = 0u64;
    loop {
        let k = i.read(&mut block).unwrap();
        if k == 0 {
            break;
        }
        let mut b = &block[..k];
        while let Some(p) = b.iter().position(|&c| c == b'\n') {
            n += 1;
            if rest.is_empty() {
                line(&mut d, &b[..p], n, &mut list, &mut out);
            } else {
                rest.extend_from_slice(&b[..p]);
                let l = std::mem::take(&mut rest);
                line(&mut d, &l, n, &mut list, &mut out);
            }
            b = &b[p + 1..];
            if out.len() > 16000 {
                o.write_all(&out).unwrap();
                out.clear();
            }
        }
        rest.extend_from_slice(b);
    }
    if !rest.is_empty() {
        n += 1;
        line(&mut d, &rest, n, &mut list, &mut out);
    }
    o.write_all(&out).unwrap();
}
