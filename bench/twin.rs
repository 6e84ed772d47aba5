//! A twin of the index by hand, to measure against: the same tables, stages and steps as docs/SCOPE.md has them, with
//! the lanes in place and nothing tested. It checks no length and no range of a stored number (from a fresh deck it
//! may do without) and indexes without a test. Names are those of docs/GLOSSARY.md; bench/bench.cpp calls it.

const NONE: u32 = 512; // no bucket
const NOWHERE: u32 = 524288; // no place

#[derive(Clone, Copy)]
pub struct Place {
    cell: u32,
    bucket: u32,
    slot: u32,
}
impl Place {
    fn number(self) -> u32 {
        2048 * self.cell + 4 * self.bucket + self.slot
    }
    fn of(n: u32) -> Place {
        Place { cell: n / 2048, bucket: n / 4 % 512, slot: n % 4 }
    }
}

#[derive(Clone, Copy)]
pub enum Stage {
    Idle,
    TakeObject,
    LockCell(Place),
    LookLast(Place),
    CopyLast(Place, u32),
    LowerCount(Place, u32),
    ReturnBucket(Place, u32, u32),
    ErasePlace(Place, u32),
    ChooseCell,
    MakeRoom,
    WriteTuple,
    RaiseCount(Place),
    SwitchPlace(Place),
    DeleteOld(Place),
    ReleaseObject,
}
#[derive(Clone, Copy)]
pub struct Updater {
    oid: u32,
    x: u32,
    y: u32,
    tag: u32,
    stage: Stage,
}

#[derive(Clone, Copy)]
pub enum Scan {
    Idle,
    Enter(u32),
    Read(u32, u32, u32),
    Finished,
}
#[derive(Clone, Copy)]
pub struct Query {
    x0: u32,
    y0: u32,
    x1: u32,
    y1: u32,
    stamp: u32,
    hits: u32,
    steps: u32,
    stage: Scan,
}

pub struct Deck {
    first: [u32; 256],
    cells: [u32; 256],
    count: [u32; 512],
    next: [u32; 512],
    readers: [u32; 512],
    owners: [u32; 2048],
    xs: [u32; 2048],
    ys: [u32; 2048],
    tags: [u32; 2048],
    times: [i32; 2048],
    oids: [u32; 512],
    locks: [u32; 512],
    current: [u32; 512],
    previous: [u32; 512],
    pool: [u32; 513],
    hits: [u32; 1024],
    hitxs: [u32; 1024],
    hitys: [u32; 1024],
    hittags: [u32; 1024],
    clock: u32,
    updaters: [Updater; 8],
    queries: [Query; 4],
}

// unchecked indexing
macro_rules! g {
    ($t:expr, $i:expr) => {
        *$t.get_unchecked($i as usize)
    };
}
macro_rules! m {
    ($t:expr, $i:expr) => {
        *$t.get_unchecked_mut($i as usize)
    };
}

impl Deck {
    pub const fn new() -> Deck {
        let u = Updater { oid: 0, x: 0, y: 0, tag: 0, stage: Stage::Idle };
        let q = Query { x0: 0, y0: 0, x1: 0, y1: 0, stamp: 0, hits: 0, steps: 0, stage: Scan::Idle };
        Deck {
            first: [NONE; 256],
            cells: [0; 256],
            count: [0; 512],
            next: [NONE; 512],
            readers: [0; 512],
            owners: [0; 2048],
            xs: [0; 2048],
            ys: [0; 2048],
            tags: [0; 2048],
            times: [0; 2048],
            oids: [0; 512],
            locks: [0; 512],
            current: [NOWHERE; 512],
            previous: [NOWHERE; 512],
            pool: [0; 513],
            hits: [0; 1024],
            hitxs: [0; 1024],
            hitys: [0; 1024],
            hittags: [0; 1024],
            clock: 0,
            updaters: [u; 8],
            queries: [q; 4],
        }
    }
    pub fn reset(&mut self) {
        *self = Deck::new();
        for i in 0..513 {
            self.pool[i] = i as u32;
        }
    }

    /// Where an object is, or the empty entry.
    #[inline(always)]
    unsafe fn find(&self, oid: u32) -> (bool, usize) {
        let mut i = (oid.wrapping_mul(2654435769) >> 23) as usize;
        loop {
            let o = g!(self.oids, i);
            if o == oid {
                return (true, i);
            }
            if o == 0 {
                return (false, i);
            }
            i = (i + 1) & 511;
        }
    }
    #[inline(always)]
    unsafe fn entry(&self, oid: u32) -> usize {
        self.find(oid).1
    }
    #[inline(always)]
    unsafe fn draw(&mut self) -> u32 {
        self.clock += 1;
        self.clock
    }
    #[inline(always)]
    unsafe fn put(&mut self, i: u32, oid: u32, x: u32, y: u32, tag: u32, time: i32) {
        m!(self.owners, i) = oid;
        m!(self.xs, i) = x;
        m!(self.ys, i) = y;
        m!(self.tags, i) = tag;
        m!(self.times, i) = time;
    }

    pub unsafe fn update_start(&mut self, lane: u32, oid: u32, x: u32, y: u32, tag: u32) -> u32 {
        if lane >= 8 {
            return 1;
        }
        if !matches!(g!(self.updaters, lane).stage, Stage::Idle) {
            return 2;
        }
        if oid == 0 {
            return 4;
        }
        if x > 16383 || y > 16383 {
            return 5;
        }
        if tag > 9 {
            return 31;
        }
        let (known, i) = self.find(oid);
        if !known && self.oids.iter().filter(|&&o| o != 0).count() >= 256 {
            return 7;
        }
        if self.clock >= 2147483600 {
            return 8;
        }
        if !known {
            m!(self.oids, i) = oid;
            m!(self.locks, i) = 0;
            m!(self.current, i) = NOWHERE;
            m!(self.previous, i) = NOWHERE;
        }
        m!(self.updaters, lane) = Updater { oid, x, y, tag, stage: Stage::TakeObject };
        0
    }

    pub unsafe fn update_step(&mut self, lane: u32) -> u32 {
        if lane >= 8 {
            return 1;
        }
        let Updater { oid, x, y, tag, stage } = g!(self.updaters, lane);
        let owner = lane + 1;
        let next = match stage {
            Stage::Idle => return 3,
            Stage::TakeObject => {
                let i = self.entry(oid);
                if g!(self.locks, i) != 0 {
                    return 20;
                }
                m!(self.locks, i) = owner;
                let p = g!(self.previous, i);
                if p == NOWHERE {
                    Stage::ChooseCell
                } else {
                    Stage::LockCell(Place::of(p))
                }
            }
            Stage::LockCell(p) => {
                if g!(self.cells, p.cell) != 0 {
                    return 20;
                }
                m!(self.cells, p.cell) = owner;
                Stage::LookLast(p)
            }
            Stage::LookLast(p) => {
                let b = g!(self.first, p.cell);
                let moved = g!(self.owners, 4 * b + g!(self.count, b) - 1);
                if moved != oid {
                    let j = self.entry(moved);
                    if g!(self.locks, j) != 0 {
                        let i = self.entry(oid);
                        m!(self.locks, i) = 0;
                        m!(self.cells, p.cell) = 0;
                        m!(self.updaters, lane).stage = Stage::TakeObject;
                        return 21;
                    }
                    m!(self.locks, j) = owner;
                }
                Stage::CopyLast(p, moved)
            }
            Stage::CopyLast(p, moved) => {
                let b = g!(self.first, p.cell);
                let from = 4 * b + g!(self.count, b) - 1;
                self.put(
                    4 * p.bucket + p.slot,
                    g!(self.owners, from),
                    g!(self.xs, from),
                    g!(self.ys, from),
                    g!(self.tags, from),
                    g!(self.times, from),
                );
                Stage::LowerCount(p, moved)
            }
            Stage::LowerCount(p, moved) => {
                let b = g!(self.first, p.cell);
                let n = g!(self.count, b) - 1;
                m!(self.count, b) = n;
                if n != 0 {
                    Stage::ErasePlace(p, moved)
                } else {
                    m!(self.first, p.cell) = g!(self.next, b);
                    Stage::ReturnBucket(p, moved, b)
                }
            }
            Stage::ReturnBucket(p, moved, b) => {
                if g!(self.readers, b) != 0 {
                    return 20;
                }
                let h = self.pool[512];
                m!(self.pool, h) = b;
                self.pool[512] = h + 1;
                Stage::ErasePlace(p, moved)
            }
            Stage::ErasePlace(p, moved) => {
                let i = self.entry(oid);
                m!(self.previous, i) = NOWHERE;
                if moved != oid {
                    let j = self.entry(moved);
                    m!(self.locks, j) = 0;
                    if g!(self.times, 4 * p.bucket + p.slot) < 0 {
                        m!(self.previous, j) = p.number();
                    } else {
                        m!(self.current, j) = p.number();
                    }
                }
                m!(self.cells, p.cell) = 0;
                Stage::ChooseCell
            }
            Stage::ChooseCell => {
                let n = g!(self.current, self.entry(oid));
                let cell = y / 1024 * 16 + x / 1024;
                if n != NOWHERE && n / 2048 == cell {
                    let t = self.draw();
                    self.put(n % 2048, oid, x, y, tag, t as i32);
                    Stage::ReleaseObject
                } else {
                    if g!(self.cells, cell) != 0 {
                        return 20;
                    }
                    m!(self.cells, cell) = owner;
                    Stage::MakeRoom
                }
            }
            Stage::MakeRoom => {
                let cell = y / 1024 * 16 + x / 1024;
                let b = g!(self.first, cell);
                if b == NONE || g!(self.count, b) == 4 {
                    let h = self.pool[512] - 1;
                    let new = g!(self.pool, h);
                    self.pool[512] = h;
                    m!(self.count, new) = 0;
                    m!(self.next, new) = b;
                    m!(self.first, cell) = new;
                }
                Stage::WriteTuple
            }
            Stage::WriteTuple => {
                let cell = y / 1024 * 16 + x / 1024;
                let bucket = g!(self.first, cell);
                let slot = g!(self.count, bucket);
                let t = self.draw();
                self.put(4 * bucket + slot, oid, x, y, tag, t as i32);
                Stage::RaiseCount(Place { cell, bucket, slot })
            }
            Stage::RaiseCount(p) => {
                m!(self.count, p.bucket) += 1;
                Stage::SwitchPlace(p)
            }
            Stage::SwitchPlace(p) => {
                let i = self.entry(oid);
                let old = g!(self.current, i);
                m!(self.previous, i) = old;
                m!(self.current, i) = p.number();
                m!(self.cells, p.cell) = 0;
                if old == NOWHERE {
                    Stage::ReleaseObject
                } else {
                    Stage::DeleteOld(Place::of(old))
                }
            }
            Stage::DeleteOld(p) => {
                let t = self.draw();
                m!(self.times, 4 * p.bucket + p.slot) = -(t as i32);
                Stage::ReleaseObject
            }
            Stage::ReleaseObject => {
                let i = self.entry(oid);
                m!(self.locks, i) = 0;
                m!(self.updaters, lane).stage = Stage::Idle;
                return 22;
            }
        };
        m!(self.updaters, lane).stage = next;
        0
    }

    pub unsafe fn query_start(&mut self, lane: u32, x0: u32, y0: u32, x1: u32, y1: u32) -> u32 {
        if lane >= 4 {
            return 1;
        }
        if !matches!(g!(self.queries, lane).stage, Scan::Idle) {
            return 2;
        }
        if x0 > 16383 || y0 > 16383 || x1 > 16383 || y1 > 16383 {
            return 5;
        }
        if x0 > x1 || y0 > y1 {
            return 6;
        }
        if self.clock >= 2147483600 {
            return 8;
        }
        let stamp = self.draw();
        m!(self.queries, lane) =
            Query { x0, y0, x1, y1, stamp, hits: 0, steps: 0, stage: Scan::Enter(y0 / 1024 * 16 + x0 / 1024) };
        0
    }

    #[inline(always)]
    fn after(q: &Query, cell: u32) -> Scan {
        if cell == q.y1 / 1024 * 16 + q.x1 / 1024 {
            Scan::Finished
        } else if cell % 16 == q.x1 / 1024 {
            Scan::Enter((cell / 16 + 1) * 16 + q.x0 / 1024)
        } else {
            Scan::Enter(cell + 1)
        }
    }

    pub unsafe fn query_step(&mut self, lane: u32) -> u32 {
        if lane >= 4 {
            return 1;
        }
        let q = self.queries.as_mut_ptr().add(lane as usize);
        let stage = match (*q).stage {
            Scan::Idle => return 3,
            Scan::Finished => return 9,
            Scan::Enter(cell) => {
                if g!(self.cells, cell) != 0 {
                    return 20;
                }
                let b = g!(self.first, cell);
                if b == NONE {
                    Self::after(&*q, cell)
                } else {
                    m!(self.readers, b) += 1;
                    Scan::Read(cell, b, g!(self.count, b))
                }
            }
            Scan::Read(cell, b, 0) => {
                let n = g!(self.next, b);
                if n == NONE {
                    m!(self.readers, b) -= 1;
                    Self::after(&*q, cell)
                } else {
                    m!(self.readers, n) += 1;
                    m!(self.readers, b) -= 1;
                    Scan::Read(cell, n, g!(self.count, n))
                }
            }
            Scan::Read(cell, b, left) => {
                let i = 4 * b + left - 1;
                let (x, y, tag, t) = (g!(self.xs, i), g!(self.ys, i), g!(self.tags, i), g!(self.times, i));
                let inside = x >= (*q).x0 && x <= (*q).x1 && y >= (*q).y0 && y <= (*q).y1;
                if inside && (t > 0 || t.unsigned_abs() > (*q).stamp) {
                    let oid = g!(self.owners, i);
                    let from = 256 * lane as usize;
                    let size = (*q).hits as usize;
                    let list = self.hits.get_unchecked(from..from + size);
                    let mut found = usize::MAX;
                    for k in (0..size).rev() {
                        if g!(list, k) == oid {
                            found = k;
                        }
                    }
                    if found == usize::MAX {
                        m!(self.hits, from + size) = oid;
                        m!(self.hitxs, from + size) = x;
                        m!(self.hitys, from + size) = y;
                        m!(self.hittags, from + size) = tag;
                        (*q).hits += 1;
                    } else if t > 0 {
                        m!(self.hitxs, from + found) = x;
                        m!(self.hitys, from + found) = y;
                        m!(self.hittags, from + found) = tag;
                    }
                }
                Scan::Read(cell, b, left - 1)
            }
        };
        (*q).steps += 1;
        (*q).stage = stage;
        if matches!(stage, Scan::Finished) {
            22
        } else {
            0
        }
    }

    pub unsafe fn collect(&mut self, lane: u32, out: &mut [u32], steps: &mut u32, filled: &mut usize) -> u32 {
        *steps = 0;
        *filled = 0;
        if lane >= 4 {
            return 1;
        }
        let q = &mut m!(self.queries, lane);
        match q.stage {
            Scan::Idle => return 3,
            Scan::Finished => {}
            _ => return 10,
        }
        let n = q.hits as usize;
        if out.len() < 4 * n {
            return 11;
        }
        let from = 256 * lane as usize;
        for i in 0..n {
            m!(out, 4 * i) = g!(self.hits, from + i);
            m!(out, 4 * i + 1) = g!(self.hitxs, from + i);
            m!(out, 4 * i + 2) = g!(self.hitys, from + i);
            m!(out, 4 * i + 3) = g!(self.hittags, from + i);
        }
        q.stage = Scan::Idle;
        *steps = q.steps;
        *filled = 4 * n;
        0
    }
}

// The same boundary as the library has, one call for each step.
#[no_mangle]
pub extern "C" fn twin_new() -> *mut Deck {
    let mut d = Box::new(Deck::new());
    d.reset();
    Box::into_raw(d)
}
#[no_mangle]
pub unsafe extern "C" fn twin_reset(d: *mut Deck) -> u32 {
    (*d).reset();
    0
}
#[no_mangle]
pub unsafe extern "C" fn twin_update_start(d: *mut Deck, lane: u32, oid: u32, x: u32, y: u32, tag: u32) -> u32 {
    (*d).update_start(lane, oid, x, y, tag)
}
#[no_mangle]
pub unsafe extern "C" fn twin_update_step(d: *mut Deck, lane: u32) -> u32 {
    (*d).update_step(lane)
}
#[no_mangle]
pub unsafe extern "C" fn twin_query_start(d: *mut Deck, lane: u32, x0: u32, y0: u32, x1: u32, y1: u32) -> u32 {
    (*d).query_start(lane, x0, y0, x1, y1)
}
#[no_mangle]
pub unsafe extern "C" fn twin_query_step(d: *mut Deck, lane: u32) -> u32 {
    (*d).query_step(lane)
}
#[no_mangle]
pub unsafe extern "C" fn twin_collect(
    d: *mut Deck,
    lane: u32,
    out: *mut u32,
    len: usize,
    steps: *mut u32,
    filled: *mut usize,
) -> u32 {
    (*d).collect(lane, std::slice::from_raw_parts_mut(out, len), &mut *steps, &mut *filled)
}
/// All tables in the order of the words, and the stamps behind them, to be compared with a deck of the library.
#[no_mangle]
pub unsafe extern "C" fn twin_dump(d: *const Deck, out: *mut u32) -> usize {
    let d = &*d;
    let mut v: Vec<u32> = Vec::new();
    for t in [&d.cells[..], &d.first, &d.count, &d.next, &d.readers, &d.owners, &d.xs, &d.ys, &d.tags] {
        v.extend_from_slice(t);
    }
    for t in [&d.oids[..], &d.locks, &d.current, &d.previous, &d.hits, &d.hitxs, &d.hitys, &d.hittags] {
        v.extend_from_slice(t);
    }
    v.push(d.clock);
    v.extend_from_slice(&d.pool);
    v.extend(d.times.iter().map(|&t| t as u32));
    std::ptr::copy_nonoverlapping(v.as_ptr(), out, v.len());
    v.len()
}
