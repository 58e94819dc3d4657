// The same in plain Rust, from bytes to cells, for where the csv crate cannot be had. As that crate does, a table-driven
// machine over a buffer of 8 KB fills a record (its bytes and the ends of its fields), which is checked for UTF-8; then
// its cells are parsed. Reads the table from the input and prints five times in microseconds.
use std::io::Read;
use std::time::Instant;

// The states of the machine, and all of them in the order of their numbers.
macro_rules! states {
    ($($state:ident),*) => {
        #[derive(Clone, Copy)]
        enum S { $($state),* }
        use S::*;
        const STATES: &[S] = &[$($state),*];
    };
}
states!(StartRecord, StartField, InField, InQuoted, InDoubleEsc, CRLF, EndRecord);
// classes: 0 other, 1 comma, 2 quote, 3 CR, 4 LF
fn step(s: S, c: u8) -> (S, bool, bool) {
    // next, emits, ends field
    match (s, c) {
        (StartRecord, 3) | (StartRecord, 4) => (StartRecord, false, false),
        (StartRecord, 2) | (StartField, 2) => (InQuoted, false, false),
        (StartRecord, 1) | (StartField, 1) => (StartField, false, true),
        (StartField, 3) | (InField, 3) | (InDoubleEsc, 3) => (CRLF, false, true),
        (StartField, 4) | (InField, 4) | (InDoubleEsc, 4) => (EndRecord, false, true),
        (StartRecord, _) | (StartField, _) => (InField, true, false),
        (InField, 1) | (InDoubleEsc, 1) => (StartField, false, true),
        (InField, _) => (InField, true, false),
        (InQuoted, 2) => (InDoubleEsc, false, false),
        (InQuoted, _) => (InQuoted, true, false),
        (InDoubleEsc, 2) => (InQuoted, true, false),
        (InDoubleEsc, _) => (InField, true, false),
        (CRLF, 4) => (StartRecord, false, false),
        (CRLF, _) => (StartRecord, false, false),
        (EndRecord, _) => (EndRecord, false, false),
    }
}
struct Machine {
    table: [[(u8, u8); 5]; STATES.len()],
    class: [u8; 256],
}
impl Machine {
    fn new() -> Machine {
        let mut class = [0u8; 256];
        class[b',' as usize] = 1;
        class[b'"' as usize] = 2;
        class[b'\r' as usize] = 3;
        class[b'\n' as usize] = 4;
        let mut table = [[(0u8, 0u8); 5]; STATES.len()];
        for (i, s) in STATES.iter().enumerate() {
            for c in 0..5 {
                let (n, e, f) = step(*s, c as u8);
                table[i][c] = (n as u8, e as u8 | (f as u8) << 1);
            }
        }
        Machine { table, class }
    }
}
struct Reader<R> {
    rdr: R,
    buf: Box<[u8; 8192]>,
    at: usize,
    filled: usize,
    state: u8,
    m: Machine,
}
struct Record {
    bytes: Vec<u8>,
    len: usize,
    ends: Vec<usize>,
    fields: usize,
}
impl<R: Read> Reader<R> {
    fn new(rdr: R) -> Self {
        Reader {
            rdr,
            buf: Box::new([0; 8192]),
            at: 0,
            filled: 0,
            state: 0,
            m: Machine::new(),
        }
    }
    #[inline(never)]
    fn read(&mut self, rec: &mut Record) -> bool {
        rec.len = 0;
        rec.fields = 0;
        let mut state = if self.state == EndRecord as u8 { StartRecord as u8 } else { self.state };
        loop {
            if self.at == self.filled {
                self.filled = self.rdr.read(&mut self.buf[..]).unwrap();
                self.at = 0;
                if self.filled == 0 {
                    return false;
                }
            }
            while self.at < self.filled {
                let byte = self.buf[self.at];
                self.at += 1;
                let (next, does) =
                    self.m.table[state as usize][self.m.class[byte as usize] as usize];
                if does & 1 != 0 {
                    if rec.len == rec.bytes.len() {
                        let n = rec.len.max(4) * 2;
                        rec.bytes.resize(n, 0);
                    }
                    rec.bytes[rec.len] = byte;
                    rec.len += 1;
                }
                if does & 2 != 0 {
                    if rec.fields == rec.ends.len() {
                        let n = rec.fields.max(4) * 2;
                        rec.ends.resize(n, 0);
                    }
                    rec.ends[rec.fields] = rec.len;
                    rec.fields += 1;
                }
                state = next;
                if next == EndRecord as u8 || next == CRLF as u8 {
                    self.state = next;
                    return true;
                }
            }
        }
    }
}
fn main() {
    let mut bytes = Vec::new();
    std::io::stdin().read_to_end(&mut bytes).unwrap();
    for _ in 0..5 {
        let start = Instant::now();
        let mut reader = Reader::new(&bytes[..]);
        let mut rec = Record {
            bytes: vec![],
            len: 0,
            ends: vec![],
            fields: 0,
        };
        let mut cells: Vec<i64> = Vec::new();
        reader.read(&mut rec);
        while reader.read(&mut rec) {
            let text = std::str::from_utf8(&rec.bytes[..rec.len]).unwrap();
            let mut from = 0;
            for end in &rec.ends[..rec.fields] {
                cells.push(text[from..*end].parse().unwrap());
                from = *end;
            }
        }
        let whole = start.elapsed();
        let start = Instant::now();
        let mut reader = Reader::new(&bytes[..]);
        let mut n = 0usize;
        while reader.read(&mut rec) {
            n += rec.fields;
        }
        println!(
            "bytes to cells {} us, records alone {} us ({} {})",
            whole.as_micros(),
            start.elapsed().as_micros(),
            cells.len(),
            n
        );
    }
}
