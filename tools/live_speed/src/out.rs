//! Text output: a line is written through a raw cursor into reserved room.
//! The only unsafe code of this program stands here.

use std::fs::File;
use std::io::{ErrorKind, Write};
use std::os::fd::AsFd;

/// No line of a trace is longer than this.
const LINE: usize = 192;
const BUF: usize = 1 << 17;

pub struct Out {
    pub buf: Vec<u8>,
    file: Option<File>,
    pub failed: bool,
}

impl Out {
    /// Spills to standard output.
    pub fn stdout() -> Out {
        let file = std::io::stdout().as_fd().try_clone_to_owned().ok().map(File::from);
        let failed = file.is_none();
        Out { buf: Vec::with_capacity(BUF), file, failed }
    }

    #[inline(always)]
    pub fn line(&mut self) -> W<'_> {
        if self.buf.capacity() - self.buf.len() < LINE {
            self.spill();
        }
        let len = self.buf.len();
        // SAFETY: at least LINE bytes of room stand behind len.
        let p = unsafe { self.buf.as_mut_ptr().add(len) };
        W { out: self, p }
    }

    #[cold]
    #[inline(never)]
    fn spill(&mut self) {
        self.flush();
    }

    pub fn flush(&mut self) {
        if let Some(f) = &mut self.file {
            let mut rest: &[u8] = &self.buf;
            let mut idle = 0;
            while !rest.is_empty() && !self.failed {
                match f.write(rest) {
                    Ok(0) => self.failed = true,
                    Ok(n) => {
                        rest = &rest[n..];
                        idle = 0;
                    }
                    Err(e) if e.kind() == ErrorKind::Interrupted && idle < 999 => idle += 1,
                    Err(_) => self.failed = true,
                }
            }
        }
        self.buf.clear();
    }
}

pub struct W<'a> {
    out: &'a mut Out,
    p: *mut u8,
}

static PAIRS: &[u8; 200] = b"0001020304050607080910111213141516171819\
2021222324252627282930313233343536373839\
4041424344454647484950515253545556575859\
6061626364656667686970717273747576777879\
8081828384858687888990919293949596979899";

#[inline(always)]
pub fn digits(v: u64) -> usize {
    if v < 10 {
        1
    } else {
        v.ilog10() as usize + 1
    }
}

/// Writes v at p, which has room for its digits; answers how many.
#[inline(always)]
unsafe fn put(p: *mut u8, mut v: u64) -> usize {
    let n = digits(v);
    let mut e = p.add(n);
    while v >= 100 {
        let r = (v % 100) as usize * 2;
        v /= 100;
        e = e.sub(2);
        std::ptr::copy_nonoverlapping(PAIRS.as_ptr().add(r), e, 2);
    }
    if v >= 10 {
        std::ptr::copy_nonoverlapping(PAIRS.as_ptr().add(v as usize * 2), p, 2);
    } else {
        *p = b'0' + v as u8;
    }
    n
}

impl<'a> W<'a> {
    #[inline(always)]
    pub fn lit<const N: usize>(&mut self, s: &[u8; N]) {
        // SAFETY: the parts of one line add up to fewer than LINE bytes.
        unsafe {
            std::ptr::copy_nonoverlapping(s.as_ptr(), self.p, N);
            self.p = self.p.add(N);
        }
    }
    #[inline(always)]
    pub fn num(&mut self, v: u64) {
        unsafe { self.p = self.p.add(put(self.p, v)) }
    }
    #[inline(always)]
    pub fn stamp(&mut self, s: &Stamp) {
        unsafe {
            std::ptr::copy_nonoverlapping(s.text.as_ptr(), self.p, 24);
            self.p = self.p.add(s.len);
        }
    }
    #[inline(always)]
    pub fn end(self) {
        unsafe {
            *self.p = b'\n';
            let len = self.p.offset_from(self.out.buf.as_ptr()) as usize + 1;
            debug_assert!(len <= self.out.buf.capacity());
            self.out.buf.set_len(len);
        }
    }
}

/// The text of now and a space, made once per change of now.
pub struct Stamp {
    text: [u8; 24],
    len: usize,
}

impl Stamp {
    pub fn new(v: u64) -> Stamp {
        let mut text = [b' '; 24];
        let n = unsafe { put(text.as_mut_ptr(), v) };
        text[n] = b' ';
        Stamp { text, len: n + 1 }
    }
}
