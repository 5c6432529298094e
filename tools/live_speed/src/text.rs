//! Reading the lines of calls and events.

#[derive(Clone, Copy)]
pub enum Ending {
    Value(u64),
    Fault(u32),
}

#[derive(Clone, Copy)]
pub enum Kind {
    Once,
    Rate(u64),
    Fixed(u64),
}

#[derive(Clone, Copy)]
pub enum Line {
    Clock(u64),
    Start(u8),
    Finish(u8, Ending),
    Cancel(u32),
    Submit(u64, Kind),
    CancelByCall(u32),
    Policy(u8, bool),
    Shutdown,
    ShutdownNow,
    Ask,
}

pub const TOP: u64 = 1 << 62;

/// A canonical decimal in front of s, and what stands behind it.
#[inline(always)]
fn number(s: &[u8]) -> Option<(u64, &[u8])> {
    let mut v: u64 = match s.first() {
        Some(d @ b'1'..=b'9') => (d - b'0') as u64,
        Some(b'0') => return Some((0, &s[1..])),
        _ => return None,
    };
    let mut i = 1;
    while i < s.len() {
        let d = s[i].wrapping_sub(b'0');
        if d > 9 {
            break;
        }
        if i >= 19 {
            if i > 19 {
                return None;
            }
            v = v.checked_mul(10)?.checked_add(d as u64)?;
        } else {
            v = v * 10 + d as u64;
        }
        i += 1;
    }
    Some((v, &s[i..]))
}

#[inline(always)]
fn newline(s: &[u8]) -> Option<&[u8]> {
    s.strip_prefix(b"\n")
}

#[inline(always)]
fn span(s: &[u8], least: u64) -> Option<(u64, &[u8])> {
    let (v, r) = number(s)?;
    (v >= least && v <= TOP).then_some((v, r))
}

/// The line in front of s, and what stands behind its newline.
#[inline(always)]
pub fn line(s: &[u8]) -> Option<(Line, &[u8])> {
    if let Some(r) = s.strip_prefix(b"start ") {
        let (w, r) = number(r)?;
        return Some((Line::Start(u8::try_from(w).ok()?), newline(r)?));
    }
    if let Some(r) = s.strip_prefix(b"finish ") {
        let (w, r) = number(r)?;
        let w = u8::try_from(w).ok()?;
        if let Some(r) = r.strip_prefix(b" ok ") {
            let (v, r) = number(r)?;
            return Some((Line::Finish(w, Ending::Value(v)), newline(r)?));
        }
        let (c, r) = number(r.strip_prefix(b" fail ")?)?;
        return Some((Line::Finish(w, Ending::Fault(u32::try_from(c).ok()?)), newline(r)?));
    }
    if let Some(r) = s.strip_prefix(b"clock ") {
        let (t, r) = number(r)?;
        return Some((Line::Clock(t), newline(r)?));
    }
    if let Some(r) = s.strip_prefix(b"cancel ") {
        let (k, r) = number(r)?;
        return Some((Line::Cancel(u32::try_from(k).ok()?), newline(r)?));
    }
    call(s.strip_prefix(b"call ")?)
}

#[inline(always)]
fn call(s: &[u8]) -> Option<(Line, &[u8])> {
    if let Some(r) = s.strip_prefix(b"schedule ") {
        let (d, r) = span(r, 0)?;
        return Some((Line::Submit(d, Kind::Once), newline(r)?));
    }
    if let Some(r) = s.strip_prefix(b"rate ") {
        let (f, r) = span(r, 0)?;
        let (p, r) = span(r.strip_prefix(b" ")?, 1)?;
        return Some((Line::Submit(f, Kind::Rate(p)), newline(r)?));
    }
    if let Some(r) = s.strip_prefix(b"fixed ") {
        let (f, r) = span(r, 0)?;
        let (d, r) = span(r.strip_prefix(b" ")?, 1)?;
        return Some((Line::Submit(f, Kind::Fixed(d)), newline(r)?));
    }
    if let Some(r) = s.strip_prefix(b"cancel ") {
        let (k, r) = number(r)?;
        return Some((Line::CancelByCall(u32::try_from(k).ok()?), newline(r)?));
    }
    if let Some(r) = s.strip_prefix(b"policy ") {
        let words: [(&[u8], u8); 3] = [(b"continue ", 0), (b"execute ", 1), (b"remove ", 2)];
        let (which, r) = words.iter().find_map(|(word, which)| Some((*which, r.strip_prefix(*word)?)))?;
        if let Some(r) = r.strip_prefix(b"true\n") {
            return Some((Line::Policy(which, true), r));
        }
        return Some((Line::Policy(which, false), r.strip_prefix(b"false\n")?));
    }
    let plain: [(&[u8], Line); 4] = [
        (b"execute\n", Line::Submit(0, Kind::Once)),
        (b"ask\n", Line::Ask),
        (b"shutdown\n", Line::Shutdown),
        (b"shutdown_now\n", Line::ShutdownNow),
    ];
    plain.iter().find_map(|(word, line)| Some((*line, s.strip_prefix(*word)?)))
}
