//! Spans of first instances (02, request 11): random sessions with a span each, and the slots that the Rust's draw rebinds for every number of the
//! span and for at least one. Each number is drawn, on an encoder to which the session's accepted calls are made anew: a draw changes the Rust's
//! State, and that is no Clone.
use crate::batch;
use crate::gen::{self, Rng};
use crate::gles::driver::{Form, Oracle};
use crate::gles::mirror::Masks;
use crate::model::*;
use crate::script::*;
use std::fmt;
use std::rc::Rc;

/// What is expected for a span.
#[derive(Clone, Copy, PartialEq, Debug)]
pub enum Expected {
    Masks { always: u32, sometimes: u32 },
    Reversed,
}
impl fmt::Display for Expected {
    fn fmt(&self, f: &mut fmt::Formatter) -> fmt::Result {
        match self {
            Expected::Masks { always, sometimes } => write!(f, "always {always} sometimes {sometimes}"),
            Expected::Reversed => write!(f, "refused 15"),
        }
    }
}

/// `expected`: None if a number could not be drawn. `over`: how many of the span's draws have a sum outside its field (refusal 6).
pub struct Outcome { pub expected: Option<Expected>, pub over: u32 }

/// Whether a sum outside its field stops this build; the release build wraps, and so records such a draw.
pub fn checks_sums() -> bool { std::panic::catch_unwind(|| std::hint::black_box(u32::MAX) + std::hint::black_box(1)).is_err() }

fn slot_of(line: &str) -> Option<u32> { line.strip_prefix("SetVertexBuffer ")?.split(' ').next()?.parse().ok() }

/// The slots whose buffers a draw sets after the session, with layout; None if a sum stops it.
fn drawn(s: &Script, first: u32) -> Result<Option<u32>, String> {
    let mut x = Oracle::new(s.caps);
    for (_, answer, c) in &s.calls { if answer.unwrap_or(0) == 0 { x.call(c, Form::default())?; } }
    x.give_layout();
    let before = x.counts()[0];
    match x.call(&Call::Draw([0, 3, first, 1]), Form::default()) {
        Err(e) if e.ends_with("with overflow") => return Ok(None),
        other => other?,
    }
    let mut lines = x.lines_from(before);
    if !lines.pop().is_some_and(|l| l.starts_with("Draw ")) { return Err("no draw is recorded last".into()); }
    let mut mask = 0;
    for l in &lines { mask |= 1 << slot_of(l).ok_or(format!("a draw records {l}"))?; }
    Ok(Some(mask))
}

/// Whether the model refuses that draw with 6; phase and room are put aside.
fn over(m: &Model, first: u32) -> bool {
    let mut m = m.clone();
    m.caps.layout = true;
    (m.phase, m.commands, m.room) = (Phase::Render, 0, [u64::MAX; 3]);
    m.call(&Call::Draw([0, 3, first, 1]), &Readings::LETTER).answer == 6
}

/// The slots rebound for all numbers of the span and for one at least, every number drawn.
pub fn expected(s: &Script, lower: u32, upper: u32) -> Result<Outcome, String> {
    if lower > upper { return Ok(Outcome { expected: Some(Expected::Reversed), over: 0 }); }
    let mut m = Model::new(s.caps, s.room);
    for (at, (_, _, c)) in s.calls.iter().enumerate() { m.call_like(c, &Readings::LETTER, s.full(at)); }
    let (mut always, mut sometimes, mut overs, mut given_up, checked) = (u32::MAX, 0, 0, false, checks_sums());
    for first in lower..=upper {
        let (mask, over) = (drawn(s, first)?, over(&m, first));
        if mask.is_none() != (over && checked) { return Err(format!("first instance {first}: stopped by a sum {}, by the model {over}", mask.is_none())); }
        overs += over as u32;
        match mask { Some(mask) => { always &= mask; sometimes |= mask; } None => given_up = true }
    }
    Ok(Outcome { expected: (!given_up).then_some(Expected::Masks { always, sometimes }), over: overs })
}

/// Other first instances, by `number`, and other pipelines, by `pipeline`.
fn change(s: &mut Script, number: impl Fn(u32) -> u32, pipeline: impl Fn(&mut Pipe)) {
    for (_, _, c) in &mut s.calls {
        match c {
            Call::Draw(a) => a[2] = number(a[2]),
            Call::DrawIndexed(_, _, _, first, _) => *first = number(*first),
            Call::RenderPipeline(p) => { let mut q = (**p).clone(); pipeline(&mut q); *p = Rc::new(q); }
            _ => {}
        }
    }
}

/// First instances counted from the top, and strides of 0 and 1: with layout no sum leaves its field there.
fn to_the_top(s: &mut Script) {
    change(s, |n| u32::MAX - n, |p| for slot in p.slots.iter_mut().flatten() { slot.stride = slot.stride / 4 % 2; });
}

/// The first five slots become others of the sixteen: slot i is i * by + from.
fn spread(s: &mut Script, by: u32, from: u32) {
    let to = |i: u32| if i < 16 { (i * by + from) % 16 } else { i };
    change(s, |n| n, |p| {
        for a in &mut p.attrs { a.slot = to(a.slot); }
        if p.slots.len() > 16 { return; }
        let mut slots = vec![None; 16];
        for (i, slot) in p.slots.iter().enumerate() { slots[to(i as u32) as usize] = *slot; }
        p.slots = slots;
    });
    for (_, _, c) in &mut s.calls { if let Call::VertexBuffer(i, _, _) = c { *i = to(*i); } }
}

/// What the end of a session after these calls has of an open render pass, in its slots by instance that are described and bound: 1 one at all, 2 a clean
/// one, 3 a clean one and others dirty or with another number, 4 a clean one whose number is not 0, 5 clean ones of several numbers.
fn worth(m: &Model) -> Vec<usize> {
    let (dirty, ready, numbers) = m.stepping();
    let slots: Vec<(bool, u32)> = (0..16).filter(|i| ready & 1 << i != 0).map(|i| (dirty & 1 << i == 0, numbers[i])).collect();
    let clean: Vec<u32> = slots.iter().filter(|s| s.0).map(|s| s.1).collect();
    let has = [!slots.is_empty(), !clean.is_empty(), slots.iter().any(|s| *s != slots[0]), clean.iter().any(|n| *n != 0), clean.iter().any(|n| *n != clean[0])];
    if m.phase != Phase::Render { return vec![]; }
    (1..=5).filter(|k| has[k - 1] && (*k == 1 || has[1])).collect()
}

/// Cut at an end that has what is wanted, or the next best; some sessions stay whole.
fn cut(s: &mut Script, r: &mut Rng) {
    let mut m = Model::by(Rule::Requested, s.caps, s.room);
    let mut ends: [Vec<usize>; 6] = Default::default();
    for (at, (_, _, c)) in s.calls.iter().enumerate() {
        m.call(c, &Readings::LETTER);
        for k in worth(&m) { ends[k].push(at + 1); }
    }
    let wanted = *r.of(&[0, 1, 2, 3, 3, 4, 4, 4, 5, 5, 5, 5]);
    if let Some(ends) = ends[..=wanted].iter().rev().find(|e| !e.is_empty()) { s.calls.truncate(*r.of(ends)); }
}

/// More draws, each after one of the session's pipelines: slots that some of these skip keep other numbers. Then it is cut again.
fn more_draws(s: &mut Script, r: &mut Rng) {
    let of = |s: &Script, keep: fn(&Call) -> bool| s.calls.iter().filter(|c| keep(&c.2)).cloned().collect::<Vec<_>>();
    let (pipes, draws) = (of(s, |c| matches!(c, Call::RenderPipeline(_))), of(s, |c| matches!(c, Call::Draw(_))));
    if pipes.is_empty() || draws.is_empty() { return; }
    for _ in 0..6 { s.calls.extend([r.of(&pipes).clone(), r.of(&draws).clone()]); }
    cut(s, r);
}

/// The session of a seed: one in eight as `batch` makes it, the others even or mixed, cut, some with larger first instances or on other slots.
pub fn session(seed: u64, calls: usize) -> Script {
    let mut r = Rng(seed ^ 0x7370616E);
    let kind = r.below(8);
    if kind == 0 { return batch::session(seed, &batch::Options { calls: Some(calls), long: false, even: false, slider: false }, None); }
    let caps = Caps { layout: r.chance(2, 3), barriers: r.chance(1, 2), instancing: r.chance(1, 6), msrtt: r.chance(1, 2) };
    let text = gen::session(seed, &gen::Options {
        calls, refused: seed % 2 == 1, board: Some(caps), even: kind < 4, mixed: kind >= 4, rule: Rule::Requested, ..Default::default()
    });
    let mut s = Script::parse(&text).expect("the generator's script");
    match r.below(8) { 0 => to_the_top(&mut s), 1..=3 => change(&mut s, |n| n + 100, |_| ()), _ => {} }
    if r.chance(1, 2) { let (by, from) = (2 * r.below(8) + 1, r.below(16)); spread(&mut s, by as u32, from as u32); }
    cut(&mut s, &mut r);
    if r.chance(1, 2) { more_draws(&mut s, &mut r); }
    batch::judge(&mut s, Rule::Requested);
    s
}

/// The numbers about which a span is laid: those of the clean slots by instance, or else of any slot, or else some.
fn numbers(m: &Masks) -> Vec<u32> {
    let ready = m.instance as u32 & m.described & m.bound;
    let of = |mask: u32| (0..16).filter(|i| mask & 1 << i != 0).map(|i| m.active[i]).collect::<Vec<u32>>();
    [of(ready & !(m.dirty as u32)), of(ready), vec![0, 1, 2, 5]].into_iter().find(|v| !v.is_empty()).unwrap()
}

/// A span of 1 to 64 numbers; one in twelve is reversed. A remembered number is its lower end, its upper end, inside or just outside.
pub fn span(seed: u64, m: &Masks) -> (u32, u32) {
    let mut r = Rng(seed ^ 0x776964746873);
    let own = *r.of(&numbers(m)) as i64;
    let more = if r.chance(1, 8) { 0 } else { let most = *r.of(&[1, 2, 4, 15, 63]); 1 + r.below(most) as i64 };
    let low = match r.below(12) {
        0..=2 => own,
        3..=5 => own - more,
        6..=8 => own - r.below(more as u64 + 1) as i64,
        9 => own + 1,
        10 => own - more - 1,
        _ => *r.of(&[0, 1, 2, 5, 2147483647, u32::MAX as i64]),
    };
    let low = low.clamp(0, u32::MAX as i64 - more) as u32;
    if !r.chance(1, 12) { return (low, low + more as u32); }
    if more == 0 { return if low == 0 { (1, 0) } else { (low, low - 1) }; }
    (low + more as u32, low)
}

/// What the spans of a range of seeds are like.
#[derive(Default)]
pub struct Tally {
    pub spans: usize, pub differ: usize, pub none: usize, pub reversed: usize, pub full: usize, pub without_layout: usize, pub single: usize, pub over: usize,
    pub given_up: usize,
}
impl Tally {
    pub fn add(&mut self, s: &Script, (lower, upper): (u32, u32), o: &Outcome) {
        self.over += (o.over > 0) as usize;
        let Some(e) = o.expected else { self.given_up += 1; return };
        self.spans += 1;
        self.full += s.caps.instancing as usize;
        self.without_layout += !s.caps.layout as usize;
        self.single += (lower == upper) as usize;
        match e {
            Expected::Reversed => self.reversed += 1,
            Expected::Masks { always, sometimes } => { self.differ += (always != sometimes) as usize; self.none += (sometimes == 0) as usize; }
        }
    }
    /// Why the range says too little.
    pub fn dull(&self) -> Option<&'static str> {
        if 4 * self.differ < self.spans { return Some("fewer than a quarter of the spans have two different masks"); }
        if 2 * self.none > self.spans { return Some("more than half of the spans have no slot"); }
        if self.reversed == 0 { return Some("no span is reversed"); }
        (self.full == 0).then_some("no board has full instancing")
    }
}
impl fmt::Display for Tally {
    fn fmt(&self, f: &mut fmt::Formatter) -> fmt::Result {
        write!(f, "spans {}, masks differ {}, both 0 {}, reversed {}, ", self.spans, self.differ, self.none, self.reversed)?;
        write!(f, "full instancing {}, without layout {}, single numbers {}, ", self.full, self.without_layout, self.single)?;
        write!(f, "with a sum outside its field {}, given up {}", self.over, self.given_up)
    }
}
