//! Random sessions by seed, many at a time, for the comparison with a second implementation. Odd seeds have refused
//! calls, even ones have none; each set of flags has its turn; some sessions are cut or have another room.
use crate::gen;
use crate::model::*;
use crate::script::*;

/// `long`: one list, filled until it has no room. `even`: `gen --even` on boards with layout that emulate instancing. `slider`: `gen --slider`.
pub struct Options { pub calls: Option<usize>, pub long: bool, pub even: bool, pub slider: bool }

/// By which sessions are made, so that both builds make the same ones.
const RULE: Rule = Rule::Requested;

/// `gen --even`, `--mixed`, `--slider`. On boards with layout that emulate instancing a third of the sessions each is even and mixed, on others a quarter
/// is made for immediates.
fn kind(seed: u64, caps: Caps, o: &Options) -> (bool, bool, bool) {
    if o.even || o.slider { return (o.even, false, o.slider); }
    let k = gen::Rng(seed / 2).next();
    let here = caps.layout && !caps.instancing;
    (here && k % 3 == 1, here && k % 3 == 2, !here && k % 4 == 1)
}

/// How a session is changed after it is made.
#[derive(Clone, Copy, PartialEq)]
enum Form {
    Whole,
    /// cut after a call inside a pass: the state at the end is that inside a pass
    Cut,
    /// room for exactly what is recorded, or for one command, byte or query less
    Room,
    /// with calls that the written rules refuse and the Rust would take
    Rules,
}
const FORMS: [Form; 6] = [Form::Whole, Form::Cut, Form::Room, Form::Rules, Form::Whole, Form::Cut];

fn board(n: u64, even: bool) -> Caps {
    let n = if even { 8 | n & 5 } else { n };
    Caps { layout: n & 8 != 0, barriers: n & 4 != 0, instancing: n & 2 != 0, msrtt: n & 1 != 0 }
}

/// The expected number of each call anew; how many are refused.
pub fn judge(s: &mut Script, rule: Rule) -> usize {
    let mut m = Model::by(rule, s.caps, s.room);
    for at in 0..s.calls.len() {
        let full = s.full(at);
        let (_, expect, c) = &mut s.calls[at];
        *expect = Some(m.call_like(c, &Readings::LETTER, full).answer);
    }
    s.calls.iter().filter(|c| c.1 != Some(0)).count()
}

/// The most commands, bytes and queries of a list.
fn needs(s: &Script) -> [u64; 3] {
    let mut m = Model::by(RULE, s.caps, s.room);
    let mut most = [0; 3];
    for (_, _, c) in &s.calls {
        m.call(c, &Readings::LETTER);
        most = [most[0].max(m.commands), most[1].max(m.bytes), most[2].max(m.queries)];
    }
    most
}

/// Cut within the last third, in a pass if one is open near there.
fn cut(s: &mut Script, seed: u64) {
    let n = s.calls.len();
    let from = n - (seed as usize / 7) % (n / 3).max(1);
    let outside = |c: &Call| matches!(c, Call::EndRender | Call::EndCompute | Call::EndEncoding | Call::BeginEncoding);
    if let Some(k) = (n / 2 + 1..=from).rev().find(|&k| !outside(&s.calls[k - 1].2)) { s.calls.truncate(k); }
}

/// One less than is needed of that which has its turn, or of the next that is needed at all.
fn one_less(room: &mut [u64; 3], turn: usize) {
    for i in 0..3 {
        let k = (turn + i) % 3;
        if room[k] > 0 { room[k] -= 1; return; }
    }
}

fn made(seed: u64, from: u64, o: &Options) -> (Script, usize) {
    let refused = seed % 2 == 1;
    let form = if o.long { Form::Whole } else { FORMS[(seed / 32 % 6) as usize] };
    let caps = board(seed / 2 % 16, o.even);
    let (even, mixed, slider) = kind(seed, caps, o);
    let calls = o.calls.unwrap_or(if o.long { 2000 } else { 60 });
    let text = gen::session(from, &gen::Options {
        calls, refused: refused && form != Form::Room, ambiguous: refused && form == Form::Rules, board: Some(caps), one_list: o.long, even, mixed, slider, rule: RULE, ..Default::default()
    });
    let mut s = Script::parse(&text).expect("the generator's script");
    match form {
        Form::Cut => cut(&mut s, seed),
        Form::Room => { s.room = needs(&s); if refused { one_less(&mut s.room, (seed / 192 % 3) as usize); } }
        Form::Whole | Form::Rules => {}
    }
    let n = judge(&mut s, RULE);
    (s, n)
}

/// The session of a seed, its expected numbers by this build's rule, those of 7 by `full` if it is given. Where an odd seed has no refused call,
/// others are tried in its place.
pub fn session(seed: u64, o: &Options, full: Option<Vec<bool>>) -> Script {
    let mut from = seed;
    loop {
        let (mut s, refused) = made(seed, from, o);
        if (refused > 0) == (seed % 2 == 1) {
            s.like(full).unwrap_or_else(|e| panic!("seed {seed}: {e}"));
            judge(&mut s, Rule::BUILD);
            return s;
        }
        from = from.wrapping_add(1 << 40);
    }
}
