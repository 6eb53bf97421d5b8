#!/usr/bin/env python3
"""gen.py FORM [OPTION=VALUE ...]: writes one measured Rattle program to standard output.

The program has the encoder's whole state in one form, the calls set_vertex_buffer and draw over it
(layout path), a list of 4,096 commands, and a main that times them. README.md says what the forms
and the options are. Names between @ in the texts below are filled in by the form and the options.
"""
import re
import sys

FORMS = ('f1', 'f2', 'f3', 'f4', 'f5', 'f6')
OPTIONS = {  # the first value is the default
    'order': ('tight', 'plain'),
    'set': ('local', 'direct'),
    'draw': ('batch', 'split'),
    'drive': ('arms', 'turn'),
    'start': ('given', 'built'),
    'loop': ('apart', 'merged'),
    'sites': ('one', 'two'),
}

# ---- records that all forms share. The fillers give Command about as many cases as the recorder's,
# and Big gives it a size to go by, so that writing one costs about what it costs there.

COMMON = """
use std::io;
use std::time::{Clock, Duration};
pub struct Board { pub layout: bool, pub barriers: bool, pub instancing: bool, pub msrtt: bool }
pub enum Phase { Closed, Open, Render, Compute }
pub enum IndexFormat { Uint16, Uint32 }
pub enum Step { Vertex, Instance }
pub enum Kind { Float, Integer }
pub struct Primitive { pub front_face: u32, pub cull_face: u32, pub polygon_mode: u32, pub unclipped: bool }
pub struct Side { pub function: u32, pub read: u32, pub write: u32, pub reference: u32, pub pass: u32, pub fail: u32, pub depth_fail: u32 }
pub struct Stencil { pub front: Side, pub back: Side }
pub struct Bias { pub constant: i32, pub slope: u32, pub clamp: u32 }
pub struct Blend { pub a: u32, pub b: u32, pub c: u32, pub d: u32, pub e: u32, pub f: u32 }
pub struct Extent { pub width: u32, pub height: u32, pub depth: u32 }
pub enum Location { None, At(u32) }
pub enum Stamp { None, At(u32) }
pub struct Desc { pub step: Step, pub stride: u32 }
pub struct Bound { pub raw: u32, pub offset: u64 }
pub enum Outcome { Done, Closed, Range, Absent, Full, Unsound, Other1, Other2, Other3, Other4 }
pub enum Command {
    Nothing,
    Draw { topology: u32, first_vertex: u32, vertex_count: u32, first_instance: u32, instance_count: u32, location: Location },
    SetVertexBuffer { index: u32, buffer: Bound, desc: Desc },
@fillers@
    Big(Stencil, Extent, u64, u64, u64),
}
pub struct Record { pub command: Command }
"""

FILLERS = ('C%d(u32, u32)', 'C%d { a: u32, b: u64, c: u32 }', 'C%d(Side, Side, u32)', 'C%d(f32, f32, f32, f32)')

# ---- the elements of the state's arrays

ENUM_ELEMENTS = """
pub enum SlotDesc { None, Some { step: Step, stride: u32 } }
pub enum SlotBinding { None, Some { raw: u32, offset: u64 } }
pub struct Slot { pub desc: SlotDesc, pub binding: SlotBinding }
pub struct Attribute { pub location: u32, pub offset: u32, pub buffer_index: u32, pub element_count: i32, pub element_format: u32, pub kind: Kind }
pub enum Blending { None, Some(Blend) }
pub struct Target { pub mask: u32, pub blend: Blending }
pub enum Sampler { None, Some(u32) }
pub struct SamplerSlot { pub sampler: Sampler }
pub enum Number { None, Some(u8) }
pub struct TextureSlot { pub target: u32, pub number: Number }
pub enum Inner { Renderbuffer(u32), Default, Texture { raw: u32, target: u32 }, External(u32) }
pub enum SampleKind { Float, Uint, Sint, Depth }
pub struct View { pub inner: Inner, pub aspects: u32, pub mip0: u32, pub mip1: u32, pub layer0: u32, pub layer1: u32, pub kind: SampleKind, pub srgb: bool }
"""

FLAG_SLOT = "pub struct Slot { pub described: bool, pub instance: bool, pub stride: u32, pub bound: bool, pub raw: u32, pub offset: u64 }"
MASK_SLOT = "pub struct Slot { pub stride: u32, pub raw: u32, pub offset: u64 }"

FLAG_ELEMENTS = """
@slot@
pub struct Attribute { pub location: u32, pub offset: u32, pub buffer_index: u32, pub element_count: i32, pub element_format: u32, pub integer: bool }
pub struct Target { pub mask: u32, pub blended: bool, pub blend: Blend }
pub struct SamplerSlot { pub set: bool, pub sampler: u32 }
pub struct TextureSlot { pub target: u32, pub sampled: bool, pub number: u8 }
pub struct View { pub inner: u8, pub raw: u32, pub target: u32, pub aspects: u32, pub mip0: u32, pub mip1: u32, pub layer0: u32, pub layer1: u32, pub kind: u8, pub srgb: bool }
"""

# ---- the parts of the state: fields with their types, and with their starting values

VERTEX = {  # order -> fields; the masks stand in f3 only
    'tight': "pub index_format: IndexFormat, pub index_offset: u64, pub active: u32, pub dirty: u32, pub slots: [Slot; 16], pub attribute_count: usize, pub instance_mask: u32, pub attributes: [Attribute; 16]",
    'plain': "pub index_format: IndexFormat, pub index_offset: u64, pub slots: [Slot; 16], pub attributes: [Attribute; 16], pub attribute_count: usize, pub instance_mask: u32, pub dirty: u32, pub active: u32",
}
VERTEX_MASKS = {
    'tight': "pub index_format: IndexFormat, pub index_offset: u64, pub described: u32, pub bound: u32, pub by_instance: u32, pub dirty: u32, pub slots: [Slot; 16], pub attribute_count: usize, pub active: u32, pub instance_mask: u32, pub attributes: [Attribute; 16]",
    'plain': "pub index_format: IndexFormat, pub index_offset: u64, pub described: u32, pub bound: u32, pub by_instance: u32, pub slots: [Slot; 16], pub attributes: [Attribute; 16], pub attribute_count: usize, pub instance_mask: u32, pub dirty: u32, pub active: u32",
}
FIXED = "pub topology: u32, pub primitive: Primitive, pub targets: [Target; 8], pub target_count: usize, pub stencil: Stencil, pub bias: Bias, pub a2c: bool, pub clips: u32"
BINDS = "pub samplers: [SamplerSlot; 16], pub textures: [TextureSlot; 16], pub location: Location"
PASS = "pub size: Extent, pub resolves: [Resolve; 8], pub resolve_count: usize, pub invalid: u32, pub label: bool, pub stamp: Stamp"
IMMEDIATES = "pub descs: @descs@, pub desc_count: usize, pub words: [u32; 64]"
COUNTS = "pub commands: usize, pub bytes: usize, pub queries: usize"

SHARED_PARTS = """
pub struct Resolve { pub attachment: u32, pub view: View }
pub struct Imm { pub location: u32, pub ty: u32, pub offset: u32, pub size: u32 }
"""

FLAT_STATE = """
pub struct State { pub phase: Phase, @vertex@, @fixed@, @binds@, @pass@, @immediates@, @counts@ }
pub struct Answer { pub outcome: Outcome, pub state: State }
"""

NESTED_STATE = """
pub struct Vertex { @vertex@ }
pub struct Fixed { @fixed@ }
pub struct Binds { @binds@ }
pub struct Pass { @pass@ }
pub struct Immediates { @immediates@ }
pub struct Counts { @counts@ }
pub struct State { pub phase: Phase, pub vertex: Vertex, pub fixed: Fixed, pub bind: Binds, @imm-field@pub pass: Pass, pub counts: Counts }
pub struct Answer { pub outcome: Outcome, pub state: State }
"""

# ---- the check of the handed-in state (counts and masks only), and the answers

CHECKS = """
fn phase_number(p: Phase) -> u32 {
    match p { Phase::Closed => 0, Phase::Open => 1, Phase::Render => 2, Phase::Compute => 3 }
}
fn within(attributes: usize, targets: usize, resolves: usize, descs: usize, dirty: u32, mask: u32) -> bool {
    attributes <= 16 && targets <= 8 && resolves <= 8 && descs <= 192 && dirty < 65536 && mask < 65536
}
fn judge_set(phase: u32, sound: bool, index: u32, raw: u32) -> u32 {
    if !sound { return 5; }
    if phase != 2 { return 1; }
    if index >= 16 { return 2; }
    if raw == 0 { return 3; }
    0
}
fn outcome(n: u32) -> Outcome {
    match n { 0 => Outcome::Done, 1 => Outcome::Closed, 2 => Outcome::Range, 3 => Outcome::Absent, 4 => Outcome::Full, _ => Outcome::Unsound }
}
"""

SOUND = "within(state.@V@attribute_count, state.@F@target_count, state.@P@resolve_count, @desc-count@, state.@V@dirty, state.@V@instance_mask)"

# ---- set_vertex_buffer

SET = """
pub fn set_vertex_buffer(board: Board, state: State, index: u32, raw: u32, offset: u64) -> Answer {
    let phase = state.phase;
    let p = phase_number(phase);
    let sound = @sound@;
    let o = judge_set(p, sound, index, raw);
    let mut next = state;
    @take@
    if o == 0 {
        let i = index as usize;
        @update@
        @update-mask@
        next.@V@dirty = next.@V@dirty | (1 << index);
    }
    @put@
    let out = outcome(o);
    Answer { outcome: out, state: next }
}
"""

UPDATE = {
    'enum': "let d = @S@[i].desc; @S@[i] = Slot { desc: d, binding: SlotBinding::Some { raw, offset } };",
    'flag': "let mut t = @S@[i]; t.bound = true; t.raw = raw; t.offset = offset; @S@[i] = t;",
    'mask': "let stride = @S@[i].stride; @S@[i] = Slot { stride, raw, offset };",
}

# ---- draw: the plan (next state and batch), the command at a place, the thin fill

BATCH = """
pub struct Batch { pub at: usize, pub n: usize, pub sets: usize, pub mask: u32, @by-field@pub instance: u32, pub topology: u32, pub first_vertex: u32, pub vertex_count: u32, pub first_instance: u32, pub instance_count: u32, pub location: Location, pub slots: [Slot; 16] }
pub struct Plan { pub next: State, pub batch: Batch, pub outcome: Outcome }
fn nth(mask: u32, k: usize) -> u32 { let mut m = mask; let mut i: usize = 0; while i < k { m = m & (m - 1); i += 1; } u32::trailing_zeros(m) }
"""

SET_COMMAND = {
    'enum': """
fn described(t: Slot) -> bool { let d = t.desc; match d { SlotDesc::Some { step, stride } => true, SlotDesc::None => false } }
fn bound(t: Slot) -> bool { let d = t.binding; match d { SlotBinding::Some { raw, offset } => true, SlotBinding::None => false } }
fn set_command(t: Slot, index: u32, instance: u32) -> Command {
    let d = t.desc; let b = t.binding;
    match d {
        SlotDesc::None => Command::Nothing,
        SlotDesc::Some { step, stride } => {
            match b {
                SlotBinding::None => Command::Nothing,
                SlotBinding::Some { raw, offset } => {
                    let more: u64 = match step { Step::Vertex => 0, Step::Instance => (instance as u64) * (stride as u64) };
                    Command::SetVertexBuffer { index, buffer: Bound { raw, offset: offset + more }, desc: Desc { step, stride } }
                }
            }
        }
    }
}
""",
    'flag': """
fn described(t: Slot) -> bool { t.described }
fn bound(t: Slot) -> bool { t.bound }
fn step_of(b: bool) -> Step { if b { return Step::Instance; } Step::Vertex }
fn more_of(b: bool, instance: u32, stride: u32) -> u64 { if b { return (instance as u64) * (stride as u64); } 0 }
fn set_command(t: Slot, index: u32, instance: u32) -> Command {
    let step = step_of(t.instance);
    let more = more_of(t.instance, instance, t.stride);
    Command::SetVertexBuffer { index, buffer: Bound { raw: t.raw, offset: t.offset + more }, desc: Desc { step, stride: t.stride } }
}
""",
    'mask': """
fn step_of(b: bool) -> Step { if b { return Step::Instance; } Step::Vertex }
fn more_of(b: bool, instance: u32, stride: u32) -> u64 { if b { return (instance as u64) * (stride as u64); } 0 }
fn set_command(t: Slot, by: bool, index: u32, instance: u32) -> Command {
    let step = step_of(by);
    let more = more_of(by, instance, t.stride);
    Command::SetVertexBuffer { index, buffer: Bound { raw: t.raw, offset: t.offset + more }, desc: Desc { step, stride: t.stride } }
}
""",
}

FILL = """
fn draw_command(batch: Batch) -> Command {
    let location = batch.location;
    Command::Draw { topology: batch.topology, first_vertex: batch.first_vertex, vertex_count: batch.vertex_count, first_instance: batch.first_instance, instance_count: batch.instance_count, location }
}
pub fn command_at(batch: Batch, k: usize) -> Command {
    if k < batch.sets {
        let i = nth(batch.mask, k);
        let j = i as usize;
        let t = batch.slots[j];
        return @batch-set@;
    }
    draw_command(batch)
}
pub fn fill(list: &mut [Record], at: usize, n: usize, batch: Batch) {
    let mut k: usize = 0;
    while k < n {
        let c = command_at(batch, k);
        list[at + k] = Record { command: c };
        k += 1;
    }
}
fn batch_of(plan: Plan) -> Batch { plan.batch }
fn answer_of(plan: Plan) -> Answer { let state = plan.next; let o = plan.outcome; Answer { outcome: o, state } }
pub fn commit(list: &mut [Record], plan: Plan) -> Answer {
    let batch = batch_of(plan);
    let at = batch.at;
    let n = batch.n;
    fill(list, at, n, batch);
    answer_of(plan)
}
pub struct Fit { pub at: usize, pub n: usize, pub next: usize, pub refusal: u32 }
fn fit(phase: u32, sound: bool, room: usize, at: usize, n: usize) -> Fit {
    if !sound { return Fit { at: 0, n: 0, next: at, refusal: 5 }; }
    if phase != 2 { return Fit { at: 0, n: 0, next: at, refusal: 1 }; }
    if at > room { return Fit { at: 0, n: 0, next: at, refusal: 4 }; }
    if n > room - at { return Fit { at: 0, n: 0, next: at, refusal: 4 }; }
    Fit { at, n, next: at + n, refusal: 0 }
}
fn working(instancing: bool, first_instance: u32) -> u32 { if instancing { return 0; } first_instance }
fn woken(dirty: u32, instances: u32, active: u32, instance: u32) -> u32 { if active != instance { return dirty | instances; } dirty }
fn choose(ok: bool, a: u32, b: u32) -> u32 { if ok { return a; } b }
"""

# The dirty slots that are described and bound. With masks it is `dirty & described & bound`.
READY = """
fn ready(slots: [Slot; 16], dirty: u32) -> u32 {
    let mut m = dirty;
    let mut r: u32 = 0;
    while m != 0 {
        let b = u32::trailing_zeros(m);
        let i = b as usize;
        let t = slots[i];
        if described(t) && bound(t) { r = r | (1 << b); }
        m = m & (m - 1);
    }
    r
}
"""

LOOK = """    let phase = state.phase;
    let p = phase_number(phase);
    let sound = @sound@;
    let slots = state.@V@slots;
    let location = state.@B@location;
    let instance = working(board.instancing, first_instance);
    let dirty = woken(state.@V@dirty, state.@V@instance_mask, state.@V@active, instance);
    let mask = @ready@;
    let ones = u32::count_ones(mask);
    let sets = ones as usize;
    let f = fit(p, sound, room, state.@N@commands, sets + 1);
    let ok = f.refusal == 0;
"""

NEXT = """    let mut next = state;
    next.@V@dirty = choose(ok, dirty & !mask, state.@V@dirty);
    next.@V@active = choose(ok, instance, state.@V@active);
    next.@N@commands = f.next;
    let out = outcome(f.refusal);
"""

DRAW = {
    # one batch with a copy of the slots, written by one fill
    'batch': """
fn plan_draw(room: usize, board: Board, state: State, first_vertex: u32, vertex_count: u32, first_instance: u32, instance_count: u32) -> Plan {
@look@    let batch = Batch { at: f.at, n: f.n, sets, mask@by-batch@, instance, topology: state.@F@topology, first_vertex, vertex_count, first_instance, instance_count, location, slots };
@next@    Plan { next, batch, outcome: out }
}
pub fn draw(list: &mut [Record], board: Board, state: State, first_vertex: u32, vertex_count: u32, first_instance: u32, instance_count: u32) -> Answer {
    let plan = plan_draw(list.len(), board, state, first_vertex, vertex_count, first_instance, instance_count);
    commit(list, plan)
}
""",
    # the rebinds and the draw are two fills, and only the rebinds are handed the slots
    'split': """
pub struct Small { pub at: usize, pub n: usize, pub topology: u32, pub first_vertex: u32, pub vertex_count: u32, pub first_instance: u32, pub instance_count: u32, pub location: Location }
pub fn small_at(b: Small, k: usize) -> Command {
    let location = b.location;
    Command::Draw { topology: b.topology, first_vertex: b.first_vertex, vertex_count: b.vertex_count, first_instance: b.first_instance, instance_count: b.instance_count, location }
}
pub fn fill_small(list: &mut [Record], at: usize, n: usize, b: Small) {
    let mut k: usize = 0;
    while k < n {
        let c = small_at(b, k);
        list[at + k] = Record { command: c };
        k += 1;
    }
}
pub fn fill_sets(list: &mut [Record], at: usize, n: usize, mask: u32, instance: u32, @by-argument@slots: [Slot; 16]) {
    let mut k: usize = 0;
    let mut m = mask;
    while k < n {
        let i = u32::trailing_zeros(m);
        let j = i as usize;
        let t = slots[j];
        let c = @split-set@;
        list[at + k] = Record { command: c };
        m = m & (m - 1);
        k += 1;
    }
}
fn none_if(ok: bool, n: usize) -> usize { if ok { return n; } 0 }
pub fn draw(list: &mut [Record], board: Board, state: State, first_vertex: u32, vertex_count: u32, first_instance: u32, instance_count: u32) -> Answer {
    let room = list.len();
@look@    let n_sets = none_if(ok, sets);
    let n_draw = none_if(ok, 1);
    fill_sets(list, f.at, n_sets, mask, instance, @by-value@slots);
    let small = Small { at: f.at + n_sets, n: n_draw, topology: state.@F@topology, first_vertex, vertex_count, first_instance, instance_count, location };
    fill_small(list, f.at + n_sets, n_draw, small);
@next@    Answer { outcome: out, state: next }
}
""",
}

# A second user of fill, as in the recorder, where all draws share one.
FILL_AGAIN = """
fn blank(i: u64) -> Batch {
    let slots = start(1).@V@slots;
    Batch { at: 0, n: 1, sets: 0, mask: 0@by-none@, instance: 0, topology: 0, first_vertex: 0, vertex_count: (i & 1) as u32, first_instance: 0, instance_count: 0, location: Location::None, slots }
}
fn fill_again(list: &mut [Record], i: u64) { let b = blank(i); fill(list, 0, 1, b); }
"""

# ---- the starting state: in a render pass, slot 0 by vertex and slot 1 by instance, both bound

START_SLOTS = {
    'enum': """    let mut slots = [Slot { desc: SlotDesc::None, binding: SlotBinding::None }; 16];
    slots[0] = Slot { desc: SlotDesc::Some { step: Step::Vertex, stride: 32 }, binding: SlotBinding::Some { raw: 1, offset: 0 } };
    slots[1] = Slot { desc: SlotDesc::Some { step: Step::Instance, stride: 16 }, binding: SlotBinding::Some { raw: 2, offset: 0 } };
""",
    'flag': """    let mut slots = [Slot { described: false, instance: false, stride: 0, bound: false, raw: 0, offset: 0 }; 16];
    slots[0] = Slot { described: true, instance: false, stride: 32, bound: true, raw: 1, offset: 0 };
    slots[1] = Slot { described: true, instance: true, stride: 16, bound: true, raw: 2, offset: 0 };
""",
    'mask': """    let mut slots = [Slot { stride: 0, raw: 0, offset: 0 }; 16];
    slots[0] = Slot { stride: 32, raw: 1, offset: 0 };
    slots[1] = Slot { stride: 16, raw: 2, offset: 0 };
""",
}

START_ENUM = {
    'attribute': "Attribute { location: 0, offset: 0, buffer_index: 0, element_count: 4, element_format: 5126, kind: Kind::Float }",
    'target': "Target { mask: 15, blend: Blending::None }",
    'sampler': "SamplerSlot { sampler: Sampler::None }",
    'texture': "TextureSlot { target: 3553, number: Number::None }",
    'view': "View { inner: Inner::Default, aspects: 1, mip0: 0, mip1: 1, layer0: 0, layer1: 1, kind: SampleKind::Float, srgb: false }",
}
START_FLAG = {
    'attribute': "Attribute { location: 0, offset: 0, buffer_index: 0, element_count: 4, element_format: 5126, integer: false }",
    'target': "Target { mask: 15, blended: false, blend: Blend { a: 0, b: 0, c: 0, d: 0, e: 0, f: 0 } }",
    'sampler': "SamplerSlot { set: false, sampler: 0 }",
    'texture': "TextureSlot { target: 3553, sampled: false, number: 0 }",
    'view': "View { inner: 1, raw: 0, target: 0, aspects: 1, mip0: 0, mip1: 1, layer0: 0, layer1: 1, kind: 0, srgb: false }",
}

START_VERTEX = "index_format: IndexFormat::Uint32, index_offset: 0, @start-masks@slots, attributes: [@attribute@; 16], attribute_count: 3, instance_mask: 2, dirty: 0, active: 0"
START_FIXED = "topology: 4, primitive: Primitive { front_face: 0, cull_face: 0, polygon_mode: 0, unclipped: false }, targets: [@target@; 8], target_count: 1, stencil: Stencil { front: @side@, back: @side@ }, bias: Bias { constant: 0, slope: 0, clamp: 0 }, a2c: false, clips: 0"
START_SIDE = "Side { function: 519, read: 255, write: 255, reference: 0, pass: 7680, fail: 7680, depth_fail: 7680 }"
START_BINDS = "samplers: [@sampler@; 16], textures: [@texture@; 16], location: Location::At(3)"
START_PASS = "size: Extent { width: 800, height: 600, depth: 1 }, resolves: [Resolve { attachment: 0, view: @view@ }; 8], resolve_count: 0, invalid: 0, label: false, stamp: Stamp::None"
START_IMMEDIATES = "descs: @start-descs@, desc_count: 1, words: [seed; 64]"
START_COUNTS = "commands: 0, bytes: 0, queries: 0"

START_FLAT = """
fn start(seed: u32) -> State {
@start-slots@    State { phase: Phase::Render, @start-vertex@, @start-fixed@, @start-binds@, @start-pass@, @start-immediates@, @start-counts@ }
}
"""
START_NESTED = """
fn start(seed: u32) -> State {
@start-slots@    State { phase: Phase::Render, vertex: Vertex { @start-vertex@ }, fixed: Fixed { @start-fixed@ }, bind: Binds { @start-binds@ }, @start-imm@pass: Pass { @start-pass@ }, counts: Counts { @start-counts@ } }
}
"""

# ---- the driver. The operations come from an array, so that LLVM knows none of them.
# Operation 1 sets slot 0 or 1 in turn, 2 draws, 0 does nothing; 4, 5 and 6 never come and are
# there as further call sites. The upper bits of a word say whether the first instance changes.

CALL_SET = "set_vertex_buffer(board, @s@, (i & 1) as u32, ((i & 3) as u32) + 1, (i & 1023) * 64)"
CALL_DRAW = "draw(list, board, @s@, 0, 3, first, 1)"
CALL_SET_AGAIN = "set_vertex_buffer(board, @s@, (i & 3) as u32, 9, i)"
CALL_DRAW_AGAIN = "draw(list, board, @s@, 1, 4, 0, 2)"
COUNT_BAD = "let o = a.outcome; bad = bad + outcome_number(o);"

TURN = """
fn turn(list: &mut [Record], board: Board, state: State, op: u32, i: u64, first: u32) -> Answer {
    match op {
@turn-arms@        _ => Answer { outcome: Outcome::Done, state },
    }
}
"""

MAIN = """
fn outcome_number(o: Outcome) -> u64 { match o { Outcome::Done => 0, _ => 1 } }
pub struct End { pub sum: u64, pub bad: u64 }
fn run(list: &mut [Record], ops: &[u32; 64], n: u64, seed: u32, board: Board@first-argument@) -> End {
    let mut s = @first@;
    let mut i: u64 = 0;
    let mut bad: u64 = 0;
    while i < n {
        let word = ops[(i & 63) as usize];
        let op = word & 255;
        let first = (word >> 8) * (((i & 1) as u32) + 1);
@turn@        if op == 6 { fill_again(list, i); }
        if s.@N@commands > 4000 { s.@N@commands = 0; }
        i += 1;
    }
    let c0 = s.@N@commands as u64;
    let d0 = s.@V@dirty as u64;
    End { sum: c0 + d0 * 65536 + @a-word@, bad }
}
fn now<C: Clock>(clock: &C) -> u64 {
    let t = clock.monotonic().unwrap_or(Duration::ZERO);
    t.as_nanos() as u64
}
fn op_of(mode: u32, k: u32) -> u32 {
    match mode {
        0 => 0,
        1 => 1,
        2 => 2,
        3 => if k % 2 == 0 { 1 } else { 2 },
        4 => if k % 4 == 2 { 2 } else { if k % 4 == 3 { 0 } else { 1 } },
        5 => 258,
        _ => k % 6,
    }
}
fn weight(list: &[Record]) -> u64 {
    let mut i: usize = 0;
    let mut w: u64 = 0;
    while i < 4096 {
        let c = list[i].command;
        w = w * 31 % 1000003 + match c {
            Command::Draw { topology, first_vertex, vertex_count, first_instance, instance_count, location } => (topology as u64) + (vertex_count as u64) + (first_instance as u64) * 7,
            Command::SetVertexBuffer { index, buffer, desc } => (index as u64) * 3 + buffer.offset + (buffer.raw as u64) * 5 + (desc.stride as u64),
            _ => 1,
        };
        i += 1;
    }
    w
}
fn main(rt: HostRuntime) -> io::Result<()> {
    let board = Board { layout: true, barriers: false, instancing: false, msrtt: false };
    let mut list = [Record { command: Command::Nothing }; 4096];
    let n: u64 = 400000;
    let mut mode: u32 = 0;
    while mode < 6 {
        let mut ops: [u32; 64] = [0; 64];
        let mut k: u32 = 0;
        while k < 64 { ops[k as usize] = op_of(mode, k); k += 1; }
        let mut r: u32 = 0;
        while r < 11 {
            let a = now(&rt);
            @main-first@
            let e = run(&mut list, &ops, n, r, board@main-given@);
            let b = now(&rt);
            let took = b - a;
            let heavy = weight(&list);
            println!(rt; "{mode} {took} {} {} {heavy}", e.sum, e.bad)?;
            r += 1;
        }
        mode += 1;
    }
    @main-again@
    println!(rt; "{n}")
}
"""


# A second call of run, so that it is not inlined into main.
RUN_AGAIN = """let no_ops: [u32; 64] = [0; 64];
    @again-first@let again = run(&mut list, &no_ops, 3, 1, board@again-given@);
    if again.sum == 99 { println!(rt; "odd")?; }"""


def program(form, order, set, draw, drive, start, loop, sites):
    kind = {'f1': 'enum', 'f3': 'mask'}.get(form, 'flag')
    masks, flat, immediates = kind == 'mask', form == 'f5', form != 'f4'
    given = start == 'given'
    slots = 'slots' if set == 'local' else 'next.@V@slots'
    calls = [(1, CALL_SET), (2, CALL_DRAW)]
    if sites == 'two':
        calls += [(4, CALL_SET_AGAIN), (5, CALL_DRAW_AGAIN)]

    def only_masks(text):
        return text if masks else ''

    names = {
        # how a field of each part is reached
        'V': '' if flat else 'vertex.', 'F': '' if flat else 'fixed.', 'B': '' if flat else 'bind.',
        'P': '' if flat else 'pass.', 'I': '' if flat else 'imm.', 'N': '' if flat else 'counts.',
        # records
        'fillers': '\n'.join('    ' + FILLERS[k % 4] % k + ',' for k in range(47)),
        'slot': MASK_SLOT if masks else FLAG_SLOT,
        'vertex': (VERTEX_MASKS if masks else VERTEX)[order],
        'fixed': FIXED, 'binds': BINDS, 'pass': PASS, 'immediates': IMMEDIATES, 'counts': COUNTS,
        'descs': '[u32; 768]' if form == 'f6' else '[Imm; 192]',
        'imm-field': 'pub imm: Immediates, ' if immediates else '',
        # the calls
        'sound': SOUND,
        'desc-count': 'state.@I@desc_count' if immediates else '0',
        'take': 'let mut slots = state.@V@slots;' if set == 'local' else '',
        'put': 'next.@V@slots = slots;' if set == 'local' else '',
        'update': UPDATE[kind].replace('@S@', slots),
        'update-mask': only_masks('next.@V@bound = next.@V@bound | (1 << index);'),
        'ready': 'dirty & state.@V@described & state.@V@bound' if masks else 'ready(slots, dirty)',
        'look': LOOK, 'next': NEXT,
        'batch-set': 'set_command(t, batch.by_instance & (1 << i) != 0, i, batch.instance)' if masks else 'set_command(t, i, batch.instance)',
        'split-set': 'set_command(t, by_instance & (1 << i) != 0, i, instance)' if masks else 'set_command(t, i, instance)',
        'by-field': only_masks('pub by_instance: u32, '),
        'by-batch': only_masks(', by_instance: state.@V@by_instance'),
        'by-argument': only_masks('by_instance: u32, '),
        'by-value': only_masks('state.@V@by_instance, '),
        'by-none': only_masks(', by_instance: 0'),
        # the starting state
        'start-slots': START_SLOTS[kind], 'start-vertex': START_VERTEX, 'start-fixed': START_FIXED,
        'start-binds': START_BINDS, 'start-pass': START_PASS, 'start-immediates': START_IMMEDIATES,
        'start-counts': START_COUNTS, 'side': START_SIDE,
        'start-masks': only_masks('described: 3, bound: 3, by_instance: 2, '),
        'start-descs': '[0; 768]' if form == 'f6' else '[Imm { location: 0, ty: 0, offset: 0, size: 0 }; 192]',
        'start-imm': 'imm: Immediates { @start-immediates@ }, ' if immediates else '',
        # the driver
        'first-argument': ', first: State' if given else '',
        'first': 'first' if given else 'start(seed)',
        'main-first': 'let first = start(r);' if given else '',
        'main-given': ', first' if given else '',
        'a-word': '(s.@I@words[(n & 63) as usize] as u64)' if immediates else '0',
        'main-again': RUN_AGAIN if loop == 'apart' else '',
        'again-first': 'let other = start(3); ' if given else '',
        'again-given': ', other' if given else '',
        'turn-arms': ''.join(f"        {op} => {call.replace('@s@', 'state')},\n" for op, call in calls),
        'turn': f'        let a = turn(list, board, s, op, i, first);\n        s = a.state;\n        {COUNT_BAD}\n' if drive == 'turn' else
            '        ' + ' else '.join(f"if op == {op} {{ let a = {call.replace('@s@', 's')}; s = a.state; {COUNT_BAD} }}" for op, call in calls) + '\n',
    }
    names.update(START_ENUM if kind == 'enum' else START_FLAG)

    text = ''.join([
        COMMON, ENUM_ELEMENTS if kind == 'enum' else FLAG_ELEMENTS, SHARED_PARTS,
        FLAT_STATE if flat else NESTED_STATE, CHECKS, SET, BATCH, SET_COMMAND[kind], FILL,
        '' if masks else READY, DRAW[draw], FILL_AGAIN, START_FLAT if flat else START_NESTED,
        TURN if drive == 'turn' else '', MAIN,
    ])
    for _ in range(4):  # a filled-in text may have names of its own
        for name, value in names.items():
            text = text.replace(f'@{name}@', value)
    assert '@' not in text
    text = re.sub('(?m)^pub (struct|enum) ', r'#[derive(Clone, Copy)]\n\g<0>', text)
    return '\n'.join(line for line in text.split('\n') if line.strip()) + '\n'


def main():
    chosen = {name: values[0] for name, values in OPTIONS.items()}
    if len(sys.argv) < 2 or sys.argv[1] not in FORMS:
        sys.exit(f"usage: gen.py {'|'.join(FORMS)} " + ' '.join(f"[{k}={'|'.join(v)}]" for k, v in OPTIONS.items()))
    for word in sys.argv[2:]:
        name, _, value = word.partition('=')
        if value not in OPTIONS.get(name, ()):
            sys.exit(f'gen.py: {word}: no such option or value')
        chosen[name] = value
    sys.stdout.write(program(sys.argv[1], **chosen))


if __name__ == '__main__':
    main()
