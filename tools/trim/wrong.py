#!/usr/bin/env python3
"""wrong.py ORACLE FROM TO [TEXT]: libraries with one fault each, or those whose changed text has TEXT, built natively from a copy of the sources, on
the lists of tools/trim.sh FROM TO. A line each: `told by` the number of answers that tell it (a list without edits has two) and the first seed, or `NOT TOLD`.
Exit 1 if one is not told. ORACLE is the Rust's recorder as trim.sh builds it. Two at a time."""
import os
import sys

sys.path.insert(0, os.path.join(os.path.dirname(os.path.dirname(os.path.abspath(__file__))), "native"))
import faults  # noqa: E402  (tools/native/faults.py)

SEEN, TREAT, LIMITS, CLASS = "superseding/src/seen.rt", "superseding/src/treat.rt", "lists/src/limits.rt", "lists/src/class.rt"
# file, the text, which stands there once, and what it becomes
FAULTS = [
    (TREAT, "for i in (0..n).rev() {", "for i in 0..n {"),  # the later one is taken out
    (TREAT, "for i in (0..n).rev() {", "for i in (1..n).rev() {"),
    (TREAT, "Command::UnsetVertexAttribute(16)", "Command::UnsetVertexAttribute(15)"),
    (TREAT, "let mut j: usize = 0; for i in 0..n {", "let mut j: usize = 1; for i in 1..n {"),
    (TREAT, "list[j] = r;", ""),
    (TREAT, "let left = retain(list, n);", "let left = n;"),
    (TREAT, "blank_superseded(list, n, none)", "blank_superseded(list, list.len(), none)"),
    (TREAT, "if is_broken(s.breaks) { 0 } else { used.commands }", "if s.breaks.room { 0 } else { used.commands }"),
    (TREAT, "if is_broken(s.breaks) { used.commands } else { left }", "left"),
    (TREAT, "let none = nothing_seen();", "let none = Seen { buffers: 1, samplers: 0, singles: 0 };"),
    (TREAT, "let none = nothing_seen();", "let none = Seen { buffers: 0, samplers: 32768, singles: 0 };"),
    (SEEN, "Class::Draw => true,", "Class::Draw => false,"),
    (SEEN, "Class::Clear => true,", "Class::Clear => false,"),
    (SEEN, "Class::Dispatch => true,", "Class::Dispatch => false,"),
    (SEEN, "Class::Reset => true,", "Class::Reset => false,"),
    (SEEN, "Class::Sets(_) => false,", "Class::Sets(_) => true,"),
    (SEEN, "Class::Other => false,", "Class::Other => true,"),
    (SEEN, "Mark::VertexBuffer(i),", "Mark::VertexBuffer(0),"),
    (SEEN, "Mark::VertexBuffer(i),", "Mark::VertexBuffer(i % 8),"),
    (SEEN, "Mark::VertexBuffer(i),", "Mark::Sampler(i),"),
    (SEEN, "Mark::VertexBuffer(i),", "Mark::Nothing,"),
    (SEEN, "Mark::Sampler(u),", "Mark::Sampler(0),"),
    (SEEN, "Mark::Sampler(u),", "Mark::Nothing,"),
    (SEEN, "Thing::IndexBuffer => Mark::Single(3),", "Thing::IndexBuffer => Mark::Nothing,"),
    (SEEN, "Thing::Viewport => Mark::Single(1),", "Thing::Viewport => Mark::Nothing,"),
    (SEEN, "Thing::Scissor => Mark::Single(2),", "Thing::Scissor => Mark::Nothing,"),
    (SEEN, "Thing::BlendConstants => Mark::Single(0),", "Thing::BlendConstants => Mark::Nothing,"),
    (SEEN, "Thing::DepthBias => Mark::Single(4),", "Thing::DepthBias => Mark::Nothing,"),
    (SEEN, "Thing::Viewport => Mark::Single(1),", "Thing::Viewport => Mark::Single(2),"),
    (SEEN, "Thing::BlendConstants => Mark::Single(0),", "Thing::BlendConstants => Mark::Single(4),"),
    (SEEN, "Thing::Program => Mark::Nothing,", "Thing::Program => Mark::Single(5),"),
    (SEEN, "Thing::Primitive => Mark::Nothing,", "Thing::Primitive => Mark::Single(5),"),
    (SEEN, "Thing::Depth => Mark::Nothing,", "Thing::Depth => Mark::Single(4),"),
    (SEEN, "Thing::Texture(_) => Mark::Nothing,", "Thing::Texture(u) => Mark::Sampler(u),"),
    (SEEN, "Thing::Attribute(_) => Mark::Nothing,", "Thing::Attribute(i) => Mark::VertexBuffer(i),"),
    (SEEN, "test(seen.samplers, u)", "test(seen.buffers, u)"),
    (SEEN, "samplers: set(seen.samplers, u), ..seen", "samplers: set(seen.samplers, u), singles: 0, ..seen"),
    (SEEN, "buffers: set(seen.buffers, i), ..seen", "buffers: set(seen.buffers, i), samplers: 0, ..seen"),
    (SEEN, "if ends(class) { nothing_seen() }", "if ends(class) { Seen { buffers: 0, samplers: 0, singles: seen.singles } }"),
    (SEEN, "if ends(class) { nothing_seen() }", "if ends(class) { Seen { buffers: seen.buffers, samplers: 0, singles: 0 } }"),
    # values compared: of a sampler, of a vertex buffer, of an index buffer
    (CLASS, "Command::BindSampler(slot, _) => Class::Sets(Thing::Sampler(slot)),",
     "Command::BindSampler(slot, None) => Class::Sets(Thing::Sampler(slot)),\n"
     "        Command::BindSampler(slot, Some(s)) => Class::Sets(Thing::Sampler((slot % 16 + s % 16) % 16)),"),
    (CLASS, "Command::SetVertexBuffer { index, .. } => Class::Sets(Thing::VertexBuffer(index)),",
     "Command::SetVertexBuffer { index, buffer, .. } => Class::Sets(Thing::VertexBuffer((index % 16 + buffer.raw % 16) % 16)),"),
    (CLASS, "Command::SetIndexBuffer(_) => Class::Sets(Thing::IndexBuffer),", "Command::SetIndexBuffer(b) => Class::Sets(Thing::Sampler(b % 16)),"),
    (LIMITS, "many: breaks.many,", "many: false,"),
    (LIMITS, "breaks.many | (breaks.range | breaks.room)", "breaks.many | breaks.range"),
    (LIMITS, "breaks.many | (breaks.range | breaks.room)", "breaks.range | breaks.room"),
    (LIMITS, "too_many(8 < count)", "too_many(9 < count)"),
    (LIMITS, "Command::BindSampler(unit, _) => out_of_range(16 <= unit)", "Command::BindSampler(unit, _) => out_of_range(16 < unit)"),
    (LIMITS, "Command::SetVertexBuffer { index, .. } => out_of_range(16 <= index)", "Command::SetVertexBuffer { index, .. } => out_of_range(16 < index)"),
    (LIMITS, "(MAX_COMMANDS < used.commands)", "(MAX_COMMANDS <= used.commands)"),
    (LIMITS, "(room < used.commands)", "(room <= used.commands)"),
]
# each command that ends the wait ends nothing; each that does not ends it
ENDS = {"Draw": ("Draw { .. }", "DrawIndexed { .. }", "DrawIndirect { .. }", "DrawIndexedIndirect { .. }"),
        "Dispatch": ("Dispatch(_, _, _)", "DispatchIndirect { .. }"), "Reset": ("ResetFramebuffer { .. }",),
        "Clear": ("ClearColorF { .. }", "ClearColorU(_, _)", "ClearColorI(_, _)", "ClearDepth(_)", "ClearStencil(_)", "ClearDepthAndStencil(_, _)")}
OTHERS = ("ClearBuffer { .. }", "CopyBufferToBuffer { .. }", "BeginQuery(_, _)", "EndQuery(_)", "TimestampQuery(_)", "CopyQueryResults { .. }",
          "BindAttachment { .. }", "ResolveAttachment { .. }", "InvalidateAttachments(_)", "SetDrawColorBuffers(_)", "BufferBarrier(_, _)", "TextureBarrier(_)",
          "PushDebugGroup(_)", "PopDebugGroup", "SetImmediates { .. }")
for name, patterns in ENDS.items():
    FAULTS += [(CLASS, f"Command::{pattern} => Class::{name},", f"Command::{pattern} => Class::Other,") for pattern in patterns]
FAULTS += [(CLASS, f"Command::{pattern} => Class::Other,", f"Command::{pattern} => Class::Reset,") for pattern in OTHERS]


def main():
    if len(sys.argv) not in (4, 5):
        sys.exit(__doc__)
    oracle, first, end, *text = sys.argv[1:]
    faults.run([fault for fault in FAULTS if "".join(text) in fault[2]], "trim", [oracle, "-", first, end])


main()
