#!/usr/bin/env python3
"""wrong.py ORACLE FROM TO [TEXT]: libraries with one fault each, or those whose changed text has TEXT, built natively from a copy of the sources, on
the pairs of tools/boards.sh FROM TO. A line each: `told by` the number of pairs that tell it and the first seed that does, or `NOT TOLD`.
Exit 1 if one is not told. ORACLE is the Rust's recorder as boards.sh builds it. Two at a time."""
import os
import sys

sys.path.insert(0, os.path.join(os.path.dirname(os.path.dirname(os.path.abspath(__file__))), "native"))
import faults  # noqa: E402  (tools/native/faults.py)

ALIKE, COMPARE, SETTINGS, LIMITS, CLASS = "boards/src/alike.rt", "boards/src/compare.rt", "boards/src/settings.rt", "lists/src/limits.rt", "lists/src/class.rt"
# file, the text, which stands there once, and what it becomes
FAULTS = [
    (ALIKE, "bits32(x) == bits32(y)", "x == y"),
    (ALIKE, "bits32(x) == bits32(y)", "(x == y) | ((x != x) & (y != y))"),
    (ALIKE, "bits32(x) == bits32(y)", "(x == y) & (bits32(x) == bits32(y))"),
    (ALIKE, "bits32(x) == bits32(y)", "bits32(x + 0.0) == bits32(y + 0.0)"),
    (ALIKE, "bits32(x) == bits32(y)", "bits32(x) % 2147483648 == bits32(y) % 2147483648"),
    (ALIKE, "bits32(x) == bits32(y)", "bits32(x) == bits32(x)"),
    (ALIKE, "same_bits(x.a, y.a)", "same_bits(x.b, y.b)"),
    (ALIKE, "same_bits(x.r, y.r)", "same_bits(x.r, x.r)"),
    (ALIKE, "    x == y\n", "    (x.element_format == y.element_format) & (x.attrib_kind == y.attrib_kind)\n"),
    (ALIKE, "    x == y\n", "    (x.element_count == y.element_count) & (x.attrib_kind == y.attrib_kind)\n"),
    (ALIKE, "    x == y\n", "    (x.element_count == y.element_count) & (x.element_format == y.element_format)\n"),
    (ALIKE, "(x.buffer == y.buffer)", "(x.buffer == x.buffer)"),
    (ALIKE, "(x.stride == y.stride)", "(x.stride == x.stride)"),
    (ALIKE, "(x.step == y.step)", "(x.step == x.step)"),
    (ALIKE, "same_sum(x.offset, x.base, y.offset, y.base)", "same_sum(x.offset, x.base, x.offset, x.base)"),
    (ALIKE, "same_sum(x.offset, x.base, y.offset, y.base)", "same_sum(x.offset, 0, y.offset, 0)"),
    (ALIKE, "if more <= d { d - more == b } else { false }", "if more <= d { d - more == b } else { 18446744073709551615 - more + d + 1 == b }"),
    (ALIKE, "(None, None) => true,", "(None, None) => false,"),
    (ALIKE, "buffer_at(s, at.buffer_index)", "buffer_at(s, 0)"),
    (ALIKE, "match attribute_at(y, location) {", "match attribute_at(x, location) {"),
    (ALIKE, "for l in 0..MAX_VERTEX_ATTRIBUTES", "for l in 1..MAX_VERTEX_ATTRIBUTES"),
    (ALIKE, "for l in 0..MAX_VERTEX_ATTRIBUTES", "for l in 0..MAX_VERTEX_ATTRIBUTES - 1"),
    (ALIKE, "same_option_u32(x.program, y.program)", "same_option_u32(x.program, x.program)"),
    (ALIKE, "(same_option_u32(x.program, y.program) & same_color(x.blend, y.blend))", "same_option_u32(x.program, y.program)"),
    (COMPARE, "if a.many | b.many", "if a.many | a.many"),
    (COMPARE, "if a.range | b.range", "if b.range | b.range"),
    (COMPARE, "if a.room | b.room", "if a.room | a.room"),
    (COMPARE, "if p.draws != q.draws", "if p.draws < q.draws"),
    (COMPARE, "Compared::Differs(m.draws)", "Compared::Differs(one_more(m.draws))"),
    (COMPARE, "if more_b & !is_draw(class_b)", "if more_b & !is_draw(class_a)"),
    (COMPARE, "draws: one_more(m.draws),", "draws: m.draws,"),
    (SETTINGS, "place_attribute(s, location, None),", "s,"),
    (SETTINGS, "place_attribute(s, attribute_desc.location, Some(held))", "place_attribute(s, attribute_desc.buffer_index, Some(held))"),
    (SETTINGS, "Command::SetProgram(program) => Settings { program: Some(program), ..s },", "Command::SetProgram(_) => s,"),
    (SETTINGS, "            r: 0.0,", "            r: 1.0,"),
    (LIMITS, "(COLOR_ATTACHMENT8 <= attachment)", "(COLOR_ATTACHMENT8 < attachment)"),
    (LIMITS, "out_of_range(1024 <= set)", "out_of_range(1024 < set)"),
    (LIMITS, "too_many(8 < count)", "too_many(9 < count)"),
    (LIMITS, "too_many(8 < count)", "out_of_range(8 < count)"),
    (LIMITS, "Command::ClearColorF { draw_buffer, .. } => out_of_range(8 <= draw_buffer)", "Command::ClearColorF { draw_buffer, .. } => out_of_range(8 < draw_buffer)"),
    (LIMITS, "out_of_range(bad_attribute(attribute_desc))", "out_of_range(16 <= attribute_desc.location)"),
    (LIMITS, "Command::UnsetVertexAttribute(location) => out_of_range(16 <= location)", "Command::UnsetVertexAttribute(location) => out_of_range(16 < location)"),
    (LIMITS, "Command::SetVertexBuffer { index, .. } => out_of_range(16 <= index)", "Command::SetVertexBuffer { index, .. } => out_of_range(16 < index)"),
    (LIMITS, "|i| 8 <= i", "|i| 8 < i"),
    (LIMITS, "Command::BindBuffer { slot, .. } => out_of_range(256 <= slot)", "Command::BindBuffer { slot, .. } => out_of_range(16 <= slot)"),
    (LIMITS, "Command::BindSampler(unit, _) => out_of_range(16 <= unit)", "Command::BindSampler(unit, _) => out_of_range(16 < unit)"),
    (LIMITS, "r.end < r.start", "r.end <= r.start"),
    (LIMITS, "room: used.queries < (range.end as usize)", "room: used.queries <= (range.end as usize)"),
    (LIMITS, "(used.bytes < (range.end as usize))", "(used.bytes < (range.start as usize))"),
    (LIMITS, "let end = (offset as u64) + (d.size_bytes as u64);", "let end = offset as u64;"),
    (LIMITS, "range: bad_descriptor(d),", "range: false,"),
    (LIMITS, "(MAX_COMMANDS < used.commands)", "(MAX_COMMANDS + 1 < used.commands)"),
    (LIMITS, "(MAX_BYTES < used.bytes)", "(MAX_BYTES + 1 < used.bytes)"),
    (LIMITS, "(MAX_QUERIES < used.queries)", "(MAX_QUERIES + 1 < used.queries)"),
    (LIMITS, "(room < used.commands)", "(room + 1 < used.commands)"),
    (LIMITS, "range: a.range | b.range,", "range: b.range,"),
    (CLASS, "Command::DrawIndirect { .. } => Class::Draw,", "Command::DrawIndirect { .. } => Class::Other,"),
    (CLASS, "Command::DispatchIndirect { .. } => Class::Dispatch,", "Command::DispatchIndirect { .. } => Class::Draw,"),
]


def main():
    if len(sys.argv) not in (4, 5):
        sys.exit(__doc__)
    faults.run([fault for fault in FAULTS if "".join(sys.argv[4:]) in fault[2]], "boards", sys.argv[1:4])


main()
