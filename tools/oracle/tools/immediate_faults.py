"""Faults of the requested command.rs about immediates, for mutate.py: a name, and pairs of a text of the file and what stands in its place."""
SET = "self.set_pipeline_inner(&pipeline.inner);"
KEPT = "let sent = self.state.immediates_sent; " + SET + " self.state.immediates_sent = sent;"
RENDER, COMPUTE = "\n\n        // set primitive state", "\n    }"                # how each pipeline call goes on
WRITE = """        self.state.current_immediates_data[start_words as usize..end_words as usize]
            .copy_from_slice(data);
"""
READ = """let uniform_data = &self.state.current_immediates_data
                    [uniform_start_words as usize..uniform_end_words as usize];"""
FLAG = "        self.state.immediates_sent = true;\n"
TEST = "shares_word || !self.state.immediates_sent"
ENDED = "        self.state.instance_vbuf_mask = 0;\n        self.state.dirty_vbuf_mask = 0;\n"                # at the end of a render pass
BEFORE = "        let before = self.state.current_immediates_data;\n"
CHANGED = "        let changed = self.state.current_immediates_data[start_words as usize..end_words as usize] != *data;\n"
ONLY = """let mut words = self.state.current_immediates_data;
                for (k, w) in words.iter_mut().enumerate() { if k < start_words as usize || k >= end_words as usize { *w = 0; } }
                let uniform_data = &words[uniform_start_words as usize..uniform_end_words as usize];"""
FAULTS = [
    ("R7 a compute pipeline keeps the flag", SET + COMPUTE, KEPT + COMPUTE),
    ("R8 a render pipeline keeps the flag", SET + RENDER, KEPT + RENDER),
    ("R9 the flag is never set", FLAG, ""),
    ("R10 words that touch are shared", "start_words.max(uniform_start_words) < end_words", "start_words.max(uniform_start_words) <= end_words"),
    ("R11 the words before the write are sent", WRITE, BEFORE + WRITE, READ, READ.replace("self.state.current_immediates_data", "before")),
    ("R12 every descriptor is sent", TEST, "true || " + TEST),
    ("R13 a pass end clears the flag", ENDED, ENDED + "        self.state.immediates_sent = false;\n"),
    ("R14 words that keep their value are not written", WRITE, CHANGED + WRITE, TEST, "shares_word && changed || !self.state.immediates_sent"),
    ("R15 a call without words leaves the flag", FLAG, "        self.state.immediates_sent |= !data.is_empty();\n"),
    ("R16 the other order", "self.state.immediates_descs.iter().cloned()", "self.state.immediates_descs.iter().rev().cloned()"),
    ("R17 words that are not of the call are sent as 0", READ, ONLY),
    ("R18 a pipeline call does not matter", TEST, "shares_word"),
    ("R19 a descriptor of size 0 is never sent", TEST, "shares_word || !self.state.immediates_sent && uniform_size_words > 0"),
    ("R20 only the first word of a call is written", "end_words.min(uniform_end_words)", "(start_words + 1).min(uniform_end_words)"),
]
