#!/usr/bin/env python3
"""Does the harness have teeth? Builds the oracle from copies of the published command.rs (M) and of the requested one (R)
with one fault each (in target/mut; nothing else is touched) and says who notices: the model and the book in random
sessions, the cases, the sessions of data/ (outputs that differ from those of the build without the fault), and the
comparison of the two builds (how many of the outputs that differ requests.py refuses)."""
import glob, subprocess, os, shutil
import requests
from immediate_faults import FAULTS
R = os.path.dirname(os.path.dirname(os.path.abspath(__file__))); W = R + '/target/mut/ws'
shutil.rmtree(W, ignore_errors=True); os.makedirs(W)
for d in ('Cargo.toml', '.cargo', 'oracle', 'shims', 'upstream', 'cases', 'tools'):
    (shutil.copytree if os.path.isdir(f'{R}/{d}') else shutil.copy)(f'{R}/{d}', f'{W}/{d}')
FILES = {'published': 'upstream/command.rs', 'requested': 'oracle/src/requested/command.rs'}
subprocess.run(['tools/mkdata.sh', '--scripts', R + '/target/mut/scripts'], cwd=R, stdout=subprocess.DEVNULL, check=True)
M = [('M0 none', '', ''),
('M1 dirty wholesale at a draw', 'self.state.dirty_vbuf_mask ^= 1 << index;', 'self.state.dirty_vbuf_mask = 0;'),
('M2 reference survives', 'self.state.stencil = stencil.clone();', 'let r = self.state.stencil.front.reference; self.state.stencil = stencil.clone(); self.state.stencil.front.reference = r; self.state.stencil.back.reference = r;'),
('M3 no sampler rebind at pipeline', 'if dirty_textures != 0 {', 'if false {'),
('M4 instance ignored', '        } else {\n            first_instance\n        };', '        } else {\n            0\n        };'),
('M5 first instance kept over a pass end', '        self.state.active_first_instance = 0;\n', ''),
('M6 targets recorded always', 'if self.state.color_targets[..] != pipeline.color_targets[..] {', 'if true {'),
('M7 changed description not dirty', 'self.state.dirty_vbuf_mask |= 1 << index;\n                *state_desc', '*state_desc'),
('M8 instance offset doubled without layout', 'attribute_desc.offset += buffer_desc.stride * first_instance;', 'attribute_desc.offset += 2 * buffer_desc.stride * first_instance;'),
('M9 default framebuffer by any place', '.first()\n            .filter(|at| at.is_some())', '.iter().find(|at| at.as_ref().is_some_and(|a| matches!(a.target.view.inner, super::TextureInner::DefaultRenderbuffer)))'),
('R0 none', '', ''),
('R1 every slot remembers every draw', '        if self.state.dirty_vbuf_mask != 0 {\n            self.rebind_vertex_data(emulated_first_instance_value);\n        }\n',
 '        if self.state.dirty_vbuf_mask != 0 {\n            self.rebind_vertex_data(emulated_first_instance_value);\n        }\n        self.state.active_first_instance = [emulated_first_instance_value; crate::MAX_VERTEX_BUFFERS];\n'),
('R2 numbers kept over a pass end', '        self.state.active_first_instance = [0; crate::MAX_VERTEX_BUFFERS];\n', ''),
('R3 any described slot is woken', 'if self.state.instance_vbuf_mask & (1 << index) != 0\n', 'if self.state.vertex_buffers[index].0.is_some()\n'),
('R4 only slots of the pipeline that step remember', 'self.state.active_first_instance[index] = first_instance;', 'if self.state.instance_vbuf_mask & (1 << index) != 0 { self.state.active_first_instance[index] = first_instance; }'),
('R5 nothing is remembered without layout', '                self.state.active_first_instance[attribute.buffer_index as usize] = first_instance;\n', ''),
('R6 a woken slot without a buffer remembers', '            {\n                self.state.dirty_vbuf_mask |= 1 << index;\n', '            {\n                self.state.active_first_instance[index] = emulated_first_instance_value;\n                self.state.dirty_vbuf_mask |= 1 << index;\n'),
]
def text(path):
    with open(path) as f: return f.read()
def refused(script, build, printed):
    """Whether requests.py refuses what the faulty build prints for a script, beside what the other build prints."""
    at = script[:-len(f'{build}.txt')]
    pair = [(text(f'{at}{b}.flat'), printed if b == build else text(f'{at}{b}.out')) for b in ('published', 'requested')]
    try: requests.hold(*pair)
    except (requests.Unequal, IndexError, StopIteration): return True      # the last two: the output stops early
    return False
for n, *pairs in M + FAULTS:
    build = {'M': 'published', 'R': 'requested'}[n[0]]
    src = open(f'{R}/{FILES[build]}').read()
    scripts = sorted(glob.glob(f'{R}/target/mut/scripts/*.{build}.txt'))
    want = [text(f[:-len('txt')] + 'out') for f in scripts]
    for a, b in zip(pairs[::2], pairs[1::2]):
        assert a == '' or src.count(a) == 1, n
        src = src.replace(a, b) if a else src
    open(f'{W}/{FILES[build]}', 'w').write(src)
    r = subprocess.run(['cargo', 'build', '--target-dir', 'target/' + build, *(['--features', 'oracle/published'] if build == 'published' else [])], cwd=W, capture_output=True, text=True)
    assert r.returncode == 0, r.stderr[-600:]
    o = f'{W}/target/{build}/debug/oracle'
    fuzz = lambda *k: subprocess.run([o, *k], capture_output=True, text=True).stdout.strip().split('\n')[-1]
    fz = fuzz('fuzz', '0', '300') + ', mixed: ' + fuzz('fuzz', '0', '300', '--mixed') + ', slider: ' + fuzz('fuzz', '0', '300', '--slider')
    bk = fuzz('bookfuzz', '0', '300', '--mixed') or 'stopped (the model objects first)'
    cs = subprocess.run(['bash', '-c', f'{"PUBLISHED" if build == "published" else "ORACLE"}={o} tools/check_cases.sh --{build} | grep -c FAIL'], cwd=W, capture_output=True, text=True).stdout.strip()
    got = [subprocess.run([o, 'run', f, '--no-model', '--all', '--bytes', '--queries', '--state'], capture_output=True, text=True).stdout for f in scripts]
    differ = [(f, g) for f, g, w in zip(scripts, got, want) if g != w]
    rs = sum(refused(f, build, g) for f, g in differ)
    print(f'{n} | fuzz: {fz} | book: {bk[:100]} | cases failing: {cs} | data differing: {len(differ)} of {len(want)}, {rs} of them refused', flush=True)
shutil.rmtree(R + '/target/mut', ignore_errors=True)
