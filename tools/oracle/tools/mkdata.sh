#!/bin/bash
# Makes data/sessions.flat, sessions.out, sessions.index and counts.txt anew (README.md, 'The comparison data'),
# prints the table of counts and fails if one of them is too small.
# mkdata.sh [--scripts DIR]   DIR: also leave the scripts of all sessions there, with their flat forms and what each build prints for them
#                             (NNN.BUILD.txt, NNN.BUILD.flat, NNN.BUILD.out)
set -euo pipefail
cd "$(dirname "$0")/.."
tools/build.sh
python3 tools/mkdata.py "$@"
python3 tools/flat_check.py data/sessions.flat data/sessions.out
