"""Spoils a list of calls, or the source, in one place at a time, to see that tools/check_calls finds each."""
import glob
import os
import shutil
import subprocess
import sys
import tempfile

ROOT = os.path.dirname(os.path.dirname(os.path.dirname(os.path.abspath(__file__))))
READ = ['crates.txt', 'crates/demands/specs/Sources.antt', 'crates/demands/specs/Calls.antt', 'crates/demands/proofs/Sources.antt',
        'crates/demands/specs/SourcesForC.antt', 'crates/vrt49/specs/Calls.antt', 'crates/demands/proofs/SourcesForC.antt',
        *(os.path.relpath(path, ROOT) for path in glob.glob(f'{ROOT}/crates/*/src/lib.rt'))]

# a file, what stands in it, what is put in its place, and a part of the line that must be printed
SPOILT = [
    ('crates/page/src/lib.rt', 'pub fn put_back(', 'pub fn put_over(', 'page::put_over has no line in crates/demands/specs/Sources.antt'),
    ('crates/fields/src/lib.rt', 'pub use places::{Found, find};', 'pub use places::{Found, find_all};', 'fields::find_all has no line'),
    ('crates/vrt49/src/lib.rt', 'pub use tables::{vrt49_play, ', 'pub use tables::{vrt49_hear, ', 'vrt49::vrt49_hear has no line in crates/demands/specs/SourcesForC.antt'),
    ('crates/vrt49/src/lib.rt', 'vrt49_write_survey,\n};', 'vrt49_write_survey, vrt49_write_all,\n};', 'vrt49::vrt49_write_all has no line'),
    ('crates/demands/specs/Sources.antt', 'play.Asked play.Learnt', 'play.Asked read.Learnt', 'play::play has no line'),
    ('crates/demands/specs/Calls.antt', '∷ save_call ∷', '∷', 'page::save is save_call, which is not in `calls`'),
    ('crates/vrt49/specs/Calls.antt', ' ∷ for_changed\n', '\n', 'vrt49::vrt49_changed is for_changed, which is not in `calls_for_c`'),
    ('crates/demands/proofs/Sources.antt', 'find_kept = find_met.met', 'find_kept = read_met.met', 'fields::find has no theorem'),
    ('crates/demands/proofs/SourcesForC.antt', 'for_c_read_kept = read_met.met', '', 'vrt49::vrt49_read has no theorem'),
]


def said(root):
    done = subprocess.run([sys.executable, f'{ROOT}/tools/check_calls', root], capture_output=True, text=True)
    return done.returncode, done.stdout + done.stderr


wrong = 0
with tempfile.TemporaryDirectory() as root:
    for path in READ:
        os.makedirs(os.path.dirname(f'{root}/{path}'), exist_ok=True)
        shutil.copy(f'{ROOT}/{path}', f'{root}/{path}')
    if said(root)[0] != 0:
        sys.exit('test_calls.py: the copy is not taken as it is')
    for path, old, new, wanted in SPOILT:
        with open(f'{root}/{path}', encoding='utf-8') as file:
            whole = file.read()
        if whole.count(old) != 1:
            sys.exit(f'test_calls.py: {old!r} stands {whole.count(old)} times in {path}')
        with open(f'{root}/{path}', 'w', encoding='utf-8') as file:
            file.write(whole.replace(old, new))
        status, lines = said(root)
        if status == 0 or wanted not in lines:
            wrong += 1
            print(f'not found: {new!r} for {old!r} in {path}\n{lines}')
        with open(f'{root}/{path}', 'w', encoding='utf-8') as file:
            file.write(whole)
print(f'{len(SPOILT)} spoilt lists of calls, {len(SPOILT) - wrong} found')
sys.exit(1 if wrong else 0)
