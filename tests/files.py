"""files.py PROGRAM FOLDER ROOT [CASE..]: the commands over files, on real files in FOLDER."""
import os
import sys
import traceback

import files_changing
import files_ends
import files_faults
import files_keys
import files_lib
import files_more
import files_protecting
import files_signals
import files_streams
import files_words

os.chdir(files_lib.FOLDER)
os.chmod(".", 0o755)
# These share the folder, and each takes the files of those before it.
SHARED = [
    files_keys.key_files, files_keys.edits, files_streams.streams, files_streams.damage, files_ends.wrong_files, files_streams.rewraps,
    files_streams.tokens, files_streams.ranges, files_keys.wrapping, files_ends.former_words, files_ends.few_handles,
    files_ends.closed_pipes, files_ends.killed, files_ends.two_at_once, files_ends.terminals, files_ends.full_disks,
]
# These have folders of their own.
ALONE = [
    files_words.messages, files_words.mistakes, files_words.help_pages, files_words.names, files_more.templates, files_more.added, files_more.listings,
    files_more.standard_keys, files_more.invalid_keysets, files_more.long_files, files_more.memory, files_more.mastered, files_more.checked, files_protecting.descriptors, files_protecting.keys_as_output, files_protecting.apart,
    files_protecting.primitives, files_protecting.modes, files_protecting.links, files_signals.ended_by_signals, files_signals.leftovers,
    files_signals.writers_at_once, files_changing.shrinking, files_faults.few_bytes,
]
if files_faults.has_strace():
    ALONE += [files_faults.no_links, files_faults.faults, files_faults.signals_at_calls]
else:
    print("no strace here: calls of the system are not made to fail")
ALONE += [files_streams.large, files_ends.documents]

wanted = sys.argv[4:]
for case in ALONE if wanted else SHARED + ALONE:
    if wanted and case.__name__ not in wanted:
        continue
    before, said = files_lib.count(), None
    try:
        said = case()
    except Exception:
        files_lib.check(False, f"{case.__name__} ended: {traceback.format_exc()}")
        os.chdir(files_lib.FOLDER)
    print(f"{case.__name__}: {files_lib.count() - before} checks{', ' + said if said else ''}", flush=True)
if files_lib.FAILURES:
    print(f"{len(files_lib.FAILURES)} of {files_lib.count()} checks fail")
    sys.exit(1)
print(f"all {files_lib.count()} checks hold")
