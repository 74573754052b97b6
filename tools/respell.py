#!/usr/bin/env python3
"""Brings the repository's own definitions and lemmas to the spelling of today's Rattle: words in snake case, a dash only where it joins
two names, a lemma that would have its function's name with _lem. The table respelled-names.tsv has the names, old and new.
Usage: tools/respell.py ROOT [FILE..]: rewrites the .antt and .rt files of ROOT/crates, or the files named alone; run once, behind port.py."""
import glob
import os
import re
import sys

TOKEN = re.compile(r'[^][\s(){},;."`«»⌜⌝⟨⟩]+')


def main(root, files):
    here = os.path.dirname(os.path.abspath(__file__))
    table = dict(line.rstrip('\n').split('\t') for line in open(os.path.join(here, 'respelled-names.tsv'), encoding='utf-8'))
    for path in files or sorted(glob.glob(root + '/crates/**/*.antt', recursive=True) + glob.glob(root + '/crates/**/*.rt', recursive=True)):
        text = open(path, encoding='utf-8', newline='').read()

        def new(match):
            token = match.group(0)
            # a lemma that makes way for a function: not where the token is a path's part, a function's step or Rust
            if table.get(token) == token + '_lem':
                behind_dot = match.start() > 0 and text[match.start() - 1] == '.'
                if path.endswith('.rt') or (behind_dot and token != 'store_length'):
                    return token
            return table.get(token, token)

        turned = TOKEN.sub(new, text)
        if turned != text:
            open(path, 'w', encoding='utf-8', newline='').write(turned)


main(sys.argv[1], sys.argv[2:])
