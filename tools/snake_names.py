#!/usr/bin/env python3
"""Spells the repository's own definitions and lemmas in snake case. Run once, at the top of the repository, after the kit's port.py.

Renamed are names that crates/*/specs/*.antt and crates/*/proofs/*.antt declare, in these files, in the files of functions' proofs that
import them, in clauses and imports of crates/*/src, and in must-fail edits. A lemma whose name would be that of a definition gets `_lem`.
Names of functions, of fields of structs and of exported symbols, strings, inputs and outputs stay."""
import glob
import re

# Names that would fall together with a definition's, or that have a part in the old spelling of a library's name.
GIVEN = {
    'data-key': 'data_key_there', 'nonce-bytes': 'nonce_is_bytes', 'getD-from': 'get_or_from', 'getD-xors': 'get_or_xors',
    'no_key': 'no_key_lem', 'no_room': 'no_room_lem', 'handed_out': 'handed_out_lem', 'left_by': 'left_by_lem', 'on_line': 'on_line_lem',
    'frame_step': 'frame_step_lem', 'same_bytes': 'same_bytes_lem', 'wrong_size': 'wrong_size_lem', 'writes_nothing': 'writes_nothing_lem',
}
LEMMAS = '''after-by at-start command-content connection-step connection-there escape-byte first-again first-only inv-sub-byte is-done
last-length length-of line-by message-content no-session one-image packet-sealed packet-text past-packet plain-answer plain-opened
plain-session result-content run-by sealed-opened sealed-work session-there sub-byte values-of whole-minutes wrong-length'''.split()

DECLARED = re.compile(r"^\s*(?:abbrev |unfoldable |opaque )?(?:pub )?(?:abbrev |unfoldable )?([^\s:(){},.λ]+)(?: \{[^}]*\})*\s+:(?:\s|$)")
TOKEN = re.compile(r"[^\s(){}\[\],;.:λ∷\"`|\\]+")
IMPORT = re.compile(r"use Rattle\.[^\s{;]*\.\{([^}]*)\}", re.S)


def is_camel(name):
    return name[0].islower() and re.search(r"[a-z0-9][A-Z]", name) is not None and '-' not in name


def snake(name):
    if name in GIVEN:
        return GIVEN[name]
    if name in LEMMAS:
        return name.replace('-', '_') + '_lem'
    if name[0].isupper() or not (is_camel(name) or '-' in name):
        return name
    return re.sub(r"(?<=[a-z0-9])_?([A-Z])", r"_\1", name.replace('-', '_')).lower()


def declared(paths):
    names = set()
    for path in paths:
        with open(path, encoding='utf-8') as f:
            for line in f:
                m = DECLARED.match(line)
                if m:
                    names.add(m.group(1))
    return names


def main():
    specs = sorted(glob.glob('crates/*/specs/*.antt'))
    lemmas = sorted(glob.glob('crates/*/proofs/*.antt'))
    functions = sorted(set(glob.glob('crates/*/proofs/**/*.antt', recursive=True)) - set(lemmas))
    sources = sorted(glob.glob('crates/*/src/**/*.rt', recursive=True))
    edits = sorted(glob.glob('crates/*/must-fail/*.edit'))
    names = declared(specs + lemmas)
    renamed = {n: snake(n) for n in names if snake(n) != n}
    camel = {n for n in renamed if is_camel(n)}

    def turn(text, own):
        return TOKEN.sub(lambda m: renamed[m.group(0)] if m.group(0) in own else m.group(0), text)

    for path in specs + lemmas + functions + sources + edits:
        with open(path, encoding='utf-8') as f:
            old = f.read()
        if path in specs or path in lemmas:
            new = turn(old, renamed)
        elif path in functions:
            imported = {x.strip().split(' ')[0] for m in IMPORT.finditer(old) for x in m.group(1).split(',')}
            own = {n for n in renamed if n in imported or n in camel}
            # behind a dot, such a name is a field's
            new = TOKEN.sub(
                lambda m: renamed[m.group(0)]
                if m.group(0) in own and (m.group(0) in camel or old[m.start() - 1] != '.')
                else m.group(0), old)
        else:
            hyphened = {n for n in renamed if '-' in n}
            new = re.sub(r"(?m)^ghost use .*?;", lambda m: turn(m.group(0), hyphened), turn(old, camel), flags=re.S)
        if new != old:
            with open(path, 'w', encoding='utf-8') as f:
                f.write(new)


main()
