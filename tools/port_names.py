#!/usr/bin/env python3
"""port_names.py: run once at the repository's top, after the toolchain's port.py. Brings this repository's own definitions and lemmas
to one spelling, snake case (`planOf`, `plan-of` become `plan_of`): in specs/, proofs/, the clauses of src/, the wrong answers of
must-fail/ and wrong/, and in what the pages of docs/ and README.md quote. Functions of src/, exported names, strings, inputs and
outputs keep their names. In the wrong answers, which port.py leaves, it also turns the older spelling of paths, operators, fields and
clauses."""
import glob
import re
import sys

CRATES = "answer calls clocks configure kinds limits numbers order plan planner pll record startup text woolturret".split()
NAME = r"[A-Za-zℕ_][\w'ℕ-]*"
TOKEN = re.compile(r"(?<![\w'ℕ-])" + NAME)

# Names that would fall together with another of the repository: a lemma beside the definition that it is about, and words that are
# a tactic's in the toolchain.
APART = {
    'base-in': 'base_in_lem', 'default-line': 'default_line_lem', 'planned-answer': 'planned_answer_lem',
    'planned-line': 'planned_line_lem', 'search-in': 'search_in_lem', 'sysclk-by': 'sysclk_by_lem', 'vco-by': 'vco_by_lem',
    'wait-named': 'wait_named_lem', 'wanted-in': 'wanted_in_lem', 'plan-of': 'plan_of_lem', 'tail-of': 'tail_of_lem',
    'callOf': 'call_setting', 'plan-number': 'plan_number_lem', 'saiVco': 'sai_vco_of', 'i2sVco': 'i2s_vco_of', 'firstOf': 'first_refusal', 'lt_of_not-le': 'lt_of_not-le',
}


def snake(name):
    if name in APART:
        return APART[name]
    name = name.replace('-', '_')
    name = re.sub(r'([a-z0-9])([A-Z])', r'\1_\2', name)
    return re.sub(r'([A-Z]+)([A-Z][a-z])', r'\1_\2', name).lower()


def is_old(name):
    return '-' in name or re.match(r'[a-z]\w*[A-Z]', name)


def is_own(path):
    parts = path.split('.')
    return parts[0] == 'Rattle' and len(parts) > 1 and parts[1] in CRATES


def imports(text):
    for path, names in re.findall(r'^(?:ghost )?use ([\w.·-]+)\.\{([^}]*)\}', text, re.M):
        yield path, [part.strip() for part in names.split(',')]


def written(text):
    """The names that a file of specs/ or proofs/ writes, but for those of the toolchain that it imports."""
    foreign = set()
    for path, names in imports(text):
        if not is_own(path):
            foreign.update(name.split(' as ')[0] for name in names)
    lines = [re.sub(r'--( .*)?$', '', line) for line in text.split('\n')]
    return {name for line in lines for name in TOKEN.findall(line) if is_old(name)} - foreign


def specs_and_lemmas():
    for file in sorted(glob.glob('crates/*/specs/**/*.antt', recursive=True) + glob.glob('crates/*/proofs/**/*.antt', recursive=True)):
        if not file.endswith('/Proof.antt'):
            yield file


def renamed(text, names):
    # a record that is well-formed is no name
    return re.sub(r'^( *--.*)well_formed', r'\1well-formed', TOKEN.sub(lambda found: names.get(found.group(0), found.group(0)), text), flags=re.M)


def code(text, names):
    """A file of src/: outside of its strings; a name with a dash in clauses alone."""
    plain = {name: new for name, new in names.items() if '-' not in name}
    text = re.sub(r'("(?:[^"\\\n]|\\.)*")|([^"]+|")', lambda part: part.group(1) or renamed(part.group(2), plain), text)
    return re.sub(r'^ *(?:ghost use|requires|ensures) .*$', lambda line: renamed(line.group(0), names), text, flags=re.M)


def quoted(text, names):
    return re.sub(r'`[^`\n]*`', lambda part: renamed(part.group(0), names), text)


def defined():
    """All words of specs/ and proofs/: port.py has turned some of the names before."""
    words = set()
    for file in specs_and_lemmas():
        with open(file, encoding='utf-8') as opened:
            words.update(TOKEN.findall(opened.read()))
    return words


class Also(dict):
    """The names and, where its new form is a word of specs/ or proofs/, any other old one: what port.py turned there."""
    def __init__(self, names):
        super().__init__(names)
        self.words = defined()

    def get(self, name, other=None):
        if name in self or not is_old(name) or snake(name) not in self.words:
            return super().get(name, other)
        return snake(name)


OPERATOR = re.compile(r'(?<![\w-])_([^\w\s{},.()]+)_(?![\w-])')


def spelled(line):
    """One line of a wrong answer in the older spelling, in today's."""
    line = re.sub(r'Rattle·(\w+)(?:·(?:specs|proofs))?\.(specs|proofs)', r'Rattle.\1.\2', line)
    line = line.replace('.the-variants.', '.TheVariants.')
    if re.match(r'(ghost )?use ', line):
        line = OPERATOR.sub(lambda found: '◌' + found.group(1) + '◌', line)
        line = re.sub(r'use (mathlib\.Core\.\w+|Prim\.Native\.Nat|lib\.(Dec|ListN|Seq))\.', 'use Rattle.std.specs.Prelude.', line)
    line = re.sub(r'ensures \{ λ r\. ⌜ (.*) ⌝ \}', lambda found: 'ensures { ' + re.sub(r'\br\b', 'result', found.group(1)) + ' }', line)
    line = re.sub(r'requires \{ ⌜ (.*) ⌝ \}', r'requires { \1 }', line)
    line = re.sub(r'\bnow (\w+)', r'\1.now', line)
    line = re.sub(r'(?<=[\w\')])(?: \.([a-z0-9][\w-]*))+', lambda found: found.group(0).replace(' .', '.'), line)
    return re.sub(r'\(([\w\'-]+(?:\.[\w-]+)+)\)', r'\1', line)


def edit(text, names):
    out, file = [], ''
    for line in text.split('\n'):
        head = re.match(r'(old|new): ?', line)
        if line.startswith('file: '):
            file = line[6:]
        turned = renamed(spelled(line[head.end():]), names) if head else quoted(line, names)
        out.append(head.group(0) + apart(file, turned) if head else turned)
    return '\n'.join(out)


def apart(file, text):
    """`firstOf` of kinds and `first-of` of startup, which port.py made one word, which is a tactic's too."""
    new = 'first_place' if file.startswith('crates/startup/proofs/Demands') else 'first_refusal'
    if file == 'crates/planner/proofs/Pieces.antt':
        # `tail-of`, a lemma, beside `tailOf`
        return re.sub(r'^tail_of (?=: |zero|\(suc)|(?<=rw \()tail_of(?= \(length)', lambda found: found.group(0).replace('tail_of', 'tail_of_lem'), text, flags=re.M)
    if file.endswith('.edit'):
        return text
    if file.endswith('.rt'):
        # `callOf`, the definition of `call`, beside the function `call_of`
        text = text.replace('specs.Calls.{call_of}', 'specs.Calls.{call_setting}').replace('≡ call_of cfgr', '≡ call_setting cfgr')
        return text.replace('spec.first_of ', 'spec.first_refusal ').replace('seekOf', 'seek_of')
    text = re.sub(r"(?<![\w'.-])call_of(?![\w'.-])", 'call_setting', text)
    return re.sub(r"(?<![\w'.-])first_of(?![\w'.-])", new, text)


def turn(files, change):
    for file in files:
        with open(file, encoding='utf-8') as opened:
            text = opened.read()
        new = apart(file, change(text)) if file.startswith('crates/') else change(text)
        if new != text:
            with open(file, 'w', encoding='utf-8') as opened:
                opened.write(new)


def main():
    names = {}
    for file in specs_and_lemmas():
        with open(file, encoding='utf-8') as opened:
            names.update((name, snake(name)) for name in written(opened.read()))
    proofs = sorted(glob.glob('crates/*/proofs/**/Proof.antt', recursive=True))
    pages = sorted(glob.glob('docs/*.md')) + ['README.md']
    turn(specs_and_lemmas(), lambda text: renamed(text, names))
    turn(proofs, lambda text: renamed(text, names))
    turn(sorted(glob.glob('crates/*/src/**/*.rt', recursive=True)), lambda text: code(text, names))
    also = Also(names)
    turn(sorted(glob.glob('crates/*/must-fail/*.edit') + glob.glob('crates/*/wrong/*.edit')), lambda text: edit(text, also))
    turn(pages, lambda text: quoted(text, also))
    for old, new in sorted(names.items()):
        if old != new:
            print(old, new)


if __name__ == '__main__':
    sys.exit(main())
