#!/usr/bin/env python3
"""derivative_terms.py TRANSFORM.RS [--write]

Reads the coefficients c1 to c5 of the three axes out of AnimatedTransform::new (pbrt-rust's transform.rs).
- Says whether the three columns of each term have one and the same form (they must, or the port's one formula over the column is wrong).
- With --write, writes for each axis the crate derivative_AXIS: its definitions, its code and its proofs, in the Rust's own order of operations; `rt fmt` lays them out.
- Without it, compares what the committed crates hold with the Rust, formula by formula.
Exit status 1 where a column differs or a formula departs from the Rust."""
import os, re, sys

HERE = os.path.join(os.path.dirname(os.path.abspath(__file__)), '..')
AXES = 'xyz'
NUMBER = r'\d+\.\d*'
TOKEN = re.compile(NUMBER + r'|[A-Za-z_]\w*|[-+*()]')
NAMES = {1.0: 'one', 2.0: 'two', 4.0: 'four'}
ARGUMENTS = 'q0x q0y q0z q0w qperpx qperpy qperpz qperpw theta s00 s01 s02 s10 s11 s12'.split()


def terms(source):
    """The four arguments of each DerivativeTerm::new, by (term, axis)."""
    found = {}
    for m in re.finditer(r'res\.c([1-5])\[([0-2])\] = DerivativeTerm::new\(', source):
        depth, part, parts = 1, '', []
        for ch in source[m.end():]:
            depth += (ch == '(') - (ch == ')')
            if depth == 0:
                break
            if ch == ',' and depth == 1:
                parts.append(part)
                part = ''
            else:
                part += ch
        parts.append(part)
        found[int(m[1]), int(m[2])] = parts
    return found


def over_column(text, column):
    """s0rc and s1rc become s0r and s1r; a name of another column stays as it is, and is found by the comparison."""
    return re.sub(r'\bs([01])([012])%d\b' % column, r's\1\2', text)


def parse(text):
    tokens, at = TOKEN.findall(text), 0
    assert re.sub(TOKEN.pattern + r'|\s', '', text) == '', text

    def peek():
        return tokens[at] if at < len(tokens) else None

    def take():
        nonlocal at
        at += 1
        return tokens[at - 1]

    def sum_():
        e = product()
        while peek() in ('+', '-'):
            e = (take(), e, product())
        return e

    def product():
        e = unary()
        while peek() == '*':
            e = (take(), e, unary())
        return e

    def unary():
        if peek() == '-':
            take()
            return ('neg', unary())
        if peek() == '(':
            take()
            e = sum_()
            assert take() == ')'
            return e
        t = take()
        return float(t) if re.match(NUMBER, t) else t

    e = sum_()
    assert at == len(tokens), text
    return e


def definition(text):
    """The Rust's text with the definitions' operators: same layout, same tokens."""
    text = re.sub(NUMBER, lambda m: NAMES[float(m[0])], text.strip())
    text = re.sub(r'(^|[(\n]\s*)-(\w+)', r'\1neg \2', text)
    text = re.sub(r'(^|[(\n]\s*)-\(', r'\1neg (', text)
    return text.replace('*', '⊗').replace('+', '⊕').replace('-', '⊖')


def undo(text):
    """What `definition` made, back in the Rust's tokens."""
    text = text.replace('⊗', '*').replace('⊕', '+').replace('⊖', '-').replace('neg ', '-')
    for value, name in NAMES.items():
        text = re.sub(r'\b%s\b' % name, str(value), text)
    return text


def lay_out(text, indent):
    lines = [l.strip() for l in text.strip().split('\n')]
    return ('\n' + ' ' * indent).join(lines)


def column_formulas(found):
    formulas, bad = {}, False
    for (term, axis), parts in sorted(found.items()):
        columns = [over_column(parts[1 + c], c) for c in range(3)]
        forms = [parse(c) for c in columns]
        if forms[1] != forms[0] or forms[2] != forms[0]:
            print(f'c{term}[{axis}]: its columns differ')
            bad = True
        formulas[term, axis] = columns[0]
    return formulas, bad


def specs(axis, formulas):
    a = AXES[axis]
    bodies = {term: lay_out(definition(formulas[term, axis]), 4) for term in range(1, 6)}
    literals = ''.join(', ' + n for n in NAMES.values() if any(re.search(r'\b%s\b' % n, b) for b in bodies.values()))
    out = [f"""-- The coefficients of the derivative of the motion along {a}: c1 to c5, each over one column of the two scale matrices. From 000, AnimatedTransform::new,
-- `res.c1[{axis}]` to `res.c5[{axis}]`, line by line; the Rust writes each three times, once for every column. s00, s01, s02 are the column's entries in the start's S,
-- s10, s11, s12 those in the end's. tools/derivative_terms.py holds these lines against the Rust's.
use Rattle.std.specs.Prelude.{{Float}}
use Rattle.std.specs.Float.Ieee.{{neg}}
use Rattle.float32.specs.Operators.{{◌⊕◌, ◌⊖◌, ◌⊗◌{literals}}}
"""]
    for term in range(1, 6):
        n = f'c{term}{a}'
        out.append(f"unfoldable pub {n} : {' → '.join(['Float'] * (len(ARGUMENTS) + 1))}\n{n} {' '.join(ARGUMENTS)} =\n    {bodies[term]}\n")
    return '\n'.join(out)


def code(axis, formulas):
    a = AXES[axis]
    names = ', '.join(f'c{t}{a}' for t in range(1, 6))
    out = [f"""// The coefficients of the derivative of the motion along {a}, over one column of the two scale matrices: 000's c1 to c5, in its order of operations.
#![tactic(auto)]

ghost use Rattle.std.specs.Prelude.{{◌≡◌}};
ghost use Rattle.derivative_{a}.specs.Terms.{{{names}}};
"""]
    for term in range(1, 6):
        n = f'c{term}{a}'
        args = ''.join(f'    {x}: f32,\n' for x in ARGUMENTS)
        out.append(f"pub fn {n}(\n{args}) -> f32\n    ensures value {{ result ≡ {n} {' '.join(ARGUMENTS)} }}\n{{\n    {lay_out(re.sub(NUMBER, lambda m: repr(float(m[0])), formulas[term, axis]), 4)}\n}}\n")
    return '\n'.join(out)


def proof(axis, term):
    a = AXES[axis]
    n = f'c{term}{a}'
    return f"""-- `{n}` meets its contract: its operations are the definition's.
use mathlib.Core.Path.{{refl}}
use Rattle.derivative_{a}.specs.Terms.{{{n}}}
use Rattle.derivative_{a}.proofs.{n}.Goals as goal

pub returns : goal.returns
unfolding {n}
returns c = record {{ value = refl }}
"""


def write(path, text):
    os.makedirs(os.path.dirname(path), exist_ok=True)
    with open(path, 'w', encoding='utf-8') as f:
        f.write(text)


def committed(axis, term):
    """The formula of a term as the definition has it, and as the code has it."""
    crate = os.path.join(HERE, 'crates', 'derivative_' + AXES[axis])
    n = f'c{term}{AXES[axis]}'
    spec = open(os.path.join(crate, 'specs', 'Terms.antt'), encoding='utf-8').read()
    src = open(os.path.join(crate, 'src', 'lib.rt'), encoding='utf-8').read()
    left = re.escape(n + ' ' + ' '.join(ARGUMENTS) + ' =')
    d = re.search(left + r'(.*?)(?=\n\n|\Z)', spec, re.S)[1]
    c = re.search(r'pub fn ' + n + r'\b.*?\n\{(.*?)\n\}', src, re.S)[1]
    return undo(d), c


def main():
    source = open(sys.argv[1], encoding='utf-8').read()
    found = terms(source)
    assert len(found) == 15, len(found)
    formulas, bad = column_formulas(found)
    if '--write' in sys.argv:
        for axis, a in enumerate(AXES):
            crate = os.path.join(HERE, 'crates', 'derivative_' + a)
            write(os.path.join(crate, 'specs', 'Lib.antt'), 'pub mod Terms\n')
            write(os.path.join(crate, 'specs', 'Terms.antt'), specs(axis, formulas))
            write(os.path.join(crate, 'src', 'lib.rt'), code(axis, formulas))
            for term in range(1, 6):
                write(os.path.join(crate, 'proofs', f'c{term}{a}', 'Answers.antt'), proof(axis, term))
    for (term, axis), text in sorted(formulas.items()):
        for what, ours in zip(('definition', 'code'), committed(axis, term)):
            if parse(ours) != parse(text):
                print(f'c{term}[{axis}]: the {what} is not the Rust\'s')
                bad = True
    if not bad:
        print('15 terms, 3 columns each: one form; definitions and code are the Rust\'s')
    sys.exit(bad)


main()
