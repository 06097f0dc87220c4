"""What the tools print: messages on bad listings, other ways to write the same, the commands, the examples."""
import glob
import os
import random
import re
import subprocess
import sys
import tempfile

from kinds import KINDS
from listings.line import Line
from listings.read import parse, picture_of
from listings.shape import SIZES, Wrong, pack
from listings.show import show, show_record
from views import page, text
from views.calls import REFUSED
from views.steps import steps
from views.why import verdicts

# Lines that say the same.
ALIKE = [
    ('Bin.Add r1, r2, r3', 'Bin.1 r1, r2, r3'),
    ('Bin.add r1, r2, r3', 'Bin.1 r1,r2,r3'),
    ('Load.B4 r1, r2', 'Load.2 r1, r2'),
    ('Const\tr1\t=\t-8\tloc\t7', 'Const r1 = -8  loc 7'),
    ('Stmt via 3 loc 7', 'Stmt  loc 7 via 3'),
    ('Ret -', 'Ret'),
    ('Drive -, r1, r2', 'Drive -, r1, r2, -'),
    ('Cat r1, r2, r3', 'Cat r1, r2, r3 []'),
    ('Cat r1, r2, r3 [r1] scalars 0', 'Cat r1, r2, r3 [r1]'),
    ('Alloc r1, r2 {12: 5, 11: 6}', 'Alloc r1, r2 {11: 6, 12: 5}'),
    ('ConstF r1 = 0x3FF0000000000000', 'ConstF r1 = 0x3ff0000000000000'),
    ('raw 55 0 1 4294967295 4294967295 4294967295 4294967295 0 0 0 0 0 0 0 0 0', 'Ret r1'),
]
# What is put into a listing to alter it.
WORDS = ['', 'r1', 'r99', '-', '->', '[', ']', '{', '}', ',', '@', '0', '1', '7', '-5', '4294967296', 'loc', 'via', 'vias', 'types', 'block', 'bounds',
         'raw', 'Cat', 'Const', 'CondBr', '=', '.', '\t', '#', 'scalars', 'table', 'registers', 'operands', '0x10', 'é']
HEADS = [
    ('registers 4\ntypes r1=Ptr r2=Sig', 'registers 4\ntypes r1=ptr\ntypes r2 = SIG r3=i64'),
    ('registers 4\nreplay 0 1', '\ufeffregisters\t4\r\nreplay 0\nreplay 1 # twice'),
    ('registers 4\ntable 0 -> 0, 0', 'registers 4\ntargets 0 0\npairs 0 2'),
]


def picture(text_):
    return pack(picture_of(text_.encode(), 'listing'))


def messages(checks):
    for path in sorted(glob.glob('tests/tools/bad/*.txt')):
        try:
            parse(open(path, encoding='utf-8').read().split('\n'), path)
            said = 'nothing is said\n'
        except Wrong as e:
            said = f'{e}\n'
        checks.golden(path[:-4] + '.say', said)
        checks.holds(f'{path}: each message has a line', all(re.match(rf'{path}:\d+: ', line) for line in said.splitlines()))


def sizes(checks):
    """Each size at its bound is taken, and one more is not, with its line."""
    texts = {
        'block': lambda n: 'registers 1\n' + ''.join(f'block {b}\n' for b in range(n)),
        'instruction': lambda n: 'registers 1\nblock 0\n' + 'Ret\n' * n,
        'register': lambda n: f'registers {n}\nblock 0\n',
        'operand': lambda n: 'registers 1\noperands' + ' r0' * n + '\nblock 0\n',
        'pair word': lambda n: 'registers 1\ntargets 0\npairs' + ' 0 1' * (n // 2) + ' 0' * (n % 2) + '\nblock 0\n',
        'target': lambda n: 'registers 1\ntargets' + ' 0' * n + '\nblock 0\n',
        'replay word': lambda n: 'registers 1\nreplay' + ' 0' * n + '\nblock 0\n',
        'via word': lambda n: 'registers 1\nvia-words' + ' 0' * n + '\nblock 0\n' + 'Ret\n' * n,
    }
    lines = {'block': 66, 'instruction': 515, 'register': 1, 'pair word': 3}
    for part, most in SIZES.items():
        checks.holds(f'{most} {part}s are taken', picture(texts[part](most)))
        try:
            said = picture(texts[part](most + 1)) and ''
        except Wrong as e:
            said = str(e)
        checks.holds(f'{most + 1} {part}s: {said}', f'listing:{lines.get(part, 2)}: {most + 1} {part}s, the program takes {most}' in said)


def alike(checks):
    for one, other in ALIKE:
        both = [picture(f'registers 4\nvias\nblock 0\n  {line}\n') for line in (one, other)]
        checks.same(f'{one} and {other}', *both)
    for one, other in HEADS:
        checks.same(f'{one!r} and {other!r}', picture(one + '\nblock 0\nblock 1\n'), picture(other + '\nblock 0\nblock 1\n'))


def forms(checks):
    """Every form by name and by number, and back."""
    for kind in KINDS:
        for form in range(kind.least, kind.most + 1):
            record = [kind.number, form] + [0xFFFFFFFF] * 5 + [0] * 9
            for names in {str(form), kind.forms.get(form, str(form)), kind.forms.get(form, str(form)).upper()}:
                line = Line.__new__(Line)
                line.words, line.at, line.as_is = ['.', names], 0, False
                checks.same(f'{kind.name}.{names}', line.form(kind), form)
            shown = show_record(record, [], 0)[0].split()[0]
            checks.holds(f'{shown} of form {form}', shown in ('raw', kind.name if not form else f'{kind.name}.{kind.forms[form]}'))


def long_chain(checks):
    """A chain of 800 instructions is tried, one of 801 is not. No picture within the program's sizes has one."""
    for many, want in (800, 'tried'), (801, 'long'):
        text_ = 'as-is\nregisters 9\nblock 0\n' + 'Cmp r3, r1, r1\n' * (many - 2) + 'Cat r2, r1, r1\nCondBr r0 -> 1, 2\nblock 1\nRet\nblock 2\nRet\n'
        checks.same(f'a chain of {many}', verdicts(parse(text_.split('\n')))[0].test, want)


def altered(random_, text_):
    """A listing with some places altered."""
    for _ in range(random_.randint(1, 3)):
        at = random_.randrange(len(text_) + 1)
        text_ = text_[:at] + random_.choice(WORDS) + random_.choice(('', ' ', '\n')) + text_[at + random_.choice((0, 0, 1, 2, 5, 20)):]
    return text_


def strict(checks, entry):
    """Of altered listings, what is taken is never refused by the pass, and reads back; of the others a line is named."""
    random_, taken = random.Random(1), 0
    good = [open(path, encoding='utf-8').read() for path in sorted(glob.glob('examples/*.txt')) if 'refused' not in path]
    for _ in range(3000):
        made = altered(random_, random_.choice(good))
        try:
            p = picture_of(made.encode(), 'listing')
        except Wrong as e:
            checks.holds(f'a line is named: {e}', all(re.match(r'listing:\d+: ', line) for line in str(e).split('\n')))
            continue
        taken += 1
        checks.holds(f'taken, but refused:\n{made}', entry.call(pack(p))[0] < REFUSED)
        checks.holds(f'reads back otherwise:\n{made}', parse(show(p).split('\n')) == p)
    checks.holds(f'{taken} altered listings are taken', 200 < taken < 2800)


def command(*args, data=b''):
    ran = subprocess.run([sys.executable, *args], input=data, capture_output=True)
    return ran.returncode, ran.stdout, ran.stderr.decode()


def commands(checks):
    """Where the commands write, and how they end."""
    listing, bad = 'examples/listing.txt', 'tests/tools/bad/const-two.txt'
    bytes_ = picture(open(listing, encoding='utf-8').read())
    for tool in 'tools/listing.py', 'tools/view.py':
        code, out, err = command(tool, '--help')
        checks.holds(f'{tool} --help', code == 0 and out.startswith(b'A picture' if 'listing' in tool else b'What the pass') and not err)
        code, out, err = command(tool)
        checks.holds(f'{tool} alone', code == 2 and not out and tool in err)
    checks.same('pack', command('tools/listing.py', 'pack', listing), (0, bytes_, ''))
    checks.same('show and pack', command('tools/listing.py', 'pack', data=command('tools/listing.py', 'show', data=bytes_)[1])[1], bytes_)
    said = open(bad[:-4] + '.say', encoding='utf-8').read()
    checks.same('a bad listing', command('tools/listing.py', 'pack', bad), (1, b'', said))
    checks.same('a bad listing viewed', command('tools/view.py', bad), (1, b'', said))
    checks.same('no file', command('tools/listing.py', 'pack', 'no such file'), (1, b'', 'no such file: No such file or directory\n'))
    checks.same('bytes as text', command('tools/listing.py', 'pack', data=b'\xff\x00')[0], 1)
    checks.same('text as bytes', command('tools/listing.py', 'show', listing)[:2], (1, b''))
    checks.same('a refused picture viewed', command('tools/view.py', 'examples/refused.txt')[0], 1)
    checks.same('its graph', command('tools/view.py', '--dot', 'examples/refused.txt')[:2], (1, b''))
    checks.holds('colour where it is asked for', b'\033[' in command('tools/view.py', '--color', listing)[1] and b'\033[' not in command('tools/view.py', listing)[1])
    checks.same('a room that is too large', command('tools/view.py', '--registers', '513', listing)[0], 2)
    checks.holds('less room', b'short: no room after 0 rounds' in command('tools/view.py', '--registers', '11', listing)[1])


def make_view(checks):
    """`make view` takes any file name, and a picture's bytes too."""
    with tempfile.TemporaryDirectory() as folder:
        path = os.path.join(folder, 'it\'s my "file" $x.txt')
        for data in open('examples/listing.txt', 'rb').read(), picture(open('examples/listing.txt', encoding='utf-8').read()):
            open(path, 'wb').write(data)
            ran = subprocess.run(['make', '-s', 'view', 'FILE=' + path.replace('$', '$$')], capture_output=True, text=True)
            want = open('examples/expected/listing.view', encoding='utf-8').read()
            checks.same('make view', (ran.returncode, ran.stdout.split('\n')[1:], ran.stderr), (0, want.split('\n')[1:], ''))


def run_text(entry, p):
    """What `make run` prints: the text of sinkrounds, and the listing after."""
    out = subprocess.run(['target/bin/sinkrounds'], input=pack(p), capture_output=True).stdout.decode()
    number, found = steps(entry, p)
    return out if number >= REFUSED else out + '\n' + show(found[-1].after if found else p)


def views(checks, entry, paths, folder):
    for path in paths:
        name = os.path.basename(path)
        p = parse(open(path, encoding='utf-8').read().split('\n'), path)
        number, found = steps(entry, p)
        checks.golden(f'{folder}/{name[:-4]}.view', '\n'.join(text.view(p, number, found, name)) + '\n')
        checks.holds(f'{path}: a page', page.view(p, number, found, name))
        if len(found) > 1:
            checks.golden(f'{folder}/{name[:-4]}.rounds', '\n'.join(text.view(p, number, found, name, each=True)) + '\n')
        if folder.startswith('examples'):
            checks.golden(f'{folder}/{name[:-4]}.run', run_text(entry, p))


def readme(checks, entry):
    """The example of tools/README.md moves."""
    lines = re.search(r'\n\n((?:    .*\n)*    registers(?:.*\n)(?:    .*\n)*)', open('tools/README.md', encoding='utf-8').read())[1].split('\n')
    checks.holds('the example of tools/README.md moves', 0 < steps(entry, parse(lines))[0] < 100)


def run(checks, entry):
    messages(checks)
    sizes(checks)
    alike(checks)
    forms(checks)
    long_chain(checks)
    strict(checks, entry)
    commands(checks)
    make_view(checks)
    views(checks, entry, sorted(glob.glob('examples/*.txt')), 'examples/expected')
    views(checks, entry, sorted(glob.glob('tests/tools/views/*.txt')), 'tests/tools/views')
    readme(checks, entry)
