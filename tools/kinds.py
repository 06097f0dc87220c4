#!/usr/bin/env python3
"""kinds.py: the kinds of instructions as printed in include/virdzeba.h and docs/REFERENCE.md, from crates/model/specs/Kinds.antt.

    tools/kinds.py           writes what stands between the two markers of each file anew
    tools/kinds.py --check   compares it; where they differ, shows how and ends with 1

What a kind's slots do, its list, its forms and its arm are the page's, whose numbers are proved and compared with the Rust. The
names of slots and forms and the words beside a kind are this file's, for readers alone. Other tools take KINDS and FORMS from here."""
import difflib
import os
import re
import sys

ROOT = os.path.join(os.path.dirname(os.path.abspath(__file__)), '..')
PAGE = os.path.join(ROOT, 'crates/model/specs/Kinds.antt')
BEGIN, END = 'printed by tools/kinds.py', 'end of what tools/kinds.py prints'

# The forms that have names; of a kind that is not here the form is 0.
FORMS = {
    'AddrOf': {0: 'Frame', 1: 'Up', 2: 'Inst', 3: 'Pkg', 4: 'Const', 5: 'Shared'},
    'Load': {1: 'B1', 2: 'B4', 3: 'B8', 4: 'Sig'},
    'Store': {1: 'B1', 2: 'B4', 3: 'B8', 4: 'Sig'},
    'Bin': {0: 'Other', 1: 'Add', 2: 'Sub', 3: 'Mul', 4: 'Div'},
    'BoolOp': {0: 'Two', 1: 'Not'},
    'LogicOp': {0: 'Two', 1: 'One'},
    'LNum': {0: 'Array', 1: 'Cmp'},
    'Cat': {0: 'Bytes', 1: 'Logic'},
    'Check': {0: 'Length', 1: 'Null', 2: 'Range', 3: 'Index', 4: 'IndexDown'},
    'LayoutOf': {0: 'Made', 1: 'Cached'},
    'Call': {0: 'Runs', 1: 'Suspends'},
    'CallNative': {0: 'Plain', 1: 'Image', 2: 'Light'},
    'CallProt': {0: 'Runs', 1: 'Suspends'},
}

# What a form is, where its name does not say it.
MEANT = {
    'AddrOf.Frame': "the function's own frame",
    'AddrOf.Up': "an outer function's frame",
    'AddrOf.Inst': 'the data of the instance, read only',
    'AddrOf.Pkg': "a package's data",
    'AddrOf.Const': 'the constants of the program, read only',
    'AddrOf.Shared': 'shared variables',
    'Load.B1': '1 byte',
    'Load.B4': '4 bytes',
    'Load.B8': '8 bytes',
    'Load.Sig': "a signal's reference",
    'Store.B1': '1 byte',
    'Store.B4': '4 bytes',
    'Store.B8': '8 bytes',
    'Store.Sig': "a signal's reference",
    'Bin.Other': 'remainder, modulus, power',
    'BoolOp.Two': 'and, or, xor',
    'LogicOp.Two': 'of two arrays',
    'LogicOp.One': 'not, and the three conversions',
    'LNum.Array': 'a sum or difference, into memory',
    'LNum.Cmp': 'a comparison, into a register',
    'Cat.Bytes': 'pieces of bytes',
    'Cat.Logic': 'pieces of logic arrays',
    'Check.Length': 'value is low',
    'Check.Null': 'value is not 0',
    'Check.Range': 'value is from low to high',
    'Check.Index': 'the same, of an index',
    'Check.IndexDown': 'the same, of a range that descends',
    'LayoutOf.Cached': 'kept in the frame',
    'Call.Runs': 'does not suspend',
    'Call.Suspends': 'may suspend',
    'CallNative.Plain': 'any other',
    'CallNative.Image': "'image of a number or an enumeration; its list has one register, else it is plain",
    'CallNative.Light': 'reads its list, returns a new block of memory, touches nothing else',
    'CallProt.Runs': 'does not suspend',
    'CallProt.Suspends': 'may suspend',
}

# Of each kind the names of its slots, in order, and what it is.
SAID = """
Const value: the whole number in words 9 and 10
ConstF value: the float whose bits are words 9 and 10
Move to from: a register's value in another
AddrOf to: an address, the form says in which memory
Select to test yes no: one of two values, by a test
CopyConst at: a constant of the program, copied to memory
Alloc to size: so many bytes of temporary memory, zeroed
TempRoot at desc: temporary memory made known to the collector
PkgAlloc to size: so many bytes that last as long as their package
Load to at: a value read from memory, the form is its width
Store at from: a value written to memory, the form is its width
Copy at from bytes: bytes copied in memory
Zero at: bytes zeroed
Fill at element times: copies of one element
Pos to desc index: the position of an index, checked
SlicePos to desc left right dir: the position where a slice starts, checked
Index to base position: the address of an array's element
Field to base layout: the address of a record's field
Bin to a b: arithmetic on whole numbers, checked
Un to a: a whole number negated, or without its sign, checked
FBin to a b: arithmetic on floats
FUn to a: a float negated, or without its sign
Phys to a b: a physical value times a float, or divided by one
IToF to from: a whole number as a float
FToI to from: a float rounded to a whole number, checked
FToIRange to from low high: the same within a range, checked
Cmp to a b: a comparison of whole numbers
FCmp to a b: a comparison of floats
BoolOp to a b: and, or, xor, not
LogicOp at a b count: an operation on logic arrays, element by element
LNum to a b count: arithmetic on logic arrays, into memory, or a comparison
LEq to a b count: whether two logic arrays are equal
LKey to a count: a logic array as a number
MemEq to a b bytes: whether bytes are equal
ArrCmp to a b alen blen: the order of two arrays
LGet to base index: an element of a logic array
LSet base index value: an element of a logic array, set
LFill base index count value: elements of a logic array, set alike
LCopy at offset from start count: elements copied between logic arrays
Cat at count unit: the pieces of the list, one behind the other, at an address
Check value low high: a test that stops the run where it fails
FCheck value low high: the same of floats
BinRange to a b low high: arithmetic on whole numbers within a range, checked
MakeDope at: a descriptor written to memory, from the list
DopeLen to desc: the length that a descriptor gives
BoundsLen to left right dir: the length of a range in registers
BoundsPos to left right dir index: the position of an index in such a range, checked
BoundsSlice to: the position where a slice of such a range starts, from the list
RetBounds left right dir: the bounds of the array that is returned
TakeBounds left right dir: the bounds of the array that a call returned
LayoutOf to desc: sizes and offsets of a type, in temporary memory
SubtypeCheck desc want: whether two descriptors have the same lengths, checked
Br: on to block word 9
CondBr test: to block word 9, or word 10 where the test is 0
Case value: to a block of case table word 9
Ret value: the end of the function
Unreachable: stops the run
Call to: a call of a function of the program, with the list
CallNative to: a call of a function of the simulator, with the list
CallForeign to: a call of a function of neither, with the list
CallIndirect func to: a call by a register, with the list
CallProt object to: a call of a protected object's function, with the list
New to from size: an object on the heap
NewFill to desc from size: an object on the heap with its descriptor
NewFrame to desc from size: such an object in the frame
Free at: an object freed, its variable set to null
Deref to handle: the address of a heap object, checked
SigVal to offset count: a reference to a signal
SigParts to parts count: a reference to parts of signals
SigSlice to signal offset count: a part of a reference
SigRead at signal: a signal's value, into memory
SigReadScalar to signal: a signal's value, one element
SigLastValue at signal: a signal's last value, into memory
SigAttr to signal: when a signal last changed, or whether it does
SigGather at desc first outer: the leaves of a record of signals, into memory
SigScatter from desc: the leaves of a record of signals, driven from memory
Edge to signal: whether a clock edge is there
Driving to: whether a driver drives
DrivingValue at: what a driver drives, into memory
SigDriving to signal: whether what is referred to is driven
SigDrivingValue at signal: what drives it, into memory
Drive target wave count reject: a waveform for a driver
DriveSlot slot target wave count reject: the same, the driver in a register
Disconnect target after: a driver off
DisconnectSlot slot target after: the same, the driver in a register
Force signal value: a value forced on a signal
Release signal: a forced signal let go
WaitOn signal: a signal that ends the next wait
WaitEdge signal: an edge that ends the next wait
WaitFor time: a time after which the next wait ends
WaitAt time: a time at which the next wait ends
Suspend: the process waits
TimedOut to: whether the time ended a wait
Now to: the time
Delta to: the number of the delta cycle
Report text length severity: a message
Output at length: text written out
Cover: a statement counted
CoverIn to state from: an input of a condition, noted
CoverCond state: a condition counted
Stmt: the end of a statement and of its temporary memory
"""

# Of each arm what the pass takes its kinds for, in the order in which REFERENCE lists them.
ARMS = {
    'const': 'stays. Its value is a length from −2^40 to 2^40, both included',
    'constF': 'stays',
    'addr_of': 'stays. Points to Ro at forms 2 and 4, to Frame at form 0, else to Unknown',
    'move': 'may move. Points where what it reads points, and is a length if that is one',
    'select': 'may move. Points where both values point if that is one origin; is a length if both are',
    'truth': 'may move. Is a length',
    'bin': 'may move if `a` is a length and, at forms 1 to 3, `b` is one, or at form 4 `b` is a register with a known constant above 0. Is then a length',
    'index': 'may move. Points where its base points',
    'check': 'may move at form 3 if its value is a length',
    'dopeLen': 'may move. Reads memory where `desc` points. Is a length',
    'load': 'may move at forms 1 to 3. Reads memory where `at` points. Read from an image, it points into that image; read from what a LayoutOf made, it is a length',
    'alloc': 'may move if `size` is a length. Creates. Points to Temp of its own',
    'layout_of': 'may move at form 0. Creates; reads memory where `desc` points. Points to Temp of its own, which holds lengths',
    'signal': 'may move',
    'fills': 'may move. Writes memory where `at` points',
    'store': 'may move at forms 1 to 3. Writes memory where `at` points. At form 4 it writes to Unknown',
    'cat': 'may move. Reads memory where its pieces point, and writes where `at` points',
    'native': 'form 1 with a list of one: may move, creates, and points to Img of its own. Form 2: points to Temp of its own. Else a barrier',
    'deref': 'stays. Points to Heap',
    'writes': 'stays. Writes memory where its first register points',
    'stops': 'stays. A barrier',
    'other': 'stays',
}

DOES = {
    'Def': 'w {}', 'Use': 'r {}', 'Def?': 'w {}?', 'Use?': 'r {}?',
    'Use-but-1': 'r {} (not at form 1)', 'Use-from-2': 'r {} (from form 2)', 'Def-if-1': 'w {} (r at form 0)',
}


class Kind:
    """A row of the page: number, name, slots, whether it has a list, least and greatest form, arm, and whether it writes nothing."""
    def __init__(self, number, row):
        self.number, self.name = number, row[0]
        self.slots = [s for s in row[1].strip('()[]').split(' ∷ ') if s not in ('', '[]')]
        self.listed, self.quiet, self.arm = row[2] == 'true', row[6] == 'true', row[5]
        self.least, self.most = int(row[3]), int(row[4])
        self.forms = FORMS.get(self.name, {})


def read():
    """The kinds of the page, in order."""
    text = open(PAGE, encoding='utf-8').read()
    place = {name: int(n) for name, n in re.findall(r'^place (\S+) = (\d+)$', text, re.M)}
    rows = re.findall(r'^row (\S+) = is (\[\]|\(.*?\)) (true|false) (\d) (\d) (\w+) (true|false)$', text, re.M)
    found = [Kind(n, row) for n, row in enumerate(rows)]
    for k in found:
        if place[k.name] != k.number or sorted(k.forms or {0: ''}) != list(range(k.least, k.most + 1)):
            sys.exit(f'kinds.py: {k.name} is not at its place, or has other forms than are named here')
    if len(found) != 101 or {k.arm for k in found} != set(ARMS):
        sys.exit('kinds.py: not the 101 kinds of the page, or not its arms')
    return found


def said(kinds):
    """Of each kind the names of its slots, and what it is."""
    out = {}
    for line in SAID.strip().split('\n'):
        names, _, what = line.partition(': ')
        out[names.split()[0]] = names.split()[1:], what
    if list(out) != [k.name for k in kinds] or any(len(out[k.name][0]) != len(k.slots) for k in kinds):
        sys.exit('kinds.py: what is said of the kinds does not fit the page')
    return out


def upper(name):
    """A name in C: each capital begins a word."""
    return 'VIRDZEBA_' + re.sub(r'(?<!^)(?=[A-Z])', '_', name).upper()


def header(kinds, words):
    """The enums of the header."""
    out = ['/* Word 0 of a record. Beside each its registers, words 2 on, w written, r read, ? may be absent; then what it is. */', 'enum virdzeba_kind {']
    for k in kinds:
        names, what = words[k.name]
        regs = ', '.join(DOES[s].format(n) for s, n in zip(k.slots, names)) or 'no registers'
        name = f'{upper(k.name)} = {k.number}{"," if k.number < len(kinds) - 1 else ""}'
        out.append(f'    {name:32} /* {regs}{", list" if k.listed else ""}: {what} */')
    out += ['};', '', '/* Word 1 of a record. Of a kind that is not named here it is 0. */', 'enum virdzeba_form {']
    forms = [(upper(k.name) + upper(name)[8:], n, MEANT.get(f'{k.name}.{name}')) for k in kinds for n, name in k.forms.items()]
    if len({upper(k.name) for k in kinds} | {f[0] for f in forms}) != len(kinds) + len(forms):
        sys.exit('kinds.py: two kinds or forms have one name in C')
    for name, n, what in forms:
        name = f'{name} = {n}{"," if name != forms[-1][0] else ""}'
        out.append(f'    {name:32} /* {what} */' if what else f'    {name}')
    return '\n'.join(out + ['};', ''])


def reference(kinds, words):
    """The three tables of the reference."""
    out = ['| kind | | forms | registers, words 2 on | list | what it is |', '|---:|---|---:|---|---|---|']
    for k in kinds:
        names, what = words[k.name]
        forms = f'{k.least} to {k.most}' if k.forms else '0'
        regs = ', '.join(DOES[s].format(n) for s, n in zip(k.slots, names))
        out.append(f'| {k.number} | {k.name} | {forms} | {regs} | {"yes" if k.listed else ""} | {what} |')
    out += ['', '| kind | form | | what it is |', '|---|---:|---|---|']
    out += [f'| {k.name} | {n} | {name} | {MEANT.get(f"{k.name}.{name}", "")} |' for k in kinds for n, name in k.forms.items()]
    out += ['', '| kinds | to the pass |', '|---|---|']
    for arm, what in ARMS.items():
        if arm != 'other':
            out.append(f'| {", ".join(k.name for k in kinds if k.arm == arm)} | {what} |')
    for quiet, what in (True, ', and writes no memory that the pass minds'), (False, ', and writes to Unknown'):
        out.append(f'| {", ".join(k.name for k in kinds if k.arm == "other" and k.quiet == quiet)} | {ARMS["other"]}{what} |')
    return '\n'.join(out) + '\n'


KINDS = read()


def main(args):
    if args[1:] not in ([], ['--check']):
        sys.exit(__doc__)
    words, same = said(KINDS), True
    for path, made in ('include/virdzeba.h', header), ('docs/REFERENCE.md', reference):
        lines = open(os.path.join(ROOT, path), encoding='utf-8').read().splitlines(True)
        marks = [n for n, line in enumerate(lines) if BEGIN in line or END in line]
        if len(marks) != 2 or BEGIN not in lines[marks[0]] or END not in lines[marks[1]]:
            sys.exit(f'kinds.py: {path} has not the two markers, in order and once each')
        new = [*lines[:marks[0] + 1], '\n', *made(KINDS, words).splitlines(True), '\n', *lines[marks[1]:]]
        if not args[1:]:
            open(os.path.join(ROOT, path), 'w', encoding='utf-8').writelines(new)
        elif new != lines:
            same = False
            sys.stdout.writelines(difflib.unified_diff(lines, new, path, 'as it is printed now'))
    sys.exit(0 if same else 1)


if __name__ == '__main__':
    main(sys.argv)
