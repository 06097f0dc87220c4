"""The pass, called from here: the host's archive as a shared library, made anew when the archive is another."""
import ctypes
import hashlib
import os
import shutil
import struct
import subprocess

from listings.faults import CAUSES
from listings.shape import SIZES, Wrong

ROOT = os.path.join(os.path.dirname(os.path.abspath(__file__)), '../..')
RESULT = 53024  # bytes that the result has at least
REGISTERS, OPERANDS = SIZES['register'], SIZES['operand']
SHORT, REFUSED, UNREAD = 100, 200, 300


def archive():
    """The pass, in the folder that VIRDZEBA_LIB_DIR names, else where `make lib` writes it."""
    folder = os.environ.get('VIRDZEBA_LIB_DIR') or os.path.join(ROOT, 'target/lib')
    found = [path for name in ('libvirdzeba.a', 'libhost_c.a') if os.path.exists(path := os.path.join(folder, name))]
    if not found:
        raise Wrong(f'the pass is not in {os.path.normpath(folder)}: `make lib` writes it')
    return found[0]


def shared():
    """The archive as a shared library, in target/view, under its sum."""
    source, folder = archive(), os.path.join(ROOT, 'target/view')
    made = os.path.join(folder, hashlib.sha256(open(source, 'rb').read()).hexdigest()[:16] + '.so')
    if os.path.exists(made):
        return made
    cc = os.environ.get('CC', 'cc')
    if not shutil.which(cc):
        raise Wrong(f'{cc} is not installed: a C compiler links the pass into a shared library')
    shutil.rmtree(folder, ignore_errors=True)
    os.makedirs(folder, exist_ok=True)
    new = f'{made}.{os.getpid()}'
    ran = subprocess.run([cc, '-shared', '-o', new, '-Wl,--whole-archive', source, '-Wl,--no-whole-archive'], capture_output=True, text=True)
    if ran.returncode:
        raise Wrong(f'{cc} made no shared library of {source}:\n{ran.stderr.strip()}')
    os.replace(new, made)
    return made


class Pass:
    """The pass, loaded once; `call` gives its number and the bytes it wrote."""
    def __init__(self):
        try:
            self.entry = ctypes.CDLL(shared()).virdzeba_sink
        except (OSError, AttributeError) as e:
            raise Wrong(f'the pass cannot be loaded: {e}')
        size = ctypes.c_size_t
        self.entry.restype = ctypes.c_uint32
        self.entry.argtypes = [ctypes.c_char_p, size, ctypes.c_char_p, size, ctypes.c_uint32, ctypes.c_uint32]
        self.result = ctypes.create_string_buffer(RESULT)

    def call(self, data, registers=REGISTERS, operands=OPERANDS):
        number = self.entry(data, len(data), self.result, RESULT, registers, operands)
        if number >= REFUSED:
            return number, b''
        many = struct.unpack_from('<8I', self.result)
        return number, self.result.raw[:4 * (8 + sum(n * w for n, w in zip(many, (2, 17, 1, 1, 1, 1, 1, 1))))]


def plural(n, word):
    return f'{n} {word}{"" if n == 1 else "s"}'


def said(number):
    """An answer in words."""
    if number < SHORT:
        return f'done, {plural(number, "round")}'
    if number < REFUSED:
        return f'short: no room after {plural(number - SHORT, "round")}'
    if number < UNREAD:
        return f'refused, cause {number - REFUSED}: {CAUSES[number - REFUSED]}'
    return 'unread: no picture, or past the program\'s sizes'
