"""One instruction's line, word by word from the left, so that nothing in it is passed over."""
import re
import struct

from listings.shape import ABSENT, BY_NAME, NAMED, READ, Wrong, near, no_form, roles

WORD = re.compile(r'->|0x[0-9A-Fa-f]+|-?[0-9]+|[A-Za-z_]\w*|\S')
# What may follow the registers.
BEHIND = ('', '[', '{', '=', '->', 'table', 'scalars', 'loc', 'via')


def missing(what, word):
    return f'a {what} is missing before {word!r}' if word else f'a {what} is missing at the end'


def number(word, most=ABSENT):
    if not re.fullmatch('[0-9]+', word):
        raise Wrong(f'{word!r} is no number' if word.strip('-,:{}[]@=') else missing('number', word))
    if int(word) > most:
        raise Wrong(f'{word} is above {most}')
    return int(word)


def register(word):
    if not re.fullmatch('r[0-9]+', word):
        raise Wrong(f'{word!r} is no register (r0, r1, ..)' if word[:1].isalnum() else missing('register', word))
    return number(word[1:])


class Line:
    """What a line says: sixteen words, and its loc and via words where it has them. `take_list` gives a list its place."""
    def __init__(self, text, as_is, take_list):
        self.words, self.at, self.as_is, self.take_list = WORD.findall(text), 0, as_is, take_list
        self.said = {}
        self.record = self.raw() if self.peek() == 'raw' else self.instruction()
        while self.peek() in ('loc', 'via'):
            word = self.take()
            if word in self.said:
                raise Wrong(f'a second `{word}`')
            self.said[word] = number(self.take())
        if self.peek():
            raise Wrong(f'{" ".join(self.words[self.at:])!r} is left over at the end')

    def peek(self):
        return self.words[self.at] if self.at < len(self.words) else ''

    def take(self):
        word = self.peek()
        self.at += 1
        return word

    def follows(self, sign):
        """Takes the sign if it comes next."""
        if self.peek() == sign:
            self.at += 1
            return True
        return False

    def needs(self, sign, why):
        if not self.follows(sign):
            raise Wrong(why)

    def raw(self):
        self.take()
        words = []
        while self.peek() not in ('', 'loc', 'via'):
            words.append(number(self.take()))
        if len(words) != 16:
            raise Wrong(f'a record has 16 words, {len(words)} are given')
        return words

    def instruction(self):
        name = self.take()
        if name not in BY_NAME:
            raise Wrong(f'{name!r} is no kind{near(name, BY_NAME)}')
        kind = BY_NAME[name]
        form = self.form(kind)
        self.record = [kind.number, form] + [ABSENT] * 5 + [0] * 9
        self.registers(kind, form)
        self.list(kind)
        self.payload(name)
        if self.follows('{'):
            self.others(name)
        return self.record

    def form(self, kind):
        if not self.follows('.'):
            form, word = 0, '0'
        else:
            word = self.take()
            names = {n.lower(): f for f, n in kind.forms.items()}
            form = names[word.lower()] if word.lower() in names else number(word) if re.fullmatch('[0-9]+', word) else None
        if form is None or not self.as_is and not kind.least <= form <= kind.most:
            raise Wrong(f'{no_form(kind, word)} (cause 4)')
        return form

    def registers(self, kind, form):
        given = []
        while self.peek() not in BEHIND or given:
            given.append(self.take())
            if not self.follows(','):
                break
        if self.peek() == '-' or re.fullmatch('r[0-9]+', self.peek()):
            raise Wrong(f'a comma is missing before {self.peek()!r}')
        want = [(k, role) for k, role in enumerate(roles(kind, form)) if role != 'off']
        least = max([n + 1 for n, (_, role) in enumerate(want) if role == 'must'], default=0)
        for word in given:
            if word != '-':
                register(word)
        if not least <= len(given) <= len(want):
            many = f'{least} to {len(want)} registers' if len(want) > least else f'{least} register{"s" * (least != 1)}'
            raise Wrong(f'{kind.name}{f" of form {form}" if form else ""} takes {many}, {len(given)} {"is" if len(given) == 1 else "are"} given')
        for (k, role), word in zip(want, given):
            if word == '-' and role == 'must':
                raise Wrong(f'register {k + 1} of {kind.name} may not be absent')
            self.record[2 + k] = ABSENT if word == '-' else register(word)

    def list(self, kind):
        given, place = [], None
        if self.peek() == '[' and not kind.listed:
            raise Wrong(f'{kind.name} has no list')
        if self.follows('[') and not self.follows(']'):
            given.append(register(self.take()))
            while self.follows(','):
                given.append(register(self.take()))
            self.needs(']', f'{self.peek()!r} in a list: registers with commas, then ]' if self.peek() else 'a list ends with ]')
        if self.follows('@'):
            place = number(self.take())
        if kind.listed:
            self.record[7:9] = self.take_list(given, place)

    def payload(self, name):
        """The words that the pass reads."""
        sign = NAMED.get(name)
        if sign is None or not self.follows(sign):
            if sign and name != 'Cat':
                raise Wrong(f'{name} needs {sign} and a number')
            return
        if name in ('Const', 'ConstF'):
            self.record[9:11] = self.constant(name)
        else:
            self.record[9] = number(self.take())
            if name == 'CondBr':
                self.needs(',', 'CondBr takes two blocks behind ->')
                self.record[10] = number(self.take())
        if self.peek() == ',':
            raise Wrong(f'{" ".join(self.words[self.at:])!r} is left over: {name} takes {"two numbers" if name == "CondBr" else "one number"} behind {sign}')

    def constant(self, name):
        word = self.take()
        if not word:
            raise Wrong(missing('number', ''))
        if name == 'Const':
            if not re.fullmatch('-?[0-9]+', word) or not -1 << 63 <= int(word) < 1 << 63:
                raise Wrong(f'{word!r} is no whole number of 64 bits')
            return struct.unpack('<2I', struct.pack('<q', int(word)))
        if not re.fullmatch('0x[0-9A-Fa-f]{16}', word):
            raise Wrong(f'{word!r}: the bits of a float are 0x and sixteen digits')
        return struct.unpack('<2I', struct.pack('<Q', int(word, 16)))

    def others(self, name):
        """Payload words by number, those that have no name."""
        first, seen = 9 + READ.get(name, 0), set()
        while True:
            at = number(self.take(), 15)
            self.needs(':', 'payload words are given as {11: 5, 12: 6}')
            if at < 9:
                raise Wrong(f'word {at} is not of the payload, 9 to 15')
            if at < first:
                raise Wrong(f'word {at} of {name} is given behind {NAMED[name]}')
            if at in seen:
                raise Wrong(f'word {at} is given twice')
            seen.add(at)
            self.record[at] = number(self.take())
            if not self.follows(','):
                break
        self.needs('}', f'{self.peek()!r} among payload words, which are given as {{11: 5, 12: 6}}' if self.peek() else 'payload words end with }')
