"""Runs all checks of the tools; check.sh calls it."""
import difflib
import os
import sys

sys.dont_write_bytecode = True
HERE = os.path.dirname(os.path.abspath(__file__))
ROOT = os.path.normpath(os.path.join(HERE, '../..'))
sys.path[:0] = [os.path.join(ROOT, 'tools'), HERE]
os.chdir(ROOT)


class Checks:
    """Counts what holds, and says what does not."""
    def __init__(self, write):
        self.write, self.passed, self.failed = write, 0, 0

    def holds(self, what, true):
        if true:
            self.passed += 1
            return
        self.failed += 1
        if self.failed <= 20:
            print(f'tools: FAILED: {what}', file=sys.stderr)

    def same(self, what, got, want):
        self.holds(what if got == want else f'{what}: {str(got)[:300]}, not {str(want)[:300]}', got == want)

    def golden(self, path, got):
        """The text of a file is this."""
        if self.write:
            with open(path, 'w', encoding='utf-8') as file:
                file.write(got)
        want = open(path, encoding='utf-8').read() if os.path.exists(path) else ''
        if got != want and self.failed < 20:
            sys.stderr.writelines(difflib.unified_diff(want.splitlines(True), got.splitlines(True), path, 'now'))
        self.holds(path, got == want)


def main(args):
    if args[1:] not in ([], ['--write']):
        sys.exit('check.sh [--write]')
    import stored
    import texts
    from listings.shape import Wrong
    from views.calls import Pass
    checks = Checks(bool(args[1:]))
    try:
        entry = Pass()
        texts.run(checks, entry)
        stored.run(checks, entry)
    except (Wrong, OSError) as e:
        sys.exit(f'tools: FAILED: {e}')
    print(f'tools: {checks.passed} checks passed' + (f', {checks.failed} FAILED' if checks.failed else ''))
    sys.exit(1 if checks.failed else 0)


if __name__ == '__main__':
    main(sys.argv)
