"""The test command: `make test`. Its last line is 'N passed, 0 failed' only where all of this held:
`rt ci` ended with status 0 and its own such line, with no must-fail edit that counts for nothing, and every comparison with the second program and with the sheets worked by hand ran and agreed, and every line of a work sheet keeps to its rules."""
import concurrent.futures
import os
import re
import subprocess
import sys
import time

HERE = os.path.dirname(os.path.abspath(__file__))
ROOT = os.path.dirname(HERE)
sys.path.insert(0, HERE)

import check_runs  # noqa: E402
import check_work  # noqa: E402
import compare_bench  # noqa: E402
import compare_files  # noqa: E402
import compare_fractions  # noqa: E402
import compare_lines  # noqa: E402
import compare_sheets  # noqa: E402
import compare_texts  # noqa: E402

COMPARISONS = [compare_fractions, compare_files, compare_lines, compare_sheets, compare_texts, compare_bench, check_runs, check_work]


def say(text):
    print(text, flush=True)


def stop(text):
    say('NOT PASSED: ' + text)
    sys.exit(1)


def pinned():
    """The toolchain that the README names."""
    with open(os.path.join(ROOT, 'README.md'), encoding='utf-8') as file:
        found = re.search(r'`(rattle-kit-\S+ logic \S+)`', file.read())
    if not found:
        stop('README.md names no toolchain')
    return found.group(1)


def check_toolchain():
    found = subprocess.run(['rt', 'version'], capture_output=True, text=True, check=True).stdout.strip()
    if found == pinned():
        say('toolchain: ' + found)
        return
    say('ANOTHER TOOLCHAIN IS FOUND: %s' % found)
    say('The README names %s. The proofs are tried all the same, and hold only if they pass here.' % pinned())


def prove():
    """Runs rt ci, which refuses what is not laid out too, shows what it says, and returns how many things it passed. An edit that counts for nothing ends the gate as well."""
    last, bad = '', False
    with subprocess.Popen(['rt', 'ci'], cwd=ROOT, stdout=subprocess.PIPE, stderr=subprocess.STDOUT, text=True, errors='replace') as ci:
        for text in ci.stdout:
            last = text.rstrip('\n')
            bad = bad or (last.startswith('rt: ok') and bool(re.search(r', [1-9]\d* bad', last)))
            if not re.match(r'\d+ passed, \d+ failed$', last):
                say(last)
    passed = re.match(r'(\d+) passed, 0 failed$', last)
    if ci.returncode != 0 or not passed:
        stop('rt ci ended with status %d and the line %r' % (ci.returncode, last))
    if bad:
        stop('rt ci tells of must-fail edits that count for nothing')
    return int(passed.group(1))


def build():
    """Each program once, with nothing to read, so that it is built before what it prints and says is compared: rt ci leaves none behind."""
    crates = os.path.join(ROOT, 'crates')
    for name in sorted(os.listdir(crates)):
        if os.path.exists(os.path.join(crates, name, 'src', 'main.rt')):
            subprocess.run([os.path.join(ROOT, 'bench'), name], input=b'', capture_output=True)
            if not os.path.exists(os.path.join(crates, name, 'out', name)):
                stop('%s was not built' % name)


def run(program, given, errors=False):
    """What a built program prints on these bytes. With errors it is what it prints and what it says on standard error, whatever its status: a refusal may be told there."""
    done = subprocess.run([os.path.join(ROOT, 'bench'), program], input=given, capture_output=True)
    if errors:
        return done.stdout, done.stderr
    if done.returncode != 0:
        stop('%s ended with status %d: %s' % (program, done.returncode, done.stderr.decode('utf-8', 'replace')))
    return done.stdout


def compare(name):
    """What one comparison says; by its name, so that another process can be asked."""
    return next(comparison for comparison in COMPARISONS if comparison.__name__ == name).compare(run)


def compared():
    """What the comparisons say, in their order. They are independent, so two run at a time."""
    with concurrent.futures.ProcessPoolExecutor(2) as workers:
        yield from workers.map(compare, [comparison.__name__ for comparison in COMPARISONS])


def main():
    began = time.time()
    check_toolchain()
    passed = prove()
    proved = time.time()
    build()
    for comparison, (count, wrong, told) in zip(COMPARISONS, compared()):
        for text in told:
            say(text)
        for text in wrong[:20]:
            say('DISAGREES: ' + text)
        if wrong or not count:
            stop('%d disagreements in %s' % (len(wrong), comparison.__name__))
        say('%s: %d answers agreed with %s' % (comparison.__name__, count, getattr(comparison, 'AGREED_WITH', 'the second program')))
        passed += count
    say('time: %d s, of which rt ci %d s' % (time.time() - began, proved - began))
    say('%d passed, 0 failed' % passed)


if __name__ == '__main__':
    main()
