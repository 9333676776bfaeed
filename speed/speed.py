"""How many times the time of a hand-written C program the bench takes: `make speed`. `python3 speed/speed.py --times` prints nanoseconds too.

Builds the C program and the harness, and with the toolchain the archives and the program that they are held to. First all three, the bench, C and the second program, must give the same bytes of every file; then the harness times ours and C's in turns in one process; then the two whole programs are run in turns; last comes the second program, in this process. Every figure but the counts is a ratio of medians, and what is printed has at most forty characters in a line."""
import os
import platform
import shutil
import statistics
import subprocess
import sys
import time

import packed
from packed import HERE, ROOT

# The names of our side: each archive's crate and what it exports, and the program.
ARCHIVES = {'sheet_for_c': 'wheattunic_sheet', 'line_for_c': 'wheattunic_line'}
PROGRAM = 'sheet'

# x86-64 and no more is what the Rattle compiler makes code for, so that C gets no newer instructions either.
FLAGS = ['-std=c11', '-O2', '-march=x86-64']
TARGET = os.path.join(ROOT, 'target')
MADE = os.path.join(TARGET, 'speed')
# the sizes for which the whole process and the second program are timed
TOLD = ((3, 2), (11, 10))
SPAWNS = 301
PYTHON_ROUNDS = 9


def say(text):
    print(text, flush=True)


def stop(text):
    sys.exit('speed: ' + text)


def check_machine():
    if platform.machine() not in ('x86_64', 'AMD64'):
        stop('the archive links only into x86-64 programs, and times under an emulator say nothing, so that speed is measured on an x86-64 machine alone.')
    for tool, what in (('cc', 'a C compiler'), ('objcopy', 'the tool objcopy of binutils'), ('rt', 'the Rattle toolchain')):
        if not shutil.which(tool):
            stop('%s is needed, and there is no command %s.' % (what, tool))


# Building

def run(*words, folder=ROOT):
    """Runs a tool; what it says is no part of what is printed here."""
    if subprocess.run(words, cwd=folder, stdin=subprocess.DEVNULL, stdout=sys.stderr).returncode != 0:
        stop('%s failed.' % ' '.join(os.path.basename(word) for word in words[:3]))


def made(name):
    return os.path.join(MADE, name)


def newest_source():
    sources = [os.path.join(ROOT, 'crates.txt')]
    for path, folders, names in os.walk(os.path.join(ROOT, 'crates')):
        # what the prover keeps is no source
        folders[:] = [folder for folder in folders if folder != 'out']
        sources += [os.path.join(path, name) for name in names]
    return max(os.path.getmtime(path) for path in sources)


def proved(crate, file, word):
    """What the toolchain makes of a crate, proved and made anew where a source is newer."""
    folder = os.path.join(ROOT, 'crates', crate)
    path = os.path.join(folder, 'out', file)
    if not os.path.exists(path) or os.path.getmtime(path) < newest_source():
        print('speed: %s is proved and built first, which may take some minutes' % os.path.basename(path), file=sys.stderr, flush=True)
        # rt runs a program after it has built it
        run('rt', word, folder=folder)
        os.utime(path)
    return path


def archive_object(crate, exported):
    """One object of an archive, in which the exported function alone is seen from outside: two archives have helpers of the same names."""
    archive = proved(crate, 'lib%s.a' % crate, 'lib')
    whole, out = made(crate + '_whole.o'), made(crate + '.o')
    run('cc', '-r', '-nostdlib', '-Wl,--whole-archive', archive, '-o', whole)
    run('objcopy', '--keep-global-symbol=' + exported, whole, out)
    return out


def build():
    """The harness, C's program and ours."""
    os.makedirs(MADE, exist_ok=True)
    ours = [archive_object(*names) for names in ARCHIVES.items()]
    program = proved(PROGRAM, PROGRAM, 'run')
    sources = {name: os.path.join(HERE, name + '.c') for name in ('sheet', 'main', 'beside')}
    harness, c_program = made('beside'), made('c_sheet')
    # the function is compiled by itself, as ours is, so that nothing of it is drawn into its caller
    run('cc', *FLAGS, '-c', sources['sheet'], '-o', made('c_sheet.o'))
    run('cc', *FLAGS, '-D_POSIX_C_SOURCE=200809L', sources['beside'], made('c_sheet.o'), *ours, '-o', harness)
    run('cc', *FLAGS, sources['main'], made('c_sheet.o'), '-o', c_program)
    return harness, c_program, program


# The functions

def harness_lines(harness, mode, cases):
    """What the harness prints of these cases."""
    path = made(mode + '.packed')
    with open(path, 'wb') as file:
        file.write(packed.pack(cases))
    done = subprocess.run([harness, mode, path], stdout=subprocess.PIPE, text=True)
    if done.returncode != 0:
        stop('the programs do not agree, and nothing is timed.')
    return done.stdout.splitlines()


def ratio_text(ratio):
    return '%.2f' % ratio if ratio < 10 else '%.0f' % ratio


def tell(name, ours, c, with_times):
    say('%s %s' % (name, ratio_text(ours / c)))
    if with_times:
        say('  nanoseconds %.0f and %.0f' % (ours, c))


def function_times(harness, cases):
    """(name, our nanoseconds, C's) of each case."""
    for line in harness_lines(harness, 'times', cases):
        name, _, ours, c = line.rsplit(' ', 3)
        yield name, float(ours), float(c)


# The whole process

def loader():
    """The toolchain's loader and C library, as ./bench calls them."""
    guide = subprocess.run(['rt', 'doc'], stdout=subprocess.PIPE, text=True, check=True).stdout.strip()
    tools = os.path.join(os.path.dirname(os.path.dirname(guide)), 'on', 'x86_64', 'toolchain', 'lib')
    return [os.path.join(tools, 'ld-linux-x86-64.so.2'), '--library-path', tools]


class Spawned:
    """Runs a program on a file and times it from its start to its end."""

    def __init__(self, words, path):
        self.words, self.path = words, path
        self.read, self.write = os.pipe()
        os.set_blocking(self.read, False)

    def once(self, due):
        actions = [(os.POSIX_SPAWN_OPEN, 0, self.path, os.O_RDONLY, 0), (os.POSIX_SPAWN_DUP2, self.write, 1)]
        began = time.perf_counter_ns()
        child = os.posix_spawn(self.words[0], self.words, os.environ, file_actions=actions)
        _, status = os.waitpid(child, 0)
        took = time.perf_counter_ns() - began
        try:
            printed = os.read(self.read, 4096)
        except BlockingIOError:
            printed = b''
        if status != 0 or printed != due:
            stop('%s did not print the sheet that is due.' % os.path.basename(self.words[-1]))
        return took


def tell_process(name, programs, item, with_times):
    data, due = item
    path = made('process.run')
    with open(path, 'wb') as file:
        file.write(data)
    both = [Spawned(loader() + [program], path) for program in programs]
    took = [[], []]
    for turn in range(-10, SPAWNS):
        # in turns, and each of the two first in every second turn; the first ten are a warm-up
        for which in (0, 1) if turn % 2 else (1, 0):
            spent = both[which].once(due)
            if turn >= 0:
                took[which].append(spent)
    tell(name, *map(statistics.median, took), with_times)


# The second program

def python_round(case):
    """The nanoseconds of one sheet of the second program, in this process, over the files of a case. It is the processor's time: a round is so long that other programs have their turn in it, as they have not in a batch of the harness."""
    began = time.process_time_ns()
    for data, _ in case.items:
        packed.sheet.sheet(data)
    return (time.process_time_ns() - began) / len(case.items)


def tell_python(name, harness, case, with_times):
    """In turns with the harness, so that both are timed on a machine that is as busy."""
    python, c = [], []
    for _ in range(PYTHON_ROUNDS):
        python.append(python_round(case))
        c += [found for _, _, found in function_times(harness, [case])]
    tell(name, statistics.median(python), statistics.median(c), with_times)


def main():
    with_times = sys.argv[1:] == ['--times']
    if sys.argv[1:] and not with_times:
        stop('the only word is --times.')
    check_machine()
    harness, c_program, program = build()
    say('C is built by cc with')
    say(' '.join(FLAGS))
    say('alike in ours, C and Python')
    for line in harness_lines(harness, 'check', packed.compared()):
        say(line)
    cases = packed.timed()
    by_name = {case.name: case for case in cases}
    say('functions, ours over C')
    for figures in function_times(harness, cases):
        tell(*figures, with_times)
    say('whole process, ours over C')
    for size in TOLD:
        name = packed.size_name(*size)
        tell_process('process ' + name, (program, c_program), by_name['sheet ' + name].items[0], with_times)
    say('second program over C, functions')
    for size in TOLD:
        name = packed.size_name(*size)
        tell_python('python ' + name, harness, by_name['sheet ' + name], with_times)


if __name__ == '__main__':
    main()
