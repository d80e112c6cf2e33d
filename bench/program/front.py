#!/usr/bin/env python3
"""Holds the script in front of the program, ./puckerledge and what it installs, to what docs/COMMANDS.md says of it.

Help and the version are answered, and all else goes to the program as it is: words, streams and status, by `exec`. Where standard
error is a terminal a line shows how far the input is read, and is gone when the program's own comes.

    bench/program/front.py

A stand-in is run in the program's place, which tells what it was given. The last line is `N passed, M failed`."""

import os
import pty
import re
import shlex
import shutil
import signal
import subprocess
import sys
import tempfile
import time
from concurrent.futures import ThreadPoolExecutor
from pathlib import Path

TOP = next(folder for folder in Path(__file__).resolve().parents if (folder / 'puckerledge').exists())

# what it does is named by the environment: it tells its words and where its streams lead, passes its input on, ends by a
# status or a signal, or reads slowly
STAND_IN = r'''#!/bin/sh
case $STAND_IN in
    given)
        cat /proc/$$/cmdline > "$STAND_IN_TO"
        input=$(readlink /proc/$$/fd/0) output=$(readlink /proc/$$/fd/1) error=$(readlink /proc/$$/fd/2)
        printf '%s\n' $$ "$input" "$output" "$error" > "$STAND_IN_TO.more"
        cat /proc/$$/environ >> "$STAND_IN_TO.more" ;;
    copy) cat; printf 'the line\n' >&2 ;;
    end) exit "$STAND_IN_STATUS" ;;
    signal) kill -"$STAND_IN_STATUS" $$ ;;
    slow) head -c 600000 > /dev/null; sleep 2.5; cat > /dev/null; echo 'frames 1' >&2; exit 9 ;;
    silent) sleep 2.5; exit 3 ;;
    for_ever) echo $$ > "$STAND_IN_TO"; head -c 600000 > /dev/null; sleep 60; echo 'not ended' >&2 ;;
esac
'''

# words that go to the program, each list as it is
WORDS = [
    [], [b''], [b'', b''], [b'a b', b' c '], [b'two\nlines'], [b'\n'], [b'--'], [b'--', b'help'], [b'-h'], [b'-'], [b'*', b'?', b'[a]'],
    [b'~'], [b'$HOME', b'`id`', b'$(id)', b'\\', b'\\n', b"'", b'"'], [b'a\tb\rc'], [b'\xff\xfe'], [b'caf\xc3\xa9', b'\xc3'],
    [bytes(range(1, 256))], [bytes([byte]) for byte in range(1, 256)], [b'-c', b'x'], [b'-e'], [b'-n', b'x'], [b'x' * 100000],
    [b'usage'], [b'encode', b'--width', b'720', b'--recon', b'a file'], [b'mend', b'--list', b'a file'], [b'encode', b'--help'], [b'decode', b'--version'],
    [b'help', b'nothing'], [b'help', b''], [b'help', b'*'], [b'help', b'encode', b'x'], [b'help', b'enc'], [b'help', b'encode '], [b'help', b'../x'],
    [b'help', b'help'], [b'help', b'--help'], [b'help', b'Commands'], [b'help', b'\xff'], [b'--help', b'x'], [b'--version', b'x'], [b'--version', b''],
    [b'Help'], [b'help\n'], [b'help '], [b'--help='], [b'-help'], [b'-v'], [b'-V'], [b'version'],
]
# of what is installed these are the program's too
CHECKOUT_ALONE = [[b'install'], [b'install', b'/tmp/x'], [b'package'], [b'package', b'/tmp/x']]


class Cases:
    """Counts what passes, and tells what fails."""

    def __init__(self):
        self.passed, self.failed = 0, 0

    def tell(self, name, fault):
        if not fault:
            self.passed += 1
        else:
            self.failed += 1
            print('FAILED: %s: %s' % (name, fault))

    def same(self, name, found, wanted):
        self.tell(name, '' if found == wanted else '%r, not %r' % (found, wanted))


class Front:
    """A script in front of the stand-in."""

    def __init__(self, path, name, room):
        self.path, self.name, self.room, self.count = str(path), name, room, 0

    def environment(self, doing, **more):
        self.count += 1
        told = self.room / ('%s%d' % (self.name, self.count))
        return {**os.environ, 'STAND_IN': doing, 'STAND_IN_TO': str(told), **more}, told

    def run(self, words, doing, **more):
        environment, _ = self.environment(doing, **more)
        return subprocess.run([self.path, *words], env=environment, stdin=subprocess.DEVNULL, capture_output=True, timeout=30)


def hands_words_on(cases, front, words):
    environment, told = front.environment('given')
    (input_end, write_end), (read_end, output_end), (error_read, error_end) = os.pipe(), os.pipe(), os.pipe()
    run = subprocess.Popen([front.path, *words], env=environment, stdin=input_end, stdout=output_end, stderr=error_end)
    leads = [os.readlink('/proc/self/fd/%d' % end).encode() for end in (input_end, output_end, error_end)]
    run.wait(30)
    for end in (input_end, write_end, read_end, output_end, error_read, error_end):
        os.close(end)
    name = '%s %s' % (front.name, b' '.join(words)[:40])
    if not told.exists():
        return cases.tell(name, 'the program was not run')
    # before its words stand the stand-in's interpreter and path
    cases.same(name + ': words', told.read_bytes().split(b'\0')[2:-1], words)
    identity, *streams, environ = Path(str(told) + '.more').read_bytes().split(b'\n', 4)
    cases.same(name + ': exec, so the process is the same', int(identity), run.pid)
    cases.same(name + ': streams', streams, leads)
    return environ, environment


def keeps_environment(cases, front):
    found, given = hands_words_on(cases, front, [b'environment'])
    by_shell = {'_', 'SHLVL', 'PWD', 'OLDPWD'}
    names = {line.split('=', 1)[0] for line in os.fsdecode(found).split('\0') if '=' in line}
    cases.same(front.name + ': environment', sorted(names - by_shell - set(given)), [])


def passes_streams_and_statuses(cases, front):
    data = os.urandom(200000)
    environment, _ = front.environment('copy')
    run = subprocess.run([front.path, 'x'], env=environment, input=data, capture_output=True, timeout=30)
    cases.same(front.name + ': bytes', (run.stdout == data, run.stderr, run.returncode), (True, b'the line\n', 0))
    for status in (0, 1, 2, 9, 17, 77, 126, 127, 128, 130, 255):
        cases.same('%s: status %d' % (front.name, status), front.run(['x'], 'end', STAND_IN_STATUS=str(status)).returncode, status)
    for number in (signal.SIGINT, signal.SIGTERM, signal.SIGKILL, signal.SIGSEGV):
        found = front.run(['x'], 'signal', STAND_IN_STATUS=str(int(number)))
        cases.same('%s: signal %d' % (front.name, number), (found.returncode, found.stderr), (-number, b''))


def answers(cases, front, version):
    commands = re.findall(r'^## ([a-z0-9-]+)', (TOP / 'docs' / 'COMMANDS.md').read_text(), re.M)
    overview = front.run(['help'], 'given')
    cases.same(front.name + ': help', (overview.returncode, overview.stderr), (0, b''))
    cases.same(front.name + ': --help', front.run(['--help'], 'given').stdout, overview.stdout)
    for command in commands:
        cases.tell('%s: help has %s' % (front.name, command), '' if re.search(rb'^  %s\b' % command.encode(), overview.stdout, re.M) else 'not there')
        page = front.run(['help', command], 'given')
        cases.same('%s: help %s' % (front.name, command), (page.returncode, page.stderr, page.stdout.split(b'\n')[0].split()[:2]),
                   (0, b'', [b'puckerledge', command.encode()]))
        statuses = [int(word) for word in re.findall(rb'^  (\d+) [a-z]', page.stdout, re.M)]
        cases.tell('%s: help %s has statuses' % (front.name, command), '' if {0, 2, 8, 12} <= set(statuses) else repr(statuses))
        cases.tell('%s: lines of help %s' % (front.name, command),
                   ''.join(line for line in page.stdout.decode().splitlines() if len(line) > 79 and not line.startswith('    ')))
    told = front.run(['--version'], 'given')
    cases.same(front.name + ': --version', (told.returncode, told.stderr), (0, b''))
    cases.tell(front.name + ': the version', '' if re.fullmatch(version, told.stdout.decode()) else repr(told.stdout))
    paged = subprocess.run(['script', '-qec', shlex.quote(front.path) + ' help decode', '/dev/null'], env={**os.environ, 'PAGER': 'sed s/^/paged:/'},
                           stdin=subprocess.DEVNULL, capture_output=True, timeout=30)
    cases.tell(front.name + ': a page goes through PAGER', '' if paged.stdout.startswith(b'paged:puckerledge decode') else repr(paged.stdout[:99]))


class Terminal:
    """Runs a script with standard error on a terminal, and keeps what came."""

    def __init__(self, front, doing, stdin, keys=None, script='exec "$0" encode', **more):
        environment, self.told = front.environment(doing, **more)
        self.output = b''
        identity, terminal = pty.fork()
        if not identity:
            os.dup2(stdin, 0)
            null = os.open('/dev/null', os.O_WRONLY)
            os.dup2(null, 1)
            os.execve('/bin/sh', ['/bin/sh', '-c', script, front.path], environment)
        start = time.monotonic()
        while True:
            if keys and time.monotonic() - start > 1.5:
                keys = keys(identity, terminal)
            try:
                os.set_blocking(terminal, False)
                got = os.read(terminal, 4096)
                if not got:
                    break
                self.output += got
            except BlockingIOError:
                time.sleep(0.02)
            except OSError:
                break
        self.status = os.waitpid(identity, 0)[1]
        os.close(terminal)

    def lines(self):
        """What stands on the terminal in the end."""
        lines = []
        for line in self.output.decode().replace('\r\n', '\n').split('\n'):
            shown = []
            for part in line.split('\r'):
                shown[:len(part)] = part
            lines.append(''.join(shown).rstrip())
        return lines


def interrupts(identity, terminal):
    os.write(terminal, b'\x03')


def kills(identity, terminal):
    os.kill(identity, signal.SIGTERM)


def is_gone(told):
    identity = int(told.read_text())
    for _ in range(100):
        try:
            if Path('/proc/%d/stat' % identity).read_text().rsplit(')', 1)[1].split()[0] == 'Z':
                return ''
        except FileNotFoundError:
            return ''
        time.sleep(0.03)
    return 'the program is still there'


def on_a_terminal(front):
    """Runs on a terminal, all beside each other, by their names."""
    def with_file(doing, **more):
        with open(front.room / 'input', 'rb') as file:
            return Terminal(front, doing, file.fileno(), **more)

    def with_pipe(doing):
        writer = subprocess.Popen(['cat', front.room / 'input'], stdout=subprocess.PIPE)
        found = Terminal(front, doing, writer.stdout.fileno())
        writer.stdout.close()
        writer.wait()
        return found

    with ThreadPoolExecutor(8) as pool:
        runs = {
            'file': pool.submit(with_file, 'slow'), 'pipe': pool.submit(with_pipe, 'slow'), 'silent': pool.submit(with_file, 'silent'),
            'quiet': pool.submit(with_file, 'slow', PUCKERLEDGE_QUIET='1'), 'short': pool.submit(with_file, 'end', STAND_IN_STATUS='5'),
            'two': pool.submit(with_file, 'slow', script='"$0" decode | "$0" pack'),
            'late': pool.submit(with_file, 'slow', script='(sleep 2.5; "$0" decode) | "$0" pack'),
            'interrupt': pool.submit(with_file, 'for_ever', keys=interrupts), 'term': pool.submit(with_file, 'for_ever', keys=kills),
        }
    return {name: run.result() for name, run in runs.items()}


def shows_progress(cases, front, runs):
    for name, wanted in (('file', rb'puckerledge: \d+ % of 1000 kB read, \d+ s, about \d+ s to go'), ('pipe', rb'puckerledge: \d+ kB read, \d+ s')):
        found = runs[name]
        cases.tell('%s, %s: progress' % (front.name, name), '' if re.search(wanted, found.output) else repr(found.output))
        cases.same('%s, %s: the line alone stands in the end' % (front.name, name), found.lines(), ['frames 1', ''])
        cases.same('%s, %s: the status' % (front.name, name), os.waitstatus_to_exitcode(found.status), 9)
    # the one that reads the file asks for the terminal first, but on a busy machine the other may have it before
    for name, shows in (('two', rb'%|kB'), ('late', rb'kB')):
        found = runs[name]
        cases.same('%s, %s in a pipe: each has its line' % (front.name, name), found.lines(), ['frames 1', 'frames 1', ''])
        cases.tell('%s, %s in a pipe: what shows how far it is goes before words' % (front.name, name), '' if re.fullmatch(
            rb'(\rpuckerledge: \d+ (%b) [^\r]*)+\r *\rframes 1\r\n((\rpuckerledge: \d+ kB[^\r]*)+\r *\r)?frames 1\r\n' % shows,
            found.output) else repr(found.output))
    cases.same(front.name + ': no line, so none stays', (runs['silent'].lines(), os.waitstatus_to_exitcode(runs['silent'].status)), ([''], 3))
    cases.same(front.name + ': quiet', (runs['quiet'].output, os.waitstatus_to_exitcode(runs['quiet'].status)), (b'frames 1\r\n', 9))
    cases.same(front.name + ': short', (runs['short'].output, os.waitstatus_to_exitcode(runs['short'].status)), (b'', 5))
    for name, number in (('interrupt', signal.SIGINT), ('term', signal.SIGTERM)):
        found = runs[name]
        cases.same('%s, %s: the status' % (front.name, name), os.waitstatus_to_exitcode(found.status), -number)
        cases.tell('%s, %s: the program ends' % (front.name, name), is_gone(found.told))
    # the terminal shows ^C where the cursor stood, and nothing of the line
    cases.tell(front.name + ': nothing of the line stays', '' if 'read' not in runs['interrupt'].lines()[-1] else repr(runs['interrupt'].lines()))


def checkout(room):
    """A copy of the scripts, with a stand-in that is newer than all of them."""
    folder = room / 'checkout'
    folder.mkdir()
    for name in ('install', 'docs'):
        shutil.copytree(TOP / name, folder / name)
    for name in ('puckerledge', 'crates.txt'):
        shutil.copy2(TOP / name, folder)
    program = folder / 'crates' / 'm2v_main' / 'out' / 'm2v_main'
    program.parent.mkdir(parents=True)
    program.write_text(STAND_IN)
    program.chmod(0o755)
    return folder


def main():
    # whoever runs this in the background may have it ignore interrupts, and what it starts would do so too
    signal.signal(signal.SIGINT, signal.default_int_handler)
    cases = Cases()
    with tempfile.TemporaryDirectory() as name:
        room = Path(name)
        folder = checkout(room)
        (room / 'input').write_bytes(bytes(1000000))
        prefix = room / 'a prefix'
        done = subprocess.run([folder / 'puckerledge', 'install', prefix], capture_output=True)
        cases.same('install', (done.returncode, done.stdout), (0, b''))
        # a link to it from another folder of programs
        (room / 'link').symlink_to(prefix / 'bin' / 'puckerledge')
        fronts = [Front(folder / 'puckerledge', 'checkout', room), Front(prefix / 'bin' / 'puckerledge', 'installed', room),
                  Front(room / 'link', 'link', room)]
        version = r'puckerledge 1\.0(~\d{8}\.\d{4}\.[0-9a-f]{8})?(\+changed)?\n'
        with ThreadPoolExecutor(2) as pool:
            shown = pool.map(on_a_terminal, [Front(front.path, front.name + ' on a terminal', room) for front in fronts[:2]])
            for front in fronts[:2]:
                for words in WORDS + (CHECKOUT_ALONE if front.name != 'checkout' else []):
                    hands_words_on(cases, front, words)
                keeps_environment(cases, front)
                passes_streams_and_statuses(cases, front)
                answers(cases, front, version)
            hands_words_on(cases, fronts[2], [b'', b'by', b'a link'])
        for front, runs in zip(fronts, shown):
            shows_progress(cases, front, runs)
    print('%d passed, %d failed' % (cases.passed, cases.failed))
    sys.exit(cases.failed > 0)


if __name__ == '__main__':
    main()
