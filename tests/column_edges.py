"""The edges of ./column, for tests/column: outputs that are closed or full, odd environments, a program that says its status
wrongly or is ended from outside, and its building. Each must end with the status that is due, never with a better one."""
import os
import shutil
import signal
import subprocess
import time

from column_runs import COLUMN, TOP, expect, expect_that, run, shell, start

PLAIN_PATH = '/usr/bin:/bin'
NOT_WRITTEN = 'refused 22 NotWritten: the answer could not be written in full; what was written is not to be used\n'
NO_STATUS = 'column: the program ended without saying its status: what was printed is not to be used\n'
NO_TOOLCHAIN = ('column: the program is not built, and without the Rattle toolchain (the command rt) it cannot be: '
                'README.md says more\n')
WRONG = 'usage: word 1 is none of list, get, show, help, --version\n./column help says how it is called\n'


def fresh_clone(folder):
    """What a clone has before anything is built, as far as ./column looks."""
    (folder / 'tests').mkdir(parents=True)
    shutil.copy(COLUMN, folder / 'column')
    for name in ('words', 'build-program'):
        shutil.copy(TOP / 'tests' / name, folder / 'tests' / name)
    shutil.copy(TOP / 'crates.txt', folder / 'crates.txt')
    (folder / 'crates/column').mkdir(parents=True)
    return folder / 'column'


def bad_text(folder):
    path = folder / 'bad'
    path.write_bytes(b'1\nx\n')
    return path, (f'refused 20 BadText: {path}, line 2 (id 1): the letter x at place 1: '
                  'write each number in digits only, one a line\n')


# ---- outputs

def outputs(folder):
    bad, sentence = bad_text(folder)
    good = './column list examples/terms.txt 0 99'
    # Standard output closed, full, and a pipe that nobody reads; a help page and a list.
    for ending, name in (('>&-', 'closed'), ('>/dev/full', 'full')):
        expect(f'output {name}', shell(f'{good} {ending}'), ('', NOT_WRITTEN, 1))
        expect(f'output {name}, help', shell(f'./column help {ending}'), ('', NOT_WRITTEN, 1))
        expect(f'output {name}, refusal', shell(f'./column list {bad} 1 3 {ending}'), ('', sentence, 1))
        expect(f'output {name}, wrong words', shell(f'./column foo {ending}'), ('', WRONG, 2))
    large = folder / 'large'
    large.write_text('7\n' * 131072)
    gone = f'{{ ./column list {large} 0 99; echo $? >{folder}/status; }} | head -n 1'
    expect('output a closed pipe', shell(f'{gone}; cat {folder}/status'), ('0 7\n1\n', NOT_WRITTEN, 0))
    expect('output a closed pipe, ignored', shell(f"trap '' PIPE; {gone}; cat {folder}/status"), ('0 7\n1\n', NOT_WRITTEN, 0))
    # Standard error closed and full: the status says what the sentence could not.
    for ending, name in (('2>&-', 'closed'), ('2>/dev/full', 'full')):
        expect(f'error {name}, wrong words', shell(f'./column foo {ending}'), ('', '', 2))
        expect(f'error {name}, refusal', shell(f'./column list {bad} 1 3 {ending}'), ('', '', 1))
        expect(f'error {name}, no file', shell(f'./column show nowhere {ending}'), ('', '', 1))
        expect(f'error {name}, answer', shell(f'./column get examples/terms.txt 0 {ending}'), ('2\n', '', 0))
    expect('all closed', shell('./column get examples/terms.txt 0 <&- >&- 2>&-'), ('', '', 1))
    expect('input closed', shell('./column get examples/terms.txt 0 <&-'), ('2\n', '', 0))
    expect('descriptor 3 in use', shell(f'./column list {bad} 1 3 3>{folder}/three; cat {folder}/three'), ('', sentence, 0))


def on_full_disk(folder):
    """A disk of a few pages, full, for TMPDIR and for the output; where a disk can be mounted."""
    bad, sentence = bad_text(folder)
    disk = folder / 'disk'
    disk.mkdir()
    mount = f'mount -t tmpfs -o size=64k tmpfs {disk}'
    fill = f'head -c 65536 /dev/zero >{disk}/filler'
    inside = ['unshare', '-rm', 'bash', '-c']
    if subprocess.run([*inside, mount], stderr=subprocess.DEVNULL, check=False).returncode != 0:
        print('column: no disk can be mounted here: the runs on a full disk are left out')
        return
    for name, line, wanted in (
        ('answer', './column get examples/terms.txt 0', ('2\n', '', 0)),
        ('refusal', f'./column list {bad} 1 3', ('', sentence, 1)),
        ('wrong words', './column foo', ('', WRONG, 2)),
    ):
        expect(f'TMPDIR full, {name}', run([f'{mount} && {fill} && export TMPDIR={disk} && {line}'], command=inside), wanted)
    line = f'./column list {folder}/large 0 99 >{disk}/list; status=$?; head -c 4 {disk}/list; exit $status'
    expect('TMPDIR and output on a small disk', run([f'{mount} && export TMPDIR={disk} && {line}'], command=inside),
           ('0 7\n', NOT_WRITTEN, 1))


# ---- environments

def environments(folder):
    bad, sentence = bad_text(folder)
    unwritable = folder / 'unwritable'
    unwritable.mkdir()
    unwritable.chmod(0o555)
    for name, env in (
        ('a locale that is not there', {'LC_ALL': 'de_DE.UTF-8'}),
        ('a preloaded library that is not there', {'LD_PRELOAD': '/nowhere/lib.so'}),
        ('xtrace on', {'SHELLOPTS': 'xtrace'}),
        ('xtrace on, to descriptor 3', {'SHELLOPTS': 'xtrace', 'BASH_XTRACEFD': '3'}),
        ('a file for the shell', {'BASH_ENV': str(folder / 'words-of-its-own')}),
        ('functions of the environment', {'BASH_FUNC_dirname%%': '() { echo /nowhere; }', 'BASH_FUNC_exec%%': '() { exit 0; }'}),
        ('TMPDIR unset', {'TMPDIR': None}),
        ('TMPDIR missing', {'TMPDIR': '/nowhere/tmp'}),
        ('TMPDIR unwritable', {'TMPDIR': str(unwritable)}),
        ('no rt on the PATH', {'PATH': PLAIN_PATH}),
        ('no HOME', {'HOME': None}),
        ('no PATH', {'PATH': ''}),
        ('a time for every read', {'TMOUT': '1'}),
        ('names of the script', {'BASH_SOURCE': '/nowhere/column', 'channel': '0', 'in': '0', 'out': '1', 'said': '0', 'started': 'one', 'IFS': '0'}),
    ):
        (folder / 'words-of-its-own').write_text('echo words; exec 3>&1; exit 0\n')
        for what, words, wanted in (
            ('answer', ['get', 'examples/terms.txt', '0'], ('2\n', '', 0)),
            ('refusal', ['list', str(bad), '1', '3'], ('', sentence, 1)),
            ('wrong words', ['foo'], ('', WRONG, 2)),
        ):
            out, err, status = run(words, env=env)
            # What the shell or the loader says of the environment comes first, and passes.
            expect(f'{name}, {what}', (out, err[len(err) - len(wanted[1]):], status), wanted)
    expect('descriptor 3 as the file', shell('./column get /dev/fd/3 0 3<examples/terms.txt'), ('2\n', '', 0))
    expect('read by another shell', run(['column', 'get', 'examples/terms.txt', '0'], command=['dash']), ('', 'column: call it as ./column\n', 3))
    shutil.copy(COLUMN, folder / 'copied')
    expect('copied elsewhere', run(['help'], command=[str(folder / 'copied')]),
           ('', 'column: it works from within its repository only: call it there by its path, or make a link to it\n', 3))
    (folder / 'link').symlink_to(COLUMN)
    expect('by a link', run(['get', str(TOP / 'examples/terms.txt'), '0'], command=[str(folder / 'link')], cwd=folder), ('2\n', '', 0))
    out, err, status = run(['-x', str(COLUMN), 'list', str(bad), '1', '3'], command=['bash'])
    expect('bash -x', (out, err.count(sentence), status), ('', 1, 1))
    if os.getuid() == 0:
        nobody = ['setpriv', '--reuid=65534', '--regid=65534', '--clear-groups', str(COLUMN)]
        expect('a repository that may not be written, answer', run(['get', 'examples/terms.txt', '0'], command=nobody), ('2\n', '', 0))
        expect('a repository that may not be written, refusal', run(['list', str(bad), '1', '3'], command=nobody), ('', sentence, 1))
        expect('a repository that may not be written, wrong words', run(['foo'], command=nobody), ('', WRONG, 2))


# ---- the channel

def stand_in(folder, body):
    """A clone with a stand-in for the program, which the script takes for a built one."""
    column = fresh_clone(folder)
    program = folder / 'target/bin/column'
    program.parent.mkdir(parents=True)
    program.write_text('#!/bin/bash\n' + body)
    program.chmod(0o755)
    total = subprocess.run('find crates crates.txt -type f -print0 | LC_ALL=C sort -z | xargs -0 sha256sum | sha256sum', shell=True,
                           cwd=folder, stdout=subprocess.PIPE, check=True).stdout.decode()
    program_sum = subprocess.run('sha256sum <target/bin/column', shell=True, cwd=folder, stdout=subprocess.PIPE, check=True).stdout.decode()
    (folder / 'target/column.built').write_text(total + program_sum + 'a toolchain that is not here\n')
    return column


def channel(folder):
    no_status = ('row\n', NO_STATUS, 4)
    for number, (body, wanted) in enumerate((
        ('printf 0 >&29', ('row\n', '', 0)),
        ('printf 1 >&29', ('row\n', '', 1)),
        ('printf 2 >&29', ('row\n', '', 2)),
        ('printf 1 >&29; exit 1', ('row\n', '', 1)),
        ('', no_status),
        ('exit 1', no_status),
        ('printf 3 >&29', no_status),
        ('printf 00 >&29', no_status),
        ('printf 01 >&29', no_status),
        ('printf "0\\n" >&29', no_status),
        ('printf "0\\0" >&29', no_status),
        ('printf x >&29', no_status),
        ('printf 0 2>/dev/null >&3', no_status),
        ('kill -KILL $$', no_status),
        ('kill -PIPE $$; kill -TERM $$', no_status),
        ('printf 0; printf 0 >&2', ('row\n0', '0' + NO_STATUS, 4)),
    )):
        column = stand_in(folder / f'stand-in-{number}', 'echo row\n' + body + '\n')
        expect(f'the program does: {body}', run(['list', 'x', '1', '3'], command=[str(column)], env={'PATH': PLAIN_PATH}), wanted)


# ---- ended from outside

def children_of(pid):
    listed = subprocess.run(['ps', '-o', 'pid=', '--ppid', str(pid)], stdout=subprocess.PIPE, check=False).stdout
    return [int(child) for child in listed.split()]


def is_there(pid):
    state = subprocess.run(['ps', '-o', 'stat=', '-p', str(pid)], stdout=subprocess.PIPE, check=False).stdout.strip()
    return bool(state) and not state.startswith(b'Z')


def until(holds, seconds=20):
    end = time.monotonic() + seconds
    while time.monotonic() < end:
        if holds():
            return True
        time.sleep(0.05)
    return holds()


def finished(call):
    out, err = call.communicate(timeout=60)
    return out.decode(), err.decode(), call.returncode


def waiting_call(folder):
    """A call that reads a named pipe which nobody writes to, once the program itself waits there."""
    pipe = folder / 'pipe'
    if not pipe.exists():
        os.mkfifo(pipe)
    call = start(['list', str(pipe), '1', '3'])
    until(lambda: any(b'status-fd' in command_of(child) for child in children_of(call.pid)))
    return call, [child for child in children_of(call.pid) if b'status-fd' in command_of(child)]


def command_of(pid):
    return subprocess.run(['ps', '-o', 'args=', '-p', str(pid)], stdout=subprocess.PIPE, check=False).stdout


def ended(folder):
    for name, number in (('TERM', signal.SIGTERM), ('HUP', signal.SIGHUP), ('INT', signal.SIGINT), ('USR1', signal.SIGUSR1)):
        call, programs = waiting_call(folder)
        os.kill(call.pid, number)
        expect(f'ended by {name}', finished(call), ('', '', -number))
        expect_that(f'ended by {name}', programs and until(lambda: not any(map(is_there, programs))), 'the program goes on')
    for name, number, wanted in (('Ctrl-C', signal.SIGINT, -signal.SIGINT), ('Ctrl-\\', signal.SIGQUIT, 128 + signal.SIGQUIT)):
        call, programs = waiting_call(folder)
        os.killpg(call.pid, number)
        expect(name, finished(call), ('', '', wanted))
        expect_that(name, programs and until(lambda: not any(map(is_there, programs))), 'the program goes on')
    call, programs = waiting_call(folder)
    for program in programs:
        os.kill(program, signal.SIGKILL)
    expect('the program killed', finished(call), ('', NO_STATUS, 4))


# ---- building

def toolchain(folder, body):
    """A folder for the PATH with a stand-in for rt."""
    folder.mkdir()
    (folder / 'rt').write_text('#!/bin/bash\ncase $1 in version) echo stand-in; exit;; doc) echo /nowhere/docs/x; exit;; esac\n' + body)
    (folder / 'rt').chmod(0o755)
    return {'PATH': f'{folder}:{PLAIN_PATH}'}


PROGRAM = "mkdir -p out; printf '#!/bin/bash\\necho row; printf 0 >&29\\n' >out/column; chmod +x out/column\n"
PROVED = ('echo "crate bit_rule: modules loaded=0 checked=2"; echo "logic=proved functions=0"; echo "other"; '
          'echo "crate column: modules loaded=0 checked=9" >&2; echo "logic=proved functions=6" >&2; '
          'echo "rt: running out/column; to give it other input, run that file yourself" >&2\n')


def building(folder):
    words = ['list', 'x', '1', '3']
    column = fresh_clone(folder / 'builds')
    count = 'column: the program is not built yet. Its {} crates are proved first, which takes some minutes\n'
    (folder / 'builds/crates.txt').write_text('# two\nbit_rule:\ncolumn: bit_rule io\nother: column\n')
    env = toolchain(folder / 'rt-proves', PROVED + PROGRAM)
    expect('a first call builds', run(words, command=[str(column)], env=env),
           ('row\n', count.format(2) + 'column: 1 of 2 proved: bit_rule\n'
            'column: 2 of 2 proved: column\n', 0))
    expect('a second call does not', run(words, command=[str(column)], env=env), ('row\n', '', 0))
    expect('nor one without the toolchain', run(words, command=[str(column)], env={'PATH': PLAIN_PATH}), ('row\n', '', 0))
    program = folder / 'builds/target/bin/column'
    good = program.read_text()
    program.write_text(good.replace('row', 'another'))
    expect('another program in its place', run(words, command=[str(column)], env={'PATH': PLAIN_PATH}), ('', NO_TOOLCHAIN, 3))
    program.write_text(good)
    (folder / 'builds/crates/new').write_text('a source\n')
    expect('a changed source, without the toolchain', run(words, command=[str(column)], env={'PATH': PLAIN_PATH}), ('', NO_TOOLCHAIN, 3))
    out, err, status = run(words, command=[str(column)], env={**env, 'TMPDIR': '/nowhere/tmp'})
    expect('a changed source is built, TMPDIR missing', (out, err.count('proved: '), status), ('row\n', 2, 0))

    column = fresh_clone(folder / 'fails')
    env = toolchain(folder / 'rt-fails', 'echo "crate bit_rule: modules loaded=0 checked=2"; echo "logic=proved functions=0"; echo "fn terms::add: not proved"; exit 1\n')
    out, err, status = run(words, command=[str(column)], env=env)
    expect('what is not proved is not run', (out, err.splitlines()[-2:], status),
           ('', ['fn terms::add: not proved', 'column: the program could not be built: target/column.log says more'], 3))

    # A program of older sources is there: what the environment has for the shell does not make it this one's.
    (folder / 'fails/target/bin').mkdir(exist_ok=True)
    (folder / 'fails/target/bin/column').write_text('#!/bin/bash\necho old; printf 0 >&29\n')
    (folder / 'fails/target/bin/column').chmod(0o755)
    (folder / 'leave').write_text('exit 0\n')
    for name, more in (('a file for the shell', {'BASH_ENV': str(folder / 'leave')}), ('a function', {'BASH_FUNC_rt%%': '() { :; }'})):
        out, err, status = run(words, command=[str(column)], env={**env, **more})
        expect(f'an older program is not run, {name}', (out, err.splitlines()[-1:], status),
               ('', ['column: the program could not be built: target/column.log says more'], 3))

    column = fresh_clone(folder / 'silent')
    for name, ending in (('closed', '2>&-'), ('full', '2>/dev/full')):
        (folder / 'silent/crates/source').write_text(name)
        expect(f'a build with standard error {name}', shell(f'{column} list x 1 3 {ending}', env=toolchain(folder / f'rt-{name}', PROVED + PROGRAM)), ('row\n', '', 0))

    column = fresh_clone(folder / 'unwritable-clone')
    if os.getuid() == 0:
        nobody = ['setpriv', '--reuid=65534', '--regid=65534', '--clear-groups', str(column)]
        expect('a clone that may not be written', run(words, command=nobody, env=env),
               ('', f'column: the program is not built, and {column.parent}/target may not be written\n', 3))
    two_callers(folder, words)


def two_callers(folder, words):
    """A second caller waits for the first, and says so; whoever ends a caller ends what that one started."""
    column = fresh_clone(folder / 'two')
    env = toolchain(folder / 'rt-waits', f'sleep 600 &\n(sleep 600) &\necho $$ $(jobs -p) >{folder}/started.new; mv {folder}/started.new {folder}/started\n'
                    f'while [ ! -e {folder}/go ]; do sleep 0.1; done; kill $(jobs -p)\n' + PROVED + PROGRAM)
    started = folder / 'started'
    begun = lambda: [int(pid) for pid in started.read_text().split()] if started.exists() else []
    first = start(words, column=column, env=env)
    expect_that('a first caller builds', until(lambda: len(begun()) == 3), 'nothing was started')
    second = start(words, column=column, env=env)
    waits = second.stderr.readline().decode()
    expect('a second caller', (waits,), ('column: another call is building the program: waiting for it\n',))
    os.kill(second.pid, signal.SIGTERM)
    expect('a waiting caller is ended', finished(second), ('', '', -signal.SIGTERM))
    expect_that('a waiting caller is ended', all(map(is_there, begun())), "the other's build was ended too")
    os.kill(first.pid, signal.SIGTERM)
    expect('a building caller is ended', (finished(first)[0], first.returncode), ('', -signal.SIGTERM))
    expect_that('a building caller is ended', until(lambda: not any(map(is_there, begun()))), 'what it started goes on')
    started.unlink()
    first = start(words, column=column, env=env)
    expect_that('a caller after it builds', until(lambda: len(begun()) == 3), 'nothing was started')
    second = start(words, column=column, env=env)
    second.stderr.readline()
    (folder / 'go').touch()
    expect('the first is answered', (finished(first)[0], first.returncode), ('row\n', 0))
    expect('the second too, without a build', finished(second), ('row\n', '', 0))


def run_all(folder):
    outputs(folder)
    on_full_disk(folder)
    environments(folder)
    channel(folder)
    ended(folder)
    building(folder)
