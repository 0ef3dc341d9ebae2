"""Running ./column and comparing standard output, standard error and status, for tests/column."""
import os
import signal
import subprocess
from pathlib import Path

TOP = Path(__file__).resolve().parent.parent
COLUMN = TOP / 'column'

failures = []
runs = 0


def run(words, stdin=b'', command=None, stdout=subprocess.PIPE, env=None, cwd=TOP):
    """What a call prints, says and answers. `env` has what differs from the test's own environment; None takes a name out."""
    global runs
    runs += 1
    done = subprocess.run([*(command or [str(COLUMN)]), *words], input=stdin, stdout=stdout, stderr=subprocess.PIPE,
                          cwd=cwd, env=environment(env), check=False)
    return (done.stdout or b'').decode(), done.stderr.decode(), done.returncode


def environment(changes):
    env = dict(os.environ)
    for name, value in (changes or {}).items():
        if value is None:
            env.pop(name, None)
        else:
            env[name] = value
    return env


def shell(line, env=None, cwd=TOP):
    """The same of a line of the shell, with the default handling of a closed pipe as a terminal has it."""
    global runs
    runs += 1
    done = subprocess.run(['bash', '-c', line], stdin=subprocess.DEVNULL, stdout=subprocess.PIPE, stderr=subprocess.PIPE,
                          cwd=cwd, env=environment(env), preexec_fn=lambda: signal.signal(signal.SIGPIPE, signal.SIG_DFL),
                          check=False)
    return done.stdout.decode(), done.stderr.decode(), done.returncode


def as_at_a_terminal():
    """A shell cannot act on a signal that its caller has it ignore, as nohup does, and a shell that starts something behind it."""
    for number in (signal.SIGHUP, signal.SIGINT, signal.SIGQUIT, signal.SIGTERM, signal.SIGUSR1):
        signal.signal(number, signal.SIG_DFL)


def start(words, column=COLUMN, env=None, stdin=subprocess.DEVNULL):
    """A call that goes on, in a group of processes of its own."""
    global runs
    runs += 1
    return subprocess.Popen([str(column), *words], stdin=stdin, stdout=subprocess.PIPE, stderr=subprocess.PIPE, cwd=TOP,
                            env=environment(env), start_new_session=True, preexec_fn=as_at_a_terminal)


def expect(name, got, wanted):
    for part, is_, should in zip(('standard output', 'standard error', 'status'), got, wanted):
        if is_ != should:
            failures.append(name)
            print(f'{name}: {part}\n  is        {str(is_)[:300]!r}\n  should be {str(should)[:300]!r}')
            return


def expect_that(name, holds, what):
    if not holds:
        failures.append(name)
        print(f'{name}: {what}')


def answered(name, words, text, **how):
    expect(name, run(words, **how), (text, '', 0))


def refused(name, words, sentence, **how):
    expect(name, run(words, **how), ('', sentence + '\n', 1))
