"""How long lava_bench takes for rounds of one kind. The scripts beside this one use it."""
import re
import subprocess
import sys
import time


def seconds(program, kind, count):
    """The seconds of the best of five runs. Ends the script where the program does not answer with a checksum."""
    best = None
    line = '%s %d' % (kind, count)
    for _ in range(5):
        begin = time.perf_counter()
        done = subprocess.run([program], input=line + '\n', capture_output=True, text=True)
        took = time.perf_counter() - begin
        answer = done.stdout.split()
        if done.returncode != 0 or answer[:2] != line.split() or not answer[2].isdigit():
            sys.exit('status %d: %s' % (done.returncode, done.stdout))
        best = took if best is None else min(best, took)
    return best


def instructions(program, kind, count):
    """The instructions of a run, as valgrind's callgrind counts them."""
    counting = ['valgrind', '--tool=callgrind', '--callgrind-out-file=/dev/null', program]
    done = subprocess.run(counting, input='%s %d\n' % (kind, count), capture_output=True, text=True)
    return int(re.search(r'Collected : (\d+)', done.stderr)[1])
