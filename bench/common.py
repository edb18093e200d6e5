"""What the benches share: the built program, a timed replay of a script, and how a time grows."""
import math
import pathlib
import subprocess
import sys
import time

CRATE = pathlib.Path(__file__).resolve().parent.parent / 'crates' / 'sr_main'
PROGRAM = CRATE / 'out' / 'sr_main'
# time so short that it says nothing of growth
SHORT = 0.02


def build():
    """Proves and builds the program, where it is not there yet."""
    if not PROGRAM.exists():
        subprocess.run([str(CRATE.parent.parent / 'tools' / 'prove')], stdout=subprocess.DEVNULL)


def most_memory(process):
    """The most memory that the process had so far, in MiB, as far as the system tells."""
    try:
        for line in pathlib.Path('/proc/%d/status' % process).read_text().splitlines():
            if line.startswith('VmHWM:'):
                return int(line.split()[1]) / 1024
    except OSError:
        pass
    return 0


def replay(folder, script, csv=None, options=(), eager=True):
    """The seconds and the most memory of one replay, with a file for the table t; the trace lies in the folder then."""
    (folder / 'script').write_text(script)
    words = [str(PROGRAM), 'replay', *(['--eager'] if eager else []), *options, 'script']
    if csv is not None:
        (folder / 't.csv').write_text(csv)
        words.append('t=t.csv')
    memory = 0
    start = time.perf_counter()
    with open(folder / 'trace', 'wb') as trace:
        run = subprocess.Popen(words, cwd=folder, stdout=trace)
        while run.poll() is None:
            memory = max(memory, most_memory(run.pid))
            time.sleep(0.0005)
    seconds = time.perf_counter() - start
    if run.returncode != 0:
        sys.exit('the program ended with status %d' % run.returncode)
    return seconds, memory


def exponent(sizes, times):
    """The slope of the logarithms, by least squares; None where the times are too short to tell."""
    points = [(math.log(n), math.log(t)) for n, t in zip(sizes, times) if t > SHORT]
    if len(points) < 2:
        return None
    mean_x = sum(x for x, _ in points) / len(points)
    mean_y = sum(y for _, y in points) / len(points)
    return sum((x - mean_x) * (y - mean_y) for x, y in points) / sum((x - mean_x) ** 2 for x, _ in points)


def slope(sizes, times):
    """The exponent in words."""
    power = exponent(sizes, times)
    return 'exponent %.2f' % power if power is not None else 'too short for an exponent'
