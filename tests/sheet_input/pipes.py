"""pipes.py PROGRAM HOW: runs a program with a pipe as its input or output, and writes what it wrote to both outputs.

HOW says of the input, which does not wait: `ready` (`0 2`, and the writer has closed), `not-ready` (`0 2`, and the writer is open), `empty`
(nothing, and the writer is open), `long` (a line of 65 bytes, and the writer is open). Of the output: `full` (it is full and does not wait),
`drained` (it is full, waits, and is read after 0.3 seconds)."""
import os
import subprocess
import sys
import time

program, how = sys.argv[1:]
texts = {'empty': b'', 'long': b'0 ' + b'1' * 63}
given, giver = os.pipe()
os.write(giver, texts.get(how, b'0 2\n'))
os.set_blocking(given, False)
if how in ('ready', 'full', 'drained'):
    os.close(giver)

if how in ('full', 'drained'):
    reader, out = os.pipe()
    os.set_blocking(out, False)
    filled = 0
    try:
        while True:
            filled += os.write(out, b'.' * 4096)
    except BlockingIOError:
        pass
    os.set_blocking(out, how == 'drained')
    run = subprocess.Popen([program], stdin=given, stdout=out, stderr=subprocess.PIPE)
    os.close(out)
    time.sleep(0.3)
    with open(reader, 'rb') as pipe:
        text = pipe.read()[filled:]
    errors = run.stderr.read()
    run.wait()
else:
    run = subprocess.Popen([program], stdin=given, stdout=subprocess.PIPE, stderr=subprocess.PIPE)
    text, errors = run.communicate()
sys.stdout.buffer.write(text)
sys.stderr.buffer.write(errors)
sys.exit(run.returncode)
