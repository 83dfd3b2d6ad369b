"""How a tool that writes to standard output begins and ends: never with a traceback."""
import os
import signal
import sys


def run(name, usage, main):
    """Exits with the status of main(arguments, source, sink, errors), or with 2 where reading or writing fails; for --help prints the usage.

    The source and the sink are of bytes. Where nobody reads on, or at an interrupt, the process just ends, as `cat` does.
    """
    signal.signal(signal.SIGPIPE, signal.SIG_DFL)
    signal.signal(signal.SIGINT, signal.SIG_DFL)
    errors = sys.stderr or open(os.devnull, "w", encoding="ascii")
    try:
        with open(0, "rb", closefd=False) as source, open(1, "wb", closefd=False) as sink:
            status = helped(usage, sink) if sys.argv[1:] == ["--help"] else main(sys.argv[1:], source, sink, errors)
            sink.flush()
    except OSError as error:
        errors.write(f"{name}: reading or writing failed: {error.strerror}\n")
        status = 2
    sys.exit(status)


def helped(usage, sink):
    sink.write(usage.encode())
    return 0
