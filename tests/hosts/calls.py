"""calls.py report CORRECT <TRACE
calls.py check CORRECT CERTIFICATE <TRACE

Says and ends as the program does.
"""

import sys
from pathlib import Path

sys.dont_write_bytecode = True
sys.path.insert(0, str(Path(__file__).resolve().parents[2] / "python/src"))
import synchrony


def main(command, correct, *certificate):
    trace, correct = sys.stdin.buffer.read(), correct if correct == "all" else (int(it) for it in correct.split(","))
    try:
        if command == "report":
            sys.stdout.buffer.write(synchrony.report_text(trace, correct))
            return 0
        verdict = synchrony.check(trace, Path(certificate[0]).read_bytes(), correct)
        print(verdict)
        return 0 if verdict else 1
    except synchrony.SynchronyError as why:
        # (the second line, a hint, is the package's alone)
        print(f"synchrony: {str(why).splitlines()[0]}", file=sys.stderr)
        return why.status


if __name__ == "__main__":
    sys.exit(main(*sys.argv[1:]))
