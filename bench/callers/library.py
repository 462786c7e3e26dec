"""library.py CORRECT FILE COUNT: writes the report of a trace by the library, after so many calls for it."""
import sys
from pathlib import Path

sys.dont_write_bytecode = True
sys.path.insert(0, str(Path(__file__).resolve().parents[2] / "python/src"))
import synchrony

correct, file, count = [int(it) for it in sys.argv[1].split(",")], sys.argv[2], int(sys.argv[3])
trace = Path(file).read_bytes()
for _ in range(count):
    report = synchrony.report_text(trace, correct)
sys.stdout.buffer.write(report)
