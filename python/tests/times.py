"""python3 python/tests/times.py ADAPTER EXPORT..: how long calls of the shared library take on an adapter, as
web/test/times.mjs has it for nuigatre.wasm."""

import pathlib
import statistics
import sys
import time

sys.path.insert(0, str(pathlib.Path(__file__).resolve().parent.parent))
import nuigatre


def milliseconds(seconds):
    return f"{1000 * seconds:.2f} ms" if seconds < 0.01 else f"{1000 * seconds:.0f} ms"


def main():
    wasm, required = pathlib.Path(sys.argv[1]).read_bytes(), sys.argv[2:]
    calls = {"trim": lambda: nuigatre.trim(wasm, required), "why": lambda: nuigatre.why(wasm, required), "dedupe": lambda: nuigatre.dedupe(wasm)}
    print(f"proved: {nuigatre.is_proved()}")
    for name, call in calls.items():
        times, most = [], time.perf_counter() + 5
        while len(times) < 200 and (len(times) < 5 or time.perf_counter() < most):
            begun = time.perf_counter()
            call()
            times.append(time.perf_counter() - begun)
        best, middle = min(times), statistics.median(times)
        print(f"{name}: {milliseconds(best)} at best, {milliseconds(middle)} in the middle of {len(times)}; first {milliseconds(times[0])}")


if __name__ == "__main__":
    main()
