"""Tests of solve.py: `/usr/bin/python3 python/examples/test_solve.py`, after python/build.sh. The last line says what
held."""

import pathlib
import subprocess
import sys
import tempfile

HERE = pathlib.Path(__file__).resolve().parent
sys.path[:0] = [str(HERE), str(HERE.parent)]

import numpy as np  # noqa: E402
import scipy.io  # noqa: E402
import scipy.sparse as sp  # noqa: E402
import solve  # noqa: E402


def test_made():
    """Every spoilt matrix loses digits as it is, keeps ten permuted and scaled, and needs no pivot off the diagonal."""
    rng = np.random.default_rng(1)
    for name, matrix in solve.made(rng).items():
        ways = solve.solved(rng, matrix)
        (raw, _, moved), (scaled, growth, off) = ways["raw"], ways["scaled"]
        if name.startswith("signs"):
            assert off > 0 and scaled >= ways["exchange"][0], name
        elif name == "not spoilt":
            assert raw < 1e-12 and scaled < 1e-12, name
        else:
            assert raw > 1e-9 and moved > 100, (name, raw)
            assert scaled < 1e-9 and off == 0 and growth < 1e3, (name, scaled)


def test_draws():
    """Of forty draws the median is far apart, and the worst scaled one is better than the median with exchanges."""
    errors = solve.draws(np.random.default_rng(7), 40)
    assert np.median(errors["raw"]) > 0.1
    assert max(errors["scaled"]) < 1e-9 < np.median(errors["exchange"])


def test_singular():
    """A matrix without a complete match has no solution; it is told and nothing breaks."""
    rng = np.random.default_rng(2)
    singular = sp.csc_matrix(np.array([[1.0, 1.0], [0.0, 0.0]]))
    assert solve.solved(rng, singular) == {"raw": None, "scaled": None, "exchange": None}


def test_files():
    """The script on a file and with a plot; on a rectangular one it says what is wrong."""
    with tempfile.TemporaryDirectory() as name:
        folder = pathlib.Path(name)
        rng = np.random.default_rng(3)
        scipy.io.mmwrite(folder / "given.mtx", solve.spoilt(rng, solve.grid(8)))
        scipy.io.mmwrite(folder / "wide.mtx", sp.coo_matrix(np.ones((2, 3))))
        run = [sys.executable, HERE / "solve.py"]
        environment = {"PYTHONPATH": str(HERE.parent)}
        words = [folder / "given.mtx", "--draws", "3", "--plot", folder / "out.svg"]
        done = subprocess.run([*run, *words], env=environment, capture_output=True, text=True)
        assert done.returncode == 0 and "given" in done.stdout and "errors of 3 draws" in done.stdout, done.stderr
        assert "permuted and scaled" in (folder / "out.svg").read_text()
        bad = subprocess.run([*run, folder / "wide.mtx"], env=environment, capture_output=True, text=True)
        assert bad.returncode == 1 and "the matrix is not real and square" in bad.stderr


def main():
    tests = [test_made, test_draws, test_singular, test_files]
    for test in tests:
        test()
    print(f"{len(tests)} tests of solve.py hold")


if __name__ == "__main__":
    main()
