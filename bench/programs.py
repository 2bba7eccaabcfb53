"""The programs that time the calls of the library beside those of the independent Rust implementation (src/main.rs)."""
import os
import pathlib
import shutil
import subprocess

ROOT = pathlib.Path(__file__).resolve().parents[1]
# bytes that the code is moved by: where it lies against cache lines makes a difference, and so does where it lies farther off, to the processor's prediction of
# branches: JUDGE of three levels differs by 5 % between builds whose code for it is the same, at each of the first four places
PADDINGS = tuple(far + near for far in (0, 512) for near in (0, 16, 32, 48))
SIDES = ("library", "Rust")


class Different(Exception):
    """Two sides that do not answer the same."""


def built(folder, paddings):
    """The program, built so that its code lies in several ways, in a folder of its own."""
    for padding in paddings:
        command = ["cargo", "build", "--quiet", "--release", "--package", "bench"]
        subprocess.run(command, cwd=ROOT, env=os.environ | {"BENCH_PADDING": str(padding)}, check=True)
        program = folder / f"bench_{padding}"
        shutil.copy(ROOT / "target" / "cargo" / "release" / "bench", program)
        yield program


class Programs:
    """`folder`: where the programs and their input are written."""

    def __init__(self, folder, paddings=PADDINGS):
        self.folder = folder
        self.programs = list(built(folder, paddings))

    def times(self, call, source, tables, number=0, most=None):
        """The best time of a call in nanoseconds by each side, over the programs, or the first ones. Each of them compares the answers first.

        `number`: a row, the columns for IMPORT, or the room for EXPORT.
        """
        source_path, tables_path = self.folder / "source", self.folder / "tables"
        source_path.write_bytes(source)
        tables_path.write_bytes(tables)
        pairs = []
        for program in self.programs[:most]:
            done = subprocess.run([str(program), call, str(source_path), str(tables_path), str(number)], capture_output=True, text=True)
            if done.returncode != 0:
                raise Different(f"{call}: {done.stderr}")
            pairs.append([float(word) for word in done.stdout.split()])
        return dict(zip(SIDES, map(min, zip(*pairs))))
