"""Python code of the manuals, run as it stands there: found by its first line, in a folder with the files that it reads, and with the library as built."""
import contextlib
import io
import os
import pathlib
import re
import tempfile
import textwrap

ROOT = pathlib.Path(__file__).resolve().parents[2]


def code_blocks(text):
    """The indented blocks of a manual that begin with an import of the wrapper."""
    return [textwrap.dedent(block) for block in re.findall(r"(?m)^    import roskudla\n(?:    .*\n)+", text)]


def run_code(code, files):
    """Runs code in a folder with these files, and with target/ as in the repository; what it prints, and the files afterwards."""
    before, printed = os.getcwd(), io.StringIO()
    with tempfile.TemporaryDirectory() as folder:
        os.symlink(ROOT / "target", pathlib.Path(folder, "target"))
        for name, content in files.items():
            pathlib.Path(folder, name).write_bytes(content)
        try:
            os.chdir(folder)
            with contextlib.redirect_stdout(printed):
                exec(compile(code, "the code of a manual", "exec"), {})
        finally:
            os.chdir(before)
        return printed.getvalue(), {path.name: path.read_bytes() for path in pathlib.Path(folder).iterdir() if path.is_file()}
