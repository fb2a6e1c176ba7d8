"""The package as pip installs it."""
import os
import pathlib
import subprocess
import sys
import tarfile
import tempfile
import unittest
import zipfile

FOLDER = pathlib.Path(__file__).resolve().parents[1]
sys.path.insert(0, str(FOLDER))
import bivrang  # noqa: E402
import build_backend  # noqa: E402

SHOWS = "import bivrang.aio; print(bivrang.__version__, bivrang.__file__)"


class Package(unittest.TestCase):
    def setUp(self):
        self.room = tempfile.TemporaryDirectory()
        self.addCleanup(self.room.cleanup)
        self.folder = pathlib.Path(self.room.name)

    def imports(self, folder, source):
        """Python finds the package of `source` with `folder` on its path alone."""
        code = f"import site; site.addsitedir({str(folder)!r}); {SHOWS}"
        words = [sys.executable, "-I", "-S", "-c", code]
        told = subprocess.run(words, cwd="/", check=True, stdout=subprocess.PIPE).stdout.decode()
        wanted = f"{bivrang.__version__} {pathlib.Path(source, 'bivrang/__init__.py').resolve()}\n"
        self.assertEqual(told, wanted)

    def runs(self, folder):
        """The command that pip has made runs by the package beside it."""
        words = [sys.executable, str(folder / "bin/bivrang"), "--help"]
        environment = {**os.environ, "PYTHONPATH": str(folder)}
        told = subprocess.run(words, check=True, stdout=subprocess.PIPE, env=environment).stdout
        self.assertIn(b"bivrang://HOST:PORT", told)

    def unpacked(self, name):
        """The folder of a wheel's files."""
        folder = self.folder / "unpacked"
        with zipfile.ZipFile(self.folder / name) as wheel:
            wheel.extractall(folder)
        return folder

    def test_wheel(self):
        folder = self.unpacked(build_backend.build_wheel(self.room.name))
        self.imports(folder, folder)
        theirs = {path.name for path in (folder / "bivrang").iterdir()}
        ours = {path.name for path in (FOLDER / "bivrang").iterdir()} - {"__pycache__"}
        self.assertEqual(theirs - {"__pycache__"}, ours)
        self.assertIn("py.typed", ours)
        info = folder / f"bivrang-{bivrang.__version__}.dist-info"
        self.assertIn(f"\nVersion: {bivrang.__version__}\n", (info / "METADATA").read_text())
        self.assertIn("bivrang = bivrang._command:main\n", (info / "entry_points.txt").read_text())

    def test_editable(self):
        folder = self.unpacked(build_backend.build_editable(self.room.name))
        self.imports(folder, FOLDER)

    def test_source(self):
        with tarfile.open(self.folder / build_backend.build_sdist(self.room.name)) as archive:
            safe = {"filter": "data"} if hasattr(tarfile, "data_filter") else {}
            archive.extractall(self.folder, **safe)
        source = self.folder / f"bivrang-{bivrang.__version__}"
        build = "import sys, build_backend; print(build_backend.build_wheel(sys.argv[1]))"
        words = [sys.executable, "-c", build, self.room.name]
        told = subprocess.run(words, cwd=source, check=True, stdout=subprocess.PIPE).stdout
        folder = self.unpacked(told.decode().strip())
        self.imports(folder, folder)

    def test_pip_without_a_network(self):
        pip = [sys.executable, "-m", "pip"]
        if subprocess.run([*pip, "--version"], stdout=subprocess.DEVNULL, check=False).returncode:
            self.skipTest("there is no pip")
        words = [*pip, "install", "--quiet", "--no-index", "--no-deps", "--no-compile"]
        for number, more in enumerate([[], ["--no-build-isolation"]]):
            target = self.folder / str(number)
            made = [*words, *more, "--target", str(target), str(FOLDER)]
            told = subprocess.run(made, stderr=subprocess.PIPE, check=False)
            self.assertEqual(told.returncode, 0, told.stderr.decode())
            self.imports(target, target)
            self.runs(target)


if __name__ == "__main__":
    unittest.main()
