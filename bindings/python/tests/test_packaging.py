"""pip and build can build and install the package, from its folder and from a source distribution."""
import os
import shutil
import subprocess
import sys
import tarfile
import tempfile
import unittest
import zipfile
from pathlib import Path

from l4 import __version__, _library

PACKAGE = Path(__file__).resolve().parents[1]
NAME = f"l4-{__version__}"
PROGRAM = "import l4; print(l4.Kernel(1).space_of(2), l4.__file__)"


def there(module):
    """Returns whether Python can run the module."""
    done = subprocess.run([sys.executable, "-m", module, "--version"], cwd=os.sep, stdout=subprocess.DEVNULL, stderr=subprocess.DEVNULL)
    return done.returncode == 0


class Packaging(unittest.TestCase):
    def setUp(self):
        folder = tempfile.TemporaryDirectory()
        self.addCleanup(folder.cleanup)
        self.folder = Path(folder.name).resolve()
        # the package as a clone has it, and the library as it is installed
        self.package = self.folder / "python"
        shutil.copytree(PACKAGE, self.package, ignore=shutil.ignore_patterns("__pycache__", "libl4.so"))
        (self.folder / "lib").mkdir()
        shutil.copyfile(_library.library._name, self.folder / "lib" / "libl4.so")

    def run_python(self, *words, python=sys.executable, cwd=None, **variables):
        """Runs Python without the package's own variables, and returns what it prints."""
        kept = {name: value for name, value in os.environ.items() if name not in ("L4_LIBRARY", "PYTHONPATH", "PKG_CONFIG_PATH")}
        environment = {**kept, "L4_LIB_DIR": str(self.folder / "lib"), "PIP_NO_INDEX": "1", "PIP_NO_CACHE_DIR": "1", **variables}
        done = subprocess.run([python, *words], cwd=cwd or self.folder, env=environment, stdout=subprocess.PIPE, stderr=subprocess.PIPE, text=True)
        self.assertEqual(done.returncode, 0, done.stdout + done.stderr)
        return done.stdout.strip()

    def hook(self, name, package):
        """Calls a hook of the package's build, and returns the file that it wrote."""
        out = self.folder / "out"
        out.mkdir(exist_ok=True)
        return out / self.run_python("-c", f"import l4_build; print(l4_build.{name}({str(out)!r}))", cwd=package)

    def check_installed(self, folder):
        self.assertEqual(self.run_python("-c", PROGRAM, PYTHONPATH=str(folder)), f"1 {folder}/l4/__init__.py")

    def test_a_wheel_is_built_from_a_source_distribution(self):
        source = self.hook("build_sdist", self.package)
        self.assertEqual(source.name, f"{NAME}.tar.gz")
        with tarfile.open(source) as archive:
            names = archive.getnames()
        self.run_python("-m", "tarfile", "-e", str(source), str(self.folder))
        for name in ("PKG-INFO", "pyproject.toml", "README.md", "l4_build.py", "l4/__init__.py", "l4/lab.mjs", "l4/views/page.html", "l4/py.typed"):
            self.assertIn(f"{NAME}/{name}", names)
        self.assertNotIn(f"{NAME}/l4/libl4.so", names)
        self.assertTrue((self.folder / NAME / "PKG-INFO").read_text().startswith(f"Metadata-Version: 2.1\nName: l4\nVersion: {__version__}\n"))
        installed = self.folder / "installed"
        zipfile.ZipFile(self.hook("build_wheel", self.folder / NAME)).extractall(installed)
        self.check_installed(installed)

    def test_an_editable_wheel_names_the_folder(self):
        with zipfile.ZipFile(self.hook("build_editable", self.package)) as wheel:
            self.assertEqual(wheel.read("l4.pth").decode(), f"{self.package}\n")
            self.assertIn(b"Root-Is-Purelib: true\nTag: py3-none-any\n", wheel.read(f"{NAME}.dist-info/WHEEL"))
        self.check_installed(self.package)

    @unittest.skipUnless(there("pip"), "no module pip")
    def test_pip_installs_the_folder_in_place(self):
        self.run_python("-m", "venv", "--without-pip", "--system-site-packages", "venv")
        python = str(self.folder / "venv" / "bin" / "python")
        self.run_python("-m", "pip", "install", "-q", "-e", str(self.package), python=python)
        self.assertEqual(self.run_python("-c", PROGRAM, python=python), f"1 {self.package}/l4/__init__.py")

    def test_no_module_of_the_folder_hides_the_module_build(self):
        self.assertEqual([file.name for file in PACKAGE.iterdir() if file.stem == "build"], [])

    @unittest.skipUnless(there("build"), "no module build")
    def test_build_makes_both_distributions(self):
        self.run_python("-m", "build", "--no-isolation", "--outdir", str(self.folder / "dist"), cwd=self.package)
        names = sorted(file.name for file in (self.folder / "dist").iterdir())
        self.assertEqual((len(names), names[-1]), (2, f"{NAME}.tar.gz"))


if __name__ == "__main__":
    unittest.main()
