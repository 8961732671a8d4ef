"""Makes the plug-in known where the package isn't installed, as in a checkout."""
import pathlib
import sys

sys.path.insert(0, str(pathlib.Path(__file__).resolve().parents[2] / "python"))
pytest_plugins = ["wlframe.pytest_plugin"]
