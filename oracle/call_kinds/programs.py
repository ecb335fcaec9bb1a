"""Where the programs of this repository stand."""
import pathlib

CRATES = pathlib.Path(__file__).resolve().parents[2] / "crates"


def ours(name, folder=None):
    """The program of the crate of this name, as `rt run` in its folder leaves it; or the one in a folder that is
    named."""
    path = pathlib.Path(folder) / name if folder else CRATES / name / "out" / name
    if not path.is_file():
        raise SystemExit(f"there is no {path}: `rt run` in crates/{name} builds it")
    return str(path)
