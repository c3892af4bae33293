"""The lists of a suite: their files, and their names in a table."""
import pathlib

TOP = pathlib.Path(__file__).resolve().parents[1]


def list_files(names):
    """The lists that files and folders name. Without a name, those that `make suite` wrote or, if there are none, the small ones of the repository."""
    places = [pathlib.Path(name) for name in names] or [place for place in (TOP / "out/suite", TOP / "suite") if place.is_dir()][:1]
    found = []
    for place in places:
        found += sorted(place.rglob("*.steps")) if place.is_dir() else [place]
    return [file.absolute() for file in found]


def name_of(file):
    return f"{file.parent.name}/{file.stem}"
