"""The data folders of a program, one a case: written, or compared with what is there."""


def write(root, cases):
    """Makes `root`/NAME of each case, which is a name and the bytes of each of its files; an old file that it has not goes."""
    for name, files in cases.items():
        folder = root / name
        folder.mkdir(parents=True, exist_ok=True)
        for path in folder.iterdir():
            if path.name not in files:
                path.unlink()
        for file, contents in files.items():
            (folder / file).write_bytes(contents)
    print(f"{len(cases)} folders")


def wrong(root, cases):
    """How many folders are not what they should be, or of no case. Each is printed."""
    found = {folder.name: {path.name: path.read_bytes() for path in folder.iterdir()} for folder in root.glob("*/")}
    differ = sorted(name for name in cases if found.get(name) != cases[name])
    extra = sorted(path.name for path in root.glob("*") if path.name not in cases)
    for name in differ:
        print(f"{name}: files differ")
    for name in extra:
        print(f"{name}: no such case")
    return len(differ) + len(extra)
