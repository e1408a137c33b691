"""A zip whose bytes depend on nothing but its files, for packaging/wheel and packaging/freecad."""
import zipfile

DATE = 1980, 1, 1, 0, 0, 0


def write(target, files):
    """Writes files by their names, in this order."""
    with zipfile.ZipFile(target, "w", zipfile.ZIP_DEFLATED) as out:
        for name, data in files.items():
            entry = zipfile.ZipInfo(name, DATE)
            # Made the same on every system.
            entry.create_system = 3
            entry.external_attr = 0o644 << 16
            entry.compress_type = zipfile.ZIP_DEFLATED
            out.writestr(entry, data)
