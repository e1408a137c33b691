"""What pages quote: those of QUOTING have the examples' certificates."""

QUOTING = {
    "docs/CERTIFICATE.md": ("point.cert2", "cylinder.cert2", "two_solids.cert3"),
    "docs/OPEN.md": ("sheet.open1",),
    "docs/ORIENT.md": ("turned.orient",),
}


def checks(top):
    for page, names in QUOTING.items():
        for name in names:
            yield f"{page}: {name}", f"```\n{(top / 'examples' / name).read_text()}```" in (top / page).read_text()
