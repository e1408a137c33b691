"""Samples: the text of one, formed here, is certified, verified, and its own extract; `sample` tells the lengths."""
from sample_file import sample_text
from versions import as_version_1

SIZES = 3, 100, 200


def checks(program):
    for n in SIZES:
        text = sample_text(n)
        status, certificate = program.words(["certify", "FILE", "1"], text)
        yield f"sample {n} certified", status == 0
        yield f"sample {n} verified", program.certificate("verify", text, certificate) == (0, b"accepted 1\n", b"")
        yield f"sample {n} upgraded", program.certificate("upgrade", text, as_version_1(certificate)) == (0, certificate, b"")
        yield f"sample {n} extracted", program.words(["extract", "FILE", "1"], text) == (0, text)
        line = f"sample {n} faces {n * n} edges {2 * n * n} vertices {n * n} file {len(text)} certificate {len(certificate)} accepted\n"
        yield f"sample {n} told", program.words(["sample", str(n)]) == (0, line.encode())
