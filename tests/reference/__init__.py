"""A second implementation of the desk with Python's standard library, written only from
docs/DESK.md, docs/PASSES.md and docs/CAVEATS.md.

Tests send the same requests to the built programs and to this package, and compare the bytes of the
replies. The package shares no code with the product, and keeps its rows in plain dicts. If the
product or this package misreads a rule, the replies differ and the test fails."""
