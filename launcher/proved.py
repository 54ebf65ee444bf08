"""Whether what a crate makes stands there and was proved by the launcher from the sources as they are: by its mark, whatever
the times of the files. The status is 0 then. `packaging/install` asks this of files that were brought from elsewhere."""

from __future__ import annotations

import sys

sys.dont_write_bytecode = True

from build import is_marked  # noqa: E402

sys.exit(not is_marked(sys.argv[1]))
