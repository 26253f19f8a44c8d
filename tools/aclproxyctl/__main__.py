import sys

from aclproxyctl.cli import main

sys.exit(main())
