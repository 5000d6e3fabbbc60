"""`python3 -m vethlumi` runs the command line: each module adds its commands to `main`."""
import os
import sys

if os.name != "posix":
    # Whether others can write a file, and when a wait is over, it asks the system in POSIX' way.
    sys.exit("vethlumi: needs a POSIX system, such as Linux or macOS. On Windows, install it in WSL")

from vethlumi import signon  # noqa: E402

# Before each ssh this is all. The other modules take longer to load than a certificate to be found.
if signon.is_granted(sys.argv[1:]):
    sys.exit(0)

from vethlumi import certificates, departments, enrolment, events, login, people, reports  # noqa: E402, F401
from vethlumi import revocations, workloads  # noqa: E402, F401
from vethlumi.cli import main  # noqa: E402


def run():
    main(prog_name="vethlumi")


if __name__ == "__main__":
    run()
