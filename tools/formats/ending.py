"""How a tool ends."""
import signal
import sys
from typing import Callable, NoReturn


def end_with(main: Callable[[], int]) -> NoReturn:
    """Ends with the status that is returned; or by the signal where a pipe is closed, as programs of the system do."""
    signal.signal(signal.SIGPIPE, signal.SIG_DFL)
    sys.exit(main())
