"""Runs in which no thread can be started."""
import contextlib
import os
import subprocess

import counting


def refusing_threads(folder):
    """An environment in which no thread can be started; whether one was asked for tells `was_refused`."""
    counting.need("cc")
    library = os.path.join(folder, "refuse.so")
    refusing = (b"#include <errno.h>\n#include <fcntl.h>\n#include <stdlib.h>\n"
                b'int pthread_create(void) { open(getenv("REFUSED"), O_CREAT | O_WRONLY, 0600); return EAGAIN; }\n')
    subprocess.run([os.environ.get("CC", "cc"), "-shared", "-fPIC", "-x", "c", "-o", library, "-"], input=refusing, check=True)
    return {"LD_PRELOAD": library, "REFUSED": os.path.join(folder, "refused")}


def was_refused(folder):
    """Whether a thread was refused there since this was asked last."""
    with contextlib.suppress(FileNotFoundError):
        os.remove(os.path.join(folder, "refused"))
        return True
    return False
