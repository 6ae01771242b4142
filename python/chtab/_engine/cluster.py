"""Questions by the workers of a cluster of Dask. Each worker keeps the networks that it was asked
for, and needs the files, the program and the library at the same paths."""
from __future__ import annotations

import os
import pathlib
import tempfile
import threading
import weakref
import zipfile
from collections.abc import Callable, Iterator
from typing import TYPE_CHECKING, Any

if TYPE_CHECKING:
    from chtab._engine.opening import Setting

# The clients whose workers have this package, and what a worker keeps.
KNOWN: weakref.WeakSet[Any] = weakref.WeakSet()
KEPT, LOCK = "chtab_engines", threading.Lock()
# The packages whose functions workers call.
PACKAGES = "chtab", "chtab_tools"


def threads_of(client: Any) -> int:
    """How many threads the workers of a client have, at least 1."""
    return max(1, sum(client.nthreads().values()))


def send_package(client: Any) -> None:
    """Sends the code of the package and of its commands to all workers, also to later ones."""
    if client in KNOWN:
        return
    root = pathlib.Path(__file__).parent.parent.parent
    with tempfile.TemporaryDirectory() as kept:
        path = os.path.join(kept, "chtab.zip")
        with zipfile.ZipFile(path, "w") as archive:
            for source in (file for name in PACKAGES for file in (root / name).rglob("*.py")):
                archive.write(source, source.relative_to(root))
        client.upload_file(path)
    KNOWN.add(client)


class Tasks:
    """Tasks of a cluster, and their values as they come; those under way end with it."""

    def __init__(self, client: Any) -> None:
        import distributed

        self.client, self.completed = client, distributed.as_completed()
        self.begun: dict[Any, Any] = {}

    def begin(self, what: Any, call: Callable[..., Any], setting: Setting, *words: Any) -> None:
        """Begins a call on a worker, with the network of a setting and further words."""
        future = self.client.submit(on_worker, call, setting, words, pure=False)
        self.begun[future] = what
        self.completed.add(future)

    def __iter__(self) -> Iterator[tuple[Any, Any]]:
        """Yields each task with its value, those that are begun meanwhile too."""
        for future in self.completed:
            yield self.begun.pop(future), future.result()

    def __enter__(self) -> Tasks:
        send_package(self.client)
        return self

    def __exit__(self, *_: object) -> None:
        self.client.cancel(list(self.begun))


def on_worker(call: Callable[..., Any], setting: Setting, words: tuple[Any, ...]) -> Any:
    """The value of a call on a worker."""
    import distributed
    from chtab._engine.in_process import InProcess

    kept: dict[Setting, InProcess] = distributed.get_worker().__dict__.setdefault(KEPT, {})
    with LOCK:
        if setting not in kept:
            kept[setting] = InProcess(setting)
    return call(kept[setting], *words)
