"""What a run starts. All of it is ended, and if it goes wrong its logs are kept."""

import contextlib
import shutil

from farm import Gearmand
from stage import Stage


class Server(Gearmand):
    """A gearmand that is killed if its start goes wrong or is broken off: nobody else knows of it then."""

    def start(self):
        try:
            super().start()
        except BaseException:
            if self.process:
                self.kill()
            raise


class Run(Stage):
    """The farm of a run. If something goes wrong the folder of its logs is told, and gearmand's is put there too."""

    def start_server(self, options):
        return Server(*options)

    def __exit__(self, failure, *more):
        if failure is not None:
            with contextlib.suppress(OSError):
                shutil.copy(f"{self.server.folder.name}/log", f"{self.folder}/gearmand.log")
            print(f"  the logs are in {self.folder}")
        try:
            super().__exit__(failure, *more)
        finally:
            if self.server.process.poll() is None:
                self.server.kill()
