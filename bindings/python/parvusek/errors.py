"""What the command cannot do, in sentences for its user."""

import contextlib
from typing import Iterator, Sequence, Union


class CommandError(Exception):
    """One or more things that are wrong, each in a sentence."""

    def __init__(self, sentences: Union[str, Sequence[str]]) -> None:
        self.sentences = [sentences] if isinstance(sentences, str) else list(sentences)
        super().__init__("\n".join(self.sentences))


class Collected:
    """Errors gathered over several checks, so that a user meets all of them in one run."""

    def __init__(self) -> None:
        self.sentences: list[str] = []

    @contextlib.contextmanager
    def check(self) -> Iterator[None]:
        """An error inside is kept, and what follows is looked at all the same."""
        try:
            yield
        except CommandError as error:
            self.sentences += error.sentences

    def end(self) -> None:
        """Raises what was gathered, if anything was."""
        if self.sentences:
            raise CommandError(self.sentences)


@contextlib.contextmanager
def naming(what: str) -> Iterator[None]:
    """An error of the system inside is told with the file that it is about, by its part in the run and its path."""
    try:
        yield
    except BrokenPipeError:
        raise
    except OSError as error:
        raise CommandError(f"{what}: {error.strerror or error}") from error
