"""Something that is done in a thread of its own beside something else."""

import threading


class Beside:
    """While it lasts something is at work beside, whose end is waited for; then there is its answer, or an error of it comes up. Where something else went
    wrong meanwhile it is left alone, as it may wait for what does not come any more."""

    def __init__(self, do, *given):
        self.do, self.given, self.answer, self.fault = do, given, None, None
        self.thread = threading.Thread(target=self.work, daemon=True)

    def work(self):
        try:
            self.answer = self.do(*self.given)
        except Exception as fault:  # whatever it is, it belongs to whoever began this
            self.fault = fault

    def is_at_work(self, seconds=0):
        """Whether it is not over yet, after so many seconds at most."""
        self.thread.join(seconds)
        return self.thread.is_alive()

    def __enter__(self):
        self.thread.start()
        return self

    def __exit__(self, kind, *_):
        if kind is None:
            self.thread.join()
            if self.fault:
                raise self.fault
