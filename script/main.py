"""What the words are for: words of the script's own, or words of the program."""

from .program import Interrupted, Signals, ask, die, hold_low_files, run
from .say import Fault, say
from .words import Order, least, read_page


def begin(ignored, program, words):
    """Does what the words ask for. Words of the script's own come without a program, but `targets --check`. The exit status."""
    hold_low_files()
    signals = Signals(ignored)
    try:
        status = dispatch(signals, program, words)
    except Fault as fault:
        for line in fault.lines:
            say(line)
        status = fault.status
    except Interrupted as interrupted:
        status = -interrupted.number
    if status < 0:
        die(-status)
    return status


def dispatch(signals, program, words):
    if not program or words[0] == "targets":
        from .own import answer

        signals.as_begun()
        return answer(signals, program, words)
    return Call(signals, program, words).run()


class Call:
    """A call of the program, with what is said before and behind it."""

    def __init__(self, signals, program, words):
        self.signals, self.program, self.words = signals, program, words
        self.options = read_page()[1]
        self.order = Order(words, self.options)
        self.handed = None

    def run(self):
        from .handing import Handed

        with Handed(self.order) as self.handed:
            for line in self.handed.lines:
                say(line)
            self.remark()
            status = run(self.signals, self.program, self.handed.words)
            if status > 0 and not self.signals.came:
                from .explanations import explain

                explain(self, status)
            return status

    def remark(self):
        """Says where a report would be narrower than it looks, unless it is refused."""
        remarks = self.handed.remarks()
        if remarks and self.is_taken():
            for line in remarks:
                say(line)

    def is_taken(self):
        """Whether the program refuses nothing, asked with all bounds at their least."""
        words = [self.order.command, *least(self.options), "--method", self.order.value("--method")]
        if self.order.value("--init"):
            words += ["--init", self.order.value("--init")]
        return ask(self.signals, self.program, [*words, *self.handed.files])[0] in (0, 1)
