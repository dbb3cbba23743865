"""Random rows of calls to the cleaning policy, with what tests/models/cleaning_policy.py gives behind them, compared with what the
checker computes of the definitions in crates/cleaning_policy/specs.

The rows stand as theorems of a file of proofs, each by `refl`, in a copy of that crate: who computes anything else refuses the file.
"""
import random
import shutil
import subprocess
import tempfile

from models.cleaning_policy import Mark, Marks, Policy, Settings
from runner.places import ROOT

CRATE = "cleaning_policy"
NAME = "RandomRows"
HEAD = """-- Random rows of calls.
use Rattle.std.proofs.Common.{◌≡◌, ℕ, List, [], ◌∷◌, refl}
use Rattle.std.specs.Prelude.{pos, Option, Some, None}
use Rattle.std.specs.Option.{option_map}
use Rattle.cleaning_policy.specs.declared.values.Frame.{Frame}
use Rattle.cleaning_policy.specs.declared.values.Settings.{Settings}
use Rattle.cleaning_policy.specs.Samples.{asked_samples}
use Rattle.cleaning_policy.specs.Policies.{next_pass, due_at}
use Rattle.cleaning_policy.specs.Histories.{Call, behind}
use Rattle.cleaning_policy.specs.Histories.Call.{Add, Tell, PutBack, Next, Clean, GiveUp}

abbrev GivesThen : Settings → List Call → ℕ → Option Frame → Option ℕ → Type 0
GivesThen o calls now frame due =
    (option_map (λ q. q.frame) (next_pass now (behind o calls) (behind o calls).pass) ≡ frame) × (due_at now (behind o calls) ≡ due)

"""


def fields(**values):
    return "record { " + "; ".join(f"{name} = {it}" for name, it in values.items()) + " }"


def mark(it):
    return "None" if it is None else f"Some ({fields(upto=f'pos {it.upto}', ended=it.ended)})"


class Row:
    """A policy, and the calls that were made of it."""

    def __init__(self, drawn):
        self.drawn, lag = drawn, drawn.choice([0, 80, 400])
        self.settings = Settings(drawn.choice([1, 50, 99]), lag, lag + drawn.choice([50, 5000]), drawn.choice([0, 100, 1000]))
        self.policy, self.now, self.calls = Policy(self.settings), 1000, []
        self.ends, self.sizes = [0] * drawn.choice([1, 2]), [0, 0]
        for index in range(len(self.ends)):
            self.policy.add(self.now)
            self.calls.append(f"Add {self.now}")
        for index in range(len(self.ends)):
            if drawn.random() < 0.3:
                self.put_back(index)

    def put_back(self, index):
        now = self.now
        kept = Marks(Mark(3, now - 50), Mark(5, now + 20), 2, 4, now - 70, 100)
        said = {"older": mark(kept.older), "newest": mark(kept.newest), "used": f"pos {kept.used}", "reached": f"pos {kept.reached}"}
        self.policy.put_back(now, index, kept)
        self.calls.append(f"PutBack {now} {index} ({fields(**said, began=kept.began, size=kept.size)})")

    def tell(self):
        index = self.drawn.randrange(len(self.ends))
        self.ends[index] += self.drawn.choice([0, 3, 10])
        self.sizes[index] = max(0, self.sizes[index] + self.drawn.choice([100, 40_000, 200_000, -500]))
        self.policy.tell(self.now, index, 0, self.ends[index], self.sizes[index])
        said = fields(start="pos 0", end=f"pos {self.ends[index]}", bytes=self.sizes[index])
        self.calls.append(f"Tell {self.now} {index} ({said})")

    def next(self):
        self.policy.next(self.now)
        self.calls.append(f"Next {self.now}")

    def clean(self):
        size = 7
        if under_way := self.policy.under_way:
            size = self.sizes[under_way.frame.partition] = self.sizes[under_way.frame.partition] // 2
        self.policy.cleaned(self.now, size)
        self.calls.append(f"Clean {self.now} {size}")

    def give_up(self):
        self.policy.given_up(self.now)
        self.calls.append(f"GiveUp {self.now}")

    CALLS = [tell] * 10 + [next] * 5 + [clean] * 3 + [give_up]

    def text(self, number):
        """The row as a theorem, behind some random calls."""
        for _ in range(self.drawn.choice([6, 12, 25])):
            self.now += self.drawn.choice([1, 20, 60, 200])
            self.drawn.choice(self.CALLS)(self)
        self.now += self.drawn.choice([1, 100, 500])
        due, frame = self.policy.due_at(self.now), self.policy.next(self.now)
        own = {"percent": self.settings.percent, "lag": self.settings.lag, "within": self.settings.within}
        options = fields(**own, keep_deletes=self.settings.keep)
        calls = " ∷ ".join([f"({it})" for it in reversed(self.calls)] + ["[]"])
        given = "None"
        if frame:
            said = fields(partition=frame.partition, upto=f"pos {frame.upto}", tomb_before=f"pos {frame.tomb_before}")
            given = f"(Some ({said}))"
        at = "None" if due is None else f"(Some {due})"
        statement = f"row_{number} : GivesThen ({options}) ({calls}) {self.now} {given} {at}"
        return f"{statement}\nunfolding asked_samples\nrow_{number} = (refl, refl)\n", frame is not None


def copied(folder):
    """A repository of that crate alone."""
    shutil.copytree(f"{ROOT}/crates/{CRATE}", f"{folder}/crates/{CRATE}", ignore=shutil.ignore_patterns("out", "must-fail"))
    with open(f"{folder}/crates.txt", "w", encoding="utf-8") as file:
        file.write(f"{CRATE}:\n")
    return f"{folder}/crates/{CRATE}"


def compared(count, seed):
    """Says whether the checker computes the same of so many rows, and returns the status."""
    made = [Row(random.Random(f"{seed} {number}")).text(number) for number in range(count)]
    with tempfile.TemporaryDirectory() as folder:
        crate = copied(folder)
        with open(f"{crate}/proofs/{NAME}.antt", "w", encoding="utf-8") as file:
            file.write(HEAD + "\n".join(text for text, _ in made))
        with open(f"{crate}/proofs/Lib.antt", "a", encoding="utf-8") as file:
            file.write(f"mod {NAME}\n")
        ran = subprocess.run(["rt", "check", "--only", ""], cwd=crate, stdout=subprocess.PIPE, stderr=subprocess.STDOUT, text=True)
        is_checked = "checked=" in ran.stdout
    if ran.returncode or not is_checked:
        print("\n".join(ran.stdout.splitlines()[-30:]))
    print(f"{count} rows with seed {seed}, {sum(gives for _, gives in made)} of them with a frame: status {ran.returncode}")
    return int(bool(ran.returncode or not is_checked))
