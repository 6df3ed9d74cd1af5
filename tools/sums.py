"""rt sums up the sources of a crate once for each path to it through crates.txt, minutes for the crates on top. A script whose
sources stay as they are has it done once for each crate."""


def remembered(method):
    """The method, asked once of each crate."""
    answers = {}

    def ask(crate):
        if crate.folder not in answers:
            answers[crate.folder] = method(crate)
        return answers[crate.folder]

    return ask


def remember(rtlib):
    rtlib.Crate.stamp = remembered(rtlib.Crate.stamp)
    below = remembered(rtlib.Crate.below)
    rtlib.Crate.below = lambda crate: list(below(crate))
