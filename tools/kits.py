"""rt itself, as a module; and, for kits that keep no proofs of their own, what tools/try_edits asks of newer ones."""
import importlib.machinery, importlib.util, os, shutil, tempfile


def load_rt():
    loader = importlib.machinery.SourceFileLoader("rt", os.path.realpath(shutil.which("rt")))
    rt = importlib.util.module_from_spec(importlib.util.spec_from_loader("rt", loader))
    loader.exec_module(rt)
    if not hasattr(rt, "seeded"):
        add_kept_proofs(rt)
    return rt


def add_kept_proofs(rt):
    """To a kit that tries edits over a folder of its own alone: trying each over a copy of what the crate's last check kept. Its
    must_fail says whether an edit is refused, and no more."""

    def seeded(crate, flags, kept):
        """A folder with a copy of the kept proofs, over which the crate is proved as it stands; None where it is not."""
        room = tempfile.mkdtemp(prefix="rt-kept-")
        shutil.copytree(kept, f"{room}/seed")
        if rt.checked(crate, {}, flags, f"{room}/seed").returncode == 0:
            return room
        shutil.rmtree(room)
        return None

    def listing(folder):
        return sorted((at, name, os.stat(f"{at}/{name}").st_size) for at, _, names in os.walk(folder) for name in names)

    rt.seeded, rt.listing, rt.linked = seeded, listing, shutil.copytree
    rt.REFUSED = rt.AT_LIMIT = True
    rt.SETTLED = (True,)
    rt.OVER = 1
    rt.share_work = lambda is_shared: None
