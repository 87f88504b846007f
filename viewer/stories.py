"""Which story the files of a call tell."""

from .fabric import Fabric
from .judged import Judged
from .packets import Flood, Flow
from .run import Run
from .story import Story
from .texts import Fault
from .verdict import Verdict


def story_of(files, layout):
    """The story of what was read: of the report of a run, of packets, of a verdict, else of the network alone."""
    if isinstance(files.network, Fabric):
        return Judged(files, layout)
    kinds = {"report": Run, "flow": Flow, "flood": Flood, "verdict": Verdict}
    told = [kind for kind in kinds if getattr(files, kind)]
    if len(told) > 1:
        raise Fault(files.names[-1], 0, f"a {told[0]} and a {told[1]}: give one of them")
    return kinds[told[0]](files, layout) if told else Story(files, layout)
