"""Traces and models of `mj` in Python.

    import mjtools
    trace = mjtools.read("run.trace")
    trace.q            # positions after each step, (n, nq), in m and rad
    trace.gap          # how far each step's forces can be from the best, (n,)
    model = mjtools.read_model("model.toml")
    model.check(trace)
    mjtools.body_poses(model, trace.q).position      # of every body in every step, (n, bodies, 3)
"""

from .contacts import CONTACT, state_contacts, trace_contacts
from .dual import Dual
from .errors import ModelError, TraceError, Unusable
from .model import Model, read_model
from .poses import Poses, body_poses, geom_poses
from .rows import KINDS, ROW
from .trace import End, Trace, read

__all__ = [
    "CONTACT",
    "Dual",
    "End",
    "KINDS",
    "Model",
    "ModelError",
    "Poses",
    "ROW",
    "Trace",
    "TraceError",
    "Unusable",
    "body_poses",
    "geom_poses",
    "read",
    "read_model",
    "state_contacts",
    "trace_contacts",
]
