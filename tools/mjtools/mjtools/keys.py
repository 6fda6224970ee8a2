"""Which keys each table of a model has."""

SOFT = {"solref", "solimp"}
LIMIT = {"range", "margin", "stiffness", "damping", "solreflimit", "solimplimit"}

TABLES = {
    "": {"format", "option", "body", "geom", "tendon", "motor", "equality", "keyframe"},
    "option": {"timestep", "gravity", "iterations", "tolerance", "njmax", "integrator", "cone", "solver"},
    "body": {"name", "parent", "pos", "quat", "inertial", "joint", "geom"},
    "inertial": {"pos", "quat", "mass", "diaginertia"},
    "joint": LIMIT
    | {"name", "type", "pos", "axis", "springref", "armature", "frictionloss", "solreffriction", "solimpfriction"},
    "geom": SOFT | {"name", "type", "size", "pos", "quat", "contype", "conaffinity", "condim", "friction", "margin"},
    "tendon": LIMIT | {"name", "joint", "springlength"},
    "term": {"joint", "coef"},
    "motor": {"name", "joint", "tendon", "gear", "ctrlrange"},
    "equality": SOFT | {"name", "joint1", "joint2", "polycoef"},
    "keyframe": {"qpos", "qvel"},
}
"""The keys of each table, those of format 2 among them; "" is the top, and a term is a tendon's joint."""


def table_of(path):
    """Which of TABLES the key at this path stands in."""
    words = [word.partition("[")[0] for word in path.split(".")[:-1]]
    if words == ["tendon", "joint"]:
        return "term"
    return words[-1] if words else ""
