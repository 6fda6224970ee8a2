"""What refusals, early ends and statuses of `mj` mean in words, and what to do about them."""

STATUSES = {
    0: "All steps were done, and the whole text was written.",
    2: "The words behind the command's name are refused. The output is one line, 'refused words PLACE', which counts "
    "the words from 1.",
    3: "A number left its range. The trace has all steps before that one, and its last line names the number: "
    "'mjtools explain TRACE --model MODEL' tells more.",
    4: "The model is refused. The output is one line with a code and the key's path: give that line to "
    "'mjtools explain', with --model for the line in the file.",
    5: "A tape is refused. The output is one line with the record and the field: give that line to 'mjtools explain', "
    "with --tape for the line in the file.",
    6: "The model's or a tape's file can't be opened or read, and nothing was written. Is the name right, seen from "
    "the folder that mj runs in? Is it a file and no folder, and may you read it?",
    7: "The output couldn't be written: the disk is full, or whoever reads the output has ended. What was written is "
    "the beginning of the text.",
    8: "There was no memory for the run, and nothing was written. A tape takes eight bytes a value, and a file its "
    "size.",
    9: "The dump is rejected. The output is one line, 'rejected LINE REASON': give that line to 'mjtools explain', "
    "with --dump for what stands there.",
    10: "The program's words aren't text in UTF-8 (a file's name, say), or the system gave none. Nothing was written.",
}

ACCEPTED = (
    "All blocks were checked, as many as the number says: the forces obey their rows, the bound bounds the cost of all "
    "forces that do, and the boxes hold all that cost no more. It isn't checked that the duals belong to a model or a "
    "motion."
)

REASONS = {
    "TooLarge": "The file has more than 67,108,864 bytes: make the dump of fewer steps.",
    "Form": "This line isn't one that 'mj run --dual yes' writes in this place, or it is missing. Was the trace made "
    "without --dual yes, cut off, given other line ends, or edited? A line counts only with its line feed.",
    "Limit": "A number of this line is past its range, or, where it is the line cost, a number that its block's "
    "numbers give (u, the sums of the cost or of the shortfalls, the size of a box).",
    "Feasible": "The force isn't within the bounds of its row, which for a limit or a contact are 0 and none.",
    "Cost": "The first number isn't twice the cost of the block's forces in its dual: forces, duals or cost were "
    "changed, or don't belong to one step.",
    "Bound": "The second number isn't the lower bound that the block's forces and dual give.",
    "Box": "The box isn't the one that the block's forces and dual give.",
}
"""Why a dump is rejected."""

MODEL_CODES = {
    "TooLarge": "The file has more than 1,048,576 bytes.",
    "NotToml": "The file is no TOML document.",
    "UnknownKey": "A table has a key that isn't one of its own.",
    "MissingKey": "A key that must be there isn't.",
    "FloatValue": 'A number that is no integer is written as text, in quotes, as "0.002": a TOML float is never '
    "exactly what was written.",
    "WrongKind": "The value has another form than this key wants, or an array another length.",
    "BadNumber": "The text is no numeral, or too large. A numeral is a sign, digits with at most one point, and an "
    'exponent of one or two digits, as "-0.5" or "1e-8": no spaces, fractions, units or commas, at most 26 digits.',
    "LimitPassed": "A count, a number or a name's length is out of its range.",
    "EmptyModel": "No joint gives a velocity, so nothing could move. Give a body a joint: [[body.joint]].",
    "DuplicateName": "Another object of this kind has the name already, a body is named world, or a tendon names a "
    "joint twice.",
    "ParentLater": "The parent is this body or stands below it in the file. Parents stand first: move the body down.",
    "UnknownName": "No object of the wanted kind has this name. Tendons, motors and equalities want a hinge or a slide "
    "with a name of its own, and a motor's tendon a tendon.",
    "BadRange": "A word, a count of numbers or an order of two numbers isn't allowed here.",
    "FreeJoint": "A free joint is its body's only joint, and its body's parent is the world.",
    "PlaneOffWorld": "A plane is the world's: it stands as [[geom]] at the top, not as [[body.geom]].",
    "NotUnit": "The quaternion or axis is too short to be made a unit: its length is below 2^-10.",
    "BadSolref": "solref is two numbers above 0 (a time constant from 2^-12 and a damping ratio) or two of at most 0 "
    "(minus a stiffness and minus a damping).",
    "BadSolimp": "solimp is dmin, dmax, width, midpoint and power: the width above 0 and at most 1024, the power an "
    "integer from 1 to 5.",
}

KEYS = {
    "BadRange format": "format is 1 or 2.",
    "BadRange size": "A sphere wants its radius, a capsule two numbers: its radius and half its length. A capsule "
    "lies along its own z; along x it has quat = [1, 0, 1, 0].",
    "MissingKey size": "A sphere wants size = [radius], a capsule size = [radius, half length].",
    "BadRange range": "The first number is below the second. Angles are radians.",
    "BadRange ctrlrange": "The first number is below the second.",
    "BadRange type": "Joints are free, ball, hinge or slide; geoms plane, sphere or capsule. Boxes, cylinders and "
    "meshes are left out.",
    "BadRange solver": "The solver is PGS.",
    "BadRange cone": "The cone is pyramidal.",
    "BadRange integrator": "The integrator is Euler.",
    "BadRange condim": "condim is 1 (without friction) or 3.",
    "BadRange qpos": "qpos has one number for each position: 7 for a free joint, 4 for a ball, else 1.",
    "BadRange qvel": "qvel has one number for each velocity: 6 for a free joint, 3 for a ball, else 1.",
    "BadRange tendon": "A motor drives a joint or a tendon, not both.",
    "MissingKey joint": 'A motor names what it drives: joint = ".." or tendon = "..".',
    "MissingKey mass": "An inertial table has a mass, in kg.",
    "MissingKey name": "Each body has a name.",
    "LimitPassed timestep": "timestep is above 0 and at most 1 second.",
    "LimitPassed njmax": "njmax is 1 to 1,024.",
    "LimitPassed iterations": "iterations is 1 to 10,000.",
    "LimitPassed tolerance": "tolerance is 0 to 1.",
    "LimitPassed body": "There are at most 128 bodies.",
    "LimitPassed geom": "There are at most 128 geoms.",
    "LimitPassed dof": "There are at most 64 velocities: 6 for a free joint, 3 for a ball, else 1.",
    "LimitPassed mass": "A mass is 0 to 8192. Heavier: count masses in tonnes, and forces in kN.",
    "LimitPassed size": "Sizes are above 0 and at most 1024 m.",
}
"""What a code means at a key of this name, more closely than MODEL_CODES."""

FORMAT_2 = ("equality", "frictionloss", "solreffriction", "solimpfriction")
"""Keys that format 2 brings."""

LEFT_OUT = {
    "fromto": "give pos, quat and size",
    "ref": "positions count from 0: take it from qpos, range and springref",
    "limited": "a joint with a range is limited",
    "fullinertia": "give quat and diaginertia in its principal axes",
    "density": "give the body an inertial table with mass and diaginertia",
    "euler": "give quat, w x y z",
    "axisangle": "give quat, w x y z",
    "rgba": "leave it out",
    "group": "leave it out",
}
"""Keys of MJCF that a model here doesn't have, and what stands in their place."""

MASSES = "Count masses in tonnes and forces in kN: all forces are then a thousand times smaller in number."
SLOWER = "Take a smaller timestep, or look for a spring, damper or motor that is too strong for the mass it moves."
NEARER = "Nothing may be so far away: look at pos, at the start in keyframe, and whether bodies fly off."

KINDS = {
    "QuatNorm": ("body", "a quaternion's length left 1/2 to 2", SLOWER),
    "FramePos": ("body", "a position or centre of mass passed 4,096 m", NEARER),
    "Arm": ("body", "a centre of mass is over 256 m from its tree's root body", NEARER),
    "GeomNorm": ("geom", "a geom's quaternion left the lengths 1/2 to 2", SLOWER),
    "Inertia": ("body", "a moment of its mass passed 2^22 kg m or kg m^2", MASSES),
    "Column": ("dof", "a number of its motion column passed 1,024", NEARER),
    "Momentum": ("dof", "the momentum of its unit velocity passed 2^22", MASSES),
    "Mass": ("dof", "an entry of the mass matrix passed 2^20", MASSES),
    "DofMotion": ("dof", "the motion that carries it is too fast", SLOWER),
    "BodyMotion": ("body", "its velocity, acceleration or momentum is too large", SLOWER),
    "Wrench": ("body", "the force that its motion asks for passed 2^46", SLOWER),
    "Bias": ("dof", "its bias force passed 2^20 N or N m", MASSES),
    "TendonLength": ("tendon", "its length or rate passed 2^20", SLOWER),
    "TendonForce": ("tendon", "its force passed 2^20 N", MASSES),
    "Applied": ("dof", "the force applied to it passed 2^20 N or N m", MASSES),
    "Pivot": (
        "dof",
        "nothing heavy enough hangs on it, or too much: its pivot in the mass matrix left 2^-30 to 2^20",
        "Give its body, or one that hangs on it, an inertial table with mass and diaginertia, or else the joint an "
        "armature.",
    ),
    "Lower": (
        "dof",
        "an entry of the mass matrix's factor is too large: masses that hang on each other differ too much",
        "Give the light bodies more mass, or their joints an armature.",
    ),
    "Accel": ("dof", "its acceleration passed 2^24 m/s^2", SLOWER),
    "Rows": (
        "row",
        "there are more constraint rows than njmax; a contact with friction has four",
        "Set option.njmax, at most 1024, or let fewer geoms touch (contype, conaffinity).",
    ),
    "Violation": ("row", "how far an equality is violated passed 2^21", NEARER),
    "Jacobian": ("row", "an entry of its Jacobian passed 2^16", NEARER),
    "Reduced": (
        "row",
        "a number of its reduced row is too large: it moves something that weighs hardly anything",
        "Give light bodies more mass, or their joints an armature.",
    ),
    "Regularizer": (
        "row",
        "its regularizer passed 2^24: it moves something that weighs hardly anything",
        "Give light bodies more mass, or their joints an armature.",
    ),
    "Reference": (
        "row",
        "its reference acceleration is too large",
        "Take a longer time constant in its solref, or less " "stiffness and damping.",
    ),
    "DualVector": ("row", "the acceleration along it passed 2^24 m/s^2", SLOWER),
    "Force": ("row", "its force passed 2^30 N", MASSES),
    "Reach": (
        "dof",
        "the forces on it are above 2^15 (over the root of the mass that it moves): a heavy impact",
        MASSES,
    ),
    "Cost": ("row", "the cost of the forces passed 2^36", MASSES),
    "Shortfall": (
        "row",
        "the solver is so far from the best forces that the certificate's sum passed 2^36",
        "Allow more iterations, 300 to 1,000 with contacts. " + MASSES,
    ),
    "Box": ("row", "the box of its force passed 2^30 N", "Allow more iterations, 300 to 1,000 with contacts."),
    "Load": ("dof", "all forces on it together passed 2^22 N or N m", MASSES),
    "Velocity": ("dof", "its velocity passed 4,096 m/s or rad/s", SLOWER),
    "Position": (
        "place in q",
        "its position passed 4,096 m, or its angle 2^20 rad",
        "Is it meant to fly, fall or turn so " "far? Else: " + SLOWER,
    ),
    "ErrorBound": ("dof or body", "the error radius of a rounded number passed 2^40 raw", SLOWER),
    "InverseRate": ("row", "the acceleration along it passed 2^24 m/s^2", SLOWER),
    "InverseForce": ("row", "its separated force passed 2^30 N", MASSES),
    "InverseLoad": ("dof", "all separated forces on it together passed 2^22 N or N m", MASSES),
}
"""Of each kind of number out of range: what its index counts, what happened, and what to do."""

USAGE = """mj run --model FILE --steps N [--tape FILE] [--dual yes|no] [--ball yes|no]
mj inverse --model FILE --steps N [--tape FILE]
mj check --dual FILE
mj gen --links N --seed N
mj bench --links N --seed N --steps N
mj batch --model FILE --steps N --tape FILE [--tape FILE ..] --workers N"""
