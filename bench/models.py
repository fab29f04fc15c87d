"""What the bench knows of each model, in the order of their numbers: the crate; what its types are called; the parameters behind fx, fy,
cx and cy; the most updates of a border sample. `holds`: the model whose parameters stand first in its struct, as one field. `rust`: whether
the Rust has it."""
from typing import NamedTuple


class Model(NamedTuple):
    crate: str
    name: str
    own: str
    limit: int = 0
    holds: str = None
    rust: bool = True

    def fields(self):
        return ["fx", "fy", "cx", "cy", *self.own.split()]


TABLE = {
    "affine": Model("affine", "Affine", ""),
    "eucm": Model("enhanced_unified", "EnhancedUnified", "alpha beta"),
    "kb": Model("kannala_brandt", "KannalaBrandt", "k0 k1 k2 k3", 20),
    "bc": Model("brown_conrady", "BrownConrady", "k1 k2 p1 p2 k3 k4 k5 k6", 50),
    "bc12": Model("thin_prism", "ThinPrism", "k1 k2 p1 p2 k3 k4 k5 k6 s1 s2 s3 s4", 50, holds="bc", rust=False),
}
MODELS = list(TABLE)
OPERATIONS = ["distort", "undistort", "dx_distort_x", "dx_distort_params"]
MOST_PARAMS = max(len(model.fields()) for model in TABLE.values())

# Parameters are counted in the order of a file. A counted function is handed them as the structs have them in memory: bc12's has s3 before
# s2, so that one load takes what goes with r2, and another what goes with r4.
PASSED = [*range(13), 14, 13, *range(15, MOST_PARAMS)]


def in_rust(model, operation):
    """Whether the Rust's text has it: bc's derivative by the parameters is a todo!() there."""
    return TABLE[model].rust and (model, operation) != ("bc", "dx_distort_params")
